// Every call of the WebAssembly module, which has the functions of dicomdir.h: what goes in is copied into its memory,
// and what comes out is copied out of it.

// The WebAssembly module, in Base64 of gzip.
const MODULE = '@MODULE@';
// The most bytes of a file, and of files that one call is given.
const LONGEST = 2 ** 32 - 1, BATCH = 2 ** 26;
// The memory of an instance never shrinks: one with more bytes is not kept after a call.
const MOST_KEPT = 2 ** 27;

const packed = Uint8Array.from(atob(MODULE), (letter) => letter.charCodeAt(0));
const unpacked = new Blob([packed]).stream().pipeThrough(new DecompressionStream('gzip'));
const module = await WebAssembly.compile(await new Response(unpacked).arrayBuffer());
let instance;

// What JavaScript itself refuses for want of memory is a Fault, too.
function allocated(make) {
  try {
    return make();
  } catch (error) {
    throw error instanceof RangeError ? new Fault(MEMORY) : error;
  }
}

// Numbers of 64 bits, in two words each.
function wide(numbers) {
  const words = new Uint32Array(2 * numbers.length);
  numbers.forEach((number, at) => words.set([number, number / 2 ** 32], 2 * at));
  return words;
}

// struct dicomdir_answer, of 56 bytes.
const ANSWER = 56;
function answerAt(buffer, place) {
  const view = new DataView(buffer, place, ANSWER);
  const [text, rows, files, source] = [0, 8, 16, 24].map((at) => Number(view.getBigUint64(at, true)));
  const [within, cause, at, tag] = [36, 40, 44, 48].map((from) => view.getUint32(from, true));
  return { text, rows, files, source, within, cause, at, tag };
}

// Calls dicomdir_NAME in the instance. What it takes of the memory is in `taken`.
function callOf({ memory, take, ...functions }, name, inputs, rooms, taken) {
  const room = (bytes) => {
    taken.push(take(BigInt(bytes)));
    if (taken.at(-1) === 0n) throw new Fault(MEMORY);
    return Number(taken.at(-1));
  };
  const words = inputs.flatMap(({ flag, of, item = 1 }) => {
    if (flag !== undefined) return [Number(flag)];
    const at = room(of.byteLength);
    new Uint8Array(memory.buffer, at).set(new Uint8Array(of.buffer, of.byteOffset, of.byteLength));
    return [BigInt(at), BigInt(of.length / item)];
  });
  const outs = rooms.map(({ Words, item, items }) => room(Words.BYTES_PER_ELEMENT * item * items));
  // One item crosses without its number.
  rooms.forEach(({ items, lone }, at) => words.push(BigInt(outs[at]), ...(lone ? [] : [BigInt(items)])));
  const place = room(ANSWER), status = functions[`dicomdir_${name}`](...words, BigInt(place)) >>> 0;
  const answer = answerAt(memory.buffer, place);
  if (status) throw new Fault(status, answer);
  return rooms.map(({ Words, item, items, size }, at) => {
    const found = size(answer);
    if (found > items) throw new Error('libdicomdir answered more than there is room for');
    return new Words(memory.buffer.slice(outs[at], outs[at] + Words.BYTES_PER_ELEMENT * item * found));
  });
}

// The outputs of dicomdir_NAME. An input is `of` an array, whose items have that many numbers each, or a
// flag. A room suffices always, as dicomdir.h says: so many items, and `size` says how many of them an answer has.
function ask(name, inputs, rooms) {
  const taken = [];
  let isWell = false;
  try {
    const found = allocated(() => {
      instance ??= new WebAssembly.Instance(module).exports;
      return callOf(instance, name, inputs, rooms, taken);
    });
    isWell = true;
    return found;
  } catch (error) {
    isWell = error instanceof Fault && error.status !== MEMORY;
    throw error;
  } finally {
    if (isWell) taken.forEach((at) => instance.give(at));
    if (!isWell || instance.memory.buffer.byteLength > MOST_KEPT) instance = undefined;
  }
}

const room = (Words, item, items, size) => ({ Words, item, items: Math.floor(items), size });
const lone = (item) => ({ ...room(Uint32Array, item, 1, () => 1), lone: true });

// A view of the bytes that are given.
function bytesOf(given) {
  const view = ArrayBuffer.isView(given) ? new Uint8Array(given.buffer, given.byteOffset, given.byteLength)
    : given instanceof ArrayBuffer ? new Uint8Array(given) : undefined;
  if (!view) throw new TypeError('a Uint8Array or an ArrayBuffer is wanted');
  if (view.length > LONGEST) throw new Fault(TOO_LONG);
  return view;
}

// Pieces one after the other, and where each ends. One alone is not copied.
function joined(pieces) {
  const ends = [];
  let size = 0;
  for (const piece of pieces) ends.push(size += piece.length);
  if (pieces.length === 1) return { bytes: pieces[0], ends: wide(ends) };
  const bytes = allocated(() => new Uint8Array(size));
  pieces.forEach((piece, at) => bytes.set(piece, ends[at] - piece.length));
  return { bytes, ends: wide(ends) };
}

// The texts that end at these numbers of 64 bits.
function cut(text, ends) {
  return Array.from({ length: ends.length / 2 }, (_, at) => text.subarray(at ? ends[2 * at - 2] : 0, ends[2 * at]));
}

function latin1(bytes) {
  let text = '';
  for (let at = 0; at < bytes.length; at += 4096) {
    text += String.fromCharCode.apply(null, bytes.subarray(at, at + 4096));
  }
  return text;
}
const ascii = (bytes) => latin1(bytes).replace(/[\x80-\xff]/g, '\ufffd');
const codes = (text) => new TextEncoder().encode(text);
