'use strict';
// The program in a worker of a page: the files that the program sees, and its calls to the host (c/host.h). The
// messages stand in docs/WEB.md. What reads, writes, stores and ends a file may wait for the page: then the stack is
// unwound, and wound up again once the answer is there.

// The most bytes of a piece, and those of the first of a file: of many files only the head is read.
const PIECE = 4 << 20, FIRST = 1 << 18;
// The most characters of a line: a page that took a longer one would stand still.
const LONGEST = 4 << 20;
// Linux's numbers and words.
const ERRORS = {
  EPERM: [1, 'Operation not permitted'],
  ENOENT: [2, 'No such file or directory'],
  EIO: [5, 'Input/output error'],
  EBADF: [9, 'Bad file descriptor'],
  EACCES: [13, 'Permission denied'],
  EEXIST: [17, 'File exists'],
  ENOTDIR: [20, 'Not a directory'],
  EISDIR: [21, 'Is a directory'],
  EINVAL: [22, 'Invalid argument'],
  EFBIG: [27, 'File too large'],
  ENOSPC: [28, 'No space left on device'],
  EROFS: [30, 'Read-only file system'],
  ENAMETOOLONG: [36, 'File name too long'],
  ENOTSUP: [95, 'Operation not supported'],
};
const WRITES = 0o3, CREATES = 0o100;
const FOLDER = 0o040755, PLAIN = 0o100644;
// The outputs, and what the program opens first.
const DEVICE = { mode: 0o020666, inode: 0, size: 0, modified: 0 };
const UNWINDING = 1, REWINDING = 2;

const refused = (name) => -(ERRORS[name] ?? ERRORS.EIO)[0];
// No chosen file has a name that is not UTF-8.
const PATHS = new TextDecoder('utf-8', { fatal: true, ignoreBOM: true });
// A path with an empty part, `.` or `..`.
const WINDING = /(^|\/)\.{0,2}(\/|$)/;

// What stands at each path: the chosen files, their folders, and what the program makes.
class Tree {
  #places = new Map([['', { mode: FOLDER, inode: 1, size: 0, modified: 0 }]]);
  // Has a file the path of a folder, or of another file?
  #isMixed = false;

  constructor(files, folders) {
    for (const path of folders) this.#addFolders(path.split('/'));
    files.forEach(([path, size, modified = 0], number) => {
      const names = path.split('/');
      this.#addFolders(names.slice(0, -1));
      this.#isMixed ||= this.#places.has(path);
      this.add(path, { mode: PLAIN, size, modified, number });
    });
  }

  #addFolders(names) {
    for (let n = 1; n <= names.length; n++) {
      const path = names.slice(0, n).join('/'), place = this.#places.get(path);
      if (!place) this.add(path, { mode: FOLDER, size: 0, modified: 0 });
      else this.#isMixed ||= place.mode !== FOLDER;
    }
  }

  add(path, place) {
    place.inode = this.#places.size + 1;
    place.path = path;
    this.#places.set(path, place);
    return place;
  }

  // Gives the place at a path, or the error; and the path where a new name can stand. What is at hand needs no walk.
  find(path) {
    if (this.#isMixed || WINDING.test(path)) return this.#walk(path);
    const place = this.#places.get(path);
    if (place) return { place };
    const above = this.#places.get(path.slice(0, Math.max(path.lastIndexOf('/'), 0)));
    return above?.mode === FOLDER ? { error: 'ENOENT', free: path } : this.#walk(path);
  }

  // Walks from the folder that all is in.
  #walk(path) {
    if (path === '/dev/null') return { place: DEVICE };
    const names = path.split('/').filter((name) => name !== '' && name !== '.');
    const isFolder = /(^|\/)\.{0,2}$/.test(path);
    const walked = [];
    let place = this.#places.get('');
    for (const [n, name] of names.entries()) {
      if (place.mode !== FOLDER) return { error: 'ENOTDIR' };
      if (name === '..') walked.pop(); else walked.push(name);
      place = this.#places.get(walked.join('/'));
      if (!place) return { error: 'ENOENT', free: n === names.length - 1 && walked.join('/') };
    }
    if (path === '') return { error: 'ENOENT' };
    return isFolder && place.mode !== FOLDER ? { error: 'ENOTDIR' } : { place };
  }
}

// A line that is too long for the page.
class LongLine extends Error {}

// The lines of an output, as they end. One may come in any number of parts.
class Lines {
  #parts = [];
  #length = 0;
  #decoder = new TextDecoder('utf-8', { ignoreBOM: true });

  constructor(of) { this.of = of; }

  #tell(lines) {
    if (lines.some((line) => line.length > LONGEST)) throw new LongLine();
    if (lines.length > 0) postMessage({ kind: 'lines', of: this.of, lines });
  }

  add(bytes) {
    const text = this.#decoder.decode(bytes, { stream: true }), end = text.lastIndexOf('\n');
    if (end >= 0) {
      this.#tell((this.#parts.join('') + text.slice(0, end)).split('\n'));
      this.#parts = [];
      this.#length = 0;
    }
    this.#length += text.length - (end + 1);
    if (this.#length > LONGEST) throw new LongLine();
    if (end + 1 < text.length) this.#parts.push(text.slice(end + 1));
  }

  end() { this.#tell(this.#parts.length > 0 ? [this.#parts.join('')] : []); }
}

// The calls of c/host.h. A call that waits gives a request in place of a number: a message, what of it is transferred,
// and what to do with the answer.
class Host {
  opened = new Set();
  bytes = 0;
  made = 0;
  #tree;
  #words;
  #memory;
  #bytes = new Uint8Array();
  #files = new Map();
  #next = 3;
  #outputs = new Map([[1, new Lines('out')], [2, new Lines('errors')]]);
  // What was written last to a made file, and not handed over yet.
  #kept = { file: null, bytes: null, length: 0 };
  #told = 0;
  // The first pieces of files that came with that of another, by the number of the file.
  #ahead = new Map();

  constructor({ words, files, folders = [] }) {
    this.#tree = new Tree(files, folders);
    this.#words = ['dicomdir', ...words].map((word) => new TextEncoder().encode(word));
  }

  begin(memory) { this.#memory = memory; }

  end() {
    for (const lines of this.#outputs.values()) lines.end();
    this.#tell();
  }

  #tell() { postMessage({ kind: 'progress', bytes: this.bytes, opened: this.opened.size }); }

  // Where the memory has grown, what was seen of it has no bytes any more.
  #view(at, length) {
    if (this.#bytes.length === 0) this.#bytes = new Uint8Array(this.#memory.buffer);
    return this.#bytes.subarray(at >>> 0, (at >>> 0) + (length >>> 0));
  }

  #find(at, length) {
    let path;
    try {
      path = PATHS.decode(this.#view(at, length));
    } catch {
      return { error: 'ENOENT' };
    }
    return this.#tree.find(path);
  }

  calls() {
    return Object.fromEntries(
      ['open', 'read', 'write', 'close', 'store', 'stat', 'folder', 'link', 'terminal', 'clock', 'word', 'words']
        .map((name) => [name, this[name].bind(this)]));
  }

  open(at, length, flags) {
    const { place, error, free } = this.#find(at, length);
    if (place && place !== DEVICE && (flags & WRITES) !== 0) return refused(flags & CREATES ? 'EEXIST' : 'EROFS');
    if (place) return this.#add(place);
    if (error !== 'ENOENT' || !(flags & CREATES) || !free) return refused(error);
    const made = this.#tree.add(free, { mode: PLAIN, size: 0, modified: Date.now(), made: this.made });
    postMessage({ kind: 'create', made: this.made++, path: free });
    return this.#add(made);
  }

  #add(place) {
    if (place.number !== undefined) this.opened.add(place.number);
    this.#files.set(this.#next, { place, at: 0, piece: null, from: 0 });
    return this.#next++;
  }

  read(number, to, room) {
    const file = this.#files.get(number);
    if (number === 0 || file?.place === DEVICE) return 0;
    if (file?.place.mode === FOLDER) return refused('EISDIR');
    if (file?.place.number === undefined) return refused('EBADF');
    const { at, place } = file;
    if (at >= place.size) return 0;
    if (file.piece && at < file.from + file.piece.length) return this.#give(file, to, room);
    file.piece = null;
    const end = Math.min(at + (at === 0 ? FIRST : PIECE), place.size);
    const take = (piece) => {
      if (piece.length < end - at || piece.length > place.size - at) return refused();
      file.piece = piece;
      file.from = at;
      return this.#give(file, to, room);
    };
    const ahead = at === 0 && this.#ahead.get(place.number);
    this.#ahead.delete(place.number);
    if (ahead) return take(ahead);
    const then = ({ bytes, parts, error }) => {
      if (error) return refused(error);
      if (!parts) return take(new Uint8Array(bytes));
      this.#ahead = new Map(parts.map(([one, start, stop]) => [one, new Uint8Array(bytes, start, stop - start)]));
      return this.read(number, to, room);
    };
    return { message: { kind: 'read', file: place.number, from: at, to: end }, then };
  }

  #give(file, to, room) {
    const start = file.at - file.from, part = file.piece.subarray(start, start + (room >>> 0));
    this.#view(to, part.length).set(part);
    file.at += part.length;
    if (file.at === file.place.size) file.piece = null;
    this.bytes += part.length;
    const now = performance.now();
    if (now - this.#told >= 100) {
      this.#told = now;
      this.#tell();
    }
    return part.length;
  }

  write(number, from, length) {
    const bytes = this.#view(from, length);
    const output = this.#outputs.get(number);
    if (output) {
      output.add(bytes.slice());
      return bytes.length;
    }
    const file = this.#files.get(number);
    if (file?.place.made === undefined) return refused('EBADF');
    if (file.error) return refused(file.error);
    const kept = this.#kept;
    if (kept.length > 0 && (kept.file !== file || kept.length === PIECE)) {
      return this.#handOver(() => this.write(number, from, length));
    }
    kept.bytes ??= new Uint8Array(PIECE);
    const part = bytes.subarray(0, PIECE - kept.length);
    kept.bytes.set(part, kept.length);
    kept.file = file;
    kept.length += part.length;
    return part.length;
  }

  // What the page refuses of a file, the file's later calls answer.
  #handOver(after) {
    const { file, length } = this.#kept, bytes = this.#kept.bytes.slice(0, length);
    const message = { kind: 'write', made: file.place.made, from: file.place.size, bytes };
    const then = ({ error }) => {
      this.#kept.length = 0;
      file.place.size += length;
      if (error) file.error ??= error;
      return after();
    };
    return { message, transfer: [bytes.buffer], then };
  }

  store(number) {
    const file = this.#files.get(number);
    if (!file) return refused('EBADF');
    if (this.#kept.file === file && this.#kept.length > 0) return this.#handOver(() => this.store(number));
    return file.error ? refused(file.error) : 0;
  }

  close(number) {
    const file = this.#files.get(number);
    if (!file) return refused('EBADF');
    if (this.#kept.file === file && this.#kept.length > 0) return this.#handOver(() => this.close(number));
    this.#files.delete(number);
    if (file.place.made === undefined) return 0;
    const message = { kind: 'close', made: file.place.made, size: file.place.size };
    return { message, then: ({ error }) => (error ?? file.error ? refused(error ?? file.error) : 0) };
  }

  stat(number, at, length, follows, to) {
    let place = DEVICE;
    if (number >= 3) place = this.#files.get(number)?.place;
    if (number < 0) {
      const found = this.#find(at, length);
      if (found.error) return refused(found.error);
      place = found.place;
    }
    if (!place) return refused('EBADF');
    const seconds = Math.floor(place.modified / 1000), rest = (place.modified - seconds * 1000) * 1e6;
    const { buffer, byteOffset } = this.#view(to, 56), view = new DataView(buffer, byteOffset, 56);
    [place.mode, 1, place.inode, place.size, 1, seconds, Math.floor(rest)].forEach((it, n) => {
      view.setBigInt64(8 * n, BigInt(it), true);
    });
    return 0;
  }

  folder(at, length) {
    const { place, error, free } = this.#find(at, length);
    if (place) return refused('EEXIST');
    if (error !== 'ENOENT' || !free) return refused(error);
    this.#tree.add(free, { mode: FOLDER, size: 0, modified: Date.now() });
    postMessage({ kind: 'folder', path: free });
    return 0;
  }

  link() { return refused('ENOTSUP'); }

  terminal() { return 0; }

  clock(which) {
    const milliseconds = which === 0 ? Date.now() : performance.now();
    return BigInt(Math.round(milliseconds * 1e6));
  }

  word(number, to, room) {
    const word = this.#words[number >>> 0];
    if (!word) return -1;
    if (word.length > room >>> 0) return -2;
    this.#view(to, word.length).set(word);
    return word.length;
  }

  words(error, to, room) {
    const [, words] = Object.values(ERRORS).find(([number]) => number === error) ?? [error, `Unknown error ${error}`];
    const written = new TextEncoder().encode(words);
    if (written.length > room >>> 0) return refused('EINVAL');
    this.#view(to, written.length).set(written);
    return written.length;
  }
}

let answered;
let begun = false;

function asked({ message, transfer = [] }) {
  return new Promise((resolve) => {
    answered = resolve;
    postMessage(message, transfer);
  });
}

// Runs the program to its end.
async function run(start) {
  const host = new Host(start);
  let exports, request, answer;
  const waiting = (call) => (...words) => {
    let step;
    if (exports.asyncify_get_state() === REWINDING) {
      exports.asyncify_stop_rewind();
      step = request.then(answer);
    } else {
      step = call(...words);
    }
    if (typeof step === 'number') return step;
    request = step;
    exports.asyncify_start_unwind(room);
    return 0;
  };
  const calls = host.calls();
  for (const name of ['read', 'write', 'store', 'close']) calls[name] = waiting(calls[name]);
  const module = start.module instanceof WebAssembly.Module ? start.module : new WebAssembly.Module(start.module);
  ({ exports } = new WebAssembly.Instance(module, { host: calls }));
  if (start.memory) exports.limit(start.memory >>> 16);
  const memory = exports.memory;
  host.begin(memory);
  const room = exports.unwound();
  const first = new DataView(memory.buffer).getUint32(room, true);
  let stack = 0;
  let status = exports.main(0, 0n);
  while (exports.asyncify_get_state() === UNWINDING) {
    exports.asyncify_stop_unwind();
    stack = Math.max(stack, new DataView(memory.buffer).getUint32(room, true) - first);
    answer = await asked(request);
    exports.asyncify_start_rewind(room);
    status = exports.main(0, 0n);
  }
  host.end();
  const opened = [...host.opened].sort((a, b) => a - b);
  return { kind: 'end', status, opened, made: host.made, bytes: host.bytes, memory: memory.buffer.byteLength, stack };
}

// Engines say in different ways that there is no memory, and that the stack is full.
function why(error) {
  if (error instanceof LongLine) return 'line';
  if (error instanceof WebAssembly.RuntimeError || /stack|recursion/i.test(error?.message)) return 'trap';
  return error instanceof RangeError || /memory/i.test(error?.message) ? 'memory' : 'host';
}

onmessage = async ({ data }) => {
  if (begun) {
    answered(data);
    return;
  }
  begun = true;
  try {
    postMessage(await run(data));
  } catch (error) {
    postMessage({ kind: 'failed', why: why(error), text: String(error) });
  }
};
