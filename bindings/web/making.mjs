// New directories, made of images and of directories.

// The kind of a note on a file that is left out. The other kind names a Patient ID.
const LEFT_OUT = 1;

// The directory of one image. Each of its twelve keys has at most 1,024 bytes.
function ofImage(file) {
  const [text] = ask('of_image', [{ of: bytesOf(file) }],
    [room(Uint8Array, 1, 16384, (answer) => answer.text)]);
  return text;
}

// What a merge or a withdrawal makes of directories of this size, and of UIDs with this many bytes more.
function madeOf(name, inputs, size, more, { id, uid }) {
  const most = size / 200, images = ({ rows }) => rows;
  const [directory, sets, ends, files] = ask(name, [...inputs, { of: codes(id) }, { of: codes(uid) }], [
    room(Uint8Array, 1, size + size / 5 + more + 1024, (answer) => answer.text), room(Uint32Array, 2, most, images),
    room(Uint32Array, 2, most, images), room(Uint8Array, 1, size / 3, (answer) => answer.files)]);
  return { directory, picks: cut(files, ends).map((file, at) => ({ source: sets[2 * at], file: ascii(file) })) };
}

function merged(directories, label) {
  const { bytes, ends } = joined(directories);
  return madeOf('merge', [{ of: bytes }, { of: ends, item: 2 }], bytes.length, 0, label);
}

function notesOf(directories, { id, uid }) {
  const { bytes, ends } = joined(directories), most = bytes.length;
  const [rows, textEnds, text, sum] = ask('notes',
    [{ of: bytes }, { of: ends, item: 2 }, { of: codes(id) }, { of: codes(uid) }],
    [room(Uint32Array, 8, most / 200, (answer) => answer.rows),
      room(Uint32Array, 2, most / 60, (answer) => answer.files),
      room(Uint8Array, 1, most, (answer) => answer.text), lone(10)]);
  const texts = cut(text, textEnds).map(latin1).values(), next = () => texts.next().value;
  const notes = { leftOut: [], names: new Map(), repeated: sum[6] };
  for (let at = 0; at < rows.length; at += 8) {
    if (rows[at] === LEFT_OUT) {
      const [file, kept] = [2, 4].map((word) => ({ source: rows[at + word], file: next() }));
      notes.leftOut.push({ file, kept, uid: next() });
    } else {
      const patient = next();
      notes.names.set(patient, Array.from({ length: rows[at + 6] }, next));
    }
  }
  return notes;
}

export class Built {
  constructor({ directory, picks }, { leftOut, names, repeated }, skipped = []) {
    const { files } = read(directory);
    const images = picks.map((pick, at) => ({ ...pick, record: files[at] }));
    Object.assign(this, { directory, images, skipped, leftOut, names, repeated });
  }
}

function dataOf(file) {
  if (!(file instanceof Blob)) return file;
  if (file.size > LONGEST) throw new Fault(TOO_LONG);
  return file.arrayBuffer();
}

/** The directory that `dicomdir index` makes of image files. */
export async function build(files, { id = '', uid = '', strict = false } = {}) {
  const label = { id, uid }, parts = [], sources = [], skipped = [];
  merged([], label);
  let source = 0;
  for await (const file of files) {
    try {
      parts.push(ofImage(await dataOf(file)));
      sources.push(source);
    } catch (fault) {
      if (!(fault instanceof Fault && fault.status >= LEAST && fault.status <= TOO_LONG)) throw fault;
      skipped.push({ source, fault });
    }
    source++;
  }
  const { directory, picks } = merged(parts, label), notes = notesOf(parts, label);
  if (strict && (skipped.length || notes.leftOut.length || notes.names.size)) throw new Fault(STRICT);
  const given = (place) => ({ source: sources[place.source] });
  notes.leftOut = notes.leftOut.map((note) => ({ ...note, file: given(note.file), kept: given(note.kept) }));
  return new Built({ directory, picks: picks.map(given) }, notes, skipped);
}

/** The directory that `dicomdir merge` makes of file-sets. */
export function merge(filesets, { id = '', uid = '' } = {}) {
  const directories = Array.from(filesets, ({ bytes }) => bytes), label = { id, uid };
  return new Built(merged(directories, label), notesOf(directories, label));
}

/** The directory that `dicomdir withdraw` makes of a file-set. */
export function withdraw({ bytes }, uids, { id = '', uid = '' } = {}) {
  if (typeof uids === 'string') throw new TypeError('withdraw takes a list of SOP Instance UIDs');
  const texts = joined(Array.from(uids, codes)), more = texts.bytes.length + texts.ends.length / 2;
  const inputs = [{ of: bytes }, { of: texts.bytes }, { of: texts.ends, item: 2 }];
  const nothing = { leftOut: [], names: new Map(), repeated: 0 };
  return new Built(madeOf('withdraw', inputs, bytes.length, more, { id, uid }), nothing);
}
