// Directories as records.

// The elements that are read at once. Others are read when they are asked for.
const KEYWORDS = {
  DirectoryRecordType: 0x00041430, ReferencedFileID: 0x00041500, SpecificCharacterSet: 0x00080005,
  PatientID: 0x00100020, PatientName: 0x00100010, PatientBirthDate: 0x00100030, PatientSex: 0x00100040,
  StudyInstanceUID: 0x0020000d, StudyDate: 0x00080020, StudyTime: 0x00080030, StudyDescription: 0x00081030,
  StudyID: 0x00200010, AccessionNumber: 0x00080050, SeriesInstanceUID: 0x0020000e, Modality: 0x00080060,
  SeriesNumber: 0x00200011, SeriesDescription: 0x0008103e, InstanceNumber: 0x00200013,
  ReferencedSOPClassUIDInFile: 0x00041510, ReferencedSOPInstanceUIDInFile: 0x00041511,
  ReferencedTransferSyntaxUIDInFile: 0x00041512,
};
// An image has its own elements (0008,0018), (0008,0016) and (0002,0010) under these tags.
const TAGS = { ...KEYWORDS, SOPInstanceUID: 0x00041511, SOPClassUID: 0x00041510, TransferSyntaxUID: 0x00041512 };

function tagOf(element) {
  const tag = typeof element === 'number' ? element : Object.hasOwn(TAGS, element) ? TAGS[element] : undefined;
  if (tag === undefined) throw new TypeError(`${element} is no keyword of an element that is known here`);
  return tag;
}

// The rows of a directory and their values: of each row the one above it, and the one after all below it.
class Table {
  constructor(bytes) {
    Object.assign(this, { bytes, columns: new Map() });
    this.rows = this.read(Object.values(KEYWORDS));
    const count = this.rows.length / 4, open = [];
    this.above = new Int32Array(count);
    this.after = new Int32Array(count).fill(count);
    for (let row = 0; row < count; row++) {
      while (open.length > this.rows[4 * row + 1]) this.after[open.pop()] = row;
      this.above[row] = open.at(-1) ?? -1;
      open.push(row);
    }
  }

  // A record has 52 bytes or more, and each value stands in the bytes.
  read(tags) {
    const most = Math.floor(this.bytes.length / 52), width = tags.length;
    const [rows, ends, text] = ask('rows', [{ of: this.bytes }, { of: Uint32Array.from(tags) }], [
      room(Uint32Array, 4, most, (answer) => answer.rows),
      room(Uint32Array, 2, most * width, (answer) => answer.rows * width),
      room(Uint8Array, 1, this.bytes.length, (answer) => answer.text)]);
    tags.forEach((tag, place) => this.columns.set(tag, { ends, text, width, place }));
    return rows;
  }

  // The bytes of the value of a record itself.
  own(row, tag) {
    if (!this.columns.has(tag)) this.read([tag]);
    const { ends, text, width, place } = this.columns.get(tag), at = 2 * (row * width + place);
    return text.subarray(at ? ends[at - 2] : 0, ends[at]);
  }

  // The rows right below one, and the roots for -1.
  below(row) {
    const found = [], end = row < 0 ? this.after.length : this.after[row];
    for (let at = row + 1; at < end; at = this.after[at]) found.push(at);
    return found;
  }
}

const isPlain = (part) => !['', '.', '..'].includes(part) && /^[ -.0-~]+$/.test(part);

export class DirectoryRecord {
  #table;

  constructor(fileset, row, table) {
    Object.assign(this, { fileset, row });
    this.#table = table;
  }

  get offset() { return this.#table.rows[4 * this.row]; }
  get level() { return this.#table.rows[4 * this.row + 1]; }
  get inUse() { return this.#table.rows[4 * this.row + 3] === 1; }
  get recordType() { return latin1(this.raw('DirectoryRecordType')); }
  get parent() { return this.fileset.records[this.#table.above[this.row]] ?? null; }
  get children() { return this.#table.below(this.row).map((row) => this.fileset.records[row]); }
  get studies() { return usedOf(this.children, 'STUDY'); }
  get series() { return usedOf(this.children, 'SERIES'); }
  get images() { return usedOf(this.children, 'IMAGE'); }

  get fileId() {
    const value = this.raw('ReferencedFileID');
    return value.length ? ascii(value).split('\\') : [];
  }

  get path() {
    const parts = this.fileId;
    return parts.length && parts.every(isPlain) ? parts.join('/') : null;
  }

  raw(element) { return this.#table.own(this.row, tagOf(element)); }

  get(element, otherwise = null) {
    const tag = tagOf(element), table = this.#table;
    for (let { row } = this; row >= 0; row = table.above[row]) {
      const value = table.own(row, tag);
      if (value.length) return textOf(value, table.own(row, KEYWORDS.SpecificCharacterSet));
    }
    return otherwise;
  }
}
for (const keyword of Object.keys(TAGS)) {
  Object.defineProperty(DirectoryRecord.prototype, keyword, { get() { return this.get(keyword); } });
}

const usedOf = (records, type) => records.filter((one) => one.inUse && one.recordType === type);

export class FileSet {
  #front;

  constructor(bytes) {
    this.bytes = allocated(() => bytesOf(bytes).slice());
    const table = new Table(this.bytes);
    this.records = Array.from({ length: table.after.length }, (_, row) => new DirectoryRecord(this, row, table));
    this.roots = table.below(-1).map((row) => this.records[row]);
    this.files = this.records.filter((one) => one.inUse && one.raw('ReferencedFileID').length);
  }

  get patients() { return usedOf(this.roots, 'PATIENT'); }
  get id() { return this.#read().id; }
  get uid() { return this.#read().uid; }
  get withdrawn() { return this.#read().withdrawn; }
  get unreached() { return this.#read().unreached; }

  #read() {
    this.#front ??= frontOf(this.bytes);
    return this.#front;
  }

  find(keys) {
    const wanted = Object.entries(keys);
    return this.files.filter((one) => wanted.every(([keyword, value]) => one.get(keyword) === String(value)));
  }

  // A byte of withdrawn UIDs may have a line of 12. All of it is ASCII.
  listing() {
    const [text] = ask('list', [{ of: this.bytes }],
      [room(Uint8Array, 1, 12 * this.bytes.length, (answer) => answer.text)]);
    return new TextDecoder().decode(text);
  }
}

function frontOf(bytes) {
  const [ends, text, [unreached]] = ask('front', [{ of: bytes }], [
    room(Uint32Array, 2, 3, (answer) => answer.rows), room(Uint8Array, 1, bytes.length, (answer) => answer.text),
    lone(2)]);
  const [id, uid, withdrawn] = cut(text, ends).map(latin1);
  return { id, uid, withdrawn: withdrawn ? withdrawn.split('\\') : [], unreached };
}

/** The file-set of the bytes of a DICOMDIR. */
export const read = (bytes) => new FileSet(bytes);

/** The names under which systems show a part of a File ID. */
export function spellings(name) {
  const given = codes(name);
  const [ends, text] = ask('spellings', [{ of: given }], [
    room(Uint32Array, 2, 8, (answer) => answer.rows),
    room(Uint8Array, 1, 8 * given.length + 12, (answer) => answer.text)]);
  return cut(text, ends).map(latin1);
}
