// A zip whose files are stored as they are (APPNOTE.TXT 6.3, with zip64). It is a Blob of pieces, which the browser may
// keep on its disc: what is in memory is two pieces, and 46 bytes and the name of each file.

const CRC_TABLE = Uint32Array.from({ length: 256 }, (_, byte) => {
  let rest = byte;
  for (let bit = 0; bit < 8; bit++) rest = rest & 1 ? 0xedb88320 ^ (rest >>> 1) : rest >>> 1;
  return rest;
});

/** CRC-32 of these bytes after others, whose CRC-32 is given. */
function crcOf(bytes, before = 0) {
  let rest = ~before;
  for (const byte of bytes) rest = CRC_TABLE[(rest ^ byte) & 255] ^ (rest >>> 8);
  return ~rest >>> 0;
}

// From so many bytes on a piece is a Blob: one for each small file would take longer than all else.
const ZIP_PIECE = 4 << 20;
const MOST_32 = 0xffffffff, MOST_16 = 0xffff, ZIP64 = 45, UTF8_NAMES = 0x0800;
// 1980-01-01, the first day that a zip can name: the same files give the same zip.
const FIRST_DAY = 0x21;

/** Numbers of 2, 4 or 8 bytes, little-endian. */
function numbers(...fields) {
  const view = new DataView(new ArrayBuffer(fields.reduce((sum, [size]) => sum + size, 0)));
  let at = 0;
  for (const [size, value] of fields) {
    if (size === 2) view.setUint16(at, value, true);
    else if (size === 4) view.setUint32(at, value, true);
    else view.setBigUint64(at, BigInt(value), true);
    at += size;
  }
  return view.buffer;
}

class Zip {
  constructor() {
    this.parts = [];
    // What comes next, and its bytes that no Blob has yet.
    this.small = [];
    this.waiting = 0;
    this.central = [];
    this.size = 0;
    this.count = 0;
    this.files = new Map();
  }

  create(number, path) { this.files.set(number, { path, pieces: [], size: 0, crc: 0 }); }

  write(number, bytes) {
    const file = this.files.get(number);
    file.crc = crcOf(bytes, file.crc);
    file.size += bytes.length;
    file.pieces.push(bytes.length < ZIP_PIECE ? bytes : new Blob([bytes]));
  }

  add(part) {
    this.small.push(part);
    this.waiting += part.byteLength ?? 0;
    if (this.waiting < ZIP_PIECE) return;
    this.parts.push(new Blob(this.small));
    this.small = [];
    this.waiting = 0;
  }

  close(number) {
    const { path, pieces, size, crc } = this.files.get(number);
    this.files.delete(number);
    const name = new TextEncoder().encode(path), isLong = size >= MOST_32, isFar = this.size >= MOST_32;
    const shared = (least) => [[2, least], [2, UTF8_NAMES], [2, 0], [2, 0], [2, FIRST_DAY], [4, crc],
      [4, isLong ? MOST_32 : size], [4, isLong ? MOST_32 : size], [2, name.length]];
    const sizes = isLong ? [[8, size], [8, size]] : [];
    const local = sizes.length ? [[2, 1], [2, 16], ...sizes] : [];
    const places = [...sizes, ...(isFar ? [[8, this.size]] : [])];
    const more = places.length ? [[2, 1], [2, 8 * places.length], ...places] : [];
    const lengthOf = (fields) => fields.reduce((sum, [bytes]) => sum + bytes, 0);
    const head = numbers([4, 0x04034b50], ...shared(isLong ? ZIP64 : 20), [2, lengthOf(local)]);
    this.central.push(numbers([4, 0x02014b50], [2, ZIP64], ...shared(places.length ? ZIP64 : 20),
      [2, lengthOf(more)], [2, 0], [2, 0],
      [2, 0], [4, 0], [4, isFar ? MOST_32 : this.size]), name, numbers(...more));
    for (const part of [head, name, numbers(...local), ...pieces]) this.add(part);
    this.size += head.byteLength + name.length + lengthOf(local) + size;
    this.count++;
  }

  /** The whole zip. */
  blob() {
    const length = this.central.reduce((sum, it) => sum + it.byteLength, 0);
    const isLarge = this.count >= MOST_16 || length >= MOST_32 || this.size >= MOST_32;
    const large = isLarge ? [numbers([4, 0x06064b50], [8, 44], [2, ZIP64], [2, ZIP64], [4, 0], [4, 0],
      [8, this.count], [8, this.count],
      [8, length], [8, this.size]), numbers([4, 0x07064b50], [4, 0], [8, this.size + length], [4, 1])] : [];
    const count = Math.min(this.count, MOST_16);
    const end = numbers([4, 0x06054b50], [2, 0], [2, 0], [2, count], [2, count], [4, Math.min(length, MOST_32)],
      [4, Math.min(this.size, MOST_32)], [2, 0]);
    return new Blob([...this.parts, ...this.small, ...this.central, ...large, end], { type: 'application/zip' });
  }
}
