// The bytes of image files, for tests.
const LONG = ['OB', 'OW'];

function element(group, number, kind, value) {
  const text = Buffer.from(value), padding = Buffer.from(kind === 'UI' ? '\0' : ' ');
  const bytes = text.length % 2 ? Buffer.concat([text, padding]) : text;
  const head = Buffer.alloc(LONG.includes(kind) ? 12 : 8);
  head.writeUInt16LE(group, 0);
  head.writeUInt16LE(number, 2);
  head.write(kind, 4);
  if (head.length === 12) head.writeUInt32LE(bytes.length, 8); else head.writeUInt16LE(bytes.length, 6);
  return Buffer.concat([head, bytes]);
}

// A CT image with so many bytes of pixels; without these, only what stands before them.
export function image({ patient, study, series, number, pixels = 64 }) {
  const uid = (...parts) => ['2.25.7', ...parts].join('.');
  const instance = uid(study, series, number);
  const meta = Buffer.concat([
    element(2, 1, 'OB', Buffer.from([0, 1])), element(2, 2, 'UI', '1.2.840.10008.5.1.4.1.1.2'), element(2, 3, 'UI', instance),
    element(2, 0x10, 'UI', '1.2.840.10008.1.2.1'), element(2, 0x12, 'UI', '2.25.1'),
  ]);
  const length = Buffer.alloc(4);
  length.writeUInt32LE(meta.length);
  const data = [
    element(8, 0x16, 'UI', '1.2.840.10008.5.1.4.1.1.2'), element(8, 0x18, 'UI', instance), element(8, 0x20, 'DA', '20240102'),
    element(8, 0x30, 'TM', '101112'), element(8, 0x50, 'SH', `A${study}`), element(8, 0x60, 'CS', 'CT'),
    element(8, 0x1030, 'LO', `Study ${study}`), element(0x10, 0x10, 'PN', `Patient^${patient}`), element(0x10, 0x20, 'LO', `P${patient}`),
    element(0x20, 0xd, 'UI', uid(study)), element(0x20, 0xe, 'UI', uid(study, series)), element(0x20, 0x10, 'SH', `${study}`),
    element(0x20, 0x11, 'IS', `${series}`), element(0x20, 0x13, 'IS', `${number}`),
  ];
  const head = Buffer.alloc(12);
  head.writeUInt32LE(0x00107fe0, 0);
  head.write('OW', 4);
  head.writeUInt32LE(pixels, 8);
  return Buffer.concat([Buffer.alloc(128), Buffer.from('DICM'), element(2, 0, 'UL', length), meta, ...data, head]);
}

export function wholeImage(it) {
  const head = image(it), bytes = Buffer.alloc(head.length + (it.pixels ?? 64), it.number);
  head.copy(bytes);
  return bytes;
}
