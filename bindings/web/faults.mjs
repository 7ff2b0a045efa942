// DICOMDIRs of any producer, read and made by the proved functions of dicomdir.h, in browsers and in Node 18 or later.
//
//     const disc = read(bytes);                                  // of a DICOMDIR
//     for (const image of disc.find({ PatientID: 'P1' })) ..     // .patients, then .studies, .series, .images
//     await check(disc, (record) => bytesOf(record.path));       // as `dicomdir check`
//     (await build(files)).directory                             // as `dicomdir index`
//
// dicomdir.d.mts has the types, and docs/EMBEDDING.md says what is proved.

// The numbers and words of docs/FAULTS.md.
const FAULTS = {
  1: 'Truncated', 2: 'Order', 3: 'BadVr', 4: 'Reserved', 5: 'OddLength', 6: 'UndefinedLength', 7: 'UnexpectedTag',
  8: 'BadDelimiter', 9: 'Overrun', 10: 'TooDeep', 21: 'NotPart10', 22: 'GroupLength', 23: 'MetaMissing', 24: 'MetaUid',
  25: 'OtherSyntax', 26: 'Meta', 27: 'Set', 31: 'File', 32: 'NotImage', 33: 'MissingKey', 34: 'BadKeyUid',
  35: 'KeyTooLong', 36: 'KeyIsSequence', 37: 'MetaMismatch', 39: 'FileTooLong', 41: 'Conflict', 42: 'TooMany',
  43: 'TooLarge', 51: 'File', 52: 'NotDirectory', 53: 'RecordShape', 54: 'Dangling', 55: 'Twice', 56: 'LastRoot',
  58: 'TooDeep', 61: 'NoDigest', 62: 'ForeignRecord', 63: 'RecordKey', 65: 'BadWithdrawal', 71: 'BadUid',
  72: 'BadSetId', 91: 'Memory', 98: 'Strict',
};
// Numbers below LEAST are causes. The words of PLACED name the offset of a record.
const LEAST = 31, PLACED = [53, 54, 55, 58, 61, 62, 63], TOO_LONG = 39, MEMORY = 91, STRICT = 98;

const hexOf = (number) => number.toString(16).toUpperCase().padStart(4, '0');
const tagText = (tag) => `(${hexOf(tag >>> 16)},${hexOf(tag & 0xffff)})`;
const wordsOf = (numbers) => numbers.filter((it) => it in FAULTS).map((it) => `${it} ${FAULTS[it]}`);

export class Fault extends Error {
  constructor(status, { within = 0, cause = 0, at = 0, tag = 0, source = 0 } = {}) {
    const words = wordsOf(status === MEMORY ? [status] : [status, within, cause]);
    if (PLACED.includes(status)) words.push(at);
    if (tag) words.push(tagText(tag));
    super(status < LEAST ? 'arguments at fault' : words.join(' '));
    Object.assign(this, { status, within, cause, at, tag, source });
  }
}
Fault.prototype.name = 'Fault';
