// The records of a directory, made of the lines of 'list --long --json' in their order.

const TAG = { name: '00100010', id: '00100020', birth: '00100030', date: '00080020', time: '00080030',
  study: '00081030',
  studyId: '00200010', accession: '00080050', modality: '00080060', seriesNumber: '00200011', series: '0008103E',
  imageNumber: '00200013', instance: '00041511' };
// What the page calls the types of records that most discs have. Others keep the name that the directory gives them.
const KINDS = new Map([['PATIENT', 'Patient'], ['STUDY', 'Study'], ['SERIES', 'Series'], ['IMAGE', 'Image']]);
// Tags that the page beside the tree names in words.
const TAG_NAMES = { '00020002': 'SOP Class UID', '00020003': 'SOP Instance UID', '00020010': 'Transfer syntax',
  '00041410': 'In use', '00041430': 'Type of record', '00041500': 'File', '00041510': 'SOP Class UID',
  '00041511': 'SOP Instance UID', '00041512': 'Transfer syntax', '00080005': 'Character set', '00080012': 'Created on',
  '00080016': 'SOP Class UID', '00080018': 'SOP Instance UID', '00080020': 'Study date', '00080021': 'Series date',
  '00080022': 'Acquisition date', '00080023': 'Content date', '00080030': 'Study time', '00080031': 'Series time',
  '00080033': 'Content time', '00080050': 'Accession number', '00080060': 'Modality', '00080080': 'Institution',
  '00080081': 'Address of the institution', '00080090': 'Referring physician', '00081030': 'Study description',
  '0008103E': 'Series description', '00081050': 'Performing physician', '00100010': 'Name', '00100020': 'Patient ID',
  '00100030': 'Born on', '00100040': 'Sex', '00180015': 'Body part', '0020000D': 'Study Instance UID',
  '0020000E': 'Series Instance UID', '00200010': 'Study ID', '00200011': 'Series number', '00200013': 'Image number',
  '00280008': 'Frames', '00280010': 'Rows', '00280011': 'Columns', '00091001': 'SHA-256 of the file' };
// Offsets that tie records together: nothing for a person.
const TIES = new Set(['00041400', '00041420', '00090010']);

/** Bytes in Base64 as printable ASCII, '?' for each other: what the program shows of text that it can't decode. */
function bytesText(base64) {
  return atob(base64).replace(/[^ -~]/g, '?').trim();
}

/** The values of an element of the DICOM JSON model as texts. */
function valuesOf(found) {
  if (!found) return [];
  if (found.InlineBinary !== undefined) {
    return [found.vr_recorded ? bytesText(found.InlineBinary) : counted(atob(found.InlineBinary).length, 'byte')];
  }
  if (found.vr === 'SQ') return [counted((found.Value || []).length, 'item')];
  const textOf = (value) => (value === null ? '' : String(value));
  return (found.Value || []).map(found.vr === 'PN' ? personName : textOf);
}

const valueOf = (elements, tag) => valuesOf(elements[tag]).filter(Boolean).join(' \\ ');

// The parts of a row, from what a person looks for first. Each is text of the disc, or a word of the page with some.
const PARTS = new Map([
  ['PATIENT', (of) => [of(TAG.name) || 'No name', of(TAG.id) && `ID ${of(TAG.id)}`,
    of(TAG.birth) && `born ${dateText(of(TAG.birth))}`]],
  ['STUDY', (of) => [[dateText(of(TAG.date)) || 'No date', timeText(of(TAG.time))].filter(Boolean).join(' '),
    of(TAG.study),
    of(TAG.studyId) && `study ${of(TAG.studyId)}`, of(TAG.accession) && `accession ${of(TAG.accession)}`]],
  ['SERIES', (of) => [of(TAG.modality) || 'No modality', of(TAG.seriesNumber) && `series ${of(TAG.seriesNumber)}`,
    of(TAG.series)]],
  ['IMAGE', (of, line) => [of(TAG.imageNumber) ? `Image ${of(TAG.imageNumber)}` : 'Image', line.file]],
]);
const otherParts = (of, line) => [line.type || 'Record', line.file || line.key];

/** A record of a directory: what a row shows of it, and what a search looks through. */
class DirectoryRecord {
  constructor(line, text, number, above) {
    const of = (tag) => valueOf(line.elements || {}, tag);
    this.number = number;
    this.text = text;
    this.above = above;
    this.level = line.level;
    this.type = line.type;
    this.inUse = line.in_use;
    this.file = line.file;
    this.offset = line.offset;
    this.below = [];
    this.isOpen = false;
    // Of the files at and below it.
    this.files = 0;
    this.faulty = 0;
    this.finding = null;
    this.parts = (PARTS.get(line.type) || otherParts)(of, line).filter(Boolean);
    const searched = [...Object.values(TAG).map(of), ...this.parts, line.key, line.file || '', line.type];
    this.searched = searched.join('\n').toLowerCase();
  }

  /** What the program said of it, with each element. */
  get elements() { return JSON.parse(this.text).elements || {}; }

  * upwards() { for (let at = this.above; at; at = at.above) yield at; }
}

/** All that a directory names, as its lines come. */
class Directory {
  constructor() {
    this.records = [];
    this.roots = [];
    this.withdrawn = [];
    this.lines = [];
    this.counts = new Map([...KINDS.keys()].map((kind) => [kind, 0]));
    this.files = 0;
    this.unreached = 0;
    this.id = '';
    this.uid = '';
    this.isWhole = false;
    this.path = [];
    this.byFile = new Map();
    this.byOffset = new Map();
  }

  /** Takes one line, which is an object of docs/JSON.md. */
  take(text) {
    const line = JSON.parse(text);
    this.lines.push(text);
    if (line.line === 'RECORD') this.add(line, text);
    else if (line.line === 'FILE-SET') { this.id = line.id; this.uid = line.uid; }
    else if (line.line === 'WITHDRAWN') this.withdrawn.push(line.uid);
    else if (line.line === 'RECORDS') { this.unreached = line.unreached; this.isWhole = true; }
  }

  add(line, text) {
    this.path.length = line.level;
    const above = this.path[line.level - 1] || null;
    const record = new DirectoryRecord(line, text, this.records.length, above);
    this.path[line.level] = record;
    this.records.push(record);
    (above ? above.below : this.roots).push(record);
    if (this.counts.has(line.type)) this.counts.set(line.type, this.counts.get(line.type) + 1);
    this.byOffset.set(line.offset, record);
    if (record.file !== undefined) this.addFile(record);
  }

  addFile(record) {
    record.files = 1;
    for (const above of record.upwards()) above.files++;
    if (record.inUse) this.files++;
    const same = this.byFile.get(record.file);
    if (same) same.push(record); else this.byFile.set(record.file, [record]);
  }

  /** The records of a finding of check: those that name its file, or the one at its offset. */
  recordsOf(finding) {
    if (finding.file !== undefined) return this.byFile.get(finding.file) || [];
    const record = this.byOffset.get(finding.offset);
    return record ? [record] : [];
  }

  note(finding) {
    for (const record of this.recordsOf(finding)) {
      if (record.finding) continue;
      record.finding = finding;
      if (finding.line === 'NODIGEST') continue;
      record.faulty++;
      for (const above of record.upwards()) above.faulty++;
    }
  }

  forgetFindings() {
    for (const record of this.records) { record.finding = null; record.faulty = 0; }
  }

  /** The records that have each word, in what is known of them or of a record above, and one word themselves. */
  search(words) {
    const hits = [], known = new Array(this.records.length);
    for (const record of this.records) {
      let mask = 0;
      words.forEach((word, bit) => { if (record.searched.includes(word)) mask |= 1 << bit; });
      const all = mask | (record.above ? known[record.above.number] : 0);
      known[record.number] = all;
      if (mask && all === (1 << words.length) - 1) hits.push(record);
    }
    return hits;
  }
}
