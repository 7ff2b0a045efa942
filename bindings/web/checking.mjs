// Files, compared with the records that name them.

// What is given of a file, and what is found of it.
const ABSENT = 0, UNREADABLE = 1, WHOLE = 2, DIGEST = 3, HEAD = 4, NOTHING = new Uint8Array(0);
const FINDINGS = ['', 'BADID', 'MISSING', 'UNREADABLE', 'DIFFERS', 'MISLABELLED', 'MISLABELLED', 'NODIGEST'];

export class Finding {
  constructor(record, [kind, tag, within, cause]) {
    const faults = wordsOf([within, cause]), words = faults.length ? ['31 File', ...faults] : [];
    if (tag) words.push(tagText(tag));
    Object.assign(this, { record, kind: FINDINGS[kind], words: words.join(' ') });
  }

  toString() {
    const name = ascii(this.record.raw('ReferencedFileID')).replace(/[\x00-\x1f\x7f]/g, '?');
    const said = this.kind === 'BADID' ? String(this.record.offset) : name;
    return [this.kind, said, this.words].filter(Boolean).join(' ');
  }
}

// What the caller knows of the file of a record.
async function givenOf(record, known) {
  if (known === null || known === undefined) return { record, given: ABSENT, content: NOTHING };
  if (known instanceof Error) return { record, given: UNREADABLE, content: NOTHING };
  if (known instanceof Blob) return givenOf(record, await known.arrayBuffer().catch((error) => new Error(error)));
  if (!known.digest) return { record, given: WHOLE, content: bytesOf(known) };
  const digest = bytesOf(known.digest);
  if (digest.length !== 32) throw new TypeError('a SHA-256 has 32 bytes');
  if (!known.head) return { record, given: DIGEST, content: digest };
  return { record, given: HEAD, content: joined([digest, bytesOf(known.head)]).bytes };
}

// What is found of files of one call.
function foundIn(bytes, batch, keys, strict) {
  if (batch.length === 0) return [];
  const contents = joined(batch.map(({ content }) => content)), files = new Uint32Array(6 * batch.length);
  batch.forEach(({ record, given }, at) => {
    files.set([record.row, 0, ...contents.ends.subarray(2 * at, 2 * at + 2), given], 6 * at);
  });
  const [found] = ask('findings',
    [{ of: bytes }, { of: files, item: 6 }, { of: contents.bytes }, { flag: keys }, { flag: strict }],
    [room(Uint32Array, 4, batch.length, (answer) => answer.rows)]);
  const findings = batch.map(({ record }, at) => new Finding(record, found.subarray(4 * at, 4 * at + 4)));
  return findings.filter(({ kind }) => kind);
}

/** What `dicomdir check` finds of the files, of which `known` says what is known. */
export async function check(fileset, known, { keys = false, strict = false } = {}) {
  const found = [];
  let batch = [], size = 0;
  const judge = () => {
    found.push(...foundIn(fileset.bytes, batch, keys, strict));
    [batch, size] = [[], 0];
  };
  for (const record of fileset.files) {
    const file = await givenOf(record, await known(record));
    // The directory is read anew for each call. A long file is given alone.
    if (size + file.content.length > BATCH) judge();
    batch.push(file);
    size += file.content.length;
    if (size > BATCH) judge();
  }
  judge();
  return found;
}
