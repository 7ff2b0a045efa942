// Answers the cases of web.py by the ES module.
//     node web.mjs dicomdir.mjs CASES.json ANSWERS.json
import fs from 'node:fs';
import { pathToFileURL } from 'node:url';

const [, , file, cases, answers] = process.argv;
const { Fault, build, check, merge, read, spellings, withdraw } = await import(pathToFileURL(file));

const bytesOf = (text) => new Uint8Array(Buffer.from(text, 'base64'));
const textOfBytes = (bytes) => Buffer.from(bytes).toString('base64');

function recordOf(one, elements) {
  const { offset, level, inUse, recordType, fileId, path, parent } = one;
  const raw = elements.map((it) => textOfBytes(one.raw(it))), below = one.children.map((it) => it.row);
  return [offset, level, inUse, recordType, fileId, path, parent?.offset ?? null, below, raw];
}

// What the caller knows of a file, as web.py has it.
function known(given) {
  if (given === null) return null;
  if ('unread' in given) return new Error('a read failed');
  if ('blob' in given) return new Blob([bytesOf(given.blob)]);
  if ('bytes' in given) return bytesOf(given.bytes);
  return { digest: bytesOf(given.digest), head: given.head && bytesOf(given.head) };
}

function builtOf({ directory, images, skipped, leftOut, names, repeated }, place) {
  return {
    directory: textOfBytes(directory), images: images.map((it) => [place(it), it.record.offset]), repeated,
    skipped: skipped.map(({ source, fault }) => [source, fault.message]),
    leftOut: leftOut.map(({ file, kept, uid }) => [place(file), place(kept), uid]), names: Object.fromEntries(names),
  };
}

const atFile = ({ source }) => source, atSet = ({ source, file }) => [source, file];

const KINDS = {
  read({ data, elements, keywords, keys }) {
    const disc = read(bytesOf(data));
    return {
      front: [disc.id, disc.uid, disc.withdrawn, disc.unreached], listing: disc.listing(),
      records: disc.records.map((one) => recordOf(one, elements)), files: disc.files.map(({ row }) => row),
      texts: disc.records.map((one) => keywords.map((it) => one[it])),
      found: keys.map((it) => disc.find(it).map(({ row }) => row)), roots: disc.roots.map(({ row }) => row),
    };
  },
  async check({ data, files, options }) {
    const disc = read(bytesOf(data)), given = files.values();
    return (await check(disc, () => known(given.next().value), options)).map(String);
  },
  async build({ files, options }) { return builtOf(await build(files.map(known), options), atFile); },
  merge({ sets, options }) { return builtOf(merge(sets.map((it) => read(bytesOf(it))), options), atSet); },
  withdraw({ data, uids, options }) { return builtOf(withdraw(read(bytesOf(data)), uids, options), atSet); },
  spellings({ name }) { return spellings(name); },
  fault({ status, more }) { return new Fault(status, more).message; },
};

async function answerOf(given) {
  try {
    return await KINDS[given.kind](given);
  } catch (fault) {
    if (!(fault instanceof Fault)) throw fault;
    const { message, status, within, cause, at, tag, source } = fault;
    return { fault: [message, status, within, cause, at, tag, source] };
  }
}

const found = [];
for (const given of JSON.parse(fs.readFileSync(cases, 'utf8'))) found.push(await answerOf(given));
fs.writeFileSync(answers, JSON.stringify(found));
