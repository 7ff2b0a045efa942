// The ES module where memory is refused, over many calls, and with what is no bytes.
//     node --expose-gc limits.mjs dicomdir.mjs EXAMPLES
// dicomdir.d.mts stands beside dicomdir.mjs.
import assert from 'node:assert/strict';
import fs from 'node:fs';
import path from 'node:path';
import { pathToFileURL } from 'node:url';

const [, , file, examples] = process.argv;
const PAGE = 1 << 16;

// Each instance of the WebAssembly module is seen here, and has at most so many pages.
const Instance = WebAssembly.Instance, instances = [];
let most = 1 << 16;
WebAssembly.Instance = class {
  constructor(module) {
    const { exports } = new Instance(module);
    exports.limit(most);
    instances.push(exports);
    return { exports };
  }
};
const all = await import(pathToFileURL(file)), { FileSet, build, check, merge, read, spellings, withdraw } = all;
const bytesOf = (name) => new Uint8Array(fs.readFileSync(path.join(examples, name)));
const directory = bytesOf('ct1.DICOMDIR'), first = fs.readFileSync(path.join(examples, 'ct1.dcm'), 'latin1');
// The first image under 90 SOP Instance UIDs.
const images = Array.from({ length: 90 }, (_, at) => {
  return new Uint8Array(Buffer.from(first.replaceAll('1.2.3.4.5\0', `1.2.3.4.${at + 10}`), 'latin1'));
});
const { directory: several } = await build(images);
const disc = read(several);

const CALLS = {
  read: () => read(several).files.length,
  front: () => new FileSet(several).uid,
  listing: () => read(several).listing(),
  check: async () => (await check(disc, ({ row }) => images[row % 90], { keys: true })).length,
  build: async () => (await build(images)).directory.length,
  merge: () => merge([disc, disc]).directory.length,
  withdraw: () => withdraw(disc, ['1.2.3.4.10']).directory.length,
  spellings: () => spellings('IM000001').length,
  damaged: () => {
    try {
      return read(several.subarray(0, several.length - 9));
    } catch (fault) {
      if (fault.status === 91) throw fault;
      return fault.message;
    }
  },
};

const tests = {};

// Leaves the instance, as one with much memory is not kept.
function leaveInstance() {
  read(directory);
  instances.at(-1).memory.grow(2100);
  read(directory);
}

// From too little memory on to enough. An instance that was refused memory is not kept.
tests['says that memory runs out'] = async () => {
  for (const [name, call] of Object.entries(CALLS)) {
    const wanted = await call();
    leaveInstance();
    let refused = 0;
    for (let found; found === undefined;) {
      most = 17 + refused;
      try {
        found = await call();
        assert.equal(found, wanted, name);
      } catch (fault) {
        assert.deepEqual([fault.name, fault.status, fault.message], ['Fault', 91, '91 Memory']);
        assert.ok(++refused < 300);
      }
    }
    assert.ok(refused > 0 || name === 'spellings', name);
    leaveInstance();
    most = 1 << 16;
  }
};

tests['says that the engine has no memory'] = () => {
  const there = WebAssembly.Instance;
  leaveInstance();
  WebAssembly.Instance = class { constructor() { throw new RangeError('could not allocate memory'); } };
  try {
    assert.throws(() => read(directory), { name: 'Fault', status: 91 });
  } finally {
    WebAssembly.Instance = there;
  }
  assert.equal(read(directory).files.length, 1);
};

// The same memory after 1,000 calls more.
tests['gives its memory back'] = async () => {
  for (const [name, call] of Object.entries(CALLS)) {
    for (let time = 0; time < 10; time++) await call();
    const before = instances.length, size = instances.at(-1).memory.buffer.byteLength;
    for (let time = 0; time < (name === 'build' ? 100 : 1000); time++) await call();
    assert.deepEqual([instances.length, instances.at(-1).memory.buffer.byteLength], [before, size], name);
  }
  assert.ok(instances.at(-1).memory.buffer.byteLength < 64 * PAGE);
};

tests['keeps no input'] = async () => {
  const given = images.map((image) => image.slice()), own = directory.slice();
  const alive = [...given, own].map((it) => new WeakRef(it.buffer));
  const made = await build(given), kept = read(own), files = made.images.length;
  const wanted = kept.listing();
  own.fill(0);
  assert.equal(kept.listing(), wanted);
  given.length = 0;
  return async () => {
    for (let time = 0; time < 5; time++) await new Promise((done) => { setTimeout(done); }).then(globalThis.gc);
    assert.deepEqual([alive.filter((it) => it.deref()).length, files, kept.files.length], [0, 90, 1]);
  };
};

tests['has types'] = () => {
  const types = fs.readFileSync(path.join(path.dirname(file), 'dicomdir.d.mts'), 'utf8');
  const named = [...types.matchAll(/^export (?:class|function) (\w+)/gm)].map(([, name]) => name);
  assert.deepEqual(named.sort(), Object.keys(all).sort());
};

tests['takes bytes alone'] = async () => {
  for (const bad of [5, 'DICOMDIR', null, undefined, [1, 2]]) {
    assert.throws(() => read(bad), TypeError);
    await assert.rejects(build([bad]), TypeError);
  }
  for (const kind of [(it) => it.buffer.slice(0), (it) => new DataView(it.buffer.slice(0)), (it) => Buffer.from(it)]) {
    assert.equal(read(kind(several)).listing(), disc.listing());
  }
  await assert.rejects(check(disc, () => ({ digest: new Uint8Array(31) })), TypeError);
  assert.throws(() => withdraw(disc, '1.2.3'), TypeError);
  assert.throws(() => disc.find({ Modalty: 'CT' }), TypeError);
  const failed = new Error('no file is there');
  await assert.rejects(check(disc, () => { throw failed; }), failed);
};

for (const [name, test] of Object.entries(tests)) {
  const more = await test();
  if (more) await more();
  console.log(`the ES module ${name}`);
}
