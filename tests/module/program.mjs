// Tries the module beside the program.
//     node program.mjs MODULE.wasm|PAGE.html FOLDER [TEST]
import assert from 'node:assert/strict';
import { spawnSync } from 'node:child_process';
import crypto from 'node:crypto';
import fs from 'node:fs';
import path from 'node:path';
import zlib from 'node:zlib';
import { image, wholeImage } from './images.mjs';
import { fileOf, fileOfBytes, filesIn, into, run, top } from './page.mjs';

const [, , given, room] = process.argv;
const program = process.env.DICOMDIR_PROGRAM;
const MEBIBYTE = 1 << 20;
process.chdir(room);

// The module itself, or the one that a page has.
function bytesOf(file) {
  const bytes = fs.readFileSync(file);
  if (bytes.subarray(0, 4).equals(Buffer.from('\0asm'))) return bytes;
  return zlib.gunzipSync(Buffer.from(/<script type="text\/plain" id="module">([^<]+)</.exec(bytes)[1], 'base64'));
}
const bytes = bytesOf(given);
const module = new WebAssembly.Module(bytes);

let stack = 0;
async function ask(words, files, more = {}) {
  const answer = await run({ module, words, files, ...more });
  stack = Math.max(stack, answer.stack ?? 0);
  return answer;
}

function native(...words) {
  const { status, stdout, stderr } = spawnSync(program, words, { maxBuffer: 1 << 30 });
  return { status, out: stdout.toString(), errors: stderr.toString() };
}

const text = (lines) => lines.map((line) => `${line}\n`).join('');

// The program and the module answer the same to these words, in a folder that has these files.
async function same(words, files, more) {
  const wanted = native(...words);
  const found = await ask(words, files, more);
  assert.deepEqual({ status: found.status, out: text(found.lines.out), errors: text(found.lines.errors) }, wanted, words.join(' '));
  return found;
}

const HOW = [['list', '--json'], ['list', '--long', '--json'], ['list'], ['check', '--json'], ['check', '--keys', '--strict', '--json'],
  ['check', '--strict']];
async function readsAlike(set) {
  for (const how of HOW) await same([...how, set], filesIn(path.join(room, set)));
}

const tests = {}, only = process.argv[4];

tests['makes and reads the set of README'] = async () => {
  const names = ['ct1.dcm', 'ct2.dcm', 'ct3.dcm'];
  for (const name of names) fs.copyFileSync(path.join(top, 'examples', name), name);
  const files = names.map((name) => fileOf(name, name)), words = ['--uid', '2.25.0'];
  fs.mkdirSync('made');
  const made = await ask(['index', 'OUT', ...names, ...words], files, { take: into('made') });
  assert.equal(native('index', 'OUT', ...names, ...words).out, text(made.lines.out));
  assert.equal(spawnSync('diff', ['-r', 'OUT', 'made/OUT']).status, 0);
  assert.deepEqual([made.status, made.made, made.opened], [0, 4, [0, 1, 2]]);
  await readsAlike('OUT');
  const checked = await ask(['check', '--json', 'OUT'], [...filesIn(path.join(room, 'OUT')), fileOf('OUT/EXTRA', 'ct1.dcm')]);
  assert.equal(checked.opened.length, 4);
  assert.ok(!checked.opened.includes(4));
  const dry = ['index', '--json', '--dry-run', 'X', ...names, ...words];
  await same(dry, files);
  await same(['index', 'OUT', ...names], [...files, ...filesIn(path.join(room, 'OUT'))]);
  await same(['list', 'ct1.dcm', '--nothing'], files);
};

tests['finds what is missing, changed or no image'] = async () => {
  fs.cpSync('OUT', 'HURT', { recursive: true });
  const [one, two] = filesIn(path.join(room, 'HURT')).map(({ name }) => name).filter((name) => !name.endsWith('DICOMDIR'));
  fs.rmSync(one);
  fs.appendFileSync(two, 'x');
  await readsAlike('HURT');
  fs.writeFileSync(two, '');
  await readsAlike('HURT');
  fs.rmSync('HURT/DICOMDIR');
  await readsAlike('HURT');
};

tests['walks as the system does'] = async () => {
  const files = [...filesIn(path.join(room, 'OUT')), fileOf('ct1.dcm', 'ct1.dcm')];
  for (const set of ['./OUT', 'OUT/', 'OUT//', 'OUT/.', 'OUT/../OUT', '.', './', '', 'NONE', 'ct1.dcm', 'ct1.dcm/', 'ct1.dcm/x', 'OUT/NONE/..', 'ct1.dcm/..']) {
    await same(['list', '--json', set], files);
  }
  for (const out of ['', 'ct1.dcm', 'ct1.dcm/x', 'NONE/x', 'OUT']) await same(['index', '--json', out, 'ct1.dcm'], files);
  // No system has a file and a folder of one name.
  const mixed = [fileOf('S', 'ct1.dcm'), fileOf('S/DICOMDIR', 'OUT/DICOMDIR')];
  for (const some of [mixed, [...mixed].reverse()]) {
    assert.match((await ask(['list', '--json', 'S'], some)).lines.errors[0], /"cause":"Not a directory"/);
  }
};

tests['reads damaged directories alike'] = async () => {
  const whole = fs.readFileSync('OUT/DICOMDIR');
  let seed = 1;
  const random = (below) => { seed = (seed * 48271) % 2147483647; return seed % below; };
  fs.mkdirSync('BAD');
  for (let n = 0; n < 150; n++) {
    const damaged = Buffer.from(whole.subarray(0, random(4) ? whole.length : random(whole.length)));
    for (let k = random(4); k >= 0 && damaged.length > 0; k--) damaged[random(damaged.length)] = random(256);
    fs.writeFileSync('BAD/DICOMDIR', damaged);
    await same([['list', '--json'], ['list', '--long', '--json'], ['check', '--json']][n % 3].concat('BAD'), filesIn(path.join(room, 'BAD')));
  }
};

// A page that can't read a file, or whose disc is full.
tests['says what the page refuses'] = async () => {
  const files = filesIn(path.join(room, 'OUT')), images = [fileOf('ct1.dcm', 'ct1.dcm')];
  const unread = await ask(['list', 'OUT'], files, { refuses: ({ kind }) => (kind === 'read' ? 'EIO' : undefined) });
  assert.deepEqual([unread.status, unread.lines.errors], [1, ['FAULT OUT/DICOMDIR: 93 Unread']]);
  const short = await ask(['list', 'OUT'], files.map((file) => ({ ...file, slice: () => Buffer.alloc(1) })));
  assert.deepEqual([short.status, short.lines.errors], [1, ['FAULT OUT/DICOMDIR: 93 Unread']]);
  const gone = await ask(['index', 'NEW', 'ct1.dcm'], images, { refuses: ({ kind }) => (kind === 'read' ? 'ENOENT' : undefined) });
  assert.deepEqual([gone.status, gone.lines.errors], [1, ['FAULT ct1.dcm: 93 Unread']]);
  const full = await ask(['index', 'NEW', 'ct1.dcm'], images, { refuses: ({ kind }) => (kind === 'write' ? 'ENOSPC' : undefined) });
  assert.equal(full.status, 1);
  assert.match(full.lines.errors.join(), /^FAULT NEW\/.*: 96 Unsent$/);
};

// From too little memory on to enough.
tests['says that memory runs out'] = async () => {
  const files = filesIn(path.join(room, 'OUT')), ends = new Set();
  for (const words of [['list', '--long', '--json', 'OUT'], ['check', '--keys', '--strict', 'OUT']]) {
    let status = 1;
    for (let pages = 1; status !== 0; pages += 2) {
      assert.ok(pages < 1000);
      const answer = await ask(words, files, { memory: pages << 16 });
      assert.equal(answer.kind, 'end');
      status = answer.status;
      ends.add(status);
      if (status !== 0) assert.match(answer.lines.errors.join() + answer.lines.out.join(), /91 Memory/);
    }
  }
  assert.deepEqual([...ends], [1, 0]);
};

// The engine itself refuses more memory, by a maximum that is put into the module.
tests['says that the engine has no memory'] = async () => {
  const files = filesIn(path.join(room, 'OUT'));
  const answer = await ask(['list', 'OUT'], files, { module: new WebAssembly.Module(withoutGrowth(bytes)) });
  assert.deepEqual([answer.kind, answer.status], ['end', 1]);
  assert.match(answer.lines.errors.join(), /91 Memory/);
};

function number(bytes, at) {
  let value = 0, shift = 0;
  for (;;) {
    value += (bytes[at] & 127) * 2 ** shift;
    shift += 7;
    if (!(bytes[at++] & 128)) return [value, at];
  }
}

// The module with the memory that it begins with as its maximum.
function withoutGrowth(bytes) {
  for (let at = 8; ;) {
    const kind = bytes[at], [length, from] = number(bytes, at + 1);
    if (kind === 5) {
      const [, end] = number(bytes, from + 2), least = bytes.subarray(from + 2, end);
      const body = Buffer.concat([Buffer.from([1, 1]), least, least]);
      return Buffer.concat([bytes.subarray(0, at), Buffer.from([5, body.length]), body, bytes.subarray(from + length)]);
    }
    at = from + length;
  }
}

tests['reads and makes 20,000 images'] = async () => {
  const count = 20000;
  const sources = Array.from({ length: count }, (_, n) => wholeImage({ patient: n / 200 | 0, study: n / 100 | 0, series: n / 50 | 0, number: n + 1 }));
  const files = sources.map((it, n) => fileOfBytes(`i${n}`, it.length, (from, to) => it.subarray(from, to)));
  const made = [];
  const take = (message) => {
    if (message.kind === 'create') made.push({ name: message.path, parts: [] });
    if (message.kind === 'write') made[message.made].parts.push(message.bytes);
  };
  const answer = await ask(['index', 'MANY', ...files.map(({ name }) => name), '--uid', '2.25.0'], files, { take });
  assert.deepEqual([answer.status, answer.made], [0, count + 1]);
  const found = made.map(({ name, parts }) => {
    const it = Buffer.concat(parts);
    return fileOfBytes(name, it.length, (from, to) => it.subarray(from, to));
  });
  const directory = found.at(-1);
  assert.equal(directory.name, 'MANY/DICOMDIR');
  const digests = (all) => all.map((it) => crypto.createHash('sha256').update(it.slice(0, it.size)).digest('hex')).sort();
  assert.deepEqual(digests(found.slice(0, -1)), digests(files));
  fs.mkdirSync('MANY');
  fs.writeFileSync('MANY/DICOMDIR', directory.slice(0, directory.size));
  await same(['list', '--json', 'MANY'], [directory]);
  const listed = await same(['list', '--long', '--json', 'MANY'], [directory]);
  assert.equal(listed.lines.out.length, 20000 + 400 + 200 + 100 + 2);
  await same(['check', '--json', 'MANY'], [directory]);
  const checked = await ask(['check', '--keys', '--strict', '--json', 'MANY'], found);
  assert.deepEqual([checked.status, checked.opened.length], [0, count + 1]);
};

// The memory does not grow with a file. That of this process has the engine's own, too.
tests['keeps little of large files'] = async () => {
  const pixels = 256 * MEBIBYTE, head = image({ patient: 1, study: 1, series: 1, number: 1, pixels });
  fs.writeFileSync('large', head);
  fs.truncateSync('large', head.length + pixels);
  const before = process.memoryUsage().rss;
  let most = 0;
  const onMessage = () => { most = Math.max(most, process.memoryUsage().rss); };
  const read = await same(['index', 'X', 'large', '--dry-run'], [fileOf('large', 'large')], { onMessage });
  let written = 0;
  const files = [1, 2].map((n) => fileOfBytes(`l${n}`, head.length + pixels / 4, (from, to) => {
    const piece = Buffer.alloc(to - from);
    if (from === 0) image({ patient: 1, study: 1, series: 1, number: n, pixels: pixels / 4 }).copy(piece);
    return piece;
  }));
  const made = await ask(['index', 'X', 'l1', 'l2'], files, { onMessage, take: (it) => { written += it.bytes?.length ?? 0; } });
  assert.deepEqual([read.status, made.status, made.made], [0, 0, 3]);
  assert.ok(written > pixels / 2);
  assert.ok(Math.max(read.memory, made.memory) < 64 * MEBIBYTE, `${read.memory} and ${made.memory}`);
  assert.ok(most - before < 100 * MEBIBYTE, `${most - before >> 20} MiB more`);
  console.log(`large files: ${made.memory >> 20} MiB in the module, ${most - before >> 20} MiB more in Node`);
};

tests['tells of what is no module'] = async () => {
  const answer = await run({ module: new Uint8Array(8), words: [], files: [] });
  assert.deepEqual([answer.kind, answer.why], ['failed', 'host']);
};

// A module whose main is an instruction that traps.
tests['tells of a trap'] = async () => {
  const text = (it) => [it.length, ...Buffer.from(it)];
  const module = Uint8Array.from([
    0, 0x61, 0x73, 0x6d, 1, 0, 0, 0, 1, 11, 2, 0x60, 2, 0x7f, 0x7e, 1, 0x7f, 0x60, 0, 1, 0x7f, 3, 4, 3, 0, 1, 1, 5, 3, 1, 0, 1,
    7, 48, 4, ...text('memory'), 2, 0, ...text('main'), 0, 0, ...text('unwound'), 0, 1, ...text('asyncify_get_state'), 0, 2,
    10, 15, 3, 3, 0, 0, 0xb, 4, 0, 0x41, 0, 0xb, 4, 0, 0x41, 0, 0xb,
  ]);
  const answer = await run({ module, words: [], files: [] });
  assert.deepEqual([answer.kind, answer.why], ['failed', 'trap']);
};

// Twice what was seen.
tests['has room for the stack'] = async () => {
  const nothing = Object.fromEntries(WebAssembly.Module.imports(module).map(({ name }) => [name, () => 0]));
  const { exports } = new WebAssembly.Instance(module, { host: nothing });
  const view = new DataView(exports.memory.buffer), at = exports.unwound();
  const has = view.getUint32(at + 4, true) - view.getUint32(at, true);
  console.log(`the stack: ${stack} bytes of ${has}`);
  assert.ok(stack > 0 && 2 * stack <= has);
};

let failed = 0;
for (const [name, test] of Object.entries(tests)) {
  if (only && !name.includes(only)) continue;
  const begun = process.cpuUsage();
  try {
    await test();
    console.log(`${name}: ${(process.cpuUsage(begun).user / 1e6).toFixed(1)} s of processor time`);
  } catch (error) {
    failed++;
    console.log(`NOT AS WANTED: ${name}: ${error.stack.slice(0, 3000)}`);
  }
}
process.exitCode = failed ? 1 : 0;
