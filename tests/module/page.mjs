// A page without a browser: runs web/worker.js in Node, and reads and writes what it asks for.
import fs from 'node:fs';
import path from 'node:path';
import vm from 'node:vm';

export const top = path.resolve(import.meta.dirname ?? path.dirname(new URL(import.meta.url).pathname), '../..');
const script = new vm.Script(fs.readFileSync(path.join(top, 'web/worker.js'), 'utf8'), { filename: 'worker.js' });

// A file of the machine, as the page has it: its name, its size, and its bytes from one place to another.
export function fileOf(name, file) {
  const { size, mtimeMs } = fs.statSync(file);
  return { name, size, modified: mtimeMs, slice: (from, to) => {
    const bytes = Buffer.alloc(to - from), opened = fs.openSync(file, 'r');
    const read = fs.readSync(opened, bytes, 0, bytes.length, from);
    fs.closeSync(opened);
    return bytes.subarray(0, read);
  } };
}

// All files below a folder, under the folder's name, as a browser gives them.
export function filesIn(folder) {
  const name = path.basename(folder);
  return fs.readdirSync(folder, { recursive: true }).filter((it) => fs.statSync(path.join(folder, it)).isFile())
    .map((it) => fileOf(path.join(name, it), path.join(folder, it)));
}

export function fileOfBytes(name, size, slice) { return { name, size, modified: 0, slice }; }

const owned = (bytes) => bytes.buffer.slice(bytes.byteOffset, bytes.byteOffset + bytes.byteLength);

// What was asked for, or whole small files from that on, as the page hands them over.
function pieceOf(files, { file, from, to }) {
  const several = from === 0 ? files.slice(file, file + 3).filter(({ size }) => size < 65536) : [];
  if (several[0] !== files[file]) return { bytes: owned(files[file].slice(from, to)) };
  const pieces = several.map((it) => it.slice(0, it.size)), parts = [];
  let end = 0;
  several.forEach((it, n) => parts.push([files.indexOf(it), end, end += pieces[n].length]));
  return { bytes: owned(Buffer.concat(pieces)), parts };
}

// Runs the program on these files. `take` has what is made; `refuses(message)` gives the error of a request, if any.
export function run({ module, words, files, folders, memory, take = () => {}, refuses = () => undefined, onMessage = () => {} }) {
  return new Promise((resolve) => {
    const lines = { out: [], errors: [] };
    const worker = vm.createContext({ WebAssembly, TextEncoder, TextDecoder, performance, Date, Uint8Array, DataView, RangeError });
    const answer = (data) => setImmediate(() => worker.onmessage({ data }));
    worker.postMessage = (message) => {
      onMessage(message);
      const error = refuses(message);
      if (message.kind === 'lines') lines[message.of].push(...message.lines);
      else if (message.kind === 'read') {
        if (error) answer({ kind: 'piece', error });
        else answer({ kind: 'piece', ...pieceOf(files, message) });
      } else if (message.kind === 'write' || message.kind === 'close') {
        if (!error) take(message);
        answer({ kind: 'done', error });
      } else if (message.kind === 'folder' || message.kind === 'create') take(message);
      else if (message.kind === 'end' || message.kind === 'failed') resolve({ ...structuredClone(message), lines });
    };
    script.runInContext(worker);
    worker.onmessage({ data: { kind: 'run', module, words, folders, memory, files: files.map((it) => [it.name, it.size, it.modified]) } });
  });
}

// Writes what the program makes below a folder of the machine.
export function into(folder) {
  const made = [];
  return (message) => {
    if (message.kind === 'folder') fs.mkdirSync(path.join(folder, message.path));
    if (message.kind === 'create') made.push(fs.openSync(path.join(folder, message.path), 'wx'));
    if (message.kind === 'write') fs.writeSync(made[message.made], message.bytes, 0, message.bytes.length, message.from);
    if (message.kind === 'close') fs.closeSync(made[message.made]);
  };
}
