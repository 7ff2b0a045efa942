// The calls of the system that the program makes (web/c/host.h), by node:fs. Each is made as it was asked, and what it
// answers, or the number of its error, is passed on. What differs on Windows is said at each; it was not tried there.
import fs from 'node:fs';
import tty from 'node:tty';
import { numberOf, wordsOf } from './errors.mjs';
import { NULL, Refusal, pathOf } from './paths.mjs';

const isWindows = process.platform === 'win32';
const CREATES = 0o100;
// Linux's flags of open. Node sets O_CLOEXEC itself; a flag that the system has not is not needed there.
const FLAGS = Object.entries({
  O_WRONLY: 0o1, O_RDWR: 0o2, O_CREAT: CREATES, O_EXCL: 0o200, O_NOCTTY: 0o400, O_TRUNC: 0o1000, O_APPEND: 0o2000,
  O_NONBLOCK: 0o4000, O_CLOEXEC: 0o2000000,
});

let memory, words;
// On Windows: the paths of folders that are open, and of files that are open to be read, by their descriptors.
const folders = new Map(), readable = new Map();
let lastFolder = 1 << 20;

/** Begins a run: the memory of the module, and the words of its command line as bytes. */
export function begin(ofModule, ofLine) {
  memory = ofModule;
  words = ofLine;
}

/** Bytes of the memory. It gets another buffer when it grows, so they are asked for in each call. */
export const view = (at, length) => new Uint8Array(memory.buffer, at >>> 0, length >>> 0);
const pathAt = (at, length, isMade) => pathOf(Buffer.from(view(at, length)), isWindows, isMade);

// What is no error of the system is one of this file.
function answer(call) {
  try {
    return call() ?? 0;
  } catch (error) {
    if (error.syscall === undefined && !(error instanceof Refusal)) throw error;
    return -numberOf(error);
  }
}

// A descriptor that others share, such as a terminal, may be one that does not wait (O_NONBLOCK). Here it does.
function waiting(call) {
  for (;;) {
    try {
      return call();
    } catch (error) {
      if (error.code !== 'EAGAIN') throw error;
      Atomics.wait(new Int32Array(new SharedArrayBuffer(4)), 0, 0, 10);
    }
  }
}

// As answer, but where Windows has thrown the first of these codes the second one is meant.
function answerAs(code, meant, call) {
  return answer(() => {
    try {
      return call();
    } catch (error) {
      throw isWindows && error.code === code ? new Refusal(meant) : error;
    }
  });
}

function flagsOf(linux) {
  if (FLAGS.reduce((left, [, flag]) => left & ~flag, linux)) throw new Refusal('EINVAL');
  return FLAGS.reduce((all, [name, flag]) => all | (linux & flag ? fs.constants[name] ?? 0 : 0), 0);
}

const isFolder = (path) => fs.statSync(path, { throwIfNoEntry: false })?.isDirectory() === true;

function openOnWindows(path, flags, mode) {
  const isRead = !(flags & 3);
  if (isRead && path !== NULL && isFolder(path)) {
    folders.set(++lastFolder, path);
    return lastFolder;
  }
  const file = fs.openSync(path, flagsOf(flags), mode);
  if (isRead) readable.set(file, path);
  return file;
}

function closeOnWindows(file) {
  readable.delete(file);
  if (!folders.delete(file)) fs.closeSync(file);
}

function storeOnWindows(file) {
  if (folders.has(file)) throw new Refusal('ENOSYS');
  if (!readable.has(file)) return fs.fsyncSync(file);
  const other = fs.openSync(readable.get(file), 'r+');
  try {
    const [wanted, found] = [file, other].map((one) => fs.fstatSync(one, { bigint: true }));
    if (wanted.dev !== found.dev || wanted.ino !== found.ino) throw new Refusal('EIO');
    return fs.fsyncSync(other);
  } finally {
    fs.closeSync(other);
  }
}

function read(file, to, room) {
  try {
    return waiting(() => fs.readSync(file, view(to, room)));
  } catch (error) {
    if (error.code === 'EOF') return 0;
    throw folders.has(file) ? new Refusal('EISDIR') : error;
  }
}

function seen(file, path, follows) {
  const how = { bigint: true };
  if (file >= 0) return folders.has(file) ? fs.statSync(folders.get(file), how) : fs.fstatSync(file, how);
  return follows ? fs.statSync(path, how) : fs.lstatSync(path, how);
}

// struct seen of web/c/host.h. The nanoseconds count from the second before, also before 1970.
function tell(it, to) {
  const nanoseconds = ((it.mtimeNs % 1000000000n) + 1000000000n) % 1000000000n;
  const seconds = (it.mtimeNs - nanoseconds) / 1000000000n;
  const place = new DataView(memory.buffer, to >>> 0);
  [it.mode, it.nlink, it.ino, it.size, it.dev, seconds, nanoseconds].forEach((word, n) => {
    place.setBigUint64(8 * n, BigInt.asUintN(64, word), true);
  });
}

function copied(bytes, to, room) {
  if (bytes.length > room >>> 0) return -2;
  view(to, bytes.length).set(bytes);
  return bytes.length;
}

export const calls = {
  /** open(2). Windows opens no folder: it gets a number here, by which it is closed, looked at and stored. */
  open: (at, length, flags, mode) => answer(() => {
    const path = pathAt(at, length, (flags & CREATES) !== 0);
    return isWindows ? openOnWindows(path, flags, mode) : fs.openSync(path, flagsOf(flags), mode);
  }),
  /** read(2). The end of a pipe is an error of Windows (EOF), and 0 here. */
  read: (file, to, room) => answer(() => read(file, to, room)),
  /** write(2). Node ignores SIGPIPE, so a closed pipe is EPIPE; on Windows it may be EOF. A console of Windows shows
   * names in its code page: chcp 65001 is UTF-8. */
  write(file, from, length) {
    return answerAs('EOF', 'EPIPE', () => waiting(() => fs.writeSync(file, view(from, length))));
  },
  /** close(2) */
  close: (file) => answer(() => (isWindows ? closeOnWindows(file) : fs.closeSync(file))),
  /** fsync(2), which on macOS is F_FULLFSYNC. Windows stores no folder: after ENOSYS the program passes it over. It
   * stores a file only by a descriptor that may write, so one is opened for a file that is open to be read. */
  store: (file) => answer(() => (isWindows ? storeOnWindows(file) : fs.fsyncSync(file))),
  /** fstat(2), stat(2) or lstat(2). Modes of Windows are those that Node makes up. */
  stat: (file, at, length, follows, to) => answer(() => tell(seen(file, file < 0 && pathAt(at, length), follows), to)),
  /** mkdir(2). Windows says EPERM of a drive, and the program then looks whether a folder is there. */
  folder: (at, length, mode) => answer(() => fs.mkdirSync(pathAt(at, length, true), mode)),
  /** link(2). FAT has none: EPERM on Linux and macOS ENOTSUP, and on Windows EISDIR. The program copies then. */
  link(from, fromLength, to, toLength) {
    return answerAs('EISDIR', 'EPERM', () => fs.linkSync(pathAt(from, fromLength), pathAt(to, toLength, true)));
  },
  /** isatty(3). Where a terminal is, the program shows progress and hints. */
  terminal: (file) => (tty.isatty(file) ? 1 : 0),
  /** clock_gettime(2): CLOCK_REALTIME in milliseconds, else CLOCK_MONOTONIC. */
  clock: (which) => (which === 0 ? BigInt(Date.now()) * 1000000n : process.hrtime.bigint()),
  /** The words of main(). */
  word: (number, to, room) => (words[number >>> 0] ? copied(words[number >>> 0], to, room) : -1),
  /** strerror(3) */
  words: (error, to, room) => copied(Buffer.from(wordsOf(error)), to, room),
};
