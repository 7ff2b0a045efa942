// Runs the module on its host.
import fs from 'node:fs';
import { begin, calls } from './host.mjs';
import { wordOf } from './paths.mjs';

const ABORTED = 134;

/**
 * The words of the command line as bytes. On Linux they are those that the system has, which need not be UTF-8. Where
 * Node has them as text, what is not Unicode is U+FFFD, and names no file.
 */
export function wordsGiven() {
  const words = process.argv.slice(2);
  if (process.platform === 'linux' && words.length > 0) {
    try {
      const line = fs.readFileSync('/proc/self/cmdline').toString('latin1').split('\0').slice(0, -1);
      return line.slice(-words.length).map((word) => Buffer.from(word, 'latin1'));
    } catch {
      // Without /proc.
    }
  }
  return words.map((word) => wordOf(word, process.platform === 'win32'));
}

function say(line) {
  try {
    fs.writeSync(2, `${line}\n`);
  } catch {
    // Nobody hears it.
  }
}

function instantiate(host) {
  const module = new WebAssembly.Module(fs.readFileSync(new URL('dicomdir.wasm', import.meta.url)));
  return new WebAssembly.Instance(module, { host }).exports;
}

/** Runs the program, and answers its status. Tests give other calls, and the most pages that its memory may have. */
export function run(words, { host = calls, pages } = {}) {
  let exports;
  try {
    exports = instantiate(host);
  } catch (error) {
    if (!(error instanceof RangeError)) throw error;
    say('FAULT -: 91 Memory');
    return 1;
  }
  begin(exports.memory, [Buffer.from('dicomdir'), ...words]);
  if (pages !== undefined) exports.limit(pages);
  try {
    return exports.main(0, 0n);
  } catch (error) {
    if (!(error instanceof WebAssembly.RuntimeError) && !(error instanceof RangeError)) throw error;
    say(`error: the program has stopped: ${error.message}`);
    return ABORTED;
  }
}
