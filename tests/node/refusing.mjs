// The program under Node whose host refuses a call or memory. It stands in the folder of the host and the module.
//     REFUSE_CALL='NAME NUMBER ERROR' [REFUSE_LATER=1] node refusing.mjs COMMAND ..
//
// That call of this name, and with REFUSE_LATER each later one, answers this number of Linux. With KILL in its place
// the process is killed there. The names, and the lines in the file REFUSE_LOG, are those of tests/faults/refuse.c, so
// that tests/faults/calls.py judges both. REFUSE_PAGES is how many pages of 64 KiB the memory may have, and
// REFUSE_COUNTS a file for those that it begins with.
import fs from 'node:fs';
import { calls, view } from './host.mjs';
import { run, wordsGiven } from './program.mjs';

const { REFUSE_CALL, REFUSE_LATER, REFUSE_LOG, REFUSE_COUNTS, REFUSE_PAGES } = process.env;
const [chosen, at, error] = (REFUSE_CALL ?? '').split(' ');
const textAt = (from, length) => Buffer.from(view(from, length)).toString();
let count = 0, begun;

function isRefused(name) {
  if (name !== chosen) return false;
  count += 1;
  if (count === Number(at) && error === 'KILL') process.kill(process.pid, 'SIGKILL');
  return count === Number(at) || (REFUSE_LATER !== undefined && count > Number(at));
}

// What is about the call's path or descriptor. Linux has closed a file also where it answers an error.
function logged(name, about, call) {
  begun ??= view(0, 0).buffer.byteLength >> 16;
  const refuses = isRefused(name), made = refuses && name !== 'close' ? 0 : call();
  const answer = refuses ? -Number(error) : made;
  if (REFUSE_LOG) fs.appendFileSync(REFUSE_LOG, `${refuses ? '!' : ''}${name} ${answer} ${about}\n`);
  return answer;
}

const host = {
  ...calls,
  open(path, length, flags, mode) {
    return logged(flags & 0o100 ? 'create' : 'open', textAt(path, length), () => calls.open(path, length, flags, mode));
  },
  stat(file, path, length, ...rest) {
    const about = file >= 0 ? file : textAt(path, length);
    return logged(file >= 0 ? 'fstat' : 'statx', about, () => calls.stat(file, path, length, ...rest));
  },
  folder: (path, length, mode) => logged('mkdir', textAt(path, length), () => calls.folder(path, length, mode)),
  link(from, fromLength, to, toLength) {
    const about = `${textAt(to, toLength)} ${textAt(from, fromLength)}`;
    return logged('link', about, () => calls.link(from, fromLength, to, toLength));
  },
  read: (file, ...rest) => logged('read', file, () => calls.read(file, ...rest)),
  write(file, ...rest) {
    return file === 2 ? calls.write(file, ...rest) : logged('write', file, () => calls.write(file, ...rest));
  },
  store: (file) => logged('fsync', file, () => calls.store(file)),
  close: (file) => logged('close', file, () => calls.close(file)),
};

process.exitCode = run(wordsGiven(), { host, pages: REFUSE_PAGES && Number(REFUSE_PAGES) });
if (REFUSE_COUNTS) fs.writeFileSync(REFUSE_COUNTS, `armed 1 allocations ${begun} refused 0\n`);
