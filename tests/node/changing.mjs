// The program under Node where a source changes: the file CHANGES gets one byte more when it is closed first.
import fs from 'node:fs';
import { calls, view } from './host.mjs';
import { run, wordsGiven } from './program.mjs';

const { CHANGES } = process.env;
let chosen = -1, isChanged = false;

const host = {
  ...calls,
  open(path, length, flags, mode) {
    const file = calls.open(path, length, flags, mode);
    if (Buffer.from(view(path, length)).toString() === CHANGES) chosen = file;
    return file;
  },
  close(file) {
    if (file === chosen && !isChanged) {
      fs.appendFileSync(CHANGES, 'x');
      isChanged = true;
    }
    return calls.close(file);
  },
};

process.exitCode = run(wordsGiven(), { host });
