// The program under Node with what its host does on Windows, over the files of this machine. As there, no folder is
// opened, nothing is stored that is not open for writing, and REFUSE_LINKS=1 is a disc without hard links (FAT).
import fs from 'node:fs';

const { constants, fsyncSync, linkSync, openSync, statSync } = fs;
const written = new Set();

// What libuv makes of Windows' errors.
function fail(code, syscall) {
  throw Object.assign(new Error(code), { code, errno: -4000, syscall });
}

fs.openSync = (path, flags, mode) => {
  if (path === '\\\\.\\nul') return openSync('/dev/null', 'r');
  if (path instanceof URL) return openSync(path, flags, mode);
  if (path.includes('\\')) fail('ENOENT', 'open');
  if (statSync(path, { throwIfNoEntry: false })?.isDirectory()) fail('EISDIR', 'open');
  const file = openSync(path, flags, mode);
  if (flags === 'r+' || flags & constants.O_WRONLY) written.add(file);
  else written.delete(file);
  return file;
};
fs.statSync = (path, how) => (String(path).startsWith('\\\\.') ? fail('EINVAL', 'stat') : statSync(path, how));
fs.fsyncSync = (file) => (written.has(file) ? fsyncSync(file) : fail('EPERM', 'fsync'));
fs.linkSync = (from, to) => (process.env.REFUSE_LINKS ? fail('EISDIR', 'link') : linkSync(from, to));
Object.defineProperty(process, 'platform', { value: 'win32' });

const { run, wordsGiven } = await import('./program.mjs');
process.exitCode = run(wordsGiven());
