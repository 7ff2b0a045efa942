// Which file a path of the program names. Nothing here asks the system. The rules of Windows are those of 'Naming
// Files, Paths, and Namespaces' in Microsoft's documentation.
import { win32 } from 'node:path';

/** /dev/null of Windows, the one device that is taken. */
export const NULL = '\\\\.\\nul';

/** Why a path is not given to the system, by the names of errors.mjs. */
export class Refusal extends Error {
  constructor(code) {
    super(code);
    this.code = code;
  }
}

// In each folder, and with each extension.
const DEVICE = /^(con|prn|aux|nul|conin\$|conout\$|(com|lpt)[0-9¹²³])$/i;
// With each kind of slash.
const NAMESPACE = /^[\\/]{2}[.?]([\\/]|$)/;
const SERVER = /^[\\/]{2}[^\\/]+[\\/]?$/;
const CHARACTER = /[<>:"|?*\u0000-\u001f]/;

// Windows leaves out points and spaces at the end of a name. Where such a name is looked for, as a spelling of a
// recorded name, no file has it.
function refuseName(name, isMade) {
  if (name === '' || name === '.' || name === '..') return;
  if (CHARACTER.test(name)) throw new Refusal('CHARACTER');
  if (DEVICE.test(name.split('.')[0].trimEnd())) throw new Refusal('DEVICE');
  if (/[. ]$/.test(name)) throw new Refusal(isMade ? 'ENDING' : 'ENOENT');
}

/**
 * What node:fs takes for a path of the program. On Windows that is text, with a drive (C:\x, or C:x in the folder of
 * the drive) or a share (\\server\share\x), and slashes of both kinds. Elsewhere it is bytes, which need not be UTF-8.
 */
export function pathOf(bytes, isWindows, isMade = false) {
  if (!isWindows) return bytes;
  const text = bytes.toString();
  if (text === '/dev/null') return NULL;
  if (NAMESPACE.test(text)) throw new Refusal('NAMESPACE');
  // The program makes each folder above OUT that is not there. On Windows a server is no folder, and the root is there.
  if (SERVER.test(text)) return '\\';
  for (const name of text.slice(win32.parse(text).root.length).split(/[\\/]/)) refuseName(name, isMade);
  return text;
}

/** A word of the command line. The program parts folders at slashes alone, and no name of Windows has a backslash. */
export function wordOf(text, isWindows) {
  return Buffer.from(isWindows ? text.replaceAll('\\', '/') : text);
}
