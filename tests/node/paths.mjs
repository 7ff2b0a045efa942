// What the host takes for a path of Windows, beside what Microsoft's documentation says ('Naming Files, Paths, and
// Namespaces'). Nothing is opened.
//     node paths.mjs FOLDER        which has paths.mjs of bindings/node
import assert from 'node:assert/strict';
import path from 'node:path';
import { pathToFileURL } from 'node:url';

const { pathOf, wordOf } = await import(pathToFileURL(path.resolve(process.argv[2], 'paths.mjs')));

// The rule, a path, and what becomes of it where it is looked for: the same path, another one, or the refusal. Where
// another refusal comes when a file is made, it stands after these.
const AS_IT_IS = Symbol('as it is');
const CASES = [
  ['a backslash parts the components', 'a\\b\\c.dcm', AS_IT_IS],
  ['so does a slash', 'a/b/c.dcm', AS_IT_IS],
  ['a period parts a base name from its extension', 'one.two.dcm', AS_IT_IS],
  ['any character of the character set', 'Zoë Ω 名 \u{1f600}.dcm', AS_IT_IS],
  ['no <', 'a<b', 'CHARACTER'],
  ['no >', 'a>b', 'CHARACTER'],
  ['no colon', 'ab:c', 'CHARACTER'],
  ['no colon, as in a stream of a file', 'folder/file.dcm:stream', 'CHARACTER'],
  ['no double quote', 'a"b', 'CHARACTER'],
  ['no vertical bar', 'a|b', 'CHARACTER'],
  ['no question mark', 'a?b', 'CHARACTER'],
  ['no asterisk', '*.dcm', 'CHARACTER'],
  ['no character from 1 to 31', 'a\u0001', 'CHARACTER'],
  ['no character from 1 to 31', 'a\u001fb', 'CHARACTER'],
  ['a space, a semicolon and a tilde are no such characters', 'IM000001 ~1;1', AS_IT_IS],
  ['a period is the current folder', '.\\temp.txt', AS_IT_IS],
  ['two periods are the folder above', '..\\temp.txt', AS_IT_IS],
  ['the current folder itself', '.', AS_IT_IS],
  ['CON', 'CON', 'DEVICE'],
  ['PRN', 'out/PRN/x', 'DEVICE'],
  ['AUX, in small letters', 'aux', 'DEVICE'],
  ['NUL', 'C:\\discs\\NUL', 'DEVICE'],
  ['COM1', 'COM1', 'DEVICE'],
  ['COM9', 'com9', 'DEVICE'],
  ['COM with a superscript digit', 'COM²', 'DEVICE'],
  ['LPT1', 'LPT1', 'DEVICE'],
  ['LPT9', 'Lpt9', 'DEVICE'],
  ['LPT with a superscript digit', 'LPT³', 'DEVICE'],
  ['NUL.txt is equivalent to NUL', 'NUL.txt', 'DEVICE'],
  ['so is NUL.tar.gz', 'NUL.tar.gz', 'DEVICE'],
  ['so is NUL with a space', 'nul .dcm', 'DEVICE'],
  ['a device with a period at its end', 'AUX.', 'DEVICE'],
  ['a longer name is no device', 'CONTRAST', AS_IT_IS],
  ['nor is one that ends so', 'XCON.dcm', AS_IT_IS],
  ['nor COM10', 'COM10', AS_IT_IS],
  ['nor an extension', 'a.con', AS_IT_IS],
  ['no period at the end', 'IM000001.', 'ENOENT', 'ENDING'],
  ['no space at the end', 'disc ', 'ENOENT', 'ENDING'],
  ['no period at the end of a folder', 'disc./IM000001', 'ENOENT', 'ENDING'],
  ['three periods end in one', '...', 'ENOENT', 'ENDING'],
  ['a period may be the first character', '.temp', AS_IT_IS],
  ['a disk designator with a backslash', 'C:\\', AS_IT_IS],
  ['in small letters', 'd:\\discs\\x', AS_IT_IS],
  ['one backslash is the root of the drive', '\\file.txt', AS_IT_IS],
  ['relative to the folder of a drive', 'C:tmp.txt', AS_IT_IS],
  ['relative to the folder of a drive, above', 'C:..\\tmp.txt', AS_IT_IS],
  ['a drive alone', 'C:', AS_IT_IS],
  ['the second colon', 'C:\\a:b', 'CHARACTER'],
  ['a path of a share', '\\\\server\\share\\path\\file', AS_IT_IS],
  ['a share', '//server/share', AS_IT_IS],
  ['a server alone', '//server', '\\'],
  ['a device of a share', '//server/share/con', 'DEVICE'],
  ['the prefix for long paths', '\\\\?\\C:\\a', 'NAMESPACE'],
  ['with slashes', '//?/C:/a', 'NAMESPACE'],
  ['the namespace of devices', '\\\\.\\PhysicalDrive0', 'NAMESPACE'],
  ['with slashes', '//./COM56', 'NAMESPACE'],
  ['the namespace of NT', '\\??\\C:\\a', 'CHARACTER'],
  ['the null device of the program', '/dev/null', '\\\\.\\nul'],
  ['a path longer than MAX_PATH, which Node extends', `C:/${'a/'.repeat(200)}b`, AS_IT_IS],
];

function found(text, isMade) {
  try {
    const taken = pathOf(Buffer.from(text), true, isMade);
    return taken === text ? AS_IT_IS : taken;
  } catch (error) {
    return error.code;
  }
}

for (const [rule, text, looked, made = looked] of CASES) {
  assert.deepEqual([found(text, false), found(text, true)], [looked, made], `${rule}: ${text}`);
}
// Elsewhere a path is its bytes, whatever they are.
const bytes = Buffer.from([0x43, 0x4f, 0x4e, 0x2e, 0xff, 0x5c]);
assert.equal(pathOf(bytes, false), bytes);
// The program parts folders at slashes.
assert.equal(wordOf('C:\\discs\\OUT', true).toString(), 'C:/discs/OUT');
assert.equal(wordOf('--files0-from=\\\\server\\share\\names', true).toString(), '--files0-from=//server/share/names');
assert.equal(wordOf('a\\b', false).toString(), 'a\\b');
console.log(`paths of Windows: ${CASES.length} cases are as its documentation says`);
