// Writes the module that a file is, or the one of a page.
//     node module.mjs MODULE.wasm|PAGE.html OUT.wasm
import fs from 'node:fs';
import zlib from 'node:zlib';

const [, , given, out] = process.argv;
const bytes = fs.readFileSync(given), packed = /<script type="text\/plain" id="module">([^<]+)</.exec(bytes);
fs.writeFileSync(out, packed ? zlib.gunzipSync(Buffer.from(packed[1], 'base64')) : bytes);
