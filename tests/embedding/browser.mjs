// In browser.html: lists and checks the first example, and makes its directory.
import { build, check, read } from './dicomdir.mjs';

const blobOf = async (name) => (await fetch(name)).blob();
const wanted = new Uint8Array(await (await blobOf('ct1.DICOMDIR')).arrayBuffer()), image = await blobOf('ct1.dcm');
const disc = read(wanted), found = await check(disc, () => image, { keys: true, strict: true });
const { directory } = await build([image], { uid: '2.25.0' });
const isSame = directory.length === wanted.length && directory.every((byte, at) => byte === wanted[at]);
document.querySelector('pre').textContent =
  `${disc.listing()}${found.length} found, ${isSame ? 'the same' : 'another'} directory\n`;
