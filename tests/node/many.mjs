// Writes many small images.
//     node many.mjs COUNT FOLDER
import fs from 'node:fs';
import { wholeImage } from '../module/images.mjs';

const [, , count, folder] = process.argv;
fs.mkdirSync(folder);
for (let n = 0; n < count; n++) {
  const [patient, study, series] = [200, 100, 50].map((size) => Math.floor(n / size));
  fs.writeFileSync(`${folder}/${n}`, wholeImage({ patient, study, series, number: n + 1 }));
}
