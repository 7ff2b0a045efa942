// The files that a person chose or dropped: a list of { path, file }, with paths as the browser gives them.

// The names that systems show of a DICOMDIR (docs/DISCS.md): the program takes the first that is there.
const DIRECTORY_NAME = /^(DICOMDIR|dicomdir)(\.;1|;1|\.)?$/;

/** Gives names that are apart: what was found by a search may have one name in several folders. */
class Names {
  #taken = new Set();

  apart(name) {
    let free = name;
    for (let number = 2; this.#taken.has(free); number++) free = `${name} (${number})`;
    this.#taken.add(free);
    return free;
  }
}

/** What a file input gives: below a folder with its path, else by its name. */
function chosenFiles(list) {
  const names = new Names();
  return [...list].map((file) => ({ path: names.apart(file.webkitRelativePath || file.name), file }));
}

/** What was dropped: files and folders. It has to be asked for at once. */
const droppedEntries = (items) => [...items].map((item) => item.webkitGetAsEntry?.()).filter(Boolean);

/** All files of these entries, folders with what is in them. */
async function filesOf(entries) {
  const files = [], names = new Names();
  for (const entry of entries) await walk(entry, names.apart(entry.name), files);
  return files;
}

async function walk(entry, path, files) {
  if (entry.isFile) {
    files.push({ path, file: await new Promise((take, refuse) => { entry.file(take, refuse); }) });
    return;
  }
  const reader = entry.createReader();
  for (;;) {
    const some = await new Promise((take, refuse) => { reader.readEntries(take, refuse); });
    if (!some.length) return;
    for (const one of some) await walk(one, `${path}/${one.name}`, files);
  }
}

const nameOf = (path) => path.slice(path.lastIndexOf('/') + 1);
const folderOf = (path) => path.slice(0, Math.max(0, path.lastIndexOf('/')));
const depthOf = (path) => path.split('/').length;

/** The folders with a DICOMDIR that are nearest to the top of what was chosen. */
function setsOf(files) {
  const found = files.filter(({ path }) => DIRECTORY_NAME.test(nameOf(path)));
  const least = found.reduce((depth, { path }) => Math.min(depth, depthOf(path)), Infinity);
  return [...new Set(found.filter(({ path }) => depthOf(path) === least).map(({ path }) => folderOf(path)))].sort();
}

/** Is this file the directory of that folder? */
const isDirectoryOf = (path, folder) =>
  folderOf(path) === folder && DIRECTORY_NAME.test(path.slice(folder ? folder.length + 1 : 0));
