// Saves what was made: by a download, or into a folder that a person chose.

/** Offers a Blob under a name, as the browser saves files. */
function download(blob, name) {
  const link = element('a', { href: URL.createObjectURL(blob), download: name });
  document.body.append(link);
  link.click();
  link.remove();
  setTimeout(() => URL.revokeObjectURL(link.href), 600000);
}

/** Saves lines as the program prints them. */
function saveLines(lines, what) {
  const name = /^[A-Z0-9_]{1,16}$/.test(open.directory.id) ? open.directory.id : 'disc';
  const all = new Blob([lines.join('\n'), lines.length ? '\n' : ''], { type: 'application/x-ndjson' });
  download(all, `${name}-${what}.jsonl`);
}

/** A folder that is written as the program makes it, below a handle of the File System Access API. */
class Folder {
  constructor(top) {
    this.folders = new Map([['', Promise.resolve(top)]]);
    this.files = new Map();
  }

  at(path) {
    if (!this.folders.has(path)) {
      const made = this.at(folderOf(path)).then((above) => above.getDirectoryHandle(nameOf(path), { create: true }));
      made.catch(() => {});
      this.folders.set(path, made);
    }
    return this.folders.get(path);
  }

  folder(path) { this.at(path); }

  create(number, path) {
    const made = this.at(folderOf(path)).then((above) => above.getFileHandle(nameOf(path), { create: true }))
      .then((file) => file.createWritable());
    made.catch(() => {});
    this.files.set(number, made);
  }

  /** Gives up what was begun and not ended. */
  leave() {
    for (const made of this.files.values()) made.then((file) => file.abort()).catch(() => {});
    this.files.clear();
  }

  async write(number, bytes) { await (await this.files.get(number)).write(bytes); }

  async close(number) {
    await (await this.files.get(number)).close();
    this.files.delete(number);
  }
}
