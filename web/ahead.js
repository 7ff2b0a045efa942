// Reads the files that a run will want next while the program still works on others. A browser takes as long to begin
// to read a small file as the program takes for it; so many are read in one request.

// The most files of a batch, and about the most bytes; the bytes of a file that the worker asks for first.
const MOST_FILES = 64, MOST_BYTES = 4 << 20, FIRST_PIECE = 1 << 18;
// After so many guesses less than half of them have to be wrong.
const TRIAL = 8;
// It stands behind each file of a batch: what got longer or shorter since it was chosen moves it.
const MARK = crypto.getRandomValues(new Uint8Array(16));

/** Has each file of a batch the length that it had? */
function isMarked(bytes, parts) {
  const length = parts[parts.length - 1][2] + MARK.length;
  if (bytes.byteLength !== length) return false;
  return parts.every(([, , end]) => new Uint8Array(bytes, end, MARK.length).every((it, n) => it === MARK[n]));
}

class Ahead {
  /**
   * Of these files. A check reads all of each, in the order of their paths; else of each the head is read, in the
   * order in which they stand.
   */
  constructor(files, isCheck) {
    this.files = files;
    this.mostOfOne = isCheck ? MOST_BYTES : FIRST_PIECE;
    this.order = [...files.keys()];
    if (isCheck) this.order.sort((one, other) => (files[one].path < files[other].path ? -1 : 1));
    this.ranks = [];
    this.order.forEach((file, rank) => { this.ranks[file] = rank; });
    this.next = null;
    this.room = 1;
    this.guesses = 0;
    this.hits = 0;
    this.alone = new Set();
  }

  /**
   * The bytes of a file from one place to another. Where it is read from its start they may be more, and of several
   * files: then `parts` has [file, start, end] of each.
   */
  async read(file, from, to) {
    const { file: whole } = this.files[file];
    if (from > 0) return { bytes: await whole.slice(from, to).arrayBuffer() };
    const batch = this.batchOf(file), bytes = await batch.bytes;
    if (bytes) return { bytes, parts: batch.parts };
    for (const [one] of batch.parts) this.alone.add(one);
    return { bytes: await whole.slice(0, to).arrayBuffer() };
  }

  /** The batch that has a file. The next one is begun, with twice as many files after each right guess. */
  batchOf(file) {
    const isGuessed = Boolean(this.next?.parts.some(([one]) => one === file));
    this.hits += isGuessed;
    this.room = isGuessed ? Math.min(2 * this.room, MOST_FILES) : 1;
    const batch = isGuessed ? this.next : this.begin(this.ranks[file], 1);
    const isWrong = this.guesses > TRIAL && 2 * this.hits < this.guesses;
    this.next = isWrong || batch.end === this.order.length ? null : this.begin(batch.end, this.room);
    this.guesses += Boolean(this.next);
    return batch;
  }

  /** Begins to read so many files. Its bytes are null where one of them can't be read, or has another length by now. */
  begin(rank, room) {
    const parts = [], pieces = [];
    let end = rank, length = 0;
    for (; end < this.order.length && parts.length < room; end++) {
      const file = this.order[end], { file: whole } = this.files[file];
      const size = whole.size > this.mostOfOne ? FIRST_PIECE : whole.size;
      const isFull = length + size > MOST_BYTES || this.alone.has(file) || this.alone.has(this.order[rank]);
      if (parts.length > 0 && isFull) break;
      parts.push([file, length, length + size]);
      // A slice takes the browser as long as a file.
      pieces.push(size < whole.size ? whole.slice(0, size) : whole, MARK);
      length += size + MARK.length;
    }
    const bytes = new Blob(pieces).arrayBuffer().then((all) => (isMarked(all, parts) ? all : null), () => null);
    return { end, parts, bytes };
  }
}
