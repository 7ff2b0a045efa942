// Runs the program: its module in a worker, which has the names of the files, and asks the page for their bytes.

let compiled;

/** The module, which stands in this page in Base64 of gzip. It is unpacked once. */
function programModule() {
  compiled ??= (async () => {
    const packed = Uint8Array.from(atob($('module').textContent.trim()), (it) => it.charCodeAt(0));
    const stream = new Blob([packed]).stream().pipeThrough(new DecompressionStream('gzip'));
    return WebAssembly.compile(await new Response(stream).arrayBuffer());
  })();
  return compiled;
}

// What a person reads where a run ends without a status.
const FAILED = {
  memory: 'The browser gave the program no more memory. Close other tabs or programs, and try again.',
  trap: 'The program ended before it was done: what it was given is beyond what it can take in this browser.',
  line: 'One entry of this disc is longer than this page can show.',
  host: 'This page met an error of its own, and ended the program.',
  silent: 'The browser ended the program. Close other tabs or programs, and try again.',
};

/** A name of the system's for what a browser says where a file can't be read or written. */
function errorName(error) {
  const names = { NotFoundError: 'ENOENT', NotReadableError: 'EIO', NotAllowedError: 'EACCES', SecurityError: 'EACCES',
    QuotaExceededError: 'ENOSPC' };
  return Object.hasOwn(names, error?.name) ? names[error.name] : 'EIO';
}

/** Path, size and time of each file, in turns: Chromium asks the system for those of one file after another. */
async function described(files) {
  const all = [];
  let until = performance.now() + TURN;
  for (const { path, file } of files) {
    all.push([path, file.size, file.lastModified]);
    if (performance.now() < until) continue;
    await turn();
    until = performance.now() + TURN;
  }
  return all;
}

/** One run of the program. `done` answers { status, opened, .. }, or { failed } with the words why there is none. */
class Run {
  /**
   * `on` has what is called with what comes: lines(list), errors(list), progress({ bytes, opened }); and, where it
   * makes files, folder(path), create(made, path), write(made, bytes) and close(made, size), which may be async. It may
   * have `ahead`, which reads the files.
   */
  constructor(words, files, on) {
    Object.assign(this, { words, files, on });
    this.isStopped = false;
    this.done = new Promise((settle) => { this.settle = settle; });
    this.start().catch((error) => this.end({ failed: FAILED.host, text: String(error) }));
  }

  async start() {
    const module = await programModule(), files = await described(this.files);
    if (this.isStopped) return;
    const source = new Blob([$('worker').textContent], { type: 'text/javascript' });
    this.source = URL.createObjectURL(source);
    this.worker = new Worker(this.source);
    this.worker.onerror = (event) => {
      event.preventDefault?.();
      this.end({ failed: FAILED.silent, text: event.message });
    };
    this.worker.onmessageerror = () => this.end({ failed: FAILED.host, text: 'a message could not be read' });
    this.worker.onmessage = (event) => this.take(event.data);
    this.worker.postMessage({ kind: 'run', module, words: this.words, files });
  }

  /** Ends it at once; what it made so far is to be thrown away. */
  stop() {
    this.isStopped = true;
    this.end({ isStopped: true });
  }

  end(result) {
    this.worker?.terminate();
    if (this.source) URL.revokeObjectURL(this.source);
    this.settle(result);
  }

  take(message) {
    if (this.isStopped) return;
    switch (message.kind) {
      case 'lines': (message.of === 'out' ? this.on.lines : this.on.errors)?.(message.lines); break;
      case 'progress': this.on.progress?.(message); break;
      case 'read': this.give(message); break;
      case 'folder': this.on.folder?.(message.path); break;
      case 'create': this.on.create?.(message.made, message.path); break;
      case 'write': this.answer(() => this.on.write?.(message.made, message.bytes)); break;
      case 'close': this.answer(() => this.on.close?.(message.made, message.size)); break;
      case 'end': this.end(message); break;
      default: this.end({ failed: FAILED[message.why] || FAILED.host, text: message.text });
    }
  }

  async give({ file, from, to }) {
    try {
      const { ahead } = this.on;
      const piece = ahead ? await ahead.read(file, from, to)
        : { bytes: await this.files[file].file.slice(from, to).arrayBuffer() };
      this.worker.postMessage({ kind: 'piece', ...piece }, [piece.bytes]);
    } catch (error) {
      this.worker.postMessage({ kind: 'piece', error: errorName(error) });
    }
  }

  async answer(work) {
    try {
      await work();
      this.worker.postMessage({ kind: 'done' });
    } catch (error) {
      this.worker.postMessage({ kind: 'done', error: errorName(error) });
    }
  }
}
