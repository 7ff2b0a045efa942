"""What the page refuses, and what the browser refuses the page."""
import http.server
import threading

import wanted
from engines import Chromium
from steps import encoded, leave, open_disc, page, program, same, top, try_disc

# Measures how long the page stands still.
GAPS = """
testing.gaps = [0];
let last = performance.now();
testing.timer = setInterval(() => {
  const now = performance.now();
  testing.gaps.push(now - last);
  last = now;
}, 10);
"""


def try_huge(engine):
    """A directory of zeros, and one with a value that no line of the page can have: both end in words, and soon."""
    for name, words in (("zeros", "51 File 21 NotPart10"),
                        ("value", "One entry of this disc is longer than this page can show.")):
        engine.run(GAPS)
        open_disc(engine, top / name)
        said, gap = engine.run("clearInterval(testing.timer);"
                               "return [testing.text('refused'), Math.max(...testing.gaps)]")
        same(f"{name}: what is said", True, words in said)
        same(f"{name}: the page stood still for less than a second", True, gap < 1000)
    print(f"{engine.name}: huge directories end in words")


# Opens directories one after another, and answers of each the fault that it shows, or its counts and the number of
# elements that only markup of the disc can have made.
MANY = """
const answers = [];
for (const data of given[0]) {
  testing.give('choose', [testing.file('D/DICOMDIR', data)]);
  await testing.until(() => testing.isShown('check') || testing.isShown('refused'), 'the list');
  const fault = document.querySelector('#refused .fault code') || document.getElementById('refused');
  const markup = '#tree img, #tree script, #details img, #details script';
  answers.push(testing.isShown('refused') ? fault.textContent :
    [document.getElementById('disc-counts').textContent, document.querySelectorAll(markup).length]);
  testing.click('another');
}
return answers;
"""


def counts(lines):
    """What the page says below the name of a disc."""
    records = [line for line in lines if line["line"] == "RECORD"]

    def counted(number, one, many):
        return f"{number:,} {one if number == 1 else many}"
    of = {kind: sum(line["type"] == kind for line in records) for kind in ("PATIENT", "STUDY", "SERIES", "IMAGE")}
    said = [counted(of["PATIENT"], "patient", "patients"), counted(of["STUDY"], "study", "studies"),
            counted(of["SERIES"], "series", "series"), counted(of["IMAGE"], "image", "images")]
    withdrawn = sum(line["line"] == "WITHDRAWN" for line in lines)
    unreached = lines[-1]["unreached"]
    said += [counted(withdrawn, "image", "images") + " withdrawn"] * bool(withdrawn)
    said += [counted(unreached, "record", "records") + " out of reach"] * bool(unreached)
    said += ["an empty directory"] * (not records)
    return " · ".join(said)


def try_hostile(engine):
    """Directories that were made to harm: each is shown or refused as the program does."""
    paths = sorted((top / "hostile").iterdir())
    if engine.name != "Chromium":
        paths = paths[::20]
    # Nothing is painted, which would take longer than all else.
    engine.run("document.body.style.visibility = 'hidden'")
    for at in range(0, len(paths), 100):
        some = paths[at:at + 100]
        found = engine.run(MANY, [encoded(path / "DICOMDIR") for path in some])
        for path, answer in zip(some, found):
            status, lines, errors = wanted.answer(program, "list", "--long", "--json", path)
            if status == 0:
                same(f"hostile {path.name}", [counts(wanted.objects(lines)), 0], answer)
            else:
                same(f"hostile {path.name}", wanted.objects(errors)[0]["fault"]["words"], answer)
    print(f"{engine.name}: {len(paths)} hostile directories are listed or refused as by the program")


# Tries to send to an address in each way that a page has, and answers what became of those that say so.
SEND = """
const at = given[0], said = {};
const settled = async (name, promise) => { said[name] = await promise.then(() => 'sent', () => 'refused'); };
const loaded = (it, more) => new Promise((go, no) => { Object.assign(it, { onload: go, onerror: no }); more(it); });
const element = (name, more) => Object.assign(document.createElement(name), more);
const added = (it) => document.head.append(it);

await settled('fetch', fetch(at + 'fetch', { mode: 'no-cors' }));
await settled('request', loaded(new XMLHttpRequest(), (it) => { it.open('GET', at + 'xhr'); it.send(); }));
await settled('image', loaded(new Image(), (it) => { it.src = at + 'image'; }));
await settled('style', loaded(element('link', { rel: 'stylesheet', href: at + 'style' }), added));
await settled('script', loaded(element('script', { src: at + 'script' }), added));
await settled('socket', new Promise((go, no) => {
  Object.assign(new WebSocket(at.replace('http', 'ws')), { onopen: go, onerror: no });
}));
// Whether a beacon is sent the server alone can say.
try { navigator.sendBeacon(at + 'beacon', 'x'); } catch { }

const frame = element('iframe', { src: at + 'frame' });
document.body.append(frame);
const text = `fetch('${at}worker', { mode: 'no-cors' }).then(() => postMessage('sent'), () => postMessage('refused'))`;
const worker = new Worker(URL.createObjectURL(new Blob([text], { type: 'text/javascript' })));
said.worker = await new Promise((go) => {
  worker.onmessage = (event) => go(event.data);
  worker.onerror = () => go('refused');
});

const form = element('form', { action: at + 'form', method: 'post' });
document.body.append(form);
// Firefox throws where a form is refused.
for (const send of ['submit', 'requestSubmit']) try { form[send](); } catch { }
const link = element('a', { href: at + 'link', textContent: 'x' });
document.body.append(link);
link.dispatchEvent(new MouseEvent('click', { bubbles: true, cancelable: true, view: window }));
await new Promise((go) => setTimeout(go, 1000));
for (const it of [frame, form, link]) it.remove();
return said;
"""


def try_network(engine):
    """The browser refuses the page each connection."""
    asked = []

    class Server(http.server.BaseHTTPRequestHandler):
        def do_GET(self):
            asked.append(self.path)
            self.send_response(200)
            self.end_headers()
        do_POST = do_GET

        def log_message(self, *_):
            pass
    server = http.server.ThreadingHTTPServer(("127.0.0.1", 0), Server)
    threading.Thread(target=server.serve_forever, daemon=True).start()
    said = engine.run(SEND, f"http://127.0.0.1:{server.server_port}/")
    server.shutdown()
    same("what the page could send", {name: "refused" for name in (
        "fetch", "request", "image", "style", "script", "socket", "worker")}, said)
    same("what the server was asked", [], asked)
    same("the page stands", True, engine.run("return testing.isShown('first')"))
    print(f"{engine.name}: fetch, request, image, style, script, socket, beacon, frame, worker, form and link are "
          "refused")


# Gives each run of the program so much memory.
LIMIT = """
const before = testing.before = Worker.prototype.postMessage;
Worker.prototype.postMessage = function (message, list) {
  return before.call(this, message.kind === 'run' ? { ...message, memory: given[0] } : message, list || []);
};
"""
BROKEN_WORKER = """
testing.worker = document.getElementById('worker').textContent;
document.getElementById('worker').textContent = 'onmessage = () => { throw new Error("broken") }';
"""


def try_memory(engine):
    """A worker without memory, and one that traps, end in words; then the next disc opens."""
    engine.run(LIMIT, 12 << 20)
    open_disc(engine, top / ("large" if engine.name == "Chromium" else "damaged"))
    said = engine.run("return testing.isShown('refused') ? testing.text('refused') : ''")
    if engine.name == "Chromium":
        same("little memory", True, "91 Memory" in said or "memory" in said)
    engine.run("Worker.prototype.postMessage = testing.before; testing.click('another')")
    # A worker that fails by itself.
    engine.run(BROKEN_WORKER)
    open_disc(engine, top / "readme")
    said = engine.run("return testing.text('refused')")
    same("a worker that fails", True, "The browser ended the program." in said)
    engine.run("document.getElementById('worker').textContent = testing.worker")
    leave(engine)
    try_disc(engine, top / "readme", ["This disc is whole: all 3 files are there and unchanged.", "good"],
             is_short=True)
    print(f"{engine.name}: a run without memory and one that fails end in words")


# What a browser lacks, what Chromium is started with, and what is done before the page's scripts.
LACKED = (("DecompressionStream", (), "delete window.DecompressionStream"),
          ("WebAssembly SIMD", ("--js-flags=--no-enable-sse4-1",), ""))


def try_lacking(_):
    """A browser that can't says so in a sentence."""
    for lacked, words, script in LACKED:
        one = Chromium(words=words)
        try:
            one.before(script)
            one.go(page.as_uri())
            same("what an old browser says",
                 f"This browser can’t run the page, as it lacks {lacked}: open it in a current Chrome, Edge, Firefox "
                 "or Safari.",
                 one.execute("const lines = document.body.innerText.split('\\n');"
                             "return lines.filter((it) => it.startsWith('This browser'))[0]"))
        finally:
            one.close()
    print("Chromium: a browser that can't says so")
