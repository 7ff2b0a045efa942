"""Browsers, each opened without a window and driven in the same way: Chromium by chromium-driver, Firefox by
Marionette, WebKitGTK by webkit2gtk-driver."""
import base64
import json
import os
import pathlib
import shutil
import signal
import socket
import subprocess
import tempfile
import time

# Seconds that a page may take for what it is asked.
LONGEST = 1800

# What each test uses in the page. Scripts answer by an attribute, since Firefox keeps those of a test apart from the
# page.
HELPERS = """
window.testing = {
  saved: [],
  file(path, data) {
    const made = new File([Uint8Array.from(atob(data), (it) => it.charCodeAt(0))], path.split('/').pop());
    Object.defineProperty(made, 'webkitRelativePath', { value: path.includes('/') ? path : '' });
    return made;
  },
  give(id, files) {
    const input = document.getElementById(id);
    Object.defineProperty(input, 'files', { value: files, configurable: true });
    input.dispatchEvent(new Event('change', { bubbles: true }));
    delete input.files;
  },
  click: (id) => document.getElementById(id).click(),
  search(words) {
    const field = document.getElementById('search');
    field.value = words;
    field.dispatchEvent(new Event('input'));
  },
  isShown: (id) => Boolean(document.getElementById(id)?.offsetParent ?? null),
  text: (id) => document.getElementById(id).innerText.trim(),
  async until(test, what, seconds = 500) {
    const end = performance.now() + 1000 * seconds;
    for (let wait = 2; !test(); wait = Math.min(100, wait * 1.2)) {
      if (performance.now() > end) throw new Error(`waited for ${what}`);
      await new Promise((go) => setTimeout(go, wait));
    }
  },
  // All rows of the tree, by role and name, as they come into view.
  rows() {
    const box = document.getElementById('tree'), found = new Map();
    const height = parseFloat(getComputedStyle(box.firstElementChild).height);
    for (let top = 0; top === 0 || top < height; top += box.clientHeight) {
      box.scrollTop = top;
      box.dispatchEvent(new Event('scroll'));
      for (const it of box.querySelectorAll('[role=treeitem]')) found.set(parseFloat(it.style.top), it);
    }
    return [...found].sort((one, other) => one[0] - other[0]).map(([, it]) => [
      Number(it.getAttribute('aria-level')), Number(it.getAttribute('aria-posinset')),
      Number(it.getAttribute('aria-setsize')), it.getAttribute('aria-expanded'),
      ...['.title', '.count', '.state'].map((part) => it.querySelector(part)?.textContent || '')]);
  },
  async base64(blob) {
    const bytes = new Uint8Array(await blob.arrayBuffer());
    let text = '';
    for (let at = 0; at < bytes.length; at += 32768) {
      text += String.fromCharCode(...bytes.subarray(at, at + 32768));
    }
    return btoa(text);
  },
};
{
  const before = URL.createObjectURL;
  URL.createObjectURL = (blob) => {
    if (blob.type !== 'text/javascript') testing.saved.push(blob);
    return before.call(URL, blob);
  };
  const click = HTMLAnchorElement.prototype.click;
  HTMLAnchorElement.prototype.click = function () {
    if (this.download) testing.name = this.download;
    else click.call(this);
  };
}
"""


class Engine:
    """A browser with the page open. `run(SCRIPT, ..)` runs the body of an async function of the page."""

    def open(self, path):
        self.go(pathlib.Path(path).resolve().as_uri())
        self.inject(HELPERS)

    def inject(self, text):
        self.execute("const made = document.createElement('script'); made.textContent = arguments[0];"
                     "document.documentElement.append(made); made.remove(); return 0", text)

    def run(self, body, *given):
        self.execute("delete document.documentElement.dataset.answer; return 0")
        self.inject("(async (...given) => { " + body + " })(..." + json.dumps(given).replace("<", "\\u003c") + ").then("
                    "(it) => ({ it }), (error) => ({ error: `${error} ${error && error.stack}` })).then("
                    "(answer) => { document.documentElement.dataset.answer = JSON.stringify(answer); })")
        end = time.time() + LONGEST
        while True:
            answer = self.execute("return document.documentElement.dataset.answer || ''")
            if answer:
                break
            if time.time() > end:
                raise RuntimeError(f"{self.name}: no answer of {body[:80]}")
            time.sleep(0.02)
        answer = json.loads(answer)
        if "error" in answer:
            raise RuntimeError(f"{self.name}: {answer['error']} in {body[:200]}")
        return answer.get("it")

    def folder(self, field, path):
        """Chooses a folder as File objects of its files, for what no driver can choose."""
        path = pathlib.Path(path)
        files = [[it.relative_to(path.parent).as_posix(), base64.b64encode(it.read_bytes()).decode()]
                 for it in sorted(path.rglob("*")) if it.is_file()]
        self.run("testing.give(given[0], given[1].map(([path, data]) => testing.file(path, data)))", field, files)

    def picture(self, path):
        pathlib.Path(path).write_bytes(base64.b64decode(self.png()))


class Selenium(Engine):
    def go(self, url):
        self.driver.get(url)

    def execute(self, text, *given):
        return self.driver.execute_script(text, *given)

    def png(self):
        return self.driver.get_screenshot_as_base64()

    def press(self, *keys):
        from selenium.webdriver.common.action_chains import ActionChains
        actions = ActionChains(self.driver)
        for key in keys:
            actions.send_keys(key)
        actions.perform()

    def close(self):
        self.driver.quit()

    def folder(self, field, path):
        self.driver.find_element("id", field).send_keys(str(pathlib.Path(path).resolve()))


class Chromium(Selenium):
    name = "Chromium"

    def __init__(self, width=1200, height=900, words=()):
        from selenium import webdriver
        from selenium.webdriver.chrome.service import Service
        options = webdriver.ChromeOptions()
        options.binary_location = "/usr/bin/chromium"
        # As root in a container it has neither a sandbox nor much of /dev/shm.
        for word in ("--headless=new", "--no-sandbox", "--disable-gpu", "--disable-dev-shm-usage", "--no-first-run",
                     f"--window-size={width},{height}", *words):
            options.add_argument(word)
        self.driver = webdriver.Chrome(service=Service("/usr/bin/chromedriver"), options=options)
        self.driver.set_script_timeout(LONGEST)

    def metrics(self, width, height, scale=1):
        self.driver.execute_cdp_cmd("Emulation.setDeviceMetricsOverride",
                                    dict(width=width, height=height, deviceScaleFactor=scale, mobile=False))

    def colours(self, scheme):
        self.driver.execute_cdp_cmd("Emulation.setEmulatedMedia",
                                    dict(features=[dict(name="prefers-color-scheme", value=scheme)]))

    def before(self, script):
        """Runs a script in each page that is opened, before its own."""
        self.driver.execute_cdp_cmd("Page.addScriptToEvaluateOnNewDocument", dict(source=script))


class WebKit(Selenium):
    name = "WebKitGTK"

    def __init__(self):
        from selenium import webdriver
        from selenium.webdriver.webkitgtk.options import Options
        self.screen = subprocess.Popen(["Xvfb", "-displayfd", "1", "-screen", "0", "1280x1000x24", "-nolisten", "tcp"],
                                       stdout=subprocess.PIPE, stderr=subprocess.DEVNULL)
        os.environ["DISPLAY"] = ":" + self.screen.stdout.readline().decode().strip()
        os.environ["WEBKIT_DISABLE_SANDBOX_THIS_IS_DANGEROUS"] = "1"
        os.environ.setdefault("XDG_RUNTIME_DIR", tempfile.gettempdir())
        options = Options()
        options.binary_location = next(str(it) for it in pathlib.Path("/usr/lib").glob("*/webkit2gtk-4.*/MiniBrowser"))
        options.add_argument("--automation")
        self.driver = webdriver.WebKitGTK(executable_path="/usr/bin/WebKitWebDriver", options=options)
        self.driver.set_script_timeout(LONGEST)

    folder = Engine.folder

    def close(self):
        try:
            super().close()
        finally:
            self.screen.terminate()
            self.screen.wait(30)


class Firefox(Engine):
    name = "Firefox"

    def __init__(self):
        with socket.socket() as free:
            free.bind(("127.0.0.1", 0))
            port = free.getsockname()[1]
        self.profile = tempfile.mkdtemp()
        pathlib.Path(self.profile, "user.js").write_text(
            f'user_pref("marionette.port", {port});\nuser_pref("app.update.enabled", false);\n'
            'user_pref("datareporting.policy.dataSubmissionEnabled", false);\n')
        self.process = subprocess.Popen(
            ["firefox-esr", "--headless", "--marionette", "--profile", self.profile, "--no-remote"],
            stdout=subprocess.DEVNULL, stderr=subprocess.DEVNULL, start_new_session=True,
            env={**os.environ, "HOME": self.profile})
        for _ in range(240):
            try:
                self.socket = socket.create_connection(("127.0.0.1", port))
                break
            except OSError:
                time.sleep(0.5)
        self.buffer, self.count = b"", 0
        self.receive()
        self.command("WebDriver:NewSession", capabilities={})

    def receive(self):
        while b":" not in self.buffer:
            self.buffer += self.socket.recv(65536)
        length, _, rest = self.buffer.partition(b":")
        parts = [rest]
        have = len(rest)
        while have < int(length):
            parts.append(self.socket.recv(1 << 20))
            have += len(parts[-1])
        rest = b"".join(parts)
        self.buffer = rest[int(length):]
        return json.loads(rest[:int(length)])

    def command(self, name, **given):
        self.count += 1
        message = json.dumps([0, self.count, name, given]).encode()
        self.socket.sendall(str(len(message)).encode() + b":" + message)
        _, _, error, answer = self.receive()
        if error:
            raise RuntimeError(f"Firefox: {name}: {str(error)[:500]}")
        return answer

    def go(self, url):
        self.command("WebDriver:Navigate", url=url)

    def execute(self, text, *given):
        return self.command("WebDriver:ExecuteScript", script=text, args=list(given))["value"]

    def png(self):
        return self.command("WebDriver:TakeScreenshot", full=False, hash=False)["value"]

    def close(self):
        try:
            self.command("Marionette:Quit", flags=["eForceQuit"])
        except (RuntimeError, OSError, ValueError):
            os.killpg(self.process.pid, signal.SIGTERM)
        self.process.wait(60)
        shutil.rmtree(self.profile, ignore_errors=True)


ENGINES = {"chromium": Chromium, "firefox": Firefox, "webkit": WebKit}
