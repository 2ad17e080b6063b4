"""Pages as headless Chromium shows them: pictures, what stands wider than the window, and what axe-core finds. Over the browser's pipe, so that no port is opened.

axe-core (https://github.com/dequelabs/axe-core, MPL 2.0) isn't a part of this repository. Chromium has it in its own tools for developers, inside Lighthouse,
and it is taken from there when it is asked for.
"""
import base64
import ctypes
import ctypes.util
import hashlib
import json
import os
import re
import select
import shutil
import struct
import subprocess
import sys
import tempfile

BROWSERS = ("chromium", "chromium-browser", "google-chrome")
PATIENCE = 120
# How the copy of axe-core begins that Lighthouse has, as a text between backquotes.
AXE_INSIDE = re.compile(rb"`/\*! axe v(?:[^`\\]|\\.)*`", re.DOTALL)


def browser_here():
    """The path of a browser; none where there is none."""
    return next(filter(None, map(shutil.which, BROWSERS)), None)


class Broken(Exception):
    """The browser said that something can't be done, or nothing at all."""


class Browser:
    """A browser without a window, with one page open. It goes by the DevTools protocol, whose messages end with a NUL byte each."""

    def __init__(self):
        self.folder = tempfile.mkdtemp(prefix="cbi browser ")
        words = [browser_here(), "--headless=new", "--no-sandbox", "--disable-gpu", "--disable-dev-shm-usage", "--hide-scrollbars", "--no-first-run", f"--user-data-dir={self.folder}", "--remote-debugging-pipe", "about:blank"]
        # The browser reads from descriptor 3 and writes to 4.
        self.engine = subprocess.Popen(["bash", "-c", 'exec "$0" "$@" 3<&0 4>&1 </dev/null >/dev/null 2>&1', *words], stdin=subprocess.PIPE, stdout=subprocess.PIPE, stderr=subprocess.DEVNULL)
        self.asked, self.session, self.read = 0, None, b""
        target = self.ask("Target.createTarget", url="about:blank")["targetId"]
        self.session = self.ask("Target.attachToTarget", targetId=target, flatten=True)["sessionId"]
        self.ask("Page.enable")

    def __enter__(self):
        return self

    def __exit__(self, *_):
        self.engine.stdin.close()
        try:
            self.engine.wait(10)
        except subprocess.TimeoutExpired:
            self.engine.kill()
            self.engine.wait()
        self.engine.stdout.close()
        shutil.rmtree(self.folder, ignore_errors=True)

    def next(self):
        """The next message."""
        while b"\0" not in self.read:
            if not select.select([self.engine.stdout], [], [], PATIENCE)[0]:
                raise Broken(f"the browser said nothing for {PATIENCE} s")
            piece = os.read(self.engine.stdout.fileno(), 1 << 20)
            if not piece:
                raise Broken("the browser ended")
            self.read += piece
        message, self.read = self.read.split(b"\0", 1)
        return json.loads(message)

    def ask(self, method, **given):
        """Has the browser do something; answers what it says to that."""
        self.asked += 1
        words = {"id": self.asked, "method": method, "params": given, **({"sessionId": self.session} if self.session else {})}
        self.engine.stdin.write(json.dumps(words).encode() + b"\0")
        self.engine.stdin.flush()
        while True:
            said = self.next()
            if said.get("id") == self.asked:
                if "error" in said:
                    raise Broken(f"{method}: {said['error'].get('message')}")
                return said["result"]

    def show(self, path, width, height, dark=False, scale=1):
        """Opens a page in a window of this size, light or dark."""
        self.ask("Emulation.setDeviceMetricsOverride", width=width, height=height, deviceScaleFactor=scale, mobile=width < 500)
        self.ask("Emulation.setEmulatedMedia", features=[{"name": "prefers-color-scheme", "value": "dark" if dark else "light"}])
        self.ask("Page.navigate", url="file://" + os.path.abspath(path).replace(" ", "%20"))
        self.evaluate("new Promise(done => document.readyState === 'complete' ? done() : addEventListener('load', done))")

    def evaluate(self, script):
        """The value of an expression in the page, of a promise when it comes."""
        said = self.ask("Runtime.evaluate", expression=script, awaitPromise=True, returnByValue=True)
        if "exceptionDetails" in said:
            raise Broken(json.dumps(said["exceptionDetails"])[:500])
        return said["result"].get("value")

    def picture(self, path, whole=False):
        """A picture of the window, or of the whole page."""
        more = {"captureBeyondViewport": True, "clip": {"x": 0, "y": 0, "width": self.evaluate("innerWidth"), "height": self.evaluate("document.documentElement.scrollHeight"), "scale": 1}} if whole else {}
        with open(path, "wb") as file:
            file.write(base64.b64decode(self.ask("Page.captureScreenshot", format="png", **more)["data"]))

    def printed(self, path):
        """The page on paper, as PDF."""
        with open(path, "wb") as file:
            file.write(base64.b64decode(self.ask("Page.printToPDF", printBackground=False, preferCSSPageSize=True, paperWidth=8.27, paperHeight=11.69)["data"]))

    def too_wide(self):
        """What stands beyond the right edge of the window: how wide the page is, and the elements."""
        return self.evaluate("""(() => {
            const most = document.documentElement.clientWidth, wide = document.documentElement.scrollWidth;
            const out = [...document.querySelectorAll('body *')].filter(one => one.getBoundingClientRect().right > most + 1 && !one.classList.contains('skip'));
            return [wide > most ? wide : 0, out.slice(0, 5).map(one => one.tagName + '.' + one.className + ' ' + one.textContent.slice(0, 40))];
        })()""")

    def axe(self, source):
        """What axe-core finds against its rules, each with the elements; and how many rules were met."""
        self.evaluate(f"(0, eval)({source}); 1")
        return self.evaluate("axe.run(document, {resultTypes: ['violations', 'incomplete', 'passes']}).then(found => ({version: axe.version, met: found.passes.length, "
                             "violations: found.violations.map(one => [one.id, one.nodes.slice(0, 3).map(node => node.html + ' ' + node.failureSummary)]), "
                             "unsure: found.incomplete.map(one => [one.id, one.nodes.length, one.nodes.slice(0, 3).map(node => node.html + ' ' + (node.any[0] || node.all[0] || node.none[0] || {}).message)])}))")


# axe-core

def axe_core():
    """axe-core's text as an expression of JavaScript, from the browser's own tools; none where it isn't found there."""
    browser = browser_here()
    if browser is None:
        return None
    real = os.path.dirname(os.path.realpath(browser))
    for folder in (real, "/usr/lib/chromium", "/usr/lib/chromium-browser", "/opt/google/chrome"):
        pack = os.path.join(folder, "resources.pak")
        if os.path.exists(pack):
            return axe_in(pack)
    return None


def axe_in(pack):
    """The same, from a file of resources: a table of numbers and places, then the resources, of which long ones are compressed by Brotli behind eight bytes."""
    name = ctypes.util.find_library("brotlidec")
    if name is None:
        return None
    unpack = ctypes.CDLL(name).BrotliDecoderDecompress
    with open(pack, "rb") as file:
        data = file.read()
    if struct.unpack_from("<I", data)[0] != 5:
        return None
    count = struct.unpack_from("<H", data, 8)[0]
    places = [struct.unpack_from("<HI", data, 12 + 6 * number)[1] for number in range(count + 1)]
    for start, end in zip(places, places[1:]):
        if data[start:start + 2] != b"\x1e\x9b":
            continue
        size = ctypes.c_size_t(int.from_bytes(data[start + 2:start + 8], "little"))
        room = ctypes.create_string_buffer(size.value)
        if unpack(ctypes.c_size_t(end - start - 8), data[start + 8:end], ctypes.byref(size), room) == 1:
            found = AXE_INSIDE.search(room.raw)
            if found:
                return found[0].decode("utf-8")
    return None


# The pictures of a page

PICTURES = (("hunt", 1200, 1190, False, 1), ("hunt-dark", 1200, 1190, True, 1), ("hunt-phone", 375, 1300, False, 1))


def sum_of(page):
    """The SHA-256 of a page but for what made it, which has the day: by it pictures are told apart that are of an earlier page."""
    with open(page, encoding="utf-8") as file:
        return hashlib.sha256(re.sub('<section id="made">.*?</section>', "", file.read(), flags=re.DOTALL).encode()).hexdigest()


def main(page, folder):
    """Makes the pictures of a page in a folder, with the page on paper as hunt.pdf and the sum of the page; the status says whether axe-core finds nothing."""
    source, found = axe_core(), 0
    with Browser() as browser:
        for name, width, height, dark, scale in PICTURES:
            browser.show(page, width, height, dark, scale)
            browser.picture(os.path.join(folder, name + ".png"))
            wide, _ = browser.too_wide()
            said = browser.axe(source) if source else None
            told = f"axe-core {said['version']}: {len(said['violations'])} violations, {said['met']} rules met" if said else "axe-core is skipped, since this browser has none in its tools for developers"
            print(f"docs/{name}.png: {told}" + (f"; wider than the window: {wide}" if wide else ""))
            found += len(said["violations"]) if said else 0
            found += bool(wide)
        browser.show(page, 1200, 900)
        browser.printed(os.path.join(folder, "hunt.pdf"))
    with open(os.path.join(folder, "hunt.sha256"), "w", encoding="utf-8") as file:
        file.write(sum_of(page) + "\n")
    return 1 if found else 0


if __name__ == "__main__":
    sys.exit(main(*sys.argv[1:]))
