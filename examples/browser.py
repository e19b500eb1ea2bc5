"""A headless chromium, driven over its own protocol: pages are opened and looked at, real keys and the mouse are pressed."""

import base64
import json
import os
import shutil
import socket
import subprocess
import sys
import threading
import time
import urllib.request

PARTS = ("age", "asking", "course", "desk", "free", "labels", "link", "lists", "main", "motion", "picture", "plan", "profile", "words")
CODES = {"Enter": 13, "Escape": 27, "Tab": 9, "Home": 36, "ArrowUp": 38, "ArrowDown": 40, "ArrowLeft": 37, "ArrowRight": 39, "Backspace": 8}


def find():
    """The browser: what CHROMIUM names, else the one on the path, or None."""
    return os.environ.get("CHROMIUM") or shutil.which("chromium")


class Page:
    """A page of the browser, over a WebSocket by RFC 6455."""

    def __init__(self, url):
        host, _, path = url[len("ws://") :].partition("/")
        name, _, port = host.partition(":")
        self.socket = socket.create_connection((name, int(port)))
        self.stream = self.socket.makefile("rb")
        key = base64.b64encode(os.urandom(16)).decode()
        head = "GET /%s HTTP/1.1\r\nHost: %s\r\nUpgrade: websocket\r\nConnection: Upgrade\r\n"
        head += "Sec-WebSocket-Key: %s\r\nSec-WebSocket-Version: 13\r\n\r\n"
        self.socket.sendall((head % (path, host, key)).encode())
        while self.stream.readline().strip():
            pass
        self.asked = 0
        self.faults = []
        self.traced = []

    def ask(self, method, **params):
        """Sends a command of the browser, and gives its result."""
        self.asked += 1
        content = json.dumps({"id": self.asked, "method": method, "params": params}).encode()
        self.socket.sendall(b"\x81\xff" + len(content).to_bytes(8, "big") + bytes(4) + content)
        while True:
            answer = self.event()
            if answer.get("id") == self.asked:
                return answer["result"]

    def event(self):
        """The next thing that the browser tells; faults of the page and what is traced are kept."""
        answer = json.loads(self.message())
        told, params = answer.get("method"), answer.get("params", {})
        if told == "Runtime.exceptionThrown":
            self.faults.append(params["exceptionDetails"].get("exception", {}).get("description") or params["exceptionDetails"]["text"])
        elif told == "Log.entryAdded" and params["entry"]["level"] == "error":
            self.faults.append(params["entry"]["text"])
        elif told == "Tracing.dataCollected":
            self.traced.extend(params["value"])
        return answer

    def message(self):
        """The next message, its fragments joined."""
        parts = b""
        while True:
            first, size = self.stream.read(2)
            if size == 126:
                size = int.from_bytes(self.stream.read(2), "big")
            elif size == 127:
                size = int.from_bytes(self.stream.read(8), "big")
            parts += self.stream.read(size)
            if first & 0x80:
                return parts

    def value(self, expression):
        """What the page makes of an expression, in which its modules are named as their files are."""
        result = self.ask("Runtime.evaluate", expression=expression, returnByValue=True, awaitPromise=True)
        if "exceptionDetails" in result:
            sys.exit("the page failed at %s: %s" % (expression, result["exceptionDetails"]))
        return result["result"].get("value")

    def until(self, what, expression, wanted=True, seconds=60):
        """Waits until an expression has a value, and says so; gives the seconds that it took."""
        seen, begun = None, time.monotonic()
        while time.monotonic() - begun < seconds:
            seen = self.value(expression)
            if seen == wanted:
                print("%s: %s" % (what, seen), flush=True)
                return time.monotonic() - begun
            time.sleep(0.1)
        sys.exit("%s: %s, and not %s; the page says %r" % (what, seen, wanted, self.value("document.body.innerText")))

    def open(self, address):
        """Opens the page anew, at no address of a server yet, and gives its modules their names."""
        self.ask("Page.navigate", url=address)
        self.until("the page", "document.readyState === 'complete' && document.title", "mtcd position")
        imports = ", ".join("import(new URL('position/%s.js', location.href).href)" % name for name in PARTS)
        self.value("Promise.all([%s]).then((all) => { [%s] = all; return true; })" % (imports, ", ".join("globalThis.%s" % name for name in PARTS)))

    def size(self, width, height):
        self.ask("Emulation.setDeviceMetricsOverride", width=width, height=height, deviceScaleFactor=1, mobile=False)

    def text(self, name):
        return self.value("document.getElementById(%s).textContent" % json.dumps(name))

    def fill(self, name, text):
        """Puts a text into a field."""
        self.value("document.getElementById(%s).value = %s" % (json.dumps(name), json.dumps(text)))

    def click(self, name):
        """Clicks what has that name, by the mouse."""
        self.click_on("document.getElementById(%s)" % json.dumps(name))

    def click_on(self, expression):
        """Clicks in the middle of an element, by the mouse."""
        x, y = self.value(
            "(() => { const one = %s; one.scrollIntoView({ block: 'nearest' }); const box = one.getBoundingClientRect();"
            " return [box.left + box.width / 2, box.top + box.height / 2]; })()" % expression
        )
        self.click_at(x, y)

    def click_at(self, x, y):
        """Presses the mouse at a place of the page."""
        for kind in ("mouseMoved", "mousePressed", "mouseReleased"):
            self.ask("Input.dispatchMouseEvent", type=kind, x=x, y=y, button="none" if kind == "mouseMoved" else "left", clickCount=1)

    def key(self, name):
        """Presses a key where the focus is: one by its name, or a letter."""
        code = CODES.get(name)
        if code is None:
            self.ask("Input.dispatchKeyEvent", type="keyDown", key=name, text=name)
        else:
            more = {"text": "\r"} if name == "Enter" else {}
            self.ask("Input.dispatchKeyEvent", type="keyDown", key=name, code=name, windowsVirtualKeyCode=code, **more)
        self.ask("Input.dispatchKeyEvent", type="keyUp", key=name)

    def type(self, text):
        for letter in text:
            self.key(letter)

    def picture(self, file):
        """What is seen, as a file."""
        with open(file, "wb") as out:
            out.write(base64.b64decode(self.ask("Page.captureScreenshot")["data"]))

    def without_faults(self, expected=()):
        """Looks that the page had no fault but those that are expected."""
        faults = [fault for fault in self.faults if not any(one in fault for one in expected)]
        if faults:
            sys.exit("the page had faults: %s" % faults)
        self.faults.clear()
        print("faults of the page: none" + (" but those expected" if expected else ""), flush=True)

    def script_of_frames(self, seconds):
        """The milliseconds of the processor that the script of each drawn frame took in so many seconds, in order.

        A frame in which nothing had moved by half a pixel isn't drawn, so the longest ones are looked at, as many as the page has drawn."""
        self.traced.clear()
        self.value("main.frames.length = 0")
        self.ask("Tracing.start", categories="devtools.timeline", transferMode="ReportEvents")
        time.sleep(seconds)
        drawn = self.value("main.frames.length")
        self.ask("Tracing.end")
        while self.event().get("method") != "Tracing.tracingComplete":
            pass
        return sorted(one["tdur"] / 1000 for one in self.traced if one["name"] == "FireAnimationFrame" and "tdur" in one)[-drawn:]


class Browser:
    """The browser; it keeps what it stores in a folder."""

    def __init__(self, folder):
        options = ["--headless", "--disable-gpu", "--remote-debugging-port=0", "--user-data-dir=" + folder]
        if os.geteuid() == 0:
            options.append("--no-sandbox")
        self.process = subprocess.Popen([find()] + options, stderr=subprocess.PIPE, text=True)
        for line in self.process.stderr:
            if "DevTools listening on " in line:
                self.port = int(line.split("127.0.0.1:")[1].split("/")[0])
                break
        else:
            sys.exit("the browser doesn't start")
        threading.Thread(target=self.process.stderr.read, daemon=True).start()

    def page(self, width=1500, height=950):
        request = urllib.request.Request("http://127.0.0.1:%d/json/new?about:blank" % self.port, method="PUT")
        with urllib.request.urlopen(request) as answer:
            page = Page(json.load(answer)["webSocketDebuggerUrl"])
        for domain in ("Runtime", "Log", "Page"):
            page.ask(domain + ".enable")
        page.size(width, height)
        return page

    def end(self):
        self.process.terminate()
        self.process.wait()
