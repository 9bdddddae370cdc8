"""A headless Chromium, driven by the DevTools protocol over a pipe: no port, no package.

    with Browser() as browser:
        page = browser.open("out.html", width=1440, height=900, scheme="dark")
        page.click("[data-r='1']")
        page.screenshot("out.png")
"""

import base64
import json
import os
import select
import shutil
import subprocess
import tempfile

PROBES = os.path.join(os.path.dirname(os.path.abspath(__file__)), "probes.js")
NAMES = ("chromium", "chromium-browser", "google-chrome")
PATIENCE = 600      # seconds after which a browser that says nothing has hung

KEYS = {"Enter": (13, "\r"), "Escape": (27, ""), "Tab": (9, ""), " ": (32, " "),
        "ArrowLeft": (37, ""),
        "ArrowUp": (38, ""), "ArrowRight": (39, ""), "ArrowDown": (40, ""), "Home": (36, ""),
        "End": (35, "")}


FONTS = """<?xml version="1.0"?><!DOCTYPE fontconfig SYSTEM "fonts.dtd">
<fontconfig>{}<cachedir>{}</cachedir></fontconfig>"""


class Browser:
    """One process. It reads commands from descriptor 3 and answers on 4; a zero byte ends each.

    Where folders of fonts are given, it has these fonts and no others.
    """

    def __init__(self, fonts=()):
        program = next(filter(None, map(shutil.which, NAMES)), None)
        if program is None:
            raise SystemExit("no Chromium is found; Debian has it: apt-get install chromium")
        self.profile = tempfile.TemporaryDirectory(prefix="nll-page-browser.",
                                                   ignore_cleanup_errors=True)
        to_browser, from_us = os.pipe()
        from_browser, to_us = os.pipe()

        def descriptors():
            os.dup2(os.dup(to_browser), 3)
            os.dup2(os.dup(to_us), 4)

        environment = {**os.environ, **self.only(fonts)}
        # The ends go to 3 and 4 by way of higher numbers, so that neither covers the other.
        to_browser, to_us = raised(to_browser), raised(to_us)
        self.process = subprocess.Popen(
            [program, "--headless=new", "--remote-debugging-pipe", "--no-sandbox", "--disable-gpu",
             "--hide-scrollbars", "--disable-dev-shm-usage", "--disable-ipc-flooding-protection", f"--user-data-dir={self.profile.name}",
             "about:blank"],
            pass_fds=(3, 4, to_browser, to_us), preexec_fn=descriptors, env=environment,
            stdin=subprocess.DEVNULL, stdout=subprocess.DEVNULL, stderr=subprocess.DEVNULL)
        os.close(to_browser)
        os.close(to_us)
        self.writes = os.fdopen(from_us, "wb", buffering=0)
        self.reads = os.fdopen(from_browser, "rb", buffering=0)
        self.count = 0
        self.rest = b""
        self.events = []

    def only(self, fonts):
        """The variable that names the fonts."""
        if not fonts:
            return {}
        path = os.path.join(self.profile.name, "fonts.conf")
        with open(path, "w", encoding="utf-8") as file:
            file.write(FONTS.format("".join(f"<dir>{folder}</dir>" for folder in fonts), self.profile.name))
        return {"FONTCONFIG_FILE": path}

    def __enter__(self):
        return self

    def __exit__(self, *_):
        try:
            self.call("Browser.close")
        except (OSError, EOFError):
            pass
        try:
            self.process.wait(60)
        except subprocess.TimeoutExpired:
            self.process.kill()
            self.process.wait()
        self.writes.close()
        self.reads.close()
        self.profile.cleanup()

    def message(self):
        while b"\0" not in self.rest:
            if not select.select([self.reads], [], [], PATIENCE)[0]:
                self.process.kill()
                raise EOFError("the browser hung")
            piece = os.read(self.reads.fileno(), 1 << 16)
            if not piece:
                raise EOFError("the browser ended")
            self.rest += piece
        text, self.rest = self.rest.split(b"\0", 1)
        return json.loads(text)

    def call(self, method, session=None, **parameters):
        """Sends a command and waits for its answer; events that come before it are kept."""
        self.count += 1
        command = {"id": self.count, "method": method, "params": parameters}
        if session:
            command["sessionId"] = session
        self.writes.write(json.dumps(command).encode() + b"\0")
        while True:
            answer = self.message()
            if answer.get("id") == self.count:
                if "error" in answer:
                    raise RuntimeError(f"{method}: {answer['error']['message']}")
                return answer.get("result", {})
            self.events.append(answer)

    def wait_for_load(self, loader):
        """Waits until this document is loaded: not the empty one before it, whose event may come late."""
        def is_it(event):
            told = event.get("params", {})
            return (event.get("method"), told.get("name"), told.get("loaderId")) == ("Page.lifecycleEvent", "load", loader)

        while not any(map(is_it, self.events)):
            self.events.append(self.message())

    def open(self, path, width=1440, height=900, scheme="light", fragment="", metrics=False):
        target = self.call("Target.createTarget", url="about:blank")["targetId"]
        session = self.call("Target.attachToTarget", targetId=target, flatten=True)["sessionId"]
        if metrics:
            self.call("Performance.enable", session, timeDomain="threadTicks")
        page = Page(self, session, "file://" + os.path.abspath(path) + fragment, width, height, scheme)
        page.target = target
        return page


def raised(descriptor):
    import fcntl
    high = fcntl.fcntl(descriptor, fcntl.F_DUPFD, 20)
    os.close(descriptor)
    return high


class Page:
    """One tab."""

    def __init__(self, browser, session, address, width, height, scheme):
        self.browser = browser
        self.session = session
        for domain in ("Page", "Runtime", "Log", "Network"):
            self.call(f"{domain}.enable")
        self.call("Page.setLifecycleEventsEnabled", enabled=True)
        self.call("Emulation.setDeviceMetricsOverride", width=width, height=height,
                  deviceScaleFactor=1, mobile=False)
        self.use(scheme)
        browser.events.clear()
        answer = self.call("Page.navigate", url=address)
        if "errorText" in answer:
            raise RuntimeError(f"{address}: {answer['errorText']}")
        browser.wait_for_load(answer["loaderId"])
        with open(PROBES, encoding="utf-8") as file:
            self.value(file.read())

    def call(self, method, **parameters):
        return self.browser.call(method, self.session, **parameters)

    def value(self, script):
        """What the expression is in the page."""
        answer = self.call("Runtime.evaluate", expression=script, returnByValue=True,
                           awaitPromise=True)
        if "exceptionDetails" in answer:
            raise RuntimeError(answer["exceptionDetails"].get("exception", {}).get("description",
                                                                                   script))
        return answer["result"].get("value")

    def seconds(self):
        """The main thread's time for the page so far, where `metrics` were asked for."""
        found = {metric["name"]: metric["value"] for metric in self.call("Performance.getMetrics")["metrics"]}
        return found["TaskDuration"]

    def asked_for(self):
        """The addresses of what was loaded so far."""
        return [event["params"]["request"]["url"] for event in self.browser.events
                if event.get("method") == "Network.requestWillBeSent"]

    def complaints(self):
        """What the page's script raised and its console told, so far."""
        return [event["params"] for event in self.browser.events
                if event.get("method") in ("Runtime.exceptionThrown", "Runtime.consoleAPICalled",
                                           "Log.entryAdded")]

    def probe(self, name, *arguments):
        """The answer of one of the functions in `probes.js`."""
        return self.value(f"probe.{name}({', '.join(map(json.dumps, arguments))})")

    def resize(self, width, height):
        self.call("Emulation.setDeviceMetricsOverride", width=width, height=height,
                  deviceScaleFactor=1, mobile=False)

    def click(self, selector):
        """A press and release of the mouse in the middle of the first node that is in sight."""
        middle = self.probe("middle", selector)
        if middle is None:
            raise RuntimeError(f"nothing in sight is {selector}")
        for kind in ("mousePressed", "mouseReleased"):
            self.call("Input.dispatchMouseEvent", type=kind, x=middle[0], y=middle[1],
                      button="left", clickCount=1)

    def key(self, name, shift=False):
        code, text = KEYS.get(name, (ord(name.upper()[0]), name))
        shared = {"key": name, "windowsVirtualKeyCode": code, "modifiers": 8 if shift else 0}
        if len(name) > 1:
            shared["code"] = name
        self.call("Input.dispatchKeyEvent", type="keyDown", **shared,
                  **({"text": text} if text else {}))
        self.call("Input.dispatchKeyEvent", type="keyUp", **shared)

    def hold(self, name, more):
        """A key that is pressed, and comes again so many times before it is let go."""
        for time in range(1 + more):
            self.call("Input.dispatchKeyEvent", type="keyDown", key=name, text=name, autoRepeat=time > 0)
        self.call("Input.dispatchKeyEvent", type="keyUp", key=name)

    def use(self, scheme):
        """Light or dark, as the system would ask for it."""
        self.call("Emulation.setEmulatedMedia", features=[{"name": "prefers-color-scheme", "value": scheme}])

    def close(self):
        self.browser.call("Target.closeTarget", targetId=self.target)

    def screenshot(self, path, clip=None):
        more = {"clip": {**clip, "scale": 1}} if clip else {}
        answer = self.call("Page.captureScreenshot", format="png", **more)
        with open(path, "wb") as file:
            file.write(base64.b64decode(answer["data"]))
