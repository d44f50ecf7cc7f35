"""A browser for tests, with the standard library alone: Chromium by chromedriver, over the WebDriver protocol, and
Firefox by its own, Marionette."""
import base64
import contextlib
import json
import os
import pathlib
import shutil
import socket
import subprocess
import tempfile
import time
import urllib.error
import urllib.request

from display import Display

PATIENCE = float(
    os.environ.get("PATIENCE", 60)
)  # seconds that a page may take until it shows what it is to show; a wrong version is given fewer

KEYS = {
    "Home": "\ue011",
    "End": "\ue010",
    "Left": "\ue012",
    "Up": "\ue013",
    "Right": "\ue014",
    "Down": "\ue015",
    "Enter": "\ue007",
    "Escape": "\ue00c",
}

GRACE = 20  # seconds that a driver has to end

# A module of the page's own, which leaves what it gives as text
WITHIN = """
const [script, given] = arguments, made = document.createElement("script"), { dataset } = document.documentElement;
delete dataset.answer;
made.type = "module";
made.textContent = `const given = ${JSON.stringify(given)};
  document.documentElement.dataset.answer = JSON.stringify(await (async () => {${script}})().catch(fault => ({ fault: String(fault) })) ?? null);`;
document.body.append(made);
"""


def pauses():
    """Seconds between looks at a page: more and more, as what hasn't come soon may be long in coming."""
    pause = 0.02
    while True:
        yield pause
        pause = min(1.1 * pause, 0.1)


def is_installed():
    return shutil.which("chromedriver") is not None and shutil.which("chromium") is not None


class Browser:
    TRIES = 4  # a driver finds its port taken, or a busy machine is late
    CARD = ["--disable-gpu"]

    def __init__(self, width=1440, height=960):
        for left in reversed(range(self.TRIES)):
            try:
                return self.begin(width, height)
            except (
                AssertionError,
                ConnectionError,
                TimeoutError,
                urllib.error.URLError,
            ):  # and not where there is no such program
                self.stop()
                if not left:
                    raise

    def begin(self, width, height):
        self.driver = subprocess.Popen(
            ["chromedriver", "--port=0"], stdout=subprocess.PIPE, stderr=subprocess.STDOUT, text=True
        )
        said = []
        while not said or "started successfully" not in said[-1]:
            said.append(self.driver.stdout.readline())
            if not said[-1]:
                raise AssertionError(f"chromedriver ended: {''.join(said)}")
        port = said[-1].strip(". \n").rpartition(" ")[2]  # its own, whoever starts one meanwhile
        self.address = f"http://127.0.0.1:{port}/session"
        words = ["--headless=new", *self.CARD, "--hide-scrollbars", f"--window-size={width},{height}"]
        options = {"binary": shutil.which("chromium"), "args": words + ["--no-sandbox"] * (os.geteuid() == 0)}
        capabilities = {
            "capabilities": {"alwaysMatch": {"goog:chromeOptions": options, "goog:loggingPrefs": {"browser": "ALL"}}}
        }
        self.address += "/" + self.call("", capabilities)["sessionId"]

    def stop(self):
        """Where the driver has ended before its browser, that holds the pipe, and nobody waits for it."""
        self.driver.terminate()
        with contextlib.suppress(subprocess.TimeoutExpired):
            self.driver.communicate(timeout=GRACE)

    def call(self, path, body=None, method=None):
        data = None if body is None else json.dumps(body).encode()
        request = urllib.request.Request(self.address + path, data, {"Content-Type": "application/json"}, method=method)
        try:
            with urllib.request.urlopen(request, timeout=60) as answer:
                return json.load(answer)["value"]
        except urllib.error.HTTPError as error:
            raise AssertionError(json.load(error)["value"]["message"]) from None

    def open(self, address):
        self.call("/url", {"url": address})

    def run(self, script, *arguments):
        return self.call("/execute/sync", {"script": script, "args": list(arguments)})

    def run_to_end(self, script, *arguments):
        """What the script hands to the function that is its last argument."""
        return self.call("/execute/async", {"script": script, "args": list(arguments)})

    def within(self, script, *given, seconds=120):
        """What a script gives that is the page's own, so that it can import the page's scripts and wait. It finds
        `given`."""
        self.run(WITHIN, script, given)
        answer = json.loads(self.until("return document.documentElement.dataset.answer", seconds=seconds))
        if isinstance(answer, dict) and "fault" in answer:
            raise AssertionError(answer["fault"])
        return answer

    def until(self, script, *arguments, seconds=PATIENCE):
        """What the script gives as soon as that is true."""
        end = time.time() + seconds
        for pause in pauses():
            found = self.run(script, *arguments)
            if found:
                return found
            if time.time() > end:
                break
            time.sleep(pause)
        raise AssertionError(f"not within {seconds} s: {script} {arguments}")

    def click_at(self, x, y):
        steps = [
            {"type": "pointerMove", "x": round(x), "y": round(y)},
            {"type": "pointerDown", "button": 0},
            {"type": "pointerUp", "button": 0},
        ]
        self.call("/actions", {"actions": [{"type": "pointer", "id": "mouse", "actions": steps}]})

    def click(self, selector):
        box = self.until(
            "const e = document.querySelector(arguments[0]); if (!e) return null; const b = e.getBoundingClientRect();"
            "return [b.left + b.width / 2, b.top + b.height / 2]",
            selector,
        )
        self.click_at(*box)

    def press(self, *keys):
        steps = [{"type": kind, "value": KEYS.get(key, key)} for key in keys for kind in ("keyDown", "keyUp")]
        self.call("/actions", {"actions": [{"type": "key", "id": "keys", "actions": steps}]})

    def choose(self, selector, path):
        """A file for an input."""
        found = self.call("/element", {"using": "css selector", "value": selector})
        self.call(f"/element/{next(iter(found.values()))}/value", {"text": str(path)})

    def window(self):
        return self.call("/window")

    def new_window(self):
        handle = self.call("/window/new", {"type": "window"})["handle"]
        self.switch_to(handle)
        return handle

    def switch_to(self, handle):
        self.call("/window", {"handle": handle})

    def close_window(self):
        self.call("/window", method="DELETE")

    def picture(self, path):
        with open(path, "wb") as file:
            file.write(base64.b64decode(self.call("/screenshot")))

    def complaints(self):
        return [entry["message"] for entry in self.call("/se/log", {"type": "browser"}) if entry["level"] == "SEVERE"]

    def close(self):
        try:
            self.call("", method="DELETE")
        finally:
            self.stop()


class Firefox(Browser):
    """The same hands on Firefox. It has no log of complaints."""

    COMMANDS = {
        "/url": "Navigate",
        "/refresh": "Refresh",
        "/execute/sync": "ExecuteScript",
        "/execute/async": "ExecuteAsyncScript",
        "/actions": "PerformActions",
        "/element": "FindElement",
        "/screenshot": "TakeScreenshot",
        "/window/rect": "SetWindowRect",
    }
    HEAD, SETTINGS = ["--headless"], {}

    @staticmethod
    def variables():
        return {}

    def begin(self, width, height):
        self.profile = tempfile.TemporaryDirectory(ignore_cleanup_errors=True)
        with open(f"{self.profile.name}/user.js", "w") as settings:
            settings.writelines(
                f'user_pref("{name}", {value});\n' for name, value in {"marionette.port": 0, **self.SETTINGS}.items()
            )
        words = [self.installed(), *self.HEAD, "--marionette", "--no-remote", "--profile", self.profile.name]
        variables = {
            **os.environ,
            "MOZ_HEADLESS_WIDTH": str(width),
            "MOZ_HEADLESS_HEIGHT": str(height),
            **self.variables(),
        }
        self.driver = subprocess.Popen(words, stdout=subprocess.DEVNULL, stderr=subprocess.DEVNULL, env=variables)
        self.line = socket.create_connection(("127.0.0.1", self.port()), 60)
        self.stream = self.line.makefile("rwb")
        self.told()
        self.ask("NewSession", {"capabilities": {"alwaysMatch": {}}})

    def port(self):
        """The port that the browser has taken, as soon as it says so."""
        said, end = pathlib.Path(self.profile.name, "MarionetteActivePort"), time.time() + 60
        while time.time() < end and self.driver.poll() is None:
            if said.exists() and said.read_text():
                return int(said.read_text())
            time.sleep(0.05)
        raise AssertionError("Firefox doesn't start")

    def stop(self):
        self.driver.terminate()
        self.driver.wait()
        self.profile.cleanup()

    @staticmethod
    def installed():
        return shutil.which("firefox-esr") or shutil.which("firefox")

    def told(self):
        length = b""
        while not length.endswith(b":"):
            byte = self.stream.read(1)
            if not byte:
                raise ConnectionError("Firefox ended")
            length += byte
        return json.loads(self.stream.read(int(length[:-1])))

    def ask(self, command, given):
        message = json.dumps([0, 1, f"WebDriver:{command}", given]).encode()
        self.stream.write(b"%d:%s" % (len(message), message))
        self.stream.flush()
        _, _, fault, found = self.told()
        if fault:
            raise AssertionError(fault["message"])
        return found.get("value") if isinstance(found, dict) else found

    def call(self, path, body=None, method=None):
        if path.startswith("/element/"):
            return self.ask("ElementSendKeys", {"id": path.split("/")[2], **body})
        return self.ask(self.COMMANDS[path], body or {"full": False})

    def complaints(self):
        return []

    def close(self):
        self.line.close()
        self.stop()


# ---- Those that draw WebGL, by software
class DrawingChromium(Browser):
    """By SwiftShader."""

    CARD = ["--use-angle=swiftshader", "--enable-unsafe-swiftshader"]


class DrawingFirefox(Firefox):
    """By llvmpipe, which it has at a display alone."""

    HEAD = []
    SETTINGS = {
        "webgl.force-enabled": "true",
        "webgl.enable-debug-renderer-info": "true",
        "webgl.sanitize-unmasked-renderer": "false",
    }
    display = None

    def variables(self):
        self.display = self.display or Display()
        return {
            "DISPLAY": self.display.name,
            "MOZ_HEADLESS": "",
            "LIBGL_ALWAYS_SOFTWARE": "1",
            "GALLIUM_DRIVER": "llvmpipe",
        }

    def close(self):
        try:
            super().close()
        finally:
            self.display.end()
