"""A browser that is driven by the WebDriver protocol: chromedriver as a process of our own, and what a person does with a mouse and keys."""
import base64
import http.client
import json
import os
import signal
import socket
import subprocess
import time

ELEMENT = "element-6066-11e4-a52e-4f735466cecf"  # the name under which the protocol hands on an element
PATIENCE = 60  # seconds after which the browser no longer answers
KEYS = {"Enter": "\ue007", "Tab": "\ue004", "Space": " ", "ArrowLeft": "\ue012", "ArrowUp": "\ue013", "ArrowRight": "\ue014",
        "ArrowDown": "\ue015", "Home": "\ue011", "End": "\ue010", "Shift": "\ue008", "Escape": "\ue00c", "PageUp": "\ue00e"}


class Wrong(Exception):
    """The browser cannot do what it is asked for."""


def free_port():
    with socket.socket() as trial:
        trial.bind(("127.0.0.1", 0))
        return trial.getsockname()[1]


class Driver:
    """chromedriver and one browser without a window. All that they write is in a folder that whoever starts them takes away."""

    def __init__(self, folder):
        self.folder = folder
        self.browser = 0
        self.session = ""
        port = free_port()
        around = dict(os.environ, TMPDIR=folder, HOME=folder)
        self.process = subprocess.Popen(["chromedriver", f"--port={port}", "--log-level=OFF"], env=around, start_new_session=True,
                                        stdin=subprocess.DEVNULL, stdout=subprocess.DEVNULL, stderr=subprocess.DEVNULL)
        self.line = http.client.HTTPConnection("127.0.0.1", port, timeout=PATIENCE)

    def __enter__(self):
        try:
            self.until(self.is_ready, "chromedriver does not start")
            self.begin()
        except BaseException:
            self.close()
            raise
        return self

    def __exit__(self, *why):
        self.close()

    def is_ready(self):
        try:
            return self.ask("GET", "/status")["ready"]
        except OSError:
            self.line.close()
            return False

    def begin(self):
        words = ["--headless=new", "--disable-dev-shm-usage", "--force-device-scale-factor=1", "--window-size=1280,1000",
                 f"--user-data-dir={self.folder}/profile", "--no-first-run"]
        if os.geteuid() == 0:
            words.append("--no-sandbox")
        wanted = {"goog:chromeOptions": {"args": words}, "goog:loggingPrefs": {"browser": "ALL", "performance": "ALL"}}
        begun = self.ask("POST", "/session", {"capabilities": {"alwaysMatch": wanted}})
        self.session = "/session/" + begun["sessionId"]
        self.browser = begun["capabilities"].get("goog:processID", 0)
        self.version = begun["capabilities"]["browserVersion"]

    def close(self):
        """The browser goes first; whatever does not go is ended by its own number."""
        try:
            if self.session and self.process.poll() is None:
                self.line.close()
                self.line.timeout = 10
                self.ask("DELETE", self.session)
        except (OSError, http.client.HTTPException, Wrong):
            pass
        self.process.terminate()
        try:
            self.process.wait(10)
        except subprocess.TimeoutExpired:
            self.process.kill()
            self.process.wait()
        if self.browser and self.is_browser():
            os.kill(self.browser, signal.SIGKILL)

    def is_browser(self):
        """Whether the number is still that of our browser, and of no other process."""
        try:
            with open(f"/proc/{self.browser}/cmdline", "rb") as file:
                return self.folder.encode() in file.read()
        except OSError:
            return False

    def ask(self, method, path, body=None):
        text = None if method == "GET" else json.dumps(body or {})
        self.line.request(method, path, text, {"Content-Type": "application/json"})
        answer = self.line.getresponse()
        value = json.loads(answer.read())["value"]
        if answer.status != 200:
            raise Wrong(f"{value.get('error')}: {value.get('message', '').splitlines()[0]}")
        return value

    def get(self, path):
        return self.ask("GET", self.session + path)

    def post(self, path, **body):
        return self.ask("POST", self.session + path, body)

    def open(self, address):
        self.post("/url", url=address)

    def script(self, text, *given):
        """What JavaScript in the page returns."""
        return self.post("/execute/sync", script=text, args=list(given))

    def devtools(self, command, **given):
        return self.post("/goog/cdp/execute", cmd=command, params=given)

    def log(self, kind):
        """What came to a log since it was read last."""
        return self.post("/se/log", type=kind)

    def find(self, selector):
        return self.post("/element", using="css selector", value=selector)[ELEMENT]

    def click(self, selector):
        self.post(f"/element/{self.find(selector)}/click")

    def type(self, selector, text):
        self.post(f"/element/{self.find(selector)}/value", text=text)

    def clear(self, selector):
        self.post(f"/element/{self.find(selector)}/clear")

    def press(self, *names):
        """Keys, one after the other, to whatever has the focus; `Shift+Tab` is both at once."""
        actions = []
        for name in names:
            held = [KEYS.get(one, one) for one in name.split("+")] if len(name) > 1 else [name]
            actions += [{"type": "keyDown", "value": key} for key in held]
            actions += [{"type": "keyUp", "value": key} for key in reversed(held)]
        self.post("/actions", actions=[{"type": "key", "id": "keys", "actions": actions}])

    def drag(self, selector, share):
        """The mouse is pressed on an element, at a share of its width from its left, and let go."""
        box = self.get(f"/element/{self.find(selector)}/rect")
        where = {"type": "pointerMove", "origin": {ELEMENT: self.find(selector)}, "x": int(box["width"] * (share - 0.5)), "y": 0}
        actions = [where, {"type": "pointerDown", "button": 0}, {"type": "pointerUp", "button": 0}]
        self.post("/actions", actions=[{"type": "pointer", "id": "mouse", "actions": actions}])

    def picture(self):
        return base64.b64decode(self.get("/screenshot"))

    def until(self, is_so, why, patience=PATIENCE):
        """Waits until it is so, and hands on what it then is."""
        end = time.monotonic() + patience
        while not (got := is_so()):
            if time.monotonic() > end:
                raise Wrong(why)
            time.sleep(0.01)
        return got
