"""Drives Chromium by its driver, and Firefox by the protocol that it speaks itself. Run, it names those that are there."""
import base64
import json
import os
import shutil
import socket
import subprocess
import tempfile
import time
import urllib.error
import urllib.request
from pathlib import Path

# Of each command of WebDriver the path for Chromium's driver; Firefox knows it by name.
PATHS = {"Navigate": "/url", "ExecuteAsyncScript": "/execute/async", "FindElement": "/element", "SetTimeouts": "/timeouts",
         "ElementSendKeys": "/element/{id}/value", "PerformActions": "/actions", "TakeScreenshot": "/screenshot"}


class Browser:
    def __init__(self, *words):
        self.folder = tempfile.mkdtemp(prefix="page-")
        with socket.socket() as free:
            free.bind(("127.0.0.1", 0))
            self.port = free.getsockname()[1]
        quiet = {"marionette.port": self.port, "browser.startup.page": 0, "network.captive-portal-service.enabled": False,
                 "network.connectivity-service.enabled": False, "datareporting.policy.dataSubmissionEnabled": False}
        prefs = [f"user_pref({json.dumps(name)}, {json.dumps(value)});\n" for name, value in quiet.items()]
        Path(self.folder, "user.js").write_text("".join(prefs))
        how = {"stdout": subprocess.DEVNULL, "stderr": subprocess.DEVNULL, "env": {**os.environ, "HOME": self.folder}}
        words = [it.format(port=self.port, folder=self.folder) for it in words]
        self.process = subprocess.Popen(words, start_new_session=True, **how)
        for _ in range(600):
            try:
                self.version = self.connect()["capabilities"]["browserVersion"]
                break
            except urllib.error.HTTPError:
                raise
            except OSError:
                time.sleep(0.1)
        self.command("SetTimeouts", script=600_000)

    def __enter__(self):
        return self

    def __exit__(self, *_):
        self.end()
        os.killpg(self.process.pid, 9)
        self.process.wait()
        shutil.rmtree(self.folder, ignore_errors=True)

    def run(self, script, *given):
        """Runs the body of an async function of `given`, and returns what it returns."""
        body = f"const [done, ...given] = [...arguments].reverse(); (async (given) => {{ {script} }})(given.reverse())"
        answer = self.command("ExecuteAsyncScript", script=f"{body}.then((it) => done({{it}}), (it) => done({{error: `${{it}}`}}));", args=given)
        if "error" in answer:
            raise AssertionError(answer["error"])
        return answer.get("it")

    def type(self, selector, text):
        """Types into an element; into that of a file its path."""
        found = self.command("FindElement", using="css selector", value=selector)
        self.command("ElementSendKeys", id=[*found.values()][0], text=text)

    def press(self, key):
        actions = [{"type": it, "value": key} for it in ("keyDown", "keyUp")]
        self.command("PerformActions", actions=[{"type": "key", "id": "keyboard", "actions": actions}])


class Chromium(Browser):
    tools = ["chromium", "chromedriver"]

    def __init__(self):
        super().__init__("chromedriver", "--port={port}")

    def connect(self):
        self.url = f"http://127.0.0.1:{self.port}/session"
        words = ["--headless=new", "--no-sandbox", "--disable-gpu", "--disable-dev-shm-usage"]
        options = {"args": words, "binary": shutil.which("chromium")}
        session = self.ask("", {"capabilities": {"alwaysMatch": {"goog:chromeOptions": options}}})
        self.url += f"/{session['sessionId']}"
        return session

    def ask(self, path, given):
        body = json.dumps(given).encode() if given or not path else None
        with urllib.request.urlopen(urllib.request.Request(self.url + path, body)) as answer:
            return json.load(answer)["value"]

    def end(self):
        urllib.request.urlopen(urllib.request.Request(self.url, method="DELETE")).close()

    def command(self, name, **given):
        return self.ask(PATHS[name].format(**given), given)

    def emulate(self, width=0, scheme=""):
        """Sets the width of the page, and whether it is to be light or dark."""
        told = {"setEmulatedMedia": {"features": [{"name": "prefers-color-scheme", "value": scheme}]}}
        told["setDeviceMetricsOverride"] = {"width": width, "height": 960, "deviceScaleFactor": 1, "mobile": False}
        for name, params in told.items():
            self.ask("/goog/cdp/execute", {"cmd": f"Emulation.{name}", "params": params})

    def shot(self, to):
        Path(to).write_bytes(base64.b64decode(self.command("TakeScreenshot")))


class Firefox(Browser):
    tools = ["firefox-esr"]

    def __init__(self):
        super().__init__("firefox-esr", "--headless", "--no-remote", "--marionette", "--profile", "{folder}", "about:blank")

    def connect(self):
        self.socket, self.last = socket.create_connection(("127.0.0.1", self.port), timeout=30), 0
        self.stream = self.socket.makefile("rb")
        self.receive()
        session = self.command("NewSession", strictFileInteractability=False)
        self.socket.settimeout(None)
        return session

    def end(self):
        self.socket.close()

    def receive(self):
        length = b""
        while not length.endswith(b":"):
            length += self.stream.read(1)
        return json.loads(self.stream.read(int(length[:-1])))

    def command(self, name, **given):
        self.last += 1
        text = json.dumps([0, self.last, f"WebDriver:{name}", given]).encode()
        self.socket.sendall(b"%d:%s" % (len(text), text))
        _, _, error, answer = self.receive()
        if error:
            raise AssertionError(error)
        return answer["value"] if [*answer] == ["value"] else answer

    def emulate(self, width=1000, **_):
        self.command("SetWindowRect", width=width, height=900)


def there():
    return [it for it in (Chromium, Firefox) if all(map(shutil.which, it.tools))]


if __name__ == "__main__":
    print(*(it.__name__ for it in there()))
