"""Chromium, driven by the pipe of its debugging protocol, and Firefox, driven by Marionette, each with a page that has a peer."""
import json
import os
import shutil
import socket
import subprocess
import tempfile
import time

HERE = os.path.dirname(os.path.abspath(__file__))
PAGE = "file://" + os.path.join(HERE, "page.html")
SECONDS = 600


class Refused(Exception):
    """A stack refused a description, or could not make one."""


class Page:
    """What both browsers have: calls of the page's peer. `evaluate` is of each browser."""

    def call(self, name, *rest):
        said = json.loads(self.evaluate(f"run({json.dumps(name)}, {json.dumps(rest)})"))
        if "error" in said:
            raise Refused(said["error"])
        return said["done"]

    def begin(self):
        self.call("begin")

    def offer(self, changes):
        return self.call("offer", changes)

    def answer(self, text):
        return self.call("answer", text)

    def take(self, text):
        self.call("take", text)

    def rows(self):
        return self.call("rows")


class Chromium(Page):
    name = "Chromium"
    SNAP = "--force-fieldtrials=WebRTC-Sctp-Snap/Enabled/"

    def __init__(self, *flags):
        self.folder = tempfile.mkdtemp(prefix="interop-chromium-")
        theirs, self.out = os.pipe()
        self.into, ours = os.pipe()
        words = ["chromium", "--headless=new", "--no-sandbox", "--disable-gpu", "--no-first-run", "--remote-debugging-pipe",
                 "--user-data-dir=" + self.folder, "--disable-background-networking", "--disable-component-update", "--disable-sync",
                 "--allow-loopback-in-peer-connection", "--autoplay-policy=no-user-gesture-required", *flags, "about:blank"]
        # The browser reads commands from the descriptor 3, and writes to 4. Not each shell takes a descriptor of two digits.
        shell = ["bash", "-c", f'exec "$@" 3<&{theirs} 4>&{ours}', "bash", *words]
        self.process = subprocess.Popen(shell, pass_fds=(theirs, ours), stdout=subprocess.DEVNULL, stderr=subprocess.DEVNULL)
        os.close(theirs)
        os.close(ours)
        self.count, self.read, self.session = 0, b"", None
        self.version = self.command("Browser.getVersion")["product"].split("/")[1]
        target = self.command("Target.createTarget", url="about:blank")["targetId"]
        self.session = self.command("Target.attachToTarget", targetId=target, flatten=True)["sessionId"]
        self.command("Page.enable")
        self.command("Page.navigate", url=PAGE)
        for _ in range(100):
            if self.evaluate("typeof run === 'function' ? 'ready' : ''") == "ready":
                return
            time.sleep(0.1)
        raise RuntimeError("the page of Chromium is not there")

    def command(self, method, **params):
        self.count += 1
        message = {"id": self.count, "method": method, "params": params}
        if self.session:
            message["sessionId"] = self.session
        data = json.dumps(message).encode() + b"\0"
        while data:
            data = data[os.write(self.out, data[:50000]):]
        while True:
            while b"\0" not in self.read:
                more = os.read(self.into, 1 << 20)
                if not more:
                    raise RuntimeError("Chromium has ended")
                self.read += more
            one, self.read = self.read.split(b"\0", 1)
            reply = json.loads(one)
            if reply.get("id") == self.count:
                if "error" in reply:
                    raise RuntimeError(str(reply["error"]))
                return reply["result"]

    def evaluate(self, code):
        reply = self.command("Runtime.evaluate", expression=code, awaitPromise=True, returnByValue=True)
        if "exceptionDetails" in reply:
            raise RuntimeError(json.dumps(reply["exceptionDetails"])[:300])
        return reply["result"].get("value")

    def end(self):
        end_process(self.process, self.folder)


class Firefox(Page):
    name = "Firefox"
    SETTINGS = {
        "media.peerconnection.ice.loopback": True, "media.peerconnection.ice.obfuscate_host_addresses": False,
        "media.autoplay.default": 0, "app.update.enabled": False, "network.captive-portal-service.enabled": False,
        "network.connectivity-service.enabled": False, "datareporting.policy.dataSubmissionEnabled": False,
        "security.fileuri.strict_origin_policy": False, "media.gmp-manager.updateEnabled": False, "marionette.port": 2828,
    }

    def __init__(self):
        self.folder = tempfile.mkdtemp(prefix="interop-firefox-")
        with open(os.path.join(self.folder, "user.js"), "w", encoding="utf-8") as file:
            for name, value in self.SETTINGS.items():
                file.write(f"user_pref({json.dumps(name)}, {json.dumps(value)});\n")
        words = ["firefox-esr", "--headless", "--marionette", "--no-remote", "--profile", self.folder]
        surroundings = {**os.environ, "HOME": self.folder, "MOZ_HEADLESS": "1", "MOZ_CRASHREPORTER_DISABLE": "1"}
        self.process = subprocess.Popen(words, stdout=subprocess.DEVNULL, stderr=subprocess.DEVNULL, env=surroundings)
        self.socket = self.connect()
        self.socket.settimeout(SECONDS)
        self.count, self.read = 0, b""
        self.message()
        self.version = self.command("WebDriver:NewSession", {})["capabilities"]["browserVersion"]
        self.command("WebDriver:SetTimeouts", {"script": SECONDS * 1000, "pageLoad": SECONDS * 1000})
        self.command("WebDriver:Navigate", {"url": PAGE})

    @staticmethod
    def connect():
        for _ in range(300):
            try:
                return socket.create_connection(("127.0.0.1", 2828), 2)
            except OSError:
                time.sleep(0.2)
        raise RuntimeError("Firefox does not listen")

    # A message is its length, a colon, and JSON.
    def message(self):
        while b":" not in self.read:
            self.more()
        length, self.read = self.read.split(b":", 1)
        while len(self.read) < int(length):
            self.more()
        text, self.read = self.read[:int(length)], self.read[int(length):]
        return json.loads(text)

    def more(self):
        data = self.socket.recv(1 << 20)
        if not data:
            raise RuntimeError("Firefox has ended")
        self.read += data

    def command(self, name, params):
        self.count += 1
        data = json.dumps([0, self.count, name, params]).encode()
        self.socket.sendall(b"%d:%s" % (len(data), data))
        reply = self.message()
        if reply[2]:
            raise RuntimeError(json.dumps(reply[2])[:300])
        value = reply[3]
        return value["value"] if isinstance(value, dict) and set(value) == {"value"} else value

    def evaluate(self, code):
        script = ("const done = arguments[arguments.length - 1], page = window.wrappedJSObject || window;"
                  f"Promise.resolve(page.eval({json.dumps(code)})).then(done, error => done(JSON.stringify({{ error: String(error) }})));")
        return self.command("WebDriver:ExecuteAsyncScript", {"script": script, "args": []})

    def end(self):
        end_process(self.process, self.folder)


def end_process(process, folder):
    process.terminate()
    try:
        process.wait(10)
    except subprocess.TimeoutExpired:
        process.kill()
        process.wait()
    shutil.rmtree(folder, ignore_errors=True)
