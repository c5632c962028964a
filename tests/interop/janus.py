"""Janus, asked over HTTP: its echo test answers offers, and its mountpoints are offered by its streaming plugin."""
import json
import os
import shutil
import subprocess
import tempfile
import time
import urllib.error
import urllib.request

from browsers import Refused, SECONDS

HERE = os.path.dirname(os.path.abspath(__file__))
URL = "http://127.0.0.1:8088/janus"
SETTINGS = {
    "janus.jcfg": """general: {{ configs_folder = "{0}" loggers_folder = "{0}" events_folder = "{0}"
plugins_folder = "{1}/plugins" transports_folder = "{1}/transports" debug_level = 4 }}
certificates: {{}}
media: {{}}
nat: {{ full_trickle = false }}
plugins: {{ disable = "libjanus_sip.so,libjanus_nosip.so,libjanus_lua.so,libjanus_duktape.so,libjanus_voicemail.so" }}
transports: {{ disable = "libjanus_websockets.so,libjanus_pfunix.so,libjanus_rabbitmq.so,libjanus_mqtt.so,libjanus_nanomsg.so" }}
""",
    "janus.transport.http.jcfg": """general: {{ base_path = "/janus" http = true port = 8088 ip = "127.0.0.1" https = false }}
admin: {{ admin_http = false }}
""",
    "janus.plugin.streaming.jcfg": "general: {{}}\n",
    "janus.plugin.echotest.jcfg": "general: {{}}\n",
}
FOLDER = "/usr/lib/x86_64-linux-gnu/janus"
CODECS = {"audio": (111, "opus"), "video": (100, "vp8")}


class Janus:
    name = "Janus"
    SIDES = ("ours",)  # in random sessions

    def __init__(self):
        self.folder, self.count, self.handle, self.offered = tempfile.mkdtemp(prefix="interop-janus-"), 0, None, None
        for name, text in SETTINGS.items():
            with open(os.path.join(self.folder, name), "w", encoding="utf-8") as file:
                file.write(text.format(self.folder, FOLDER))
        shown = os.path.join(self.folder, "devices.so")
        subprocess.run(["cc", "-shared", "-fPIC", "-o", shown, os.path.join(HERE, "devices.c"), "-ldl"], check=True)
        self.opener = urllib.request.build_opener(urllib.request.ProxyHandler({}))
        words = ["janus", "-F", self.folder, "-C", os.path.join(self.folder, "janus.jcfg"), "-o"]
        surroundings = {**os.environ, "LD_PRELOAD": shown}
        self.process = subprocess.Popen(words, stdout=subprocess.DEVNULL, stderr=subprocess.DEVNULL, env=surroundings)
        for _ in range(100):
            try:
                self.version = self.ask("/info")["version_string"]
                return
            except (urllib.error.URLError, OSError):
                time.sleep(0.2)
        raise RuntimeError("Janus does not listen")

    def ask(self, path, body=None):
        self.count += 1
        data = json.dumps({**body, "transaction": str(self.count)}).encode() if body else None
        asked = urllib.request.Request(URL + path, data, {"Content-Type": "application/json"})
        with self.opener.open(asked, timeout=SECONDS) as reply:
            said = json.load(reply)
        if isinstance(said, dict) and said.get("janus") == "error":
            raise Refused(said["error"]["reason"])
        return said

    # A handle of a plugin, in a session of its own.
    def attach(self, plugin):
        session = "/" + str(self.ask("", {"janus": "create"})["data"]["id"])
        made = self.ask(session, {"janus": "attach", "plugin": "janus.plugin." + plugin})
        self.handle = (session, f"{session}/{made['data']['id']}")

    # Sends a request to the plugin, with a description or without, and returns what the plugin says.
    def request(self, body, jsep=None):
        session, path = self.handle
        said = self.ask(path, {"janus": "message", "body": body, **({"jsep": jsep} if jsep else {})})
        while said.get("janus") not in ("event", "success"):
            events = self.ask(f"{session}?maxev=1")
            said = events[0] if isinstance(events, list) else events
            if said.get("janus") == "keepalive":
                raise Refused("no event")
        data = said["plugindata"]["data"]
        if "error" in data:
            raise Refused(data["error"])
        return data, said.get("jsep", {}).get("sdp")

    def begin(self):
        self.handle = self.offered = None

    def answer(self, text):
        if self.offered is not None:
            raise ValueError("a mountpoint takes no offer")
        jsep = {"type": "offer", "sdp": text, **({"update": True} if self.handle else {})}
        if self.handle is None:
            self.attach("echotest")
        answer = self.request({"audio": True, "video": True}, jsep)[1]
        if answer is None:
            raise Refused("no answer")
        return answer

    # What a mountpoint sends.
    @staticmethod
    def medium(place, change):
        if change[0] == "channel":
            return {"type": "data", "mid": f"d{place}", "label": "c", "port": 0}
        number, codec = (0, "pcmu") if change[0] == "codec" else CODECS[change[0]]
        return {"type": change[1] if change[0] == "codec" else change[0], "mid": f"m{place}", "label": "m", "port": 0, "pt": number,
                "codec": codec}

    def offer(self, changes):
        if changes == [("restart",)]:
            return self.request({"request": "watch", "id": self.offered, "restart": True})[1]
        if self.handle is not None:
            raise ValueError("offers once, and takes no offer then")
        self.attach("streaming")
        media = [self.medium(place, change) for place, change in enumerate(changes)]
        made, _ = self.request({"request": "create", "type": "rtp", "media": media})
        self.offered = made["stream"]["id"]
        return self.request({"request": "watch", "id": self.offered})[1]

    def take(self, text):
        self.request({"request": "start"}, {"type": "answer", "sdp": text})

    def rows(self):
        return []  # it has no call for current directions

    def end(self):
        self.process.terminate()
        try:
            self.process.wait(10)
        except subprocess.TimeoutExpired:
            self.process.kill()
            self.process.wait()
        shutil.rmtree(self.folder, ignore_errors=True)
