"""pion, in a program of Go that is compiled over Debian's packages."""
import json
import os
import shutil
import subprocess
import tempfile

from browsers import Refused

HERE = os.path.dirname(os.path.abspath(__file__))


class Pion:
    name = "pion"

    def __init__(self):
        self.folder = tempfile.mkdtemp(prefix="interop-pion-")
        program = os.path.join(self.folder, "peer")
        self.compile(os.path.join(self.folder, "src", "peer"), program)
        asked = ["dpkg-query", "-W", "-f", "${Version}", "golang-github-pion-webrtc.v3-dev"]
        said = subprocess.run(asked, stdout=subprocess.PIPE, check=True)
        self.version = said.stdout.decode().split("-")[0]
        self.process = subprocess.Popen([program], stdin=subprocess.PIPE, stdout=subprocess.PIPE, stderr=subprocess.DEVNULL)

    # Beside a go.mod, and in a tree of GOPATH, a path with a major version denotes a package without one in its name, as Debian has it.
    def compile(self, source, program):
        os.makedirs(source)
        shutil.copy(os.path.join(HERE, "pion.go"), source)
        with open(os.path.join(source, "go.mod"), "w", encoding="utf-8") as file:
            file.write("module peer\n")
        surroundings = {**os.environ, "GO111MODULE": "off", "GOPATH": self.folder + ":/usr/share/gocode",
                        "GOCACHE": os.path.join(self.folder, "cache")}
        if subprocess.run(["go", "build", "-o", program, "."], cwd=source, env=surroundings, check=False).returncode != 0:
            raise RuntimeError("pion's program is not compiled")

    def call(self, name, **rest):
        self.process.stdin.write(json.dumps({"name": name, **rest}).encode() + b"\n")
        self.process.stdin.flush()
        line = self.process.stdout.readline()
        if not line:
            raise RuntimeError("pion's program has ended")
        reply = json.loads(line)
        if "error" in reply:
            raise Refused(reply["error"])
        return reply["done"]

    def begin(self):
        self.call("begin")

    def offer(self, changes):
        return self.call("offer", changes=changes)

    def answer(self, text):
        return self.call("answer", text=text)

    def take(self, text):
        self.call("take", text=text)

    def rows(self):
        return []  # it has no call for current directions

    def end(self):
        self.process.stdin.close()
        self.process.wait()
        shutil.rmtree(self.folder, ignore_errors=True)
