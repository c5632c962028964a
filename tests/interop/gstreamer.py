"""GStreamer's webrtcbin, in a process of its own, which a failed assertion may end; it wants the Python of Debian's packages."""
import json
import os
import select
import subprocess
import sys
import threading

from browsers import Refused, SECONDS

CAPS = {
    "audio": "application/x-rtp,media=audio,encoding-name=OPUS,payload=97,clock-rate=48000,encoding-params=(string)2",
    "video": "application/x-rtp,media=video,encoding-name=VP8,payload=96,clock-rate=90000",
}


class GStreamer:
    """The process, asked by lines of JSON. If it ends, the session is refused, and the next one has a new process."""
    name = "GStreamer"

    def __init__(self):
        self.process = None
        try:
            self.version = self.call("tell_version")
        except Refused as error:
            raise RuntimeError(str(error)) from error

    # The line that the process replies; nothing if it has ended, or takes too long.
    def ask(self, line):
        try:
            self.process.stdin.write(line.encode() + b"\n")
            self.process.stdin.flush()
        except OSError:
            return b""
        ready, _, _ = select.select([self.process.stdout], [], [], SECONDS)
        return self.process.stdout.readline() if ready else b""

    def call(self, name, *rest):
        if self.process is None:
            self.process = subprocess.Popen([sys.executable, os.path.abspath(__file__)], stdin=subprocess.PIPE, stdout=subprocess.PIPE)
        line = self.ask(json.dumps([name, *rest]))
        if not line:
            self.stop()
            raise Refused("its process has ended")
        said = json.loads(line)
        if "refused" in said:
            raise Refused(said["refused"])
        if "lacks" in said:
            raise ValueError(said["lacks"])
        return said["done"]

    def stop(self):
        self.process.kill()
        self.process.wait()
        self.process = None

    # The last session may have ended the process behind its last reply.
    def begin(self):
        try:
            self.call("begin")
        except Refused:
            self.call("begin")

    def offer(self, changes):
        return self.call("offer", changes)

    def answer(self, text):
        return self.call("answer", text)

    def take(self, text):
        self.call("take", text)

    def rows(self):
        return []  # its current directions are not those of the descriptions

    def end(self):
        if self.process:
            self.stop()


class Webrtcbin:
    def __init__(self):
        import gi
        gi.require_version("Gst", "1.0")
        gi.require_version("GstWebRTC", "1.0")
        gi.require_version("GstSdp", "1.0")
        from gi.repository import GLib, Gst, GstSdp, GstWebRTC
        Gst.init(None)
        threading.Thread(target=GLib.MainLoop().run, daemon=True).start()
        self.gst, self.sdp, self.rtc = Gst, GstSdp, GstWebRTC
        self.pipeline, self.kept = None, []

    def tell_version(self):
        return ".".join(map(str, self.gst.version()[:3]))

    def begin(self):
        if self.pipeline:
            self.pipeline.set_state(self.gst.State.NULL)
        self.pipeline = self.gst.Pipeline.new(None)
        self.bin = self.gst.ElementFactory.make("webrtcbin", None)
        self.bin.set_property("bundle-policy", "max-bundle")
        self.pipeline.add(self.bin)
        self.pipeline.set_state(self.gst.State.PLAYING)

    def direction(self, word):
        return getattr(self.rtc.WebRTCRTPTransceiverDirection, word.upper())

    def lines(self):
        for place in range(200):
            line = self.bin.emit("get-transceiver", place)
            if line is None:
                return
            yield line

    def change(self, name, *rest):
        if name in CAPS:
            self.kept.append(self.bin.emit("add-transceiver", self.direction(rest[0]), self.gst.Caps.from_string(CAPS[name])))
        elif name == "codec":
            caps = f"application/x-rtp,media={rest[0]},encoding-name={rest[1].upper()},payload=0,clock-rate=8000"
            self.kept.append(self.bin.emit("add-transceiver", self.direction("sendrecv"), self.gst.Caps.from_string(caps)))
        elif name == "channel":
            self.kept.append(self.bin.emit("create-data-channel", "c", None))
        elif name == "dir":
            for line in self.lines():
                if line.get_property("mid") == rest[0]:
                    line.set_property("direction", self.direction(rest[1]))
        else:
            raise ValueError(f"has no {name}")

    # Asks the element, and waits for what it promises.
    def ask(self, signal, value):
        promise = self.gst.Promise.new()
        self.bin.emit(signal, value, promise)
        promise.wait()
        reply = promise.get_reply()
        self.kept.append((promise, reply, value))
        if reply is not None and reply.has_field("error"):
            raise Refused(str(getattr(reply.get_value("error"), "message", reply.to_string()))[:300])
        return reply

    def describe(self, kind, text):
        _, message = self.sdp.SDPMessage.new()
        if self.sdp.sdp_message_parse_buffer(text.encode(), message) != self.sdp.SDPResult.OK:
            raise Refused("the text is not read")
        self.kept.append(message)
        return self.rtc.WebRTCSessionDescription.new(getattr(self.rtc.WebRTCSDPType, kind.upper()), message)

    def make(self, kind):
        made = self.ask(f"create-{kind}", None).get_value(kind)
        text = made.sdp.as_text()
        self.kept.append(made)
        self.ask("set-local-description", self.describe(kind, text))
        return text

    def offer(self, changes):
        for change in changes:
            self.change(*change)
        return self.make("offer")

    def answer(self, text):
        self.ask("set-remote-description", self.describe("offer", text))
        return self.make("answer")

    def take(self, text):
        self.ask("set-remote-description", self.describe("answer", text))


# Performs the calls of the standard input, a line each. What the library itself prints is no reply, and goes to the standard error.
def serve():
    replies = os.fdopen(os.dup(1), "w")
    os.dup2(2, 1)
    peer = Webrtcbin()
    for line in sys.stdin:
        name, *rest = json.loads(line)
        try:
            said = {"done": getattr(peer, name)(*rest)}
        except Refused as error:
            said = {"refused": str(error)}
        except ValueError as error:
            said = {"lacks": str(error)}
        print(json.dumps(said), file=replies, flush=True)


if __name__ == "__main__":
    serve()
