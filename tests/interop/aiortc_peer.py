"""aiortc, as a peer of this process; it wants the Python of Debian's packages."""
import asyncio
import logging

from browsers import Refused, SECONDS


class Aiortc:
    name = "aiortc"

    def __init__(self):
        import aiortc
        from aiortc.mediastreams import AudioStreamTrack, VideoStreamTrack
        self.aiortc, self.tracks = aiortc, {"audio": AudioStreamTrack, "video": VideoStreamTrack}
        self.version, self.peer = aiortc.__version__, None
        self.loop = asyncio.new_event_loop()
        logging.getLogger("asyncio").setLevel(logging.CRITICAL)

    def wait(self, work):
        try:
            return self.loop.run_until_complete(asyncio.wait_for(work, SECONDS))
        except Exception as error:
            raise Refused(repr(error)) from error

    def begin(self):
        async def make():
            if self.peer:
                await self.peer.close()
            return self.aiortc.RTCPeerConnection(self.aiortc.RTCConfiguration(iceServers=[]))
        self.peer = self.wait(make())

    async def change(self, name, *rest):
        if name in self.tracks:
            sends = rest[0].startswith("send")
            self.peer.addTransceiver(self.tracks[name]() if sends else name, direction=rest[0])
        elif name == "codec":
            line = self.peer.addTransceiver(rest[0], direction="sendrecv")
            codecs = self.aiortc.RTCRtpSender.getCapabilities(rest[0]).codecs
            line.setCodecPreferences([it for it in codecs if it.mimeType.lower() == f"{rest[0]}/{rest[1]}"])
        elif name == "channel":
            self.peer.createDataChannel("c")
        elif name in ("dir", "stop"):
            for line in self.peer.getTransceivers():
                if line.mid == rest[0] and name == "dir":
                    line.direction = rest[1]
                elif line.mid == rest[0]:
                    await line.stop()
        else:
            raise ValueError(f"has no {name}")

    def offer(self, changes):
        async def work():
            for change in changes:
                await self.change(*change)
            await self.peer.setLocalDescription(await self.peer.createOffer())
            return self.peer.localDescription.sdp
        return self.wait(work())

    def answer(self, text):
        async def work():
            await self.peer.setRemoteDescription(self.aiortc.RTCSessionDescription(text, "offer"))
            await self.peer.setLocalDescription(await self.peer.createAnswer())
            return self.peer.localDescription.sdp
        return self.wait(work())

    def take(self, text):
        self.wait(self.peer.setRemoteDescription(self.aiortc.RTCSessionDescription(text, "answer")))

    def rows(self):
        return [[line.mid, line.currentDirection or "none"] for line in self.peer.getTransceivers()]

    def end(self):
        pass
