"""So many rounds between two peers of aiortc, each of which adds an audio line: rounds.py TIMES."""
import asyncio
import sys

from aiortc import RTCPeerConnection, RTCSessionDescription


# Sets what a peer made, and returns it as text.
async def said(peer, made):
    await peer.setLocalDescription(made)
    return RTCSessionDescription(sdp=peer.localDescription.sdp, type=peer.localDescription.type)


async def main(times):
    left, right = RTCPeerConnection(), RTCPeerConnection()
    for _ in range(times):
        left.addTransceiver("audio")
        await right.setRemoteDescription(await said(left, await left.createOffer()))
        await left.setRemoteDescription(await said(right, await right.createAnswer()))
    print(len(left.getTransceivers()))
    await left.close()
    await right.close()


asyncio.run(main(int(sys.argv[1])))
