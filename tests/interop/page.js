// A peer of the browser that the page runs in, driven by calls of `run`: each returns a JSON text with what was done, or with the error.
'use strict';
let pc, ids = 0;

function sound() {
  const context = new AudioContext();
  return context.createMediaStreamDestination().stream.getAudioTracks()[0];
}

function picture() {
  const canvas = document.createElement('canvas');
  canvas.getContext('2d').fillRect(0, 0, 8, 8);
  return canvas.captureStream(1).getVideoTracks()[0];
}

function addLine(kind, direction, encodings) {
  const init = { direction };
  if (encodings) init.sendEncodings = encodings;
  if (!direction.startsWith('send')) return pc.addTransceiver(kind, init);
  const track = kind === 'audio' ? sound() : picture();
  init.streams = [new MediaStream([track])];
  return pc.addTransceiver(track, init);
}

function lineOf(mid) {
  return pc.getTransceivers().find(line => line.mid === mid);
}

function only(kind, name) {
  const codecs = RTCRtpReceiver.getCapabilities(kind).codecs;
  addLine(kind, 'sendrecv').setCodecPreferences(codecs.filter(codec => codec.mimeType.toLowerCase() === kind + '/' + name));
}

const changes = {
  audio: direction => { addLine('audio', direction); },
  video: direction => { addLine('video', direction); },
  layers: () => { addLine('video', 'sendonly', ['h', 'm', 'l'].map((rid, at) => ({ rid, scaleResolutionDownBy: 2 ** at }))); },
  codec: (kind, name) => only(kind, name),
  channel: () => { pc.createDataChannel('c' + ids++); },
  dir: (mid, direction) => { const line = lineOf(mid); if (line && line.currentDirection !== 'stopped') line.direction = direction; },
  stop: mid => { const line = lineOf(mid); if (line) line.stop(); },
  restart: () => { pc.restartIce(); },
};

const calls = {
  begin: async () => { if (pc) pc.close(); pc = new RTCPeerConnection(); },
  offer: async list => {
    for (const [name, ...rest] of list) changes[name](...rest);
    await pc.setLocalDescription(await pc.createOffer());
    return pc.localDescription.sdp;
  },
  answer: async text => {
    await pc.setRemoteDescription({ type: 'offer', sdp: text });
    await pc.setLocalDescription(await pc.createAnswer());
    return pc.localDescription.sdp;
  },
  take: async text => { await pc.setRemoteDescription({ type: 'answer', sdp: text }); },
  rows: async () => pc.getTransceivers().filter(line => line.mid !== null).map(line => [line.mid, line.currentDirection || 'none']),
};

async function run(name, rest) {
  try { return JSON.stringify({ done: (await calls[name](...rest)) || null }); } catch (error) { return JSON.stringify({ error: String(error) }); }
}
