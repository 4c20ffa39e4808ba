"use strict";
// A call between two peers of one page, through the relay alone. The demo shows it, and the browser test drives it.

class Call {
  constructor(server, username, credential) {
    const settings = { iceServers: [{ urls: `turn:${server}?transport=udp`, username, credential }], iceTransportPolicy: "relay" };
    this.caller = new RTCPeerConnection(settings);
    this.callee = new RTCPeerConnection(settings);
    this.candidates = { caller: [], callee: [] };
    this.errors = [];
    this.gather("caller", this.caller, this.callee);
    this.gather("callee", this.callee, this.caller);
    this.echo();
    this.remote = new MediaStream();
    this.callee.ontrack = (event) => this.remote.addTrack(event.track);
  }

  // Each peer's candidates go straight to the other: both are on this page.
  gather(name, from, to) {
    from.onicecandidate = ({ candidate }) => {
      if (!candidate || !candidate.candidate) return;
      this.candidates[name].push({ type: candidate.type, address: candidate.address, port: candidate.port });
      to.addIceCandidate(candidate).catch((error) => this.errors.push(String(error)));
    };
    from.onicecandidateerror = ({ errorCode, errorText }) => this.errors.push(`${errorCode} ${errorText}`);
  }

  // The callee sends back all that comes.
  echo() {
    this.channel = this.caller.createDataChannel("echo");
    this.callee.ondatachannel = ({ channel }) => { channel.onmessage = ({ data }) => channel.send(data); };
    this.open = new Promise((resolve) => { this.channel.onopen = resolve; });
  }

  addVideo(stream) {
    this.stream = stream;
    for (const track of stream.getTracks()) this.caller.addTrack(track, stream);
  }

  async connect() {
    await this.caller.setLocalDescription();
    await this.callee.setRemoteDescription(this.caller.localDescription);
    await this.callee.setLocalDescription();
    await this.caller.setRemoteDescription(this.callee.localDescription);
  }

  // Sends so many messages, some at a time on their way, and gives what came back: how many in order, and each one's round trip in ms.
  exchange(count, atOnce = 16) {
    return new Promise((resolve) => {
      const sent = [], trips = [];
      let inOrder = 0;
      const send = () => { if (sent.length < count) { this.channel.send(`message ${sent.length}`); sent.push(performance.now()); } };
      this.channel.onmessage = ({ data }) => {
        if (data === `message ${trips.length}`) inOrder += 1;
        trips.push(performance.now() - sent[trips.length]);
        if (trips.length === count) resolve({ inOrder, trips }); else send();
      };
      for (let first = 0; first < atOnce; first += 1) send();
    });
  }

  // What the callee has received of the video.
  async received() {
    const report = await this.callee.getStats();
    const video = [...report.values()].find((entry) => entry.type === "inbound-rtp" && entry.kind === "video");
    return { frames: video?.framesDecoded ?? 0, bytes: video?.bytesReceived ?? 0 };
  }

  close() {
    this.caller.close();
    this.callee.close();
    for (const track of this.stream?.getTracks() ?? []) track.stop();
  }
}

// The camera; where there is none, or it is refused, a picture that moves.
async function camera() {
  try {
    return await navigator.mediaDevices.getUserMedia({ video: { width: 640, height: 480 } });
  } catch {
    return drawn();
  }
}

function drawn() {
  const canvas = Object.assign(document.createElement("canvas"), { width: 640, height: 480 });
  const pen = canvas.getContext("2d"), stream = canvas.captureStream(20);
  const timer = setInterval(() => {
    if (!stream.active) clearInterval(timer);
    const turn = performance.now() / 1000;
    pen.fillStyle = "#2f6b4f";
    pen.fillRect(0, 0, 640, 480);
    pen.fillStyle = "#f5f6f2";
    pen.beginPath();
    pen.arc(320 + 180 * Math.cos(turn), 240 + 120 * Math.sin(turn), 60, 0, 2 * Math.PI);
    pen.fill();
  }, 50);
  return stream;
}
