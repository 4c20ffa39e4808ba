"use strict";
// The page around the call: its form, and what it shows.

const at = (id) => document.getElementById(id);
let call = null, timer = null;

function tell(text, trouble = false) {
  at("state").textContent = text;
  at("state").classList.toggle("trouble", trouble);
}

function addresses(candidates) {
  return candidates.map(({ address, port }) => `${address}:${port}`).join(", ") || "none yet";
}

async function show() {
  if (!call) return;
  at("caller-candidates").textContent = addresses(call.candidates.caller);
  at("callee-candidates").textContent = addresses(call.candidates.callee);
  at("caller-state").textContent = call.caller.connectionState;
  at("callee-state").textContent = call.callee.connectionState;
  const { frames, bytes } = await call.received();
  at("frames").textContent = frames.toLocaleString("en");
  at("received").textContent = `${Math.round(bytes / 1000).toLocaleString("en")} kB`;
  if (call.candidates.caller.length === 0 && call.errors.length) tell(`The relay gave no address: ${call.errors[0]}`, true);
}

// Messages all the time, a hundred in a round.
async function talk(own) {
  let total = 0;
  while (own === call && own.channel.readyState === "open") {
    const { inOrder, trips } = await own.exchange(100);
    total += inOrder;
    trips.sort((one, other) => one - other);
    at("messages").textContent = total.toLocaleString("en");
    at("round-trip").textContent = `${trips[50].toFixed(1)} ms`;
    await new Promise((resolve) => setTimeout(resolve, 200));
  }
}

async function start(event) {
  event.preventDefault();
  stop();
  tell("Calling ...");
  call = new Call(at("server").value, at("name").value, at("password").value);
  at("stop").disabled = false;
  const own = call, stream = await camera();
  at("caller-video").srcObject = stream;
  at("callee-video").srcObject = own.remote;
  own.addVideo(stream);
  timer = setInterval(show, 500);
  await own.connect();
  await own.open;
  tell("Connected: data and video go through the relay.");
  await talk(own);
}

function stop() {
  clearInterval(timer);
  if (call) call.close();
  call = null;
  at("stop").disabled = true;
  tell("Hung up.");
}

at("form").addEventListener("submit", (event) => start(event).catch((error) => tell(String(error), true)));
at("stop").addEventListener("click", stop);
