// The link to the server: each line is a message, and replies come in the order of the lines. A session that was there is made anew, later each
// time, for each one that the server gives counts as one of its sessions.

import { byId, say } from "./words.js";

const MUTE_MILLISECONDS = 10000;
const MOST_PAUSE_SECONDS = 60;
const LONG_ENOUGH_MILLISECONDS = 60000; // a session that lived so long begins the pauses anew

export const link = { socket: null, waiting: [], sent: 0, tries: 0, again: 0, wanted: false, is_live: false, asked: 0, begun: 0, heard: 0 };

// What others do once a session has begun, and once it is lost, with the word of the line that was to be answered next.
export const on_link = { begin: async () => {}, lost: () => {}, leave: () => {} };

export class Gone extends Error {}

export function ask(command) {
  return new Promise((resolve, reject) => {
    if (!link.socket || link.socket.readyState !== WebSocket.OPEN) {
      reject(new Gone("not connected"));
      return;
    }
    link.sent += 1;
    link.waiting.push({ resolve, reject, word: command.do, at: performance.now() });
    link.socket.send(JSON.stringify(command));
  });
}

// For how many milliseconds a line has waited for its reply.
export function silence() {
  return link.waiting.length === 0 ? 0 : performance.now() - Math.max(link.waiting[0].at, link.heard);
}

function drop_waiting(reason) {
  const first = link.waiting[0];
  for (const one of link.waiting) one.reject(new Gone(reason));
  link.waiting = [];
  link.is_live = false;
  return first ? first.word : null;
}

export function leave(reason, is_fault) {
  on_link.leave();
  link.wanted = false;
  clearTimeout(link.again);
  const { socket } = link;
  link.socket = null;
  if (socket && socket.readyState === WebSocket.OPEN) socket.send(JSON.stringify({ do: "bye" }));
  if (socket) socket.close(1000);
  drop_waiting(reason);
  say("state", reason, is_fault ? "bad" : "");
  byId("connect").textContent = "Connect";
}

function lost(reason) {
  const { socket } = link;
  link.socket = null;
  if (socket) socket.close();
  const was_live = link.is_live;
  const word = drop_waiting(reason);
  if (was_live) on_link.lost(word);
  if (!link.wanted) {
    leave(reason, true);
    return;
  }
  const seconds = Math.min(MOST_PAUSE_SECONDS, 2 ** link.tries);
  link.tries += 1;
  say("state", reason + ", trying again in " + seconds + " s", "bad");
  link.again = setTimeout(connect, 1000 * seconds);
}

export function connect() {
  let socket;
  try {
    socket = new WebSocket(byId("address").value);
  } catch (error) {
    leave("no address of a server: " + error.message, true);
    return;
  }
  say("state", link.wanted ? "connecting again" : "connecting");
  byId("connect").textContent = "Disconnect";
  link.socket = socket;
  link.asked = performance.now();
  socket.onopen = () => begin(socket);
  socket.onmessage = (message) => {
    if (socket !== link.socket) return;
    link.heard = performance.now();
    const one = link.waiting.shift();
    if (one) one.resolve(JSON.parse(message.data));
  };
  socket.onclose = () => {
    if (socket === link.socket) lost(why_closed());
  };
}

async function begin(socket) {
  try {
    link.heard = link.begun = performance.now();
    await ask({ do: "hello", role: "position" });
    await on_link.begin(socket);
  } catch (error) {
    if (!(error instanceof Gone)) throw error;
  }
}

function why_closed() {
  if (link.is_live) return "the connection is lost";
  return "no connection: no server is there, or its sessions are used up";
}

// A look each second: a session that the server ended by a fault may stay open and mute; a server that is frozen takes a connection and doesn't
// answer it, and is waited for, as each further connection would be one more of its sessions.
export function watch_link() {
  const { socket } = link;
  if (!socket) return;
  const now = performance.now();
  if (link.is_live && now - link.begun > LONG_ENOUGH_MILLISECONDS) link.tries = 0;
  if (socket.readyState === WebSocket.CONNECTING && now - link.asked > 5000) {
    say("state", "the server is there and doesn't answer: it is waited for", "bad");
  }
  if (silence() > MUTE_MILLISECONDS) lost("the server doesn't answer");
}
