// What is asked: the list each second, the history that is missing, and of flights what is shown, some ten lines a second at rest.

import { ask, Gone, link } from "./link.js";
import { aim, clock, mark_clock } from "./motion.js";
import { key_of, picked, picture, set_conflicts, take } from "./picture.js";
import { say } from "./words.js";

const POLL_MILLISECONDS = 1000;
const ENTRIES_AT_ONCE = 64;
const HISTORY_LINES_AT_ONCE = 32;
const LINES_A_SECOND = 10;
const MOST_BYTES = 131072;
const MANY_PAIRS = 1000; // a list of more may be too long for a message
const FIRST_PAUSE_MILLISECONDS = 20000; // without the list until it is asked for again, twice as long each time that it fails
const MOST_PAUSE_MILLISECONDS = 1200000;

export const looks = { after: () => {} };
let counted = 0; // the lines sent until the look before this one had asked for its rows

// Whether the server's history goes on from the one that is known: its last entries are the same.
export async function goes_on() {
  if (picture.version === 0) return false;
  const from = picture.version - picture.tail.length;
  const reply = await ask({ do: "history", from, to: picture.version });
  return Boolean(reply.entries) && JSON.stringify(reply.entries) === JSON.stringify(picture.tail);
}

export async function poll(socket) {
  for (let turn = 0; socket === link.socket; turn += 1) {
    const before = performance.now();
    try {
      looks.after(await look(turn));
    } catch (error) {
      if (!(error instanceof Gone)) throw error;
    }
    await new Promise((resume) => setTimeout(resume, Math.max(100, POLL_MILLISECONDS - (performance.now() - before))));
  }
}

// It tells whether there is something new to be shown.
async function look(turn) {
  const told = single.on ? await ask({ do: "history", from: 0, to: 0 }) : await ask({ do: "list" });
  if (told.version === undefined) return false;
  const is_new = told.version !== picture.drawn;
  if (is_new) {
    const [, due] = await Promise.all([read_history(told.version), turn % 5 === 0 ? ask({ do: "due" }) : null]);
    if (due) picture.due = new Set(due.calls || []);
  }
  const stands = mark_clock();
  if (!single.on) {
    picture.counted = told.conflicts.length;
    set_conflicts(told.conflicts);
  }
  picture.drawn = told.version;
  const left = Math.max(2, LINES_A_SECOND - (link.sent - counted));
  if (single.on) await Promise.all(singles(4));
  const asked = rows_wanted(left);
  counted = link.sent;
  await Promise.all(asked);
  return is_new || stands || turn === 0;
}

async function read_history(version) {
  const beginning = picture.version;
  while (picture.version < version) {
    const asked = [];
    for (let from = picture.version; from < version && asked.length < HISTORY_LINES_AT_ONCE; from += ENTRIES_AT_ONCE) {
      asked.push(ask({ do: "history", from, to: Math.min(version, from + ENTRIES_AT_ONCE) }));
    }
    for (const reply of await Promise.all(asked)) {
      if (!reply.entries || reply.entries.length === 0) return;
      reply.entries.forEach(take);
    }
    if (version - beginning <= 5000) continue;
    if (picture.version < version) say("notice", "reading the history: " + Math.round((100 * picture.version) / version) + " %");
    else tell_single();
  }
}

// Which flights are asked for: those not placed yet, the places of conflicts, the soonest first, and then those that were told longest ago.
function rows_wanted(most) {
  const asked = [];
  const now = Math.floor(picture.moment);
  const flights = [...picture.flights.values()].filter((one) => !one.outer);
  const unplaced = flights.filter((one) => !one.est && (!one.row || (!one.row.row && one.row.start <= now && one.row.sec < one.row.start)));
  for (const flight of unplaced.slice(0, 64)) asked.push(read_row(flight, now));
  let left = most - (unplaced.length > most ? most : unplaced.length);
  const wanting = picture.conflicts.flatMap((one) => one.pair.map((call) => place_wanted(one, call))).filter(Boolean);
  wanting.sort((a, b) => b.urgent - a.urgent || a.first - b.first);
  const fresh = wanting.filter((one) => one.urgent).length;
  for (const one of wanting.slice(0, Math.max(0, left, Math.min(48, fresh)))) {
    asked.push(read_place(one));
    left -= 1;
  }
  const old = flights.filter((one) => one.row && one.row.row && !is_reported(one, now) && now - one.row.sec >= 20);
  old.sort((a, b) => a.row.sec - b.row.sec);
  for (const flight of old.slice(0, Math.max(0, left))) asked.push(read_row(flight, now));
  return asked;
}

function is_reported(flight, now) {
  return flight.est && now - flight.est.at < 60;
}

async function read_row(flight, sec) {
  const told = await ask({ do: "flight", call: flight.call, sec });
  if (!told.no) flight.row = { sec, row: told.row, start: told.start, end: told.end };
}

function place_wanted(conflict, call) {
  const flight = picture.flights.get(call);
  if (!flight || flight.outer || conflict.first <= picture.moment + 1) return null;
  const key = key_of(conflict) + " " + call;
  const known = picture.places.get(key);
  if (known && known.first === conflict.first && known.stamp === flight.stamp) return null;
  return { key, flight, first: conflict.first, urgent: known ? 0 : 1 };
}

async function read_place({ key, flight, first }) {
  const stamp = flight.stamp;
  const told = await ask({ do: "flight", call: flight.call, sec: first });
  if (!told.no) picture.places.set(key, { first, stamp, row: told.row });
}

// ---- without the list: where that is too long for a message, each flight is asked for its own conflicts, by a probe of the level that it is cleared
// to. A pair that is known stays until one of its flights was asked.

export const single = { on: false, asked: new Map(), since: 0, pause: FIRST_PAUSE_MILLISECONDS };

// A session was lost. Only where the list was to be answered, and where the last one was long or none ever came, was it too long.
export function is_too_long(word) {
  return word === "list" && (picture.counted === null || picture.counted > MANY_PAIRS);
}

export function one_by_one(on) {
  if (on) single.pause = single.since ? Math.min(MOST_PAUSE_MILLISECONDS, 2 * single.pause) : FIRST_PAUSE_MILLISECONDS;
  Object.assign(single, { on, asked: new Map(), since: on ? performance.now() : single.since });
  tell_single();
}

export function forget_single() {
  Object.assign(single, { since: 0, pause: FIRST_PAUSE_MILLISECONDS });
  one_by_one(false);
}

function tell_single() {
  const told = `A list of conflicts over ${MOST_BYTES} bytes ends the session. Conflicts are asked for flight by flight, four a second. ` +
    "Not looked at: external with external, tentative.";
  say("notice", single.on ? told : "");
}

function singles(most) {
  const flights = [...picture.flights.values()].filter((one) => !one.outer && one.level !== null);
  if (flights.every((one) => single.asked.has(one.call))) end_round();
  const rank = (one) => (picked.calls.includes(one.call) ? -1e9 : 0) + (single.asked.get(one.call) || 0);
  flights.sort((a, b) => rank(a) - rank(b));
  return flights.slice(0, most).map(async (flight) => {
    single.asked.set(flight.call, performance.now());
    const reply = await ask({ do: "probe", call: flight.call, level: flight.level });
    heed(flight, reply.no ? [] : reply.conflicts);
  });
}

// The pairs of a flight that was asked are those of the answer.
function heed(flight, hits) {
  const stay = picture.conflicts.filter((one) => !one.pair.includes(flight.call) && one.last >= picture.moment &&
    one.pair.every((call) => picture.flights.has(call)));
  const found = hits.filter((hit) => picture.flights.has(hit.with)).map((hit) => ({ first: hit.first, last: hit.last, kinds: "aa",
    pair: [flight.call, hit.with].sort() }));
  set_conflicts([...stay, ...found].sort((a, b) => a.first - b.first || (a.pair[0] < b.pair[0] ? -1 : 1)), false);
}

// Once all were asked, a while has passed and the pairs are few, the list is asked for again.
function end_round() {
  single.asked.clear();
  if (picture.conflicts.length <= MANY_PAIRS && performance.now() - single.since > single.pause) one_by_one(false);
}

// ---- the places of a conflict

// A tentative clearance to a level is taken to be flown on the flight's own way; where one to a fix leads isn't told.
export function is_told(conflict, call) {
  const flight = picture.flights.get(call);
  return Boolean(flight) && (kind_of(conflict, call) === "a" || !flight.mark || flight.mark.direct === undefined);
}

export function kind_of(conflict, call) {
  return conflict.kinds[conflict.pair.indexOf(call)];
}

// The row of a flight in the first second of a conflict, or where it is where that has come; null where that isn't known yet.
export function row_at_loss(conflict, call) {
  const flight = picture.flights.get(call);
  if (!is_told(conflict, call)) return null;
  if (conflict.first <= clock.time + 1) return aim(flight, clock.time);
  if (flight.outer) return aim(flight, conflict.first);
  const known = picture.places.get(key_of(conflict) + " " + call);
  return known ? known.row : null;
}

// The horizontal speeds there.
export function speeds_at_loss(conflict, call) {
  const row = row_at_loss(conflict, call);
  if (!row) return null;
  return row.length > 6 ? [row[5], row[6]] : [row[3], row[4]];
}
