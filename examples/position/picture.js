// The picture: what the history tells of flights, clearances, marks and their owners, and the conflicts that the server publishes.

import { report } from "./motion.js";
import { byId, countdown, UNITS_PER_LEVEL } from "./words.js";

const TAIL_ENTRIES = 16; // by which a history is known again
const GONE_MILLISECONDS = 15000; // for which a conflict that is gone is still told
const AGED_SECONDS = 120; // a trajectory as old as this is renewed by its age
const DEVIATION_SECONDS = 60; // for which a deviation is told
const UNREPORTED_SECONDS = 20;
const REACTION_SECONDS = 45; // from a clearance to the height being told as off its level
const OFF_LEVEL = 3; // hundreds of feet
const CLOSING_RATE = 400; // feet a minute towards the cleared level

export const picture = {};
export const picked = { calls: [], subject: null };
export const redraw = { plan: true, labels: true };

// The seats of this page, of which it learns by its own entries: that of this session, and those of sessions that were lost.
export const seats = { own: null, former: new Set(), entered: new Set() };

export function forget() {
  Object.assign(picture, { version: 0, moment: 0, ticked: performance.now(), flights: new Map(), conflicts: [], fresh: new Set(), gone: new Map(),
    drawn: -1, counted: null, tail: [], due: new Set(), places: new Map() });
  redraw.plan = redraw.labels = true;
}

function filed(entry) {
  const outer = entry.do === "external";
  return { call: entry.call, outer, filed: entry, route: entry.route || [], type: entry.type || "", level: outer ? null : entry.level,
    begin: outer ? entry.from : entry.at, mark: null, stamp: picture.version, changed: null, cleared: -Infinity, deviated: -Infinity,
    last: null, dots: [], row: null, est: null, slip: [0, 0, 0], slip_at: 0, label: { slot: 0, lines: 0 }, drawn: null, course: null };
}

export function take(entry) {
  picture.version += 1;
  if (seats.entered.delete(picture.version)) seats.own = entry.who;
  picture.tail.push(entry);
  if (picture.tail.length > TAIL_ENTRIES) picture.tail.shift();
  const flight = picture.flights.get(entry.call);
  if (entry.do === "tick") {
    picture.moment = entry.now;
    picture.ticked = performance.now();
  } else if (entry.do === "plan" || entry.do === "external") picture.flights.set(entry.call, filed(entry));
  else if (entry.do === "drop") picture.flights.delete(entry.call);
  else if (entry.do === "report") report(flight, entry);
  else if (entry.do === "tentative") {
    flight.mark = { ...entry, begin: Math.max(entry.eff, flight.begin) };
    flight.changed = { ...entry, version: picture.version };
  } else alter(flight, entry);
}

// A clearance, a renewal, or the end of a mark. A renewal begins at the last report; where that came before the trajectory was of the age at which
// it is renewed, the flight had left its trajectory.
function alter(flight, entry) {
  const { last } = flight;
  flight.changed = { ...entry, version: picture.version };
  if (entry.do === "withdraw") {
    flight.mark = null;
    return;
  }
  flight.stamp = picture.version;
  if (entry.do === "renew") {
    if (last && last.at - flight.begin < AGED_SECONDS) flight.deviated = last.at;
    if (last) flight.begin = last.at;
    return;
  }
  const cleared = entry.do === "commit" ? flight.mark : entry;
  if (!cleared) return;
  if (cleared.level !== undefined) flight.level = cleared.level;
  flight.begin = entry.do === "commit" ? cleared.begin : Math.max(cleared.eff, flight.begin);
  flight.cleared = picture.moment;
  if (entry.do === "commit") flight.mark = null;
}

export function is_deviating(flight) {
  return picture.moment - flight.deviated < DEVIATION_SECONDS;
}

export function is_unreported(flight) {
  return !flight.last || picture.moment - flight.last.at > UNREPORTED_SECONDS;
}

// Whether a flight that is reported is off its cleared level and doesn't go there.
export function is_off_level(flight) {
  const { est, outer, cleared } = flight;
  if (outer || !est || est.count < 3 || picture.moment - cleared < REACTION_SECONDS || is_unreported(flight)) return false;
  const off = flight.level - est.place[2] / UNITS_PER_LEVEL;
  return Math.abs(off) > OFF_LEVEL && Math.sign(off) * est.gain[2] < CLOSING_RATE;
}

export function owner_of(who) {
  if (who === seats.own) return "mine";
  return "of seat " + who + (seats.former.has(who) ? " (mine before)" : "");
}

function by_whom(who) {
  return who === seats.own ? "by me" : "by seat " + who;
}

// ---- conflicts: those that are published, those that are new until they are picked, and those that went lately, with the reason

export function key_of(conflict) {
  return conflict.pair.join(" ") + " " + conflict.kinds;
}

export function is_tentative(conflict) {
  return conflict.kinds !== "aa";
}

export function is_picked(conflict) {
  return conflict.pair.length === picked.calls.length && conflict.pair.every((call) => picked.calls.includes(call));
}

export function set_conflicts(conflicts, with_tentative = true) {
  const now = performance.now();
  const before = new Map(picture.conflicts.map((one) => [key_of(one), one]));
  const fresh = [];
  for (const one of conflicts) {
    const key = key_of(one);
    if (!before.delete(key) && picture.drawn >= 0) fresh.push(one);
    one.listed = picture.version;
    picture.gone.delete(key);
  }
  for (const one of fresh) picture.fresh.add(key_of(one));
  for (const [key, one] of before) {
    picture.fresh.delete(key);
    if (with_tentative || !is_tentative(one)) picture.gone.set(key, { conflict: one, why: why_gone(one), until: now + GONE_MILLISECONDS });
  }
  for (const [key, one] of picture.gone) if (one.until < now) picture.gone.delete(key);
  picture.conflicts = conflicts;
  tell_fresh(fresh);
  const keys = new Set(conflicts.flatMap((one) => one.pair.map((call) => key_of(one) + " " + call)));
  for (const key of picture.places.keys()) if (!keys.has(key)) picture.places.delete(key);
}

function tell_fresh(fresh) {
  if (fresh.length === 0 || fresh.length > 3) return;
  const texts = fresh.map((one) => `New conflict: ${one.pair.join(" and ")} in ${countdown(one.first, picture.moment)}`);
  byId("heard").textContent = texts.join(". ");
}

const ENDS = { clear: "solved", accept: "solved", commit: "committed", withdraw: "withdrawn", plan: "changed", external: "changed" };

function why_gone(conflict) {
  if (conflict.last < picture.moment) return "passed";
  const left = conflict.pair.find((call) => !picture.flights.has(call));
  if (left) return left + " has left";
  const changes = conflict.pair.map((call) => picture.flights.get(call).changed).filter((one) => one && one.version > conflict.listed);
  changes.sort((a, b) => b.version - a.version);
  const end = changes.find((one) => ENDS[one.do]);
  if (end) return (end.do === "commit" && !is_tentative(conflict) ? "solved" : ENDS[end.do]) + " " + by_whom(end.who);
  return "by a new prediction";
}

// ---- what is picked: a flight, or the two of a conflict, of which one is the subject of clearances

export const on_pick = []; // what others do once something else is picked

export function pick(calls, subject) {
  Object.assign(picked, { calls, subject: subject || calls[0] || null });
  redraw.plan = redraw.labels = true;
  for (const act of on_pick) act();
}

export function pick_conflict(conflict) {
  picture.fresh.delete(key_of(conflict));
  const planned = conflict.pair.find((call) => picture.flights.has(call) && !picture.flights.get(call).outer);
  pick([...conflict.pair], planned);
}

export function picked_flights() {
  return picked.calls.map((call) => picture.flights.get(call)).filter(Boolean);
}

export function subject() {
  return picture.flights.get(picked.subject);
}
