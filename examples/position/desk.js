// The desk: clearances that are probed, accepted, marked, withdrawn and committed. An answer holds for a flight, for the trajectory that it had and
// for half a minute of traffic; then it is cleared, and so is what it offers.

import { kind_of, single } from "./asking.js";
import { areas_of_clearance, map, read_course } from "./course.js";
import { free, HOLDS_SECONDS, tend_free } from "./free.js";
import { ask, Gone } from "./link.js";
import { clock } from "./motion.js";
import { picture, is_tentative, key_of, owner_of, pick, picked, redraw, seats, subject } from "./picture.js";
import { byId, hit_text, hours_of, make, make_button, name_of, refusal_of, span_of, suggest, three, way_of } from "./words.js";

const TOLD_MILLISECONDS = 10000;
const LATE_MILLISECONDS = 3000; // a probe that is answered so late is shown, and isn't accepted by itself

export const desk = { answer: null, tried: null, is_entering: false, on_change: () => {}, choose };

// ---- the answer

// A line is a text, or what makes one now, with its look.
function show_answer(lines, answer) {
  byId("answer").replaceChildren(...lines.map(([, look]) => make("p", "", look)));
  byId("offers").replaceChildren();
  desk.answer = { lines, moment: picture.moment, version: Infinity, shown: performance.now(), ...answer };
  write_answer();
  show_accept();
  desk.on_change();
}

export function clear_answer() {
  byId("answer").replaceChildren();
  byId("offers").replaceChildren();
  Object.assign(desk, { answer: null, tried: null });
  show_accept();
  desk.on_change();
}

function offer(text, act) {
  const item = make("li");
  item.append(make_button(text, act));
  byId("offers").append(item);
}

// What was probed holds no longer than that; what was entered or refused is told for a while by the wall clock too.
function is_over({ call, moment, version, shown }) {
  const flight = picture.flights.get(call);
  const is_old = picture.moment - moment > HOLDS_SECONDS;
  if (version === Infinity) return is_old && performance.now() - shown > TOLD_MILLISECONDS;
  return !flight || flight.stamp > version || is_old;
}

function write_answer() {
  desk.answer.lines.forEach(([text], place) => {
    byId("answer").children[place].textContent = typeof text === "string" ? text : text();
  });
}

// Clears what doesn't hold any more.
function tend_answer() {
  if (!desk.answer) return;
  if (is_over(desk.answer)) clear_answer();
  else write_answer();
}

function refuse(reply, call) {
  clear_answer();
  free.clear();
  show_answer([[() => refusal_of(reply, picture.moment, owner_of(reply.owner)), "bad"]], { call });
  const flight = picture.flights.get(call);
  if (reply.no !== "not-owner" || !flight || !flight.mark) return;
  const named = `the mark of seat ${flight.mark.who}: ${name_of(flight.mark)}`;
  offer("Withdraw " + named, () => enter({ do: "withdraw", call, force: true }, "Withdrawn is " + named));
}

// Asks, and tells a refusal or a lost connection; gives the reply that is none, or null.
async function tell(command, call = command.call) {
  if (byId("acts").disabled) {
    clear_answer();
    show_answer([["Not sent: the server doesn't answer", "bad"]], { call });
    return null;
  }
  try {
    const reply = await ask(command);
    if (!reply.no) return reply;
    refuse(reply, call);
  } catch (error) {
    if (!(error instanceof Gone)) throw error;
    clear_answer();
    show_answer([[error.message, "bad"]], { call });
  }
  return null;
}

// ---- the form

function want(text, id) {
  clear_answer();
  show_answer([[text, "bad"]], { call: byId("call").value.trim().toUpperCase() });
  byId(id).focus();
  return null;
}

function call_in_form() {
  const call = byId("call").value.trim().toUpperCase();
  return /^[A-Z0-9]{1,7}$/.test(call) ? call : want("give a callsign", "call");
}

// The clearance in the form, or null where it isn't one: then nothing is sent.
function clearance_of() {
  const call = call_in_form();
  if (call === null) return null;
  const where = byId("where").value.trim().toUpperCase();
  const eff = second_in_form();
  const is_level = byId("how").value === "level";
  if (is_level && !/^\d{1,3}$/.test(where)) return want("give a level: one to three digits", "where");
  if (!is_level && !/^[A-Z0-9]{2,5}$/.test(where)) return want("give a fix", "where");
  if (eff === null) return want("give a time as 10:15:11, or none", "eff");
  const clearance = is_level ? { call, level: Number(where) } : { call, direct: where };
  return eff === undefined ? clearance : { ...clearance, eff };
}

// The second from which it is to hold: undefined where it is now, null where it is none.
function second_in_form() {
  const text = byId("eff").value.trim();
  if (text === "") return undefined;
  const time = /^(\d{1,4}):(\d\d):(\d\d)$/.exec(text);
  if (time) return 3600 * Number(time[1]) + 60 * Number(time[2]) + Number(time[3]);
  return /^\d{1,8}$/.test(text) ? Number(text) : null;
}

function is_in_form({ call, level, direct, eff }) {
  const where = byId("where").value.trim().toUpperCase();
  const is_level = byId("how").value === "level";
  return byId("call").value.trim().toUpperCase() === call && second_in_form() === eff &&
    (is_level ? /^\d{1,3}$/.test(where) && Number(where) === level : where === direct);
}

// Whether the form has what the last probe had, which was free and holds.
function is_acceptable() {
  const { answer } = desk;
  return Boolean(answer && answer.free && !is_over(answer) && is_in_form(answer.free));
}

function show_accept() {
  byId("accept").disabled = !is_acceptable();
}

// For a clearance direct to a fix the names of the flight's route.
function suggest_fixes() {
  const flight = picture.flights.get(byId("call").value.trim().toUpperCase());
  suggest("fixes", flight && byId("how").value === "direct" ? flight.route : []);
}

// A flight is gone to by its callsign.
function choose(call) {
  if (!picture.flights.has(call)) want(`no flight of the callsign ${call}`, "call");
  else pick(picked.calls.includes(call) ? picked.calls : [call], call);
}

function fill_form() {
  const flight = subject();
  byId("call").value = picked.subject || "";
  byId("how").value = "level";
  byId("where").value = flight && flight.level !== null ? three(flight.level) : "";
  byId("eff").value = "";
  suggest_fixes();
  show_accept();
  if (!flight) return;
  byId("where").focus({ preventScroll: true });
  byId("where").select();
}

function step_level(by) {
  const flight = picture.flights.get(byId("call").value.trim().toUpperCase());
  const text = byId("where").value.trim();
  const from = /^\d{1,3}$/.test(text) ? Number(text) : flight && flight.level !== null ? flight.level : 300;
  byId("where").value = three(Math.min(600, Math.max(0, from + by)));
  show_accept();
}

// ---- probing and accepting

async function probe() {
  const clearance = clearance_of();
  if (!clearance) return;
  const reply = await tell({ do: "probe", ...clearance });
  if (reply) await show_probe(clearance, reply);
}

export function probe_level(level) {
  const flight = subject();
  if (level === null || !flight) return;
  byId("call").value = picked.subject;
  byId("how").value = "level";
  byId("where").value = three(level);
  probe();
}

async function show_probe(clearance, reply) {
  const flight = picture.flights.get(clearance.call);
  if (flight && map.drawn && !flight.course) await read_course(flight).catch(() => {});
  if (byId("call").value.trim().toUpperCase() !== clearance.call) return; // another flight is worked with by now
  const areas = flight ? areas_of_clearance(flight, clearance) : null;
  const is_free = reply.conflicts.length === 0;
  const lines = is_free ? [[`${name_of(clearance)} is free of conflicts with what is flown, from ${hours_of(reply.eff)}`, "good"]] :
    [[name_of(clearance) + " would lose separation with", "bad"], ...reply.conflicts.map((hit) => [() => hit_text(hit, picture.moment), "bad"])];
  const entry = (one) => (one.sec <= clock.time + 2 ? `it would be in ${one.area.name}` : `it would enter ${one.area.name} at ${hours_of(one.sec)}`);
  if (areas && areas.length) lines.push([areas.map(entry).join(", "), "warn"]);
  if (areas) lines.push([(areas.length ? "" : "It enters no area of the map. ") + "A probe doesn't test tentative marks.", "quiet"]);
  else lines.push(["A probe tests neither areas nor tentative marks.", "quiet"]);
  const moment = clearance.eff === undefined ? reply.eff : picture.moment;
  if (clearance.level !== undefined) desk.tried = { call: clearance.call, level: clearance.level, hits: reply.conflicts, areas };
  show_answer(lines, { call: clearance.call, version: reply.version, moment, free: is_free ? clearance : null });
}

// A clearance holds from the second of its probe, so what is accepted is probed anew; what isn't free then is shown as an answer to a probe.
async function accept(clearance) {
  if (desk.is_entering) return;
  desk.is_entering = true;
  try {
    const begun = performance.now();
    const reply = await tell({ do: "probe", ...clearance });
    if (reply && reply.conflicts.length === 0 && performance.now() - begun < LATE_MILLISECONDS) {
      const entered = await tell({ do: "accept", probe: reply.probe }, clearance.call);
      if (entered) is_entered(entered, clearance.call, `${clearance.call} is cleared ${way_of(clearance)} from ${hours_of(reply.eff)}`);
    } else if (reply) await show_probe(clearance, reply);
  } finally {
    desk.is_entering = false;
  }
}

function is_entered(reply, call, text) {
  seats.entered.add(reply.entered);
  clear_answer();
  free.clear();
  show_answer([[text, "good"]], { call });
}

async function enter(command, text) {
  const reply = await tell(command);
  if (reply) is_entered(reply, command.call, text);
}

// ---- tentative marks, which have owners

function mark() {
  const clearance = clearance_of();
  if (clearance) enter({ do: "tentative", ...clearance }, `${name_of(clearance)} is marked as tentative`);
}

function withdraw() {
  const call = call_in_form();
  const flight = picture.flights.get(call);
  const named = flight && flight.mark ? name_of(flight.mark) : call;
  if (call) enter({ do: "withdraw", call }, `The mark is withdrawn: ${named}`);
}

function conflicts_of_mark(call) {
  return picture.conflicts.filter((one) => is_tentative(one) && one.pair.includes(call) && kind_of(one, call) === "t");
}

// Before a commit the flight, the level, the owner and the mark's conflicts are named; what changed meanwhile is named again.
function ask_commit(changed) {
  const call = call_in_form();
  const flight = picture.flights.get(call);
  if (!call) return;
  if (!flight || !flight.mark) {
    want(flight ? `${call} has no tentative clearance` : `no flight of the callsign ${call}`, "call");
    return;
  }
  const { mark: named } = flight;
  const conflicts = conflicts_of_mark(call);
  const other = (one) => one.pair.find((name) => name !== call);
  const lines = [[`${changed ? "It has changed. " : ""}Commit ${name_of(named)}? The mark is ${owner_of(named.who)}.`, "warn"]];
  for (const one of conflicts) lines.push([() => `with ${other(one)} ${span_of(one.first, one.last, picture.moment)}`, "bad"]);
  if (single.on) lines.push(["Its conflicts aren't looked at now.", "warn"]);
  else if (conflicts.length === 0) lines.push(["It has no conflict. Areas aren't tested.", "quiet"]);
  clear_answer();
  show_answer(lines, { call });
  offer(`Commit ${name_of(named)}`, () => {
    const keys = (list) => list.map(key_of).sort().join();
    const is_same = picture.flights.get(call) === flight && flight.mark === named && keys(conflicts_of_mark(call)) === keys(conflicts);
    if (is_same) enter({ do: "commit", call }, `${call} is cleared ${way_of(named)}`);
    else ask_commit(true);
  });
  offer("Keep it tentative", clear_answer);
  byId("offers").querySelector("button").focus();
}

// Another flight is picked.
export function renew_desk() {
  clear_answer();
  free.clear();
  fill_form();
  free.ask();
}

export function tend_desk() {
  tend_answer();
  show_accept();
  tend_free();
}

function on_where_key(event) {
  if (event.key === "Enter") {
    event.preventDefault();
    if (event.repeat) return;
    if (is_acceptable()) accept(desk.answer.free);
    else probe();
  } else if ((event.key === "ArrowUp" || event.key === "ArrowDown") && byId("how").value === "level") {
    event.preventDefault();
    step_level(event.key === "ArrowUp" ? 10 : -10);
  }
}

export function wire_desk() {
  byId("clearance").onsubmit = (event) => {
    event.preventDefault();
    probe();
  };
  byId("call").onchange = () => {
    const call = call_in_form();
    if (call && call !== picked.subject) choose(call);
  };
  byId("call").onkeydown = (event) => {
    if (event.key !== "Enter") return;
    event.preventDefault();
    const call = call_in_form();
    if (call) choose(call);
  };
  byId("how").onchange = () => {
    byId("where").value = "";
    suggest_fixes();
    show_accept();
    redraw.plan = true;
  };
  byId("where").onkeydown = byId("eff").onkeydown = on_where_key;
  byId("where").oninput = byId("eff").oninput = show_accept;
  byId("accept").onclick = () => {
    if (is_acceptable()) accept(desk.answer.free);
  };
  free.on_accept = accept;
  byId("tentative").onclick = mark;
  byId("withdraw").onclick = withdraw;
  byId("commit").onclick = () => ask_commit(false);
}
