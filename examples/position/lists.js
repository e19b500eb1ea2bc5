// The lists of conflicts and of flights. Rows are kept by their key, so that what is focused and how far one has scrolled stay.

import { kind_of, speeds_at_loss } from "./asking.js";
import { aim, clock, second_now } from "./motion.js";
import { band, conflicts_in_band, is_in_band } from "./paper.js";
import { is_deviating, is_off_level, is_picked, is_tentative, is_unreported, key_of, owner_of, pick, pick_conflict, picked, picture }
  from "./picture.js";
import { is_in_view } from "./plan.js";
import { byId, countdown, hours_of, level_of, make, say, SOON_SECONDS, suggest, three, to_of } from "./words.js";

const tables = { conflicts: new Map(), flights: new Map() };
export const lists = { flights_at: 0 };

function fill(id, rows) {
  const body = byId(id).tBodies[0];
  const kept = new Map(rows.map((row) => [row.key, tables[id].get(row.key) || new_line(row)]));
  for (const [key, line] of tables[id]) if (!kept.has(key)) line.node.remove();
  tables[id] = kept;
  let next = body.firstElementChild;
  for (const row of rows) {
    const line = kept.get(row.key);
    row.cells.forEach((text, cell) => {
      if (line.texts[cell] === text) return;
      line.texts[cell] = text;
      line.node.cells[cell].textContent = text;
    });
    if (line.look !== row.look) line.node.className = line.look = row.look;
    line.node.on_pick = row.on_pick;
    if (line.node === next) next = next.nextElementSibling;
    else body.insertBefore(line.node, next);
  }
}

function new_line(row) {
  const node = make("tr");
  node.tabIndex = 0;
  for (let cell = 0; cell < row.cells.length; cell += 1) node.append(make("td"));
  return { node, texts: [], look: "" };
}

// ---- conflicts: the time to the loss, the levels and the crossing angle

function name_in(conflict, call) {
  return kind_of(conflict, call) === "t" ? call + " T" : call;
}

function level_in(conflict, call) {
  const flight = picture.flights.get(call);
  const at = flight && aim(flight, clock.time);
  if (!at) return "";
  const mark = kind_of(conflict, call) === "t" && flight.mark ? flight.mark.level : undefined;
  const aimed = mark ?? flight.level;
  const level = level_of(at[2]);
  return aimed === null || Math.abs(Number(level) - aimed) < 2 ? level : level + (Number(level) < aimed ? "\u2191" : "\u2193") + three(aimed);
}

function angle_of(conflict) {
  const [a, b] = conflict.pair.map((call) => speeds_at_loss(conflict, call));
  if (!a || !b) return "";
  const lengths = Math.hypot(...a) * Math.hypot(...b);
  if (lengths === 0) return "";
  return Math.round((Math.acos(Math.min(1, Math.max(-1, (a[0] * b[0] + a[1] * b[1]) / lengths))) * 180) / Math.PI) + "\u00b0";
}

function look_of(conflict) {
  const left = conflict.first - second_now();
  const looks = [left <= 0 ? "now soon" : left < SOON_SECONDS ? "soon" : "", is_tentative(conflict) ? "tentative" : "",
    picture.fresh.has(key_of(conflict)) ? "new" : "", is_picked(conflict) ? "picked" : ""];
  return looks.filter(Boolean).join(" ");
}

function row_of(conflict) {
  return {
    key: key_of(conflict), look: look_of(conflict), on_pick: () => pick_conflict(conflict),
    cells: [picture.fresh.has(key_of(conflict)) ? "NEW" : "", conflict.pair.map((call) => name_in(conflict, call)).join(" \u2013 "),
      countdown(conflict.first, second_now()), hours_of(conflict.first) + " to " + hours_of(conflict.last),
      conflict.pair.map((call) => level_in(conflict, call)).join(" "), angle_of(conflict)],
  };
}

export function show_conflicts() {
  const only_seen = byId("seen").checked;
  const list = conflicts_in_band().filter((one) => !only_seen || is_in_view(one));
  const all = picture.conflicts.length;
  say("shown", list.length === all ? "" : `${list.length} of ${all}`, "quiet");
  fill("conflicts", list.map(row_of));
  const gone = [...picture.gone.values()].filter((one) => one.until > performance.now()).reverse();
  say("gone", gone.map((one) => `${one.conflict.pair.join(" \u2013 ")} ${one.why}`).join(", "), "quiet");
}

// ---- flights

function notes_of(flight) {
  const notes = [];
  if (flight.outer) notes.push("external");
  if (is_deviating(flight)) notes.push("DEV at " + hours_of(flight.deviated));
  if (is_off_level(flight)) notes.push(`at ${level_of(flight.est.place[2])}, off the cleared level ${three(flight.level)}`);
  if (flight.mark) notes.push(`tentative ${to_of(flight.mark)}, ${owner_of(flight.mark.who)}`);
  if (flight.filed.rvsm === false) notes.push("not RVSM");
  if (picture.due.has(flight.call)) notes.push("renewal due");
  if (flight.last && is_unreported(flight)) notes.push("not reported lately");
  if (!aim(flight, clock.time)) notes.push("not flying now");
  return notes.join(", ");
}

function flight_row(flight) {
  const at = aim(flight, clock.time);
  const [level, speed] = at ? [level_of(at[2]), Math.round(Math.hypot(at[3], at[4]))] : ["", ""];
  return {
    key: flight.call, look: flight.call === picked.subject ? "picked" : "", on_pick: () => pick([flight.call]),
    cells: [flight.call, level, flight.level === null ? "" : three(flight.level), flight.type, flight.route[flight.route.length - 1] || "", speed,
      notes_of(flight)],
  };
}

export function show_flights() {
  lists.flights_at = performance.now();
  suggest("calls", [...picture.flights.values()].filter((flight) => !flight.outer).map((flight) => flight.call).sort());
  if (!byId("folds").open) return;
  const inside = band();
  const known = [...picture.flights.values()].filter((flight) => is_in_band(flight, inside)).sort((a, b) => (a.call < b.call ? -1 : 1));
  fill("flights", known.map(flight_row));
}

export function show_numbers() {
  const tentative = picture.conflicts.filter(is_tentative).length;
  say("clock", hours_of(clock.time));
  say("count", picture.flights.size);
  say("losses", picture.conflicts.length - tentative);
  say("marks", tentative);
}

export function wire_lists() {
  for (const id of ["conflicts", "flights"]) {
    const body = byId(id).tBodies[0];
    const pick_row = (event) => {
      const line = event.target.closest("tr");
      if (line && line.on_pick) line.on_pick();
    };
    body.onclick = pick_row;
    body.onkeydown = (event) => {
      const line = event.target.closest("tr");
      const next = event.key === "ArrowDown" ? line.nextElementSibling : event.key === "ArrowUp" ? line.previousElementSibling : null;
      if (event.key === "Enter" || event.key === " ") pick_row(event);
      else if (next) next.focus();
      else return;
      event.preventDefault();
    };
  }
  byId("seen").onchange = show_conflicts;
  byId("folds").ontoggle = show_flights;
}
