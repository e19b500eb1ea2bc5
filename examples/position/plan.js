// The plan view: north is up, one unit is 1/3600 of a nautical mile.

import { is_told, row_at_loss } from "./asking.js";
import { map, points } from "./course.js";
import { draw_map, draw_scale, scale_box } from "./ground.js";
import { box_at, font_of, is_far, letter_width, line_height, place_labels } from "./labels.js";
import { clock, dots_of, position, second_now } from "./motion.js";
import { band, conflicts_in_band, INK, is_in_band, make_paper, paper, path } from "./paper.js";
import { is_deviating, is_off_level, is_picked, is_tentative, is_unreported, key_of, picked, picked_flights, picture, redraw } from "./picture.js";
import { byId, countdown, level_of, SOON_SECONDS, three, UNITS_PER_LEVEL, UNITS_PER_MILE, WINDOW_SECONDS } from "./words.js";

const MOST_UNPLACED = 12; // conflicts that are drawn from flight to flight until their places are known
const LABEL_MILLISECONDS = 1000;
export const still = matchMedia("(prefers-reduced-motion: reduce)").matches;

export const view = { at: null, fitted: false, follows: false, width: 0, height: 0, flying: [], conflicts: [], tools: [0, 0, 0, 0],
  labelled_at: 0 };
const tags = new Map(); // the labels of countdowns, by conflict

export function forget_view() {
  Object.assign(view, { at: null, fitted: false, follows: false });
}

function fit(places, width, height, least) {
  const xs = places.map((at) => at[0]);
  const ys = places.map((at) => at[1]);
  const wide = Math.max(least, Math.max(...xs) - Math.min(...xs));
  const high = Math.max(least, Math.max(...ys) - Math.min(...ys));
  const x = (Math.max(...xs) + Math.min(...xs)) / 2;
  return { x, y: (Math.max(...ys) + Math.min(...ys)) / 2, scale: Math.min(width / wide, height / high) * 0.86 };
}

function fit_all(flights, width, height) {
  const places = flights.map((one) => one.at);
  if (map.drawn) for (const [, x, y] of map.drawn.fixes) places.push([x, y]);
  return fit(places, width, height, 20 * UNITS_PER_MILE);
}

// The view moves to a picked conflict or flight, and goes with it.
function follow(width, height) {
  if (!view.follows || picked.calls.length === 0) return;
  view.fitted = true;
  const places = picked_flights().map((one) => position(one, clock.time)).filter(Boolean);
  const conflict = picture.conflicts.find(is_picked);
  if (conflict) for (const call of conflict.pair) places.push(row_at_loss(conflict, call));
  const known = places.filter(Boolean);
  if (known.length === 0) return;
  const wished = fit(known, width * 0.8, height * 0.8, 70 * UNITS_PER_MILE);
  const { at } = view;
  const share = still ? 1 : 0.12;
  const change = (Math.abs(wished.x - at.x) + Math.abs(wished.y - at.y)) * at.scale + Math.abs(Math.log(wished.scale / at.scale)) * 200;
  at.x += share * (wished.x - at.x);
  at.y += share * (wished.y - at.y);
  at.scale *= (wished.scale / at.scale) ** share;
  if (change > 2) redraw.plan = true;
  if (change > 20) redraw.labels = true;
}

// ---- what is drawn of a flight

function lines_of(flight, at) {
  const level = level_of(at[2]);
  const aimed = flight.level === null ? at[2] : flight.level * UNITS_PER_LEVEL;
  let cleared = Math.abs(aimed - at[2]) < 1.5 * UNITS_PER_LEVEL ? "" : (at[2] < aimed ? "\u2191" : "\u2193") + three(flight.level);
  if (is_off_level(flight)) cleared = "\u2260" + three(flight.level);
  const mark = flight.mark ? " T" + (flight.mark.level === undefined ? flight.mark.direct : three(flight.mark.level)) : "";
  const speed = Math.hypot(at[3], at[4]) / 10;
  if (flight.speed === undefined || Math.abs(flight.speed - speed) > 0.8) flight.speed = Math.round(speed);
  const head = flight.call + (flight.filed.rvsm === false ? "*" : "") + (is_deviating(flight) ? " DEV" : "");
  return [head, level + cleared + mark + " " + flight.speed];
}

// In how many seconds each flight first loses separation, as it flies and by a tentative clearance.
function alarms() {
  const [flown, tentative, now] = [new Map(), new Map(), second_now()];
  for (const one of picture.conflicts) {
    const urgencies = is_tentative(one) ? tentative : flown;
    for (const call of one.pair) urgencies.set(call, Math.min(urgencies.get(call) ?? Infinity, one.first - now));
  }
  return { flown, tentative };
}

function colour_of(urgency) {
  return urgency < SOON_SECONDS ? INK.alarm : INK.warn;
}

// What is drawn of a flight is kept from frame to frame; its texts are made anew where labels are placed.
function drawn_of(flight, at) {
  if (!flight.drawn) {
    flight.drawn = { flight, at, key: flight.call, x: 0, y: 0, end: null, radius: 6, most: 2, label: flight.label, texts: null, box: null,
      size_of: size_of_texts, urgency: undefined, tentative: undefined, is_picked: false, must: false, is_dim: false, colour: "", rank: 0 };
  }
  flight.drawn.at = at;
  return flight.drawn;
}

function flying_now(place, ahead) {
  const { flown, tentative } = alarms();
  const inside = band();
  const is_whole = inside[0] < 0 && inside[1] > 600 * UNITS_PER_LEVEL;
  for (const one of view.flying) {
    const { flight, at } = one;
    [one.x, one.y] = place(at);
    one.urgency = flown.get(flight.call);
    one.tentative = tentative.get(flight.call);
    one.is_picked = picked.calls.includes(flight.call);
    one.must = one.urgency !== undefined || one.tentative !== undefined || one.is_picked;
    one.is_dim = !is_whole && !one.must && !is_in_band(flight, inside);
    one.colour = one.is_picked ? INK.pick : one.urgency === undefined ? INK.flight : colour_of(one.urgency);
    one.end = place([at[0] + at[3] * ahead, at[1] + at[4] * ahead]);
    one.rank = one.is_picked ? -1e6 : one.urgency ?? (one.tentative === undefined ? 1e6 : 1e5);
  }
}

function size_of(texts, lines) {
  const longest = lines === 1 ? texts[0].length : Math.max(texts[0].length, texts[1].length);
  return [Math.ceil(letter_width() * longest) + 6, Math.ceil(line_height() * lines) + 4];
}

function size_of_texts(lines) {
  return size_of(this.texts, lines);
}

function label(width, height) {
  for (const one of view.flying) one.texts = lines_of(one.flight, one.at);
  const flights = view.flying.filter((one) => !one.is_dim).sort((a, b) => a.rank - b.rank || (a.key < b.key ? -1 : 1));
  const first = flights.filter((one) => one.is_picked);
  const barred = [view.tools, scale_box(height)];
  place_labels([...first, ...view.conflicts, ...flights.slice(first.length)], width, height, barred);
}

// ---- drawing: lines and dots, then rings and symbols, then labels, the most urgent ones last

function draw_flights(pen) {
  const groups = new Map();
  for (const one of view.flying) {
    if (!groups.has(one.colour)) groups.set(one.colour, []);
    groups.get(one.colour).push(one);
  }
  const ordered = [INK.flight, INK.warn, INK.alarm, INK.pick].map((colour) => groups.get(colour)).filter(Boolean);
  for (const group of ordered) {
    pen.strokeStyle = pen.fillStyle = group[0].colour;
    pen.lineWidth = 1;
    pen.beginPath();
    for (const { x, y, end, is_dim } of group) {
      if (is_dim) continue;
      pen.moveTo(x, y);
      pen.lineTo(...end);
    }
    pen.stroke();
    pen.globalAlpha = 0.45;
    pen.beginPath();
    for (const one of group) draw_track(pen, one);
    pen.fill();
    pen.globalAlpha = 1;
  }
  draw_rings(pen);
  for (const group of ordered) draw_symbols(pen, group);
}

// The dots of where it was; a flight out of the levels shown is a dot alone.
function draw_track(pen, { flight, at, x, y, is_dim }) {
  if (is_dim) {
    pen.rect(x - 1.5, y - 1.5, 3, 3);
    return;
  }
  const { scale } = view.at;
  for (const dot of dots_of(flight)) pen.rect(x + (dot[0] - at[0]) * scale - 1, y - (dot[1] - at[1]) * scale - 1, 2, 2);
}

// A ring about each flight in a conflict: red within two minutes, filled where separation is lost now, amber beyond, dashed for a tentative one.
function draw_rings(pen) {
  pen.lineWidth = 2;
  for (const { x, y, urgency, tentative } of view.flying) {
    if (urgency === undefined && tentative === undefined) continue;
    pen.strokeStyle = pen.fillStyle = colour_of(urgency ?? tentative);
    pen.setLineDash(urgency === undefined ? [3, 3] : []);
    pen.beginPath();
    pen.arc(x, y, 8, 0, 2 * Math.PI);
    pen.stroke();
    if (!(urgency <= 0)) continue;
    pen.globalAlpha = 0.55;
    pen.fill();
    pen.globalAlpha = 1;
  }
  pen.setLineDash([]);
}

// A ring is a planned flight, a square an external one, filled where it was reported in the last seconds.
function draw_symbols(pen, group) {
  for (const hollow of [false, true]) {
    pen.fillStyle = hollow ? INK.plan : group[0].colour;
    pen.strokeStyle = group[0].colour;
    pen.lineWidth = 1.5;
    pen.beginPath();
    for (const { flight, x, y, is_dim } of group) {
      if (is_dim || is_unreported(flight) !== hollow) continue;
      if (flight.outer) pen.rect(x - 4, y - 4, 8, 8);
      else {
        pen.moveTo(x + 4, y);
        pen.arc(x, y, 4, 0, 2 * Math.PI);
      }
    }
    pen.fill();
    pen.stroke();
  }
}

// Labels of one colour: the lines that lead to them, a plate beneath each as its halo, and the texts.
function draw_labels(pen, list, colour, plate, letters) {
  for (const one of list) one.box = box_at(one.x, one.y, one.label.slot, ...size_of(one.texts, one.label.lines));
  pen.strokeStyle = colour;
  pen.lineWidth = 0.75;
  pen.beginPath();
  for (const { x, y, label, box: [left, top, right, bottom] } of list) {
    if (!is_far(label.slot)) continue;
    pen.moveTo(x, y);
    pen.lineTo(Math.min(Math.max(x, left), right), Math.min(Math.max(y, top), bottom));
  }
  pen.stroke();
  pen.fillStyle = plate;
  pen.beginPath();
  for (const { box: [left, top, right, bottom] } of list) pen.rect(left, top, right - left, bottom - top);
  pen.fill();
  pen.fillStyle = letters;
  for (const { label, texts, box: [left, top] } of list) {
    for (let line = 0; line < label.lines; line += 1) {
      pen.fillText(texts[line], Math.round(left) + 3, Math.round(top + line_height() * (line + 0.8)) + 2);
    }
  }
}

function draw_all_labels(pen) {
  const halo = INK.plan + "c8";
  const flights = view.flying.filter((one) => !one.is_dim && one.label.lines);
  for (const colour of [INK.flight, INK.warn, INK.alarm]) {
    draw_labels(pen, flights.filter((one) => one.colour === colour), colour, halo, colour);
  }
  pen.font = font_of(true);
  for (const colour of [INK.warn, INK.alarm]) {
    const tagged = view.conflicts.filter((one) => one.label.lines && one.colour === colour);
    draw_labels(pen, tagged.filter((one) => !one.now), colour, halo, colour);
    draw_labels(pen, tagged.filter((one) => one.now), colour, colour, INK.plan);
  }
  pen.font = font_of(false);
  draw_labels(pen, flights.filter((one) => one.colour === INK.pick), INK.pick, halo, INK.pick);
}

// ---- conflicts: a line between the places of both in the first second of the loss, a cross on each, and the time to it

function conflicts_now(place, positions) {
  const found = conflicts_in_band().map((conflict) => {
    const ends = conflict.pair.map((call) => row_at_loss(conflict, call));
    const is_known = ends.every(Boolean);
    const at = is_known ? ends.map(place) : conflict.pair.map((call) => positions.get(call));
    const urgency = conflict.first - second_now();
    const text = (is_tentative(conflict) ? "T " : "") + countdown(conflict.first, second_now());
    return { conflict, at, is_known, picks: is_picked(conflict), urgency, now: urgency <= 0 && !is_tentative(conflict), texts: [text],
      colour: colour_of(urgency), most: 1, must: true, size_of: size_of_texts, box: null };
  }).filter((one) => one.at.every(Boolean));
  const unknown = found.filter((one) => !one.is_known && !one.picks);
  const drawn = unknown.length > MOST_UNPLACED ? found.filter((one) => one.is_known || one.picks) : found;
  const old = new Map(tags);
  tags.clear();
  for (const one of drawn) {
    const [[x, y], [u, v]] = one.at;
    const key = key_of(one.conflict);
    Object.assign(one, { x: (x + u) / 2, y: (y + v) / 2, key: "conflict " + key, label: old.get(key) || { slot: 0, lines: 0 } });
    tags.set(key, one.label);
  }
  view.conflicts = drawn.sort((a, b) => b.picks - a.picks || a.urgency - b.urgency);
}

function draw_conflicts(pen) {
  for (let rank = view.conflicts.length - 1; rank >= 0; rank -= 1) {
    const { at, conflict, is_known, picks, colour } = view.conflicts[rank];
    const hollow = is_tentative(conflict);
    const size = is_known ? (picks ? 5 : 3.5) : 0;
    pen.strokeStyle = colour;
    pen.lineWidth = picks ? 2.5 : 1.5;
    pen.setLineDash(hollow || !is_known ? [5, 4] : []);
    path(pen, at);
    pen.stroke();
    pen.setLineDash([]);
    pen.beginPath();
    for (const [x, y] of size ? at : []) {
      if (hollow) {
        pen.moveTo(x + size, y);
        pen.arc(x, y, size, 0, 2 * Math.PI);
        continue;
      }
      pen.moveTo(x - size, y - size);
      pen.lineTo(x + size, y + size);
      pen.moveTo(x - size, y + size);
      pen.lineTo(x + size, y - size);
    }
    pen.stroke();
  }
}

// The next minutes of the picked flights, and in red the seconds in which separation is lost.
function draw_courses(pen, place) {
  const conflict = picture.conflicts.find(is_picked);
  for (const flight of picked_flights()) {
    if (!flight.course) continue;
    pen.strokeStyle = flight.call === picked.subject ? INK.pick : INK.other;
    pen.lineWidth = 1.5;
    pen.setLineDash([2, 4]);
    path(pen, points(flight, clock.time, flight.course.from + WINDOW_SECONDS).map((one) => place(one.at)));
    pen.stroke();
    pen.setLineDash([]);
    if (!conflict || !is_told(conflict, flight.call)) continue;
    pen.strokeStyle = colour_of(conflict.first - clock.time);
    pen.lineWidth = 4;
    path(pen, points(flight, Math.max(conflict.first, clock.time), conflict.last + 1).map((one) => place(one.at)));
    pen.stroke();
  }
}

export function draw_plan() {
  const { pen, width, height } = paper("plan");
  if (width === 0) return;
  view.flying = [];
  for (const flight of picture.flights.values()) {
    const at = position(flight, clock.time);
    if (at) view.flying.push(drawn_of(flight, at));
  }
  redraw.plan = false;
  if (view.flying.length === 0 && !map.drawn) return;
  if (!view.at || !view.fitted) {
    view.at = fit_all(view.flying, width, height);
    view.fitted = picture.drawn >= 0 && view.flying.length > 0.9 * picture.flights.size;
    redraw.labels = true;
  }
  follow(width, height);
  const place = place_on(width, height);
  Object.assign(view, { width, height });
  flying_now(place, Number(byId("ahead").value));
  conflicts_now(place, new Map(view.flying.map((one) => [one.key, [one.x, one.y]])));
  const now = performance.now();
  if (redraw.labels || now - view.labelled_at > LABEL_MILLISECONDS || !view.flying.every((one) => one.texts)) {
    view.labelled_at = now;
    redraw.labels = false;
    label(width, height);
  }
  draw_map(pen, place);
  draw_courses(pen, place);
  draw_flights(pen);
  draw_conflicts(pen);
  draw_all_labels(pen);
  draw_scale(pen, height, view.at.scale);
}

export function wire_paper() {
  make_paper("plan", () => {
    const { offsetLeft, offsetTop, offsetWidth, offsetHeight } = byId("tools");
    view.tools = [offsetLeft, offsetTop, offsetLeft + offsetWidth, offsetTop + offsetHeight];
    redraw.plan = redraw.labels = true;
  });
}

function place_on(width, height) {
  const { x, y, scale } = view.at;
  return (at) => [(at[0] - x) * scale + width / 2, (y - at[1]) * scale + height / 2];
}

// Whether a conflict or one of its flights is in view.
export function is_in_view(conflict) {
  if (!view.at) return true;
  const place = place_on(view.width, view.height);
  const inside = (at) => {
    if (!at) return false;
    const [x, y] = place(at);
    return x >= 0 && y >= 0 && x <= view.width && y <= view.height;
  };
  const flights = conflict.pair.map((call) => picture.flights.get(call)).filter(Boolean);
  return flights.some((flight) => inside(position(flight, clock.time))) || conflict.pair.some((call) => inside(row_at_loss(conflict, call)));
}
