// The course of a picked flight: rows of the next minutes, closer where it turns or levels off; the closest approach of two, and the restricted
// areas that are entered.

import { ask } from "./link.js";
import { aim, clock } from "./motion.js";
import { picked_flights, picture, redraw } from "./picture.js";
import { UNITS_PER_LEVEL, WINDOW_SECONDS } from "./words.js";

const ROW_SECONDS = 120;
const FRESH_MILLISECONDS = 5000;
const FRESH_SECONDS = 300;
const STEP_SECONDS = 2; // between two places that are tested against an area, and two that are tested for the closest approach
const SLOW_RATE = 1000; // feet a minute: a climb or a descent that is probed lies between these
const FAST_RATE = 3000;

export const courses = { read_at: 0, on_read: () => {} };
export const map = { drawn: null };

export async function read_course(flight) {
  const stamp = flight.stamp;
  const from = Math.floor(picture.moment);
  if (flight.outer) {
    const until = Math.min(from + WINDOW_SECONDS, flight.filed.to - 1);
    const rows = [from, until].map((sec) => ({ sec, row: aim(flight, sec) })).filter((one) => one.row);
    flight.course = { stamp, from, rows: rows.map((one) => ({ sec: one.sec, row: [...one.row.slice(0, 3), 0, 0, ...one.row.slice(3), 0, 0, 0] })) };
    return;
  }
  const head = await ask({ do: "flight", call: flight.call, sec: from });
  if (head.no) return;
  const first = Math.max(from, head.start);
  const last = Math.min(from + WINDOW_SECONDS, head.end - 1);
  const secs = [];
  for (let sec = first; sec < last; sec += ROW_SECONDS) secs.push(sec);
  secs.push(last);
  let rows = await rows_at(flight, secs);
  const between = rows.slice(1).map((one, place) => [rows[place], one]).filter(([a, b]) => a.row[7] !== b.row[7] || b.row[10] - a.row[10] > 1);
  rows = rows.concat(await rows_at(flight, between.map(([a, b]) => Math.floor((a.sec + b.sec) / 2)))).sort((a, b) => a.sec - b.sec);
  flight.course = { stamp, from, rows };
  redraw.plan = true;
}

async function rows_at(flight, secs) {
  const told = await Promise.all(secs.map((sec) => ask({ do: "flight", call: flight.call, sec })));
  return told.map((one, place) => ({ sec: secs[place], row: one.row })).filter((one) => one.row);
}

export function read_courses() {
  courses.read_at = performance.now();
  return Promise.all(picked_flights().map(read_course)).then(() => courses.on_read(), () => {});
}

export function refresh_courses() {
  const flights = picked_flights();
  const is_old = flights.some((one) => !one.course || one.course.stamp !== one.stamp || picture.moment - one.course.from > FRESH_SECONDS);
  if (is_old && performance.now() - courses.read_at > FRESH_MILLISECONDS) read_courses();
}

// Between two rows a flight goes on by the first until that meets the second, run backwards: x, y, z and the vertical margin at a time.
function along(rows, time) {
  if (rows.length === 0 || time < rows[0].sec) return null;
  let place = rows.length - 1;
  while (place > 0 && rows[place].sec > time) place -= 1;
  const a = rows[place];
  const b = rows[place + 1];
  const ahead = time - a.sec;
  const by = (row, axis, step) => row[axis] + row[axis + 5] * step;
  if (!b) return ahead > 1 ? null : [by(a.row, 0, ahead), by(a.row, 1, ahead), by(a.row, 2, ahead), a.row[4]];
  const back = time - b.sec;
  const length = b.sec - a.sec;
  const [flat, steep] = turns(a, b, length);
  const x = ahead < flat ? by(a.row, 0, ahead) : by(b.row, 0, back);
  const y = ahead < flat ? by(a.row, 1, ahead) : by(b.row, 1, back);
  const z = ahead < steep ? by(a.row, 2, ahead) : by(b.row, 2, back);
  return [x, y, z, a.row[4] + ((b.row[4] - a.row[4]) * ahead) / Math.max(1, length)];
}

function turns(a, b, length) {
  const gap = [0, 1, 2].map((axis) => b.row[axis] - b.row[axis + 5] * length - a.row[axis]);
  const pace = [0, 1, 2].map((axis) => a.row[axis + 5] - b.row[axis + 5]);
  const square = pace[0] ** 2 + pace[1] ** 2;
  const flat = square > 16 ? (gap[0] * pace[0] + gap[1] * pace[1]) / square : length / 2;
  const steep = pace[2] !== 0 ? gap[2] / pace[2] : length / 2;
  return [flat, steep].map((value) => Math.min(length, Math.max(0, value)));
}

// The points of a course from one second to another, where it turns among them.
export function points(flight, from, to) {
  const rows = flight.course ? flight.course.rows : [];
  const secs = new Set([from, to]);
  rows.forEach((one, place) => {
    secs.add(one.sec);
    const next = rows[place + 1];
    if (next) for (const turn of turns(one, next, next.sec - one.sec)) secs.add(one.sec + turn);
  });
  const inside = [...secs].filter((sec) => sec >= from && sec <= to).sort((a, b) => a - b);
  return inside.map((sec) => ({ sec, at: along(rows, sec) })).filter((one) => one.at);
}

// Where two courses come closest, in the plane, in some seconds: the second, the distance in the plane and that in height.
export function closest(a, b, from, to) {
  let best = null;
  for (let sec = from; sec <= to; sec += STEP_SECONDS) {
    const [one, other] = [along(a.course.rows, sec), along(b.course.rows, sec)];
    if (!one || !other) continue;
    const apart = Math.hypot(one[0] - other[0], one[1] - other[1]);
    if (!best || apart < best.apart) best = { sec, apart, high: Math.abs(one[2] - other[2]) };
  }
  return best;
}

// ---- restricted areas, of which a session isn't told: they are those of the map

// The places of a course each two seconds, and the heights between which it is there.
function flown(flight) {
  const found = [];
  for (let sec = clock.time; sec <= clock.time + WINDOW_SECONDS; sec += STEP_SECONDS) {
    const at = along(flight.course ? flight.course.rows : [], sec);
    if (at) found.push({ sec, x: at[0], y: at[1], low: at[2], high: at[2] });
  }
  return found;
}

// The same with another level, to which it climbs or descends slowly or fast.
function probed(flight, level) {
  const line = flown(flight);
  const aimed = level * UNITS_PER_LEVEL;
  const begin = line.length ? line[0].low : aimed;
  const towards = (rate, time) => (aimed > begin ? Math.min(aimed, begin + rate * time) : Math.max(aimed, begin - rate * time));
  for (const one of line) {
    const heights = [towards(SLOW_RATE, one.sec - clock.time), towards(FAST_RATE, one.sec - clock.time)];
    Object.assign(one, { low: Math.min(...heights), high: Math.max(...heights) });
  }
  return line;
}

// The same straight to a fix of its route and then on by it, where the map has these fixes.
function direct(flight, name) {
  const row = flight.course && flight.course.rows[0] && flight.course.rows[0].row;
  const at = aim(flight, clock.time);
  const place = row ? flight.route.indexOf(name, row[10]) : -1;
  if (!at || place < 0) return [];
  const fixes = new Map(map.drawn.fixes.map(([fix, x, y]) => [fix, [x, y]]));
  const way = [[at[0], at[1]], ...flight.route.slice(place).map((fix) => fixes.get(fix))];
  if (!way.every(Boolean)) return [];
  const heights = flown(flight);
  const stride = Math.max(1, Math.hypot(at[3], at[4])) * STEP_SECONDS;
  const line = [];
  for (let leg = 1; leg < way.length && line.length < heights.length; leg += 1) {
    const [[x, y], [u, v]] = [way[leg - 1], way[leg]];
    const steps = Math.max(1, Math.round(Math.hypot(u - x, v - y) / stride));
    for (let step = 0; step < steps && line.length < heights.length; step += 1) {
      const { sec, low, high } = heights[line.length];
      line.push({ sec, low, high, x: x + ((u - x) * step) / steps, y: y + ((v - y) * step) / steps });
    }
  }
  return line;
}

function is_inside(corners, x, y) {
  return corners.every(([a, b], place) => {
    const [c, d] = corners[(place + 1) % corners.length];
    return (c - a) * (y - b) - (d - b) * (x - a) > 0;
  });
}

// The areas that a line passes, each with the first second of it.
function areas_on(line) {
  const found = [];
  for (const area of map.drawn ? map.drawn.areas : []) {
    const [bottom, top] = [area.bottom * UNITS_PER_LEVEL, area.top * UNITS_PER_LEVEL];
    const holds = (one) => one.high > bottom && one.low < top && one.sec >= (area.from ?? 0) && one.sec < (area.to ?? Infinity);
    const first = line.find((one) => holds(one) && is_inside(area.corners, one.x, one.y));
    if (first) found.push({ area, sec: first.sec });
  }
  return found;
}

export function areas_of(flight) {
  return areas_on(flown(flight));
}

// The areas that a clearance would enter; null where that can't be told.
export function areas_of_clearance(flight, clearance) {
  if (!map.drawn || !flight.course) return null;
  const line = clearance.direct === undefined ? probed(flight, clearance.level) : direct(flight, clearance.direct);
  return line.length ? areas_on(line) : null;
}
