// Where a flight is: by its straight stretch, by its reports, or by a row that was asked for; and the clock of the traffic.

import { picture } from "./picture.js";
import { UNITS_PER_LEVEL, UNITS_PER_MILE } from "./words.js";

const TRACK_DOTS = 5;
const LONGEST_GAP = 60; // seconds between two reports from which a speed is made
const TICKING_MILLISECONDS = 5000;
const SPAN_MILLISECONDS = 12000; // over which the pace of the ticks is taken

export const clock = { at: 0, rate: 0, time: 0, marks: [] };

export function report(flight, entry) {
  const shown = flight.est || flight.row ? position(flight, clock.time) : null;
  if (flight.last) flight.dots.push([flight.last.x, flight.last.y]);
  if (flight.dots.length > TRACK_DOTS) flight.dots.shift();
  flight.last = entry;
  const seen = [entry.x, entry.y, entry.z];
  const old = flight.est;
  if (!old || entry.at <= old.at || entry.at - old.at > LONGEST_GAP) {
    const row = flight.row && flight.row.row;
    const told = row ? [row[5], row[6], row[7]] : [0, 0, 0];
    const gain = old && entry.at > old.at ? seen.map((value, axis) => (value - old.place[axis]) / (entry.at - old.at)) : told;
    flight.est = { at: entry.at, place: seen, gain, count: old ? 2 : 1 };
  } else {
    const step = entry.at - old.at;
    const [near, swift] = old.count === 1 && !(old.gain[0] || old.gain[1]) ? [1, 1] : [0.5, 0.2];
    const off = seen.map((value, axis) => value - old.place[axis] - old.gain[axis] * step);
    flight.est = { at: entry.at, count: old.count + 1, gain: old.gain.map((value, axis) => value + (swift * off[axis]) / step),
      place: old.place.map((value, axis) => value + old.gain[axis] * step + near * off[axis]) };
  }
  if (shown) {
    const now = aim(flight, clock.time);
    const off = shown.map((value, axis) => value - now[axis]);
    flight.slip = Math.hypot(off[0], off[1]) < 3 * UNITS_PER_MILE ? off : [0, 0, 0];
    flight.slip_at = performance.now();
  }
}

// Position and gains at a second; null where it isn't known to fly then.
export function aim(flight, time) {
  if (flight.outer) {
    const entry = flight.filed;
    if (time < entry.from || time >= entry.to) return null;
    const step = time - entry.from;
    return [entry.x + entry.vx * step, entry.y + entry.vy * step, entry.z + entry.vz * step, entry.vx, entry.vy, entry.vz];
  }
  if (flight.est && (!flight.row || flight.row.sec - flight.est.at < LONGEST_GAP)) {
    const { at, place, gain } = flight.est;
    const step = Math.min(time - at, LONGEST_GAP);
    return [place[0] + gain[0] * step, place[1] + gain[1] * step, place[2] + gain[2] * step, ...gain];
  }
  const row = flight.row && flight.row.row;
  if (!row) return null;
  const step = time - flight.row.sec;
  const aimed = flight.level === null ? row[2] : flight.level * UNITS_PER_LEVEL;
  const z = row[7] > 0 ? Math.min(Math.max(aimed, row[2]), row[2] + row[7] * step) : Math.max(Math.min(aimed, row[2]), row[2] + row[7] * step);
  return [row[0] + row[5] * step, row[1] + row[6] * step, z, row[5], row[6], row[7]];
}

// What is drawn: where a report moved a flight, it slides there.
export function position(flight, time) {
  const at = aim(flight, time);
  if (!at) return null;
  const share = flight.slip_at ? Math.exp((flight.slip_at - performance.now()) / 500) : 0;
  if (share > 0.01) for (let axis = 0; axis < 3; axis += 1) at[axis] += share * flight.slip[axis];
  return at;
}

// Where a flight was: its reports but the last, or for an external one each tenth second of its stretch.
export function dots_of(flight) {
  if (!flight.outer) return flight.dots;
  return Array.from({ length: TRACK_DOTS }, (_, place) => aim(flight, clock.time - 10 * (place + 1))).filter(Boolean);
}

// ---- the clock runs on between two ticks at the pace that they had, and stands where the moment does until there were some in the last seconds

export function reset_clock() {
  Object.assign(clock, { at: performance.now(), rate: 0, time: 0, marks: [] });
}

// The second that it is: the clock may run a little behind the moment.
export function second_now() {
  return Math.max(clock.time, picture.moment);
}

// It tells whether the clock has come to stand.
export function mark_clock() {
  const now = performance.now();
  const ran = clock.rate > 0;
  const last = clock.marks[clock.marks.length - 1];
  if (!last || last.moment !== picture.moment) clock.marks.push({ now, moment: picture.moment });
  while (clock.marks.length > 0 && now - clock.marks[0].now > SPAN_MILLISECONDS) clock.marks.shift();
  const first = clock.marks[0];
  const newest = clock.marks[clock.marks.length - 1];
  const is_running = clock.marks.length > 2 && now - newest.now < TICKING_MILLISECONDS;
  clock.rate = is_running ? Math.min(200, (newest.moment - first.moment) / ((newest.now - first.now) / 1000)) : 0;
  if (Math.abs(picture.moment - clock.time) > 60 || !is_running) clock.time = picture.moment;
  return ran && !is_running;
}

// The picture stands, and so does the clock, at what is known.
export function stop_clock() {
  Object.assign(clock, { rate: 0, time: picture.moment, marks: [] });
}

export function run_clock(now) {
  const step = Math.min(1, (now - clock.at) / 1000);
  clock.at = now;
  const newest = clock.marks[clock.marks.length - 1];
  if (!newest || clock.rate === 0) return;
  const target = newest.moment + clock.rate * Math.min(2.5, (now - newest.now) / 1000);
  clock.time += step * Math.max(0, clock.rate + 0.8 * (target - clock.time));
}
