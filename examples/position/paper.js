// What the plan and the profile are drawn on, the colours, and which flights are in the levels shown.

import { font_of } from "./labels.js";
import { aim, clock } from "./motion.js";
import { picture } from "./picture.js";
import { byId, UNITS_PER_LEVEL } from "./words.js";

const style = getComputedStyle(document.documentElement);
const COLOURS = ["plan", "line", "route", "fix", "ink", "faint", "flight", "pick", "other", "alarm", "warn", "free"];
export const INK = Object.fromEntries(COLOURS.map((name) => [name, style.getPropertyValue("--" + name).trim()]));

// A canvas as large as its place, in the pixels of the screen, wiped. How large that is, is told where it changes, for to ask costs a layout.
const papers = new Map();

export function make_paper(id, on_size) {
  const canvas = byId(id);
  const one = { canvas, pen: canvas.getContext("2d", { alpha: false }), width: canvas.clientWidth, height: canvas.clientHeight };
  papers.set(id, one);
  new ResizeObserver(() => {
    Object.assign(one, { width: canvas.clientWidth, height: canvas.clientHeight });
    on_size();
  }).observe(canvas);
}

export function paper(id) {
  const { canvas, pen, width, height } = papers.get(id);
  const ratio = devicePixelRatio || 1;
  if (canvas.width !== Math.round(width * ratio) || canvas.height !== Math.round(height * ratio)) {
    canvas.width = Math.round(width * ratio);
    canvas.height = Math.round(height * ratio);
  }
  pen.setTransform(ratio, 0, 0, ratio, 0, 0);
  pen.fillStyle = INK.plan;
  pen.fillRect(0, 0, width, height);
  pen.font = font_of(false);
  return { pen, width, height };
}

export function path(pen, places, closed) {
  pen.beginPath();
  places.forEach(([x, y], place) => (place === 0 ? pen.moveTo(x, y) : pen.lineTo(x, y)));
  if (closed) pen.closePath();
}

export function band() {
  const number = (id, other) => (/^\d+$/.test(byId(id).value.trim()) ? Number(byId(id).value) : other);
  return [number("low", 0) * UNITS_PER_LEVEL - 1, number("high", 600) * UNITS_PER_LEVEL + 1];
}

// A flight is in the band where its level or the one it is cleared to is, or the levels between.
export function is_in_band(flight, [low, high]) {
  const at = aim(flight, clock.time);
  if (!at) return true;
  const cleared = flight.level === null ? at[2] : flight.level * UNITS_PER_LEVEL;
  return Math.max(at[2], cleared) >= low && Math.min(at[2], cleared) <= high;
}

export function conflicts_in_band() {
  const inside = band();
  return picture.conflicts.filter((one) => one.pair.some((call) => picture.flights.has(call) && is_in_band(picture.flights.get(call), inside)));
}
