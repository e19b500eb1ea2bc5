// How the plan is moved and what is picked on it, by the mouse and by keys.

import { box_at, letter_width, line_height } from "./labels.js";
import { pick, pick_conflict, redraw } from "./picture.js";
import { view } from "./plan.js";
import { byId } from "./words.js";

const NEAR_FLIGHT = 12;
const NEAR_CONFLICT = 16;

function changed() {
  redraw.plan = redraw.labels = true;
}

function move(east, north) {
  if (!view.at) return;
  Object.assign(view, { fitted: true, follows: false });
  view.at.x += east / view.at.scale;
  view.at.y += north / view.at.scale;
  changed();
}

function zoom(factor, x, y) {
  if (!view.at) return;
  Object.assign(view, { fitted: true, follows: false });
  const [dx, dy] = x === undefined ? [0, 0] : [x - view.width / 2, view.height / 2 - y];
  view.at.x += (dx / view.at.scale) * (1 - 1 / factor);
  view.at.y += (dy / view.at.scale) * (1 - 1 / factor);
  view.at.scale *= factor;
  changed();
}

export function show_all() {
  Object.assign(view, { fitted: false, follows: false });
  changed();
}

function on_key(event) {
  const steps = { ArrowLeft: [-60, 0], ArrowRight: [60, 0], ArrowUp: [0, 60], ArrowDown: [0, -60] };
  if (event.ctrlKey || event.metaKey || event.altKey) return;
  if (steps[event.key]) move(...steps[event.key]);
  else if (event.key === "+" || event.key === "=") zoom(1.25);
  else if (event.key === "-") zoom(0.8);
  else return;
  event.preventDefault();
}

let drag = null;

function on_down(event) {
  drag = { x: event.offsetX, y: event.offsetY, moved: false };
  byId("plan").setPointerCapture(event.pointerId);
}

function on_move(event) {
  if (!drag) return;
  const [dx, dy] = [event.offsetX - drag.x, event.offsetY - drag.y];
  if (!drag.moved && Math.hypot(dx, dy) < 4) return;
  move(-dx, dy);
  drag = { x: event.offsetX, y: event.offsetY, moved: true };
}

function on_up(event) {
  const is_click = drag && !drag.moved;
  drag = null;
  if (!is_click) return;
  const [x, y] = [event.offsetX, event.offsetY];
  const nearest = (list) => list.map((one) => [Math.hypot(one.x - x, one.y - y), one]).sort((a, b) => a[0] - b[0])[0];
  const flight = nearest(view.flying);
  const conflict = nearest(view.conflicts);
  const tag = view.conflicts.find((one) => is_on_label(one, one.texts, x, y));
  const label = view.flying.find((one) => !one.is_dim && is_on_label(one, one.texts.slice(0, one.label.lines), x, y));
  if (flight && flight[0] < NEAR_FLIGHT) pick([flight[1].flight.call]);
  else if (tag) pick_conflict(tag.conflict);
  else if (label) pick([label.flight.call]);
  else if (conflict && conflict[0] < NEAR_CONFLICT) pick_conflict(conflict[1].conflict);
}

function is_on_label(one, texts, x, y) {
  if (one.label.lines === 0) return false;
  const size = [letter_width() * Math.max(...texts.map((text) => text.length)) + 6, line_height() * texts.length + 4];
  const [left, top, right, bottom] = box_at(one.x, one.y, one.label.slot, ...size);
  return x >= left && x <= right && y >= top && y <= bottom;
}

export function wire_plan() {
  const plan = byId("plan");
  plan.onkeydown = on_key;
  plan.onpointerdown = on_down;
  plan.onpointermove = on_move;
  plan.onpointerup = on_up;
  plan.addEventListener("wheel", (event) => {
    event.preventDefault();
    zoom(event.deltaY < 0 ? 1.15 : 0.87, event.offsetX, event.offsetY);
  }, { passive: false });
}
