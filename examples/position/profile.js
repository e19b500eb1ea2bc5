// The vertical profile of what is picked: levels against minutes, and levels that are probed by a click.

import { is_told, kind_of } from "./asking.js";
import { areas_of, closest, points } from "./course.js";
import { desk, probe_level } from "./desk.js";
import { aim, clock } from "./motion.js";
import { INK, make_paper, paper, path } from "./paper.js";
import { is_picked, picked, picked_flights, picture, redraw, subject } from "./picture.js";
import { byId, countdown, hours_of, level_of, make_button, miles, say, SOON_SECONDS, text_size, three, UNITS_PER_FOOT, UNITS_PER_LEVEL,
  WINDOW_SECONDS } from "./words.js";

export const profile = { cursor: null, scale: null };

function levels_shown(flights) {
  const heights = flights.flatMap((flight) => points(flight, clock.time, clock.time + WINDOW_SECONDS).map((one) => one.at[2]));
  for (const flight of flights) {
    if (flight.level !== null) heights.push(flight.level * UNITS_PER_LEVEL);
    if (flight.mark && flight.mark.level !== undefined) heights.push(flight.mark.level * UNITS_PER_LEVEL);
  }
  if (desk.tried) heights.push(desk.tried.level * UNITS_PER_LEVEL);
  if (heights.length === 0) return null;
  let low = Math.floor(Math.min(...heights) / UNITS_PER_LEVEL / 10) * 10 - 30;
  let high = Math.ceil(Math.max(...heights) / UNITS_PER_LEVEL / 10) * 10 + 30;
  low = Math.max(0, Math.min(low, high - 100));
  high = Math.min(600, Math.max(high, low + 100));
  return [low, high];
}

export function draw_profile() {
  const flights = picked_flights();
  const side = byId("side");
  if (side.hidden !== (flights.length === 0)) {
    side.hidden = flights.length === 0;
    redraw.plan = redraw.labels = true;
  }
  if (flights.length === 0) return;
  tell_head(flights);
  const { pen, width, height } = paper("profile");
  const range = levels_shown(flights.filter((one) => one.course));
  if (!range || width === 0) return;
  const [low, high] = range;
  const area = { left: 46 * text_size.scale, right: width - 14, top: 8, bottom: height - 20 * text_size.scale };
  const x_of = (sec) => area.left + ((sec - clock.time) / WINDOW_SECONDS) * (area.right - area.left);
  const y_of = (z) => area.bottom - ((z / UNITS_PER_LEVEL - low) / (high - low)) * (area.bottom - area.top);
  profile.scale = { low, high, area };
  draw_axes(pen, area, low, high, x_of, y_of);
  const conflict = picture.conflicts.find(is_picked);
  if (conflict) band_of_loss(pen, area, x_of, conflict.first, conflict.last, alarm_of(conflict) + "28");
  const height_of = (flight) => (aim(flight, clock.time) || [0, 0, 0])[2];
  const highest = flights.reduce((a, b) => (height_of(b) > height_of(a) ? b : a));
  for (const flight of flights) draw_climb(pen, flight, x_of, y_of, conflict, (flight === highest ? -6 : 14) * text_size.scale);
  draw_tried(pen, area, x_of, y_of);
}

function alarm_of(conflict) {
  return conflict.first - clock.time < SOON_SECONDS ? INK.alarm : INK.warn;
}

// The closest approach of two, within the conflict where they have one, and the areas that a course enters.
function tell_head(flights) {
  const texts = [];
  if (flights.length === 2 && flights.every((one) => one.course && one.course.rows.length)) {
    const conflict = picture.conflicts.find((one) => is_picked(one) && one.pair.every((call) => kind_of(one, call) === "a"));
    const span = conflict ? [Math.max(conflict.first, clock.time), conflict.last + 1] : [clock.time, clock.time + WINDOW_SECONDS];
    const best = closest(...flights, ...span);
    if (best) {
      const left = countdown(best.sec, clock.time);
      const feet = Math.round(best.high / UNITS_PER_FOOT / 100) * 100;
      texts.push(`closest ${miles(best.apart)} NM and ${feet} ft ${left === "now" ? "now" : "in " + left} (${hours_of(best.sec)})`);
    }
  }
  for (const flight of flights) {
    for (const { area, sec } of areas_of(flight)) {
      const is_in = sec <= clock.time + 2;
      texts.push(`${flight.call} ${is_in ? "is in" : "enters"} ${area.name}${is_in ? "" : " in " + countdown(sec, clock.time)}`);
    }
  }
  say("closest", texts.join(", "), "");
}

function draw_axes(pen, area, low, high, x_of, y_of) {
  const pixels = (area.bottom - area.top) / (high - low);
  const step = [10, 20, 50, 100].find((one) => one * pixels >= 15 * text_size.scale) || 100;
  pen.strokeStyle = "#26353e";
  pen.fillStyle = INK.faint;
  pen.lineWidth = 1;
  for (let level = Math.ceil(low / step) * step; level <= high; level += step) {
    const y = y_of(level * UNITS_PER_LEVEL);
    path(pen, [[area.left, y], [area.right, y]]);
    pen.stroke();
    pen.fillText("FL" + three(level), 4, y + 4);
  }
  for (let minute = 0; minute <= WINDOW_SECONDS / 60; minute += 2) {
    const x = x_of(clock.time + 60 * minute);
    path(pen, [[x, area.bottom], [x, area.bottom + 4]]);
    pen.stroke();
    pen.textAlign = minute === 20 ? "right" : "center";
    pen.fillText(minute === 0 ? "now" : "+" + minute, x, area.bottom + 15 * text_size.scale);
  }
  pen.textAlign = "left";
}

function band_of_loss(pen, area, x_of, first, last, colour) {
  const left = Math.max(area.left, x_of(first));
  const right = Math.min(area.right, Math.max(x_of(last + 1), left + 2));
  if (right <= left) return;
  pen.fillStyle = colour;
  pen.fillRect(left, area.top, right - left, area.bottom - area.top);
}

function draw_climb(pen, flight, x_of, y_of, conflict, off) {
  if (!flight.course) return;
  const colour = flight.call === picked.subject ? INK.pick : INK.other;
  const line = points(flight, clock.time, clock.time + WINDOW_SECONDS);
  if (line.length === 0) return;
  const edge = (side) => line.map((one) => [x_of(one.sec), y_of(one.at[2] + side * one.at[3])]);
  path(pen, [...edge(1), ...edge(-1).reverse()], true);
  pen.fillStyle = colour + "22";
  pen.fill();
  pen.strokeStyle = colour;
  pen.lineWidth = 2;
  path(pen, line.map((one) => [x_of(one.sec), y_of(one.at[2])]));
  pen.stroke();
  if (flight.mark && flight.mark.level !== undefined) {
    pen.setLineDash([4, 4]);
    const y = y_of(flight.mark.level * UNITS_PER_LEVEL);
    path(pen, [[x_of(clock.time), y], [x_of(clock.time + WINDOW_SECONDS), y]]);
    pen.stroke();
    pen.setLineDash([]);
  }
  if (conflict && is_told(conflict, flight.call)) {
    const mark = kind_of(conflict, flight.call) === "t" ? flight.mark : null;
    const lost = points(flight, Math.max(conflict.first, clock.time), conflict.last + 1);
    pen.strokeStyle = alarm_of(conflict);
    pen.lineWidth = 4;
    path(pen, lost.map((one) => [x_of(one.sec), y_of(mark ? mark.level * UNITS_PER_LEVEL : one.at[2])]));
    pen.stroke();
  }
  pen.fillStyle = colour;
  pen.fillText(flight.call, x_of(line[0].sec) + 6, y_of(line[0].at[2]) + off);
}

// A level that was probed, free or with the seconds in which separation would be lost, and the level that is pointed at.
function draw_tried(pen, area, x_of, y_of) {
  const { tried } = desk;
  if (tried && tried.call === picked.subject) {
    const y = y_of(tried.level * UNITS_PER_LEVEL);
    const enters = tried.areas && tried.areas.length > 0;
    pen.strokeStyle = pen.fillStyle = tried.hits.length ? INK.alarm : enters ? INK.warn : INK.free;
    pen.lineWidth = 2;
    path(pen, [[area.left, y], [area.right, y]]);
    pen.stroke();
    pen.textAlign = "right";
    const names = enters ? `, enters ${tried.areas.map((one) => one.area.name).join(" and ")}` : "";
    pen.fillText(`FL${three(tried.level)} ${tried.hits.length ? "would lose separation" : "has no conflict"}${names}`, area.right - 2, y - 5);
    pen.textAlign = "left";
    for (const hit of tried.hits) {
      band_of_loss(pen, { ...area, top: y - 7, bottom: y + 7 }, x_of, hit.first, hit.last, INK.alarm + "aa");
      pen.fillStyle = INK.alarm;
      pen.fillText(hit.with, Math.max(area.left, x_of(hit.first)), y + 18 * text_size.scale);
    }
  }
  if (profile.cursor === null) return;
  const y = y_of(profile.cursor * UNITS_PER_LEVEL);
  pen.strokeStyle = pen.fillStyle = INK.ink;
  pen.lineWidth = 1;
  pen.setLineDash([3, 3]);
  path(pen, [[area.left, y], [area.right, y]]);
  pen.stroke();
  pen.setLineDash([]);
  pen.fillText("probe FL" + three(profile.cursor), area.left + 90 * text_size.scale, y - 4);
}

function level_at(y) {
  if (!profile.scale) return null;
  const { low, high, area } = profile.scale;
  const level = Math.round((low + ((area.bottom - y) / (area.bottom - area.top)) * (high - low)) / 10) * 10;
  return Math.min(600, Math.max(0, level));
}

function on_key(event) {
  const flight = subject();
  if (event.key === "ArrowUp" || event.key === "ArrowDown") {
    const at = flight && aim(flight, clock.time);
    const start = profile.cursor ?? (flight && flight.level !== null ? flight.level : at ? Math.round(Number(level_of(at[2])) / 10) * 10 : 300);
    profile.cursor = Math.min(600, Math.max(0, start + (event.key === "ArrowUp" ? 10 : -10)));
    byId("heard").textContent = "level " + three(profile.cursor);
  } else if (event.key === "Enter") probe_level(profile.cursor);
  else return;
  event.preventDefault();
  draw_profile();
}

export function show_subjects() {
  profile.cursor = null;
  say("whose", picked.calls.join(" \u2013 "));
  byId("subjects").replaceChildren(...picked.calls.map((call) => {
    const button = make_button(call, () => desk.choose(call));
    button.setAttribute("aria-pressed", String(call === picked.subject));
    button.title = "Clearances are of " + call;
    return button;
  }));
}

export function wire_profile() {
  const canvas = byId("profile");
  make_paper("profile", draw_profile);
  canvas.onkeydown = on_key;
  canvas.onpointermove = (event) => {
    profile.cursor = level_at(event.offsetY);
    draw_profile();
  };
  canvas.onpointerleave = () => {
    profile.cursor = null;
    draw_profile();
  };
  canvas.onclick = (event) => probe_level(level_at(event.offsetY));
}
