// What is wired to what.

import { tell_age } from "./age.js";
import { forget_single, goes_on, is_too_long, looks, one_by_one, poll } from "./asking.js";
import { courses, map, read_courses, refresh_courses } from "./course.js";
import { clear_answer, desk, renew_desk, tend_desk, wire_desk } from "./desk.js";
import { connect, leave, link, on_link, watch_link } from "./link.js";
import { lists, show_conflicts, show_flights, show_numbers, wire_lists } from "./lists.js";
import { clock, reset_clock, run_clock } from "./motion.js";
import { forget, on_pick, pick, picked, picture, redraw, seats } from "./picture.js";
import { draw_plan, forget_view, still, view, wire_paper } from "./plan.js";
import { show_all, wire_plan } from "./pointing.js";
import { draw_profile, show_subjects, wire_profile } from "./profile.js";
import { byId, say, text_size } from "./words.js";

const SIZES = [0.8, 0.9, 1, 1.15, 1.3, 1.5, 1.75, 2];
const words = new URLSearchParams(location.search);
let watch = null;

// ---- what is shown, and when

export const frames = []; // the milliseconds of the last drawn frames
const drawn = { plan_at: 0, shown_at: 0 };

function show() {
  if (picked.calls.length > 0 && !picked.calls.some((call) => picture.flights.has(call))) pick([]);
  drawn.shown_at = performance.now();
  show_numbers();
  show_conflicts();
  if (performance.now() - lists.flights_at > 1900 || picture.flights.size < 60) show_flights();
  draw_profile();
  redraw.plan = true;
}

function show_anew() {
  lists.flights_at = 0;
  redraw.plan = redraw.labels = true;
  show();
}

// Between two looks the numbers run on.
function run_on() {
  if (clock.rate === 0 || performance.now() - drawn.shown_at < 700) return;
  show_numbers();
  show_conflicts();
  draw_profile();
}

// A frame is drawn once something has moved by half a pixel, or has changed.
function frame(now) {
  requestAnimationFrame(frame);
  const begun = performance.now();
  run_clock(now);
  const pace = clock.rate * 500 * (view.at ? view.at.scale : 0);
  const pause = still ? 1000 : pace > 0 ? Math.min(250, 500 / pace) : 1000;
  if (!redraw.plan && now - drawn.plan_at < pause) return;
  drawn.plan_at = now;
  draw_plan();
  frames.push(performance.now() - begun);
  if (frames.length > 600) frames.shift();
}

looks.after = (is_new) => {
  if (is_new || picture.gone.size > 0) show();
  tend_desk();
  refresh_courses();
};

on_pick.push(show_subjects, renew_desk, () => {
  view.follows = picked.calls.length > 0 && is_on("track");
  draw_profile();
  show_conflicts();
  if (picked.calls.length > 0) read_courses();
});
courses.on_read = () => {
  redraw.plan = true;
  draw_profile();
};
desk.on_change = draw_profile;

function watch_age() {
  if (tell_age()) show();
}

// ---- the session

function begin_anew() {
  forget();
  reset_clock();
  forget_view();
  Object.assign(seats, { own: null, former: new Set(), entered: new Set() });
  pick([]);
  show();
}

on_link.begin = async (socket) => {
  const is_same = await goes_on();
  if (!is_same) begin_anew();
  if (seats.own !== null) seats.former.add(seats.own);
  Object.assign(seats, { own: null, entered: new Set() });
  Object.assign(link, { wanted: true, is_live: true, begun: performance.now() });
  clear_answer();
  say("state", "connected as a position");
  watch_age();
  poll(socket);
};
on_link.lost = (word) => {
  if (is_too_long(word)) one_by_one(true);
  watch_age();
};
on_link.leave = end_watch;

byId("link").onsubmit = (event) => {
  event.preventDefault();
  if (link.socket || link.wanted) leave("disconnected", false);
  else {
    link.tries = 0;
    forget_single();
    connect();
  }
  watch_age();
};

// ---- the page

function is_on(id) {
  return byId(id).getAttribute("aria-pressed") === "true";
}

function set_size(scale) {
  text_size.scale = scale;
  document.documentElement.style.fontSize = 13 * scale + "px";
  try {
    localStorage.setItem("text size", scale);
  } catch {
    // a page that may not store anything begins with the usual size again
  }
  show_anew();
}

function stored_size() {
  try {
    return SIZES.find((size) => size === Number(localStorage.getItem("text size"))) || 1;
  } catch {
    return 1;
  }
}

function change_size(by) {
  set_size(SIZES[Math.min(SIZES.length - 1, Math.max(0, SIZES.indexOf(text_size.scale) + by))]);
}

function on_key(event) {
  if (event.ctrlKey || event.metaKey || event.altKey) return;
  if (event.key === "Escape") {
    pick([]);
    byId("plan").focus({ preventScroll: true });
  } else if (event.target.id === "address") return;
  else if (event.key === "/") {
    byId("call").focus();
    byId("call").select();
  } else if (event.key === "Home") show_all();
  else return;
  event.preventDefault();
}

function wire_page() {
  byId("all").onclick = show_all;
  byId("none").onclick = () => pick([]);
  byId("track").onclick = () => {
    byId("track").setAttribute("aria-pressed", String(!is_on("track")));
    view.follows = is_on("track");
    redraw.plan = true;
  };
  byId("smaller").onclick = () => change_size(-1);
  byId("larger").onclick = () => change_size(1);
  byId("low").oninput = byId("high").oninput = show_anew;
  byId("ahead").onchange = () => {
    redraw.plan = redraw.labels = true;
  };
  addEventListener("keydown", on_key);
  addEventListener("pagehide", () => leave("left", false));
  setInterval(run_on, 1000);
  setInterval(watch_link, 1000);
  setInterval(watch_age, 250);
}

// What a demo may hand in: the address of the server, a map to draw beneath, a note for the title, and a stream that says when to leave.
function end_watch() {
  if (watch) watch.close();
  watch = null;
}

async function read_map(file) {
  const answer = await fetch(file);
  if (answer.ok) map.drawn = await answer.json();
  view.fitted = false;
  redraw.plan = true;
}

function heed_words() {
  const note = words.get("note");
  if (note) {
    document.title += " \u2013 " + note;
    byId("title").textContent += " \u2013 " + note;
  }
  if (words.get("map")) read_map(words.get("map"));
  if (words.get("watch")) {
    watch = new EventSource(words.get("watch"));
    watch.addEventListener("leave", (event) => leave(event.data, true));
  }
  if (words.get("server")) {
    byId("address").value = words.get("server");
    connect();
  }
}

wire_lists();
wire_paper();
wire_plan();
wire_profile();
wire_desk();
wire_page();
begin_anew();
set_size(stored_size());
requestAnimationFrame(frame);
heed_words();
