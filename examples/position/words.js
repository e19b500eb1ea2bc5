// Units, texts, and the places of the page that they stand in.

export const UNITS_PER_MILE = 3600;
export const UNITS_PER_LEVEL = 6000;
export const UNITS_PER_FOOT = 60;
export const WINDOW_SECONDS = 1200;
export const SOON_SECONDS = 120; // a loss of separation within these is red

export const byId = (id) => document.getElementById(id);
export const text_size = { scale: 1 };

export function say(id, text, kind) {
  const place = byId(id);
  if (place.textContent !== String(text)) place.textContent = text;
  if (place.className !== (kind || "")) place.className = kind || "";
}

export function make(name, text, look) {
  const node = document.createElement(name);
  if (text !== undefined) node.textContent = text;
  if (look) node.className = look;
  return node;
}

export function make_button(text, act) {
  const button = make("button", text);
  button.type = "button";
  button.onclick = act;
  return button;
}

export function miles(units) {
  return (units / UNITS_PER_MILE).toFixed(1);
}

export function three(level) {
  return String(level).padStart(3, "0");
}

export function level_of(z) {
  return three(Math.round(z / UNITS_PER_LEVEL));
}

export function hours_of(seconds) {
  const two = (value) => String(Math.floor(value)).padStart(2, "0");
  return two(seconds / 3600) + ":" + two((seconds / 60) % 60) + ":" + two(seconds % 60);
}

export function countdown(first, now) {
  const left = Math.ceil(first - now);
  return left <= 0 ? "now" : Math.floor(left / 60) + ":" + String(left % 60).padStart(2, "0");
}

// "in 1:30 (10:15:11 to 10:17:20)"
export function span_of(first, last, now) {
  const left = countdown(first, now);
  return `${left === "now" ? left : "in " + left} (${hours_of(first)} to ${hours_of(last)})`;
}

export function to_of(clearance) {
  return clearance.direct === undefined ? "FL" + three(clearance.level) : "direct " + clearance.direct;
}

export function way_of(clearance) {
  return clearance.direct === undefined ? "to FL" + three(clearance.level) : "direct to " + clearance.direct;
}

export function name_of(clearance) {
  return clearance.call + " " + way_of(clearance);
}

const REFUSALS = {
  "unknown-call": "no flight of that callsign",
  "fixed": "an external flight can't be cleared",
  "unknown-fix": "no fix of that name",
  "ended": "the flight has ended by then",
  "not-ahead": "that fix doesn't lie ahead",
  "ceiling": "above the ceiling of its type",
  "future": "that second is still to come",
  "history-full": "the history is full",
  "stale": "the picture has changed: it now has a conflict",
  "not-free": "the probe had conflicts",
  "no-probe": "the probe isn't kept any more",
  "tentative-held": "the flight has a tentative clearance",
  "no-tentative": "the flight has no tentative clearance",
  "not-owner": "another seat owns the tentative clearance",
  "memory": "the server found no memory",
  "form": "not filled in as it should be",
  "range": "out of its bounds",
};

export function refusal_of(reply, now, owner) {
  let text = "Refused: " + (REFUSALS[reply.no] || reply.no);
  if (reply.field) text += " (" + reply.field + ")";
  if (reply.name) text += " (" + reply.name + ")";
  if (reply.owner !== undefined) text += " (" + owner + ")";
  if (reply.conflict) text += ", with " + hit_text(reply.conflict, now);
  return text;
}

export function hit_text(hit, now) {
  return hit.with + " " + span_of(hit.first, hit.last, now);
}

// The values that a field of text suggests.
export function suggest(id, values) {
  const list = byId(id);
  const text = values.join(" ");
  if (list.dataset.text === text) return;
  list.dataset.text = text;
  list.replaceChildren(...values.map((value) => {
    const option = make("option");
    option.value = value;
    return option;
  }));
}
