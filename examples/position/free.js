// What is free for the picked flights, one row a flight, the nearest levels first. It is asked for again in time, so that it stays where it is while
// it is the same, and is cleared where it is half a minute old, or where one of the flights has a new trajectory.

import { areas_of_clearance, map } from "./course.js";
import { ask, Gone } from "./link.js";
import { picked, picture } from "./picture.js";
import { byId, hours_of, make, make_button, name_of, to_of } from "./words.js";

export const HOLDS_SECONDS = 30;
const FRESH_SECONDS = 12;
const JUST_COME_MILLISECONDS = 400; // a button that has just come isn't the one that was aimed at

export const free = {
  moment: -Infinity, version: -1, is_asking: false, listed_at: 0, text: "", on_accept: () => {},

  clear() {
    Object.assign(free, { moment: -Infinity, version: -1, text: "" });
    byId("free").hidden = true;
    byId("free").querySelector("ul").replaceChildren();
  },

  is_old() {
    const flights = picked.calls.map((call) => picture.flights.get(call));
    return picture.moment - free.moment > HOLDS_SECONDS || flights.some((one) => one && one.stamp > free.version);
  },

  async ask() {
    const calls = picked.calls.filter((call) => picture.flights.has(call) && !picture.flights.get(call).outer);
    if (calls.length === 0 || free.is_asking) return;
    free.is_asking = true;
    const replies = await Promise.all(calls.map((call) => ask({ do: "advise", call }))).catch((error) => {
      if (error instanceof Gone) return [];
      throw error;
    });
    free.is_asking = false;
    if (replies.length === 0 || calls.join() !== picked.calls.filter((call) => calls.includes(call)).join()) return;
    const told = replies.filter((one) => !one.no);
    const moment = Math.min(...told.map((one) => one.eff), picture.moment + HOLDS_SECONDS);
    Object.assign(free, { moment, version: Math.min(...replies.map((one) => one.version)) });
    free.show(told);
  },

  show(replies) {
    const text = JSON.stringify(replies.map((one) => [one.call, one.advice.map(to_of)]));
    if (text !== free.text) {
      Object.assign(free, { text, listed_at: performance.now() });
      byId("free").querySelector("ul").replaceChildren(...replies.map(row_of));
    }
    byId("asof").textContent = `at ${hours_of(free.moment)}; ${map.drawn ? "" : "areas and "}tentative marks aren't tested`;
    byId("free").hidden = false;
  },
};

function row_of(reply) {
  const row = make("li");
  row.append(make("b", reply.call));
  const flight = picture.flights.get(reply.call);
  const off = (one) => (one.level === undefined ? 1000 : Math.abs(one.level - flight.level));
  if (reply.advice.length === 0) row.append(make("span", "none that was tried", "quiet"));
  for (const one of [...reply.advice].sort((a, b) => off(a) - off(b))) {
    const clearance = { call: reply.call, ...(one.level === undefined ? { direct: one.direct } : { level: one.level }) };
    const areas = flight ? areas_of_clearance(flight, clearance) : null;
    const names = areas ? areas.map((found) => found.area.name).join(" ") : "";
    const button = make_button(to_of(one) + (names ? " " + names : ""), () => {
      if (performance.now() - free.listed_at > JUST_COME_MILLISECONDS) free.on_accept(clearance);
    });
    button.title = `Accept ${name_of(clearance)}${names ? ", which would enter " + names : ""}`;
    if (names) button.className = "enters";
    row.append(button);
  }
  return row;
}

export function tend_free() {
  if (picked.calls.length === 0) return;
  if (free.is_old()) free.clear();
  if (picture.moment - free.moment > FRESH_SECONDS) free.ask();
}
