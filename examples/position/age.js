// How old the picture is, by the clock on the wall. What enters is disabled where the server isn't there or doesn't answer.

import { link, silence } from "./link.js";
import { stop_clock } from "./motion.js";
import { picture } from "./picture.js";
import { byId, hours_of, say } from "./words.js";

const SILENT_MILLISECONDS = 3000; // lines are sent each second, so a frozen server is noticed within five
const OLD_MILLISECONDS = 5000;

const age = { is_veiled: false };

function show(id, text) {
  say(id, text, byId(id).className);
  byId(id).hidden = text === "";
}

function bar_text(now) {
  const seconds = (since) => Math.floor((now - since) / 1000) + " s";
  if (silence() > SILENT_MILLISECONDS) {
    return `The picture is ${seconds(Math.max(link.heard, link.begun))} old: the server hasn't answered since ${hours_of(picture.moment)}`;
  }
  if (picture.drawn < 0 || now - picture.ticked < OLD_MILLISECONDS) return "";
  if (picture.moment === 0) return `No tick has come for ${seconds(picture.ticked)}: the moment is 00:00:00`;
  return `The picture is ${seconds(picture.ticked)} old: no tick has come since ${hours_of(picture.moment)}`;
}

// It tells whether the veil has just come.
export function tell_age() {
  const now = performance.now();
  const is_cut = !link.is_live && picture.version > 0;
  const comes = is_cut && !age.is_veiled;
  if (comes) stop_clock();
  age.is_veiled = is_cut;
  show("veil", is_cut ? "FROZEN " + hours_of(picture.moment) : "");
  const bar = link.is_live ? bar_text(now) : "";
  show("age", bar);
  const is_dead = !link.is_live || silence() > SILENT_MILLISECONDS;
  for (const id of ["acts", "offered"]) if (byId(id).disabled !== is_dead) byId(id).disabled = is_dead;
  return comes;
}
