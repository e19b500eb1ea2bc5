// Where labels stand: out of each other's way, of symbols and of speed vectors. Each has eight places about its flight, and others farther off, to
// which a line leads. The place that a label has is kept while it is free.

import { text_size } from "./words.js";

const NEAR = 10;
const FAR = [34, 58, 86, 120];
const DIRECTIONS = [[1, -1], [1, 1], [-1, 1], [-1, -1], [1, 0], [-1, 0], [0, -1], [0, 1]];
const [NEAR_SLOTS, SOME_SLOTS, ALL_SLOTS] = [8, 16, 8 + 8 * FAR.length];
const CELL = 48;
const VECTOR_STEP = 11;

export function font_of(bold) {
  return `${bold ? "bold " : ""}${11 * text_size.scale}px ui-monospace, 'DejaVu Sans Mono', monospace`;
}

export function letter_width() {
  return 6.7 * text_size.scale;
}

export function line_height() {
  return 12 * text_size.scale;
}

// The boxes that are taken in a view, by the cells of a grid. A box has an owner, a number, whom it isn't in the way of. This is asked some ten
// thousand times for a picture, so it makes nothing anew.
class Taken {
  constructor(width, height) {
    this.columns = Math.ceil(width / CELL) + 1;
    this.rows = Math.ceil(height / CELL) + 1;
    this.heads = new Int32Array(this.columns * this.rows).fill(-1);
    this.entries = []; // pairs: a box, and the entry that is next in the cell
    this.boxes = []; // fives: left, top, right, bottom, owner
  }

  put(left, top, right, bottom, owner) {
    const box = this.boxes.length;
    this.boxes.push(left, top, right, bottom, owner);
    const until = [Math.min(this.columns - 1, Math.floor(right / CELL)), Math.min(this.rows - 1, Math.floor(bottom / CELL))];
    for (let v = Math.max(0, Math.floor(top / CELL)); v <= until[1]; v += 1) {
      for (let u = Math.max(0, Math.floor(left / CELL)); u <= until[0]; u += 1) {
        const cell = u + this.columns * v;
        this.entries.push(box, this.heads[cell]);
        this.heads[cell] = this.entries.length - 2;
      }
    }
  }

  is_free(left, top, right, bottom, owner) {
    const { boxes, entries, heads } = this;
    const [last_u, last_v] = [Math.min(this.columns - 1, Math.floor(right / CELL)), Math.min(this.rows - 1, Math.floor(bottom / CELL))];
    for (let v = Math.floor(top / CELL); v <= last_v; v += 1) {
      for (let u = Math.floor(left / CELL); u <= last_u; u += 1) {
        for (let entry = heads[u + this.columns * v]; entry >= 0; entry = entries[entry + 1]) {
          const box = entries[entry];
          const is_apart = boxes[box] >= right || left >= boxes[box + 2] || boxes[box + 1] >= bottom || top >= boxes[box + 3];
          if (!is_apart && boxes[box + 4] !== owner) return false;
        }
      }
    }
    return true;
  }

  put_line(x, y, u, v) {
    const steps = Math.ceil(Math.hypot(u - x, v - y) / VECTOR_STEP);
    for (let step = 1; step <= steps; step += 1) {
      const [a, b] = [x + ((u - x) * step) / steps, y + ((v - y) * step) / steps];
      this.put(a - 3, b - 3, a + 3, b + 3, -1);
    }
  }
}

// The box of a label of that size at a place of that number: 0 to 7 are near, the others farther off.
export function box_at(x, y, slot, wide, high) {
  const [east, south] = DIRECTIONS[slot % 8];
  const ring = Math.floor(slot / 8);
  const slant = east && south ? 0.7 : 1;
  const gap = ring === 0 ? NEAR : FAR[ring - 1] * slant;
  const lift = ring === 0 && east ? 3 : gap;
  const left = east > 0 ? x + gap : east < 0 ? x - gap - wide : x - wide / 2;
  const top = south > 0 ? y + lift : south < 0 ? y - lift - high : y - high / 2;
  return [left, top, left + wide, top + high];
}

export function is_far(slot) {
  return slot >= 8;
}

// The first place from one number to another that is free, beginning with the one that the label has; -1 where none is.
function free_slot(taken, one, owner, lines, from, to, width, height) {
  const [wide, high] = one.size_of(lines);
  const kept = one.label.lines === lines && one.label.slot < to ? one.label.slot : from;
  for (let turn = from - 1; turn < to; turn += 1) {
    const slot = turn < from ? kept : turn;
    const [left, top, right, bottom] = box_at(one.x, one.y, slot, wide, high);
    if (left >= 0 && top >= 0 && right <= width && bottom <= height && taken.is_free(left, top, right, bottom, owner)) return slot;
  }
  return -1;
}

// Of each of the things, the most urgent ones first, the slot and the number of lines, 0 where it has none. Those that must have a label have one.
export function place_labels(things, width, height, barred) {
  const taken = new Taken(width, height);
  for (const box of barred) taken.put(...box, -1);
  things.forEach((one, owner) => {
    if (one.radius) taken.put(one.x - one.radius, one.y - one.radius, one.x + one.radius, one.y + one.radius, owner);
    if (one.end) taken.put_line(one.x, one.y, ...one.end);
  });
  things.forEach((one, owner) => {
    if (one.x < -20 || one.y < -20 || one.x > width + 20 || one.y > height + 20) {
      one.label.lines = 0;
      return;
    }
    let lines = one.most;
    let slot = free_slot(taken, one, owner, lines, 0, one.must ? ALL_SLOTS : SOME_SLOTS, width, height);
    if (slot < 0 && lines > 1) {
      lines = 1;
      slot = free_slot(taken, one, owner, lines, 0, one.must ? ALL_SLOTS : NEAR_SLOTS, width, height);
    }
    if (slot < 0) [slot, lines] = [0, one.must ? 1 : 0];
    Object.assign(one.label, { slot, lines });
    if (lines) taken.put(...box_at(one.x, one.y, slot, ...one.size_of(lines)), owner);
  });
}
