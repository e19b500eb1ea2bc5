// What lies beneath the traffic: restricted areas, routes, fixes and airfields of a map, and the bar of the scale.

import { map } from "./course.js";
import { INK, path } from "./paper.js";
import { three, UNITS_PER_MILE } from "./words.js";

const BAR_PIXELS = 160;

export function draw_map(pen, place) {
  if (!map.drawn) return;
  const fixes = new Map(map.drawn.fixes.map(([name, x, y]) => [name, place([x, y])]));
  for (const area of map.drawn.areas) draw_area(pen, area, place);
  pen.strokeStyle = INK.route;
  pen.lineWidth = 1;
  pen.beginPath();
  for (const [a, b] of map.drawn.edges) {
    pen.moveTo(...fixes.get(a));
    pen.lineTo(...fixes.get(b));
  }
  pen.stroke();
  pen.fillStyle = pen.strokeStyle = INK.fix;
  pen.beginPath();
  for (const [name, [x, y]] of fixes) {
    pen.moveTo(x, y - 3);
    pen.lineTo(x + 3, y + 2.5);
    pen.lineTo(x - 3, y + 2.5);
    pen.fillText(name, x + 6, y + 12);
  }
  pen.fill();
  pen.beginPath();
  for (const name of map.drawn.airfields) {
    const [x, y] = fixes.get(name);
    pen.moveTo(x + 7, y);
    pen.arc(x, y, 7, 0, 2 * Math.PI);
  }
  pen.stroke();
}

function draw_area(pen, area, place) {
  const corners = area.corners.map(place);
  path(pen, corners, true);
  pen.fillStyle = "#a8506018";
  pen.fill();
  pen.strokeStyle = "#8c4a55";
  pen.lineWidth = 1;
  pen.setLineDash([6, 4]);
  pen.stroke();
  pen.setLineDash([]);
  pen.fillStyle = "#c98a95";
  const [x, y] = corners.reduce((sum, at) => [sum[0] + at[0] / corners.length, sum[1] + at[1] / corners.length], [0, 0]);
  pen.textAlign = "center";
  pen.fillText(area.name, x, y - 3);
  pen.fillText(`FL${three(area.bottom)}\u2013${three(area.top)}`, x, y + 10);
  pen.textAlign = "left";
}

export function draw_scale(pen, height, scale) {
  const pixels = scale * UNITS_PER_MILE;
  const size = scale_of_bar(pixels);
  pen.strokeStyle = pen.fillStyle = INK.faint;
  pen.lineWidth = 1;
  path(pen, [[16, height - 24], [16, height - 18], [16 + size * pixels, height - 18], [16 + size * pixels, height - 24]]);
  pen.stroke();
  pen.fillText(size + " NM", 16, height - 28);
}

// The room of that bar, which has at most so many pixels.
export function scale_box(height) {
  return [10, height - 44, 16 + BAR_PIXELS, height - 12];
}

function scale_of_bar(pixels_per_mile) {
  const wished = BAR_PIXELS / pixels_per_mile;
  const power = 10 ** Math.floor(Math.log10(wished));
  return [5, 2, 1].map((digit) => digit * power).find((size) => size <= wished);
}
