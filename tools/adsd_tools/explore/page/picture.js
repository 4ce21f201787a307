// A moment of a what-if as a picture of the tree: a sign for each state, and the same in words for who doesn't see
// it.

import {el, number, plural} from "./dom.js";
import {shown} from "./shown.js";

const SPACE = "http://www.w3.org/2000/svg", WIDE = 720, STEP = 22, LINE = 26;

function draw(tag, marks, text) {
  const made = document.createElementNS(SPACE, tag);
  for (const [key, value] of Object.entries(marks)) made.setAttribute(key, value);
  if (text !== undefined) made.textContent = shown(String(text));
  return made;
}

// Form and colour both tell the state.
export function sign(x, y, one) {
  if (one.pending) return draw("path", { class: "q", d: `M${x - 5} ${y - 7}L${x + 7} ${y}L${x - 5} ${y + 7}Z` });
  if (one.stale)
    return draw("path", { class: "s", d: `M${x} ${y - 7}L${x + 7} ${y}L${x} ${y + 7}L${x - 7} ${y}Z` });
  return draw("circle", { class: one.changed ? "c" : "d", cx: x, cy: y, r: 5.5 });
}

export function words(one) {
  const made = [];
  if (one.pending)
    made.push("pending " + number(one.place) + (one.last > one.place ? "\u2013" + number(one.last) : "") +
      (one.left ? ", " + plural(one.left, "child", "children") + " left" : ""));
  if (one.stale)
    made.push("stale");
  else if (one.changed && !one.pending)
    made.push("changed");
  return made.join("; ");
}

function title(one) { return one.name + (one.count > 1 ? " and " + number(one.count - 1) + " like it" : ""); }

function cut(text, most) { return text.length > most ? text.slice(0, most - 1) + "\u2026" : text; }

export function picture(told, narrow) {
  const wide = narrow ? 360 : WIDE, high = told.lines.length * LINE + 8, last = [];
  const made = draw("svg", {
    viewBox: `0 0 ${wide} ${high}`,
    width: wide,
    height: high,
    role: "img",
    class: "picture",
    "aria-label": `step ${told.step} of ${told.total}: ${told.pending} pending, ${
      told.stale} stale; the same stands in words below`
  });
  told.lines.forEach((one, at) => {
    const x = 12 + one.depth * (narrow ? 14 : STEP), y = 4 + at * LINE + LINE / 2, up = last[one.depth - 1];
    if (up) made.append(draw("path", { class: "l", d: `M${up[0]} ${up[1] + 9}V${y}H${x - 9}` }));
    last[one.depth] = [ x, y ];
    last.length = one.depth + 1;
    made.append(sign(x, y, one));
    const note = words(one), room = Math.floor((wide - x - 24) / 7.6) - (narrow ? 0 : note.length);
    const text = draw("text", { class: "n", x: x + 14, y: y + 5 },
      cut(title(one), Math.max(12, narrow ? Math.min(room, 40) - note.length : room)));
    made.append(text, draw("text", { class: "e", x: wide - 4, y: y + 5, "text-anchor": "end" }, note));
  });
  return made;
}

export function inWords(told) {
  return el("ul", { class: "small" },
    told.lines.filter((one) => words(one)).map((one) => el("li", {}, title(one) + ": " + words(one))));
}

const LEGEND = [
  [ { pending: true }, "pending: its list is another one, and children are still to be gone over" ],
  [ { stale: true }, "stale: what comes from above hasn't reached it" ], [ { changed: true }, "changed, and finished" ],
  [ {}, "as it was" ]
];

export function legend() {
  return el("ul", { class: "legend" }, LEGEND.map(([ one, text ]) => {
    const own =
      draw("svg", { viewBox: "0 0 18 18", width: 18, height: 18, "aria-hidden": "true", class: "picture" });
    own.append(sign(9, 9, one));
    return el("li", {}, own, " ", text);
  }));
}
