// Elements by hand: every text of a directory becomes a text node, and none is ever read as markup. What isn't seen in a
// text or a mark is spelled.

import {shown} from "./shown.js";

export function el(tag, marks, ...inside) {
  const made = document.createElement(tag);
  for (const [name, value] of Object.entries(marks || {})) {
    if (value === undefined || value === null || value === false) continue;
    if (name.startsWith("on"))
      made.addEventListener(name.slice(2), value);
    else
      made.setAttribute(name, value === true ? "" : shown(String(value)));
  }
  put(made, inside);
  return made;
}

export function put(one, inside) {
  for (const piece of inside.flat(Infinity)) {
    if (piece === undefined || piece === null || piece === false || piece === "") continue;
    one.append(piece instanceof Node ? piece : document.createTextNode(shown(String(piece))));
  }
  return one;
}

// A name of a directory, apart from the direction of what stands around it.
export function name(text) { return el("bdi", {}, text); }

export function number(count) { return count.toLocaleString("en-US"); }

export function plural(count, one, many) { return number(count) + " " + (count === 1 ? one : many || one + "s"); }

// Texts on lines of their own.
export function onLines(many) {
  return many.flatMap((one, at) => (at ? [ document.createTextNode("\n"), one ] : [ one ]));
}

// Pieces with something between them.
export function joined(pieces, between) {
  return pieces.flatMap((piece, at) => (at ? [ between, piece ] : [ piece ]));
}

const base = new URL(".", document.baseURI);

export class Refused extends Error {}

async function taken(answer) {
  const made = await answer.json().catch(() => ({}));
  if (!answer.ok) throw new Refused(made.error || "the explorer answered " + answer.status);
  return made;
}

export async function ask(what, words) {
  const asked = new URL("api/" + what, base);
  for (const [key, value] of Object.entries(words || {})) {
    if (value !== undefined && value !== null && value !== "") asked.searchParams.set(key, value);
  }
  return taken(await fetch(asked, { headers: { Accept: "application/json" } }));
}

export async function tell(what, body) {
  return taken(await fetch(new URL("api/" + what, base), {
    method: "POST",
    headers: { "Content-Type": "application/json" },
    body: JSON.stringify(body),
  }));
}

export function file(what, words) {
  const asked = new URL("api/" + what, base);
  for (const [key, value] of Object.entries(words)) asked.searchParams.set(key, value);
  return asked.href;
}

// Says something to who doesn't see what changed on the page.
export function say(text) { document.getElementById("status").textContent = shown(text); }

let counted = 0;

export function fresh(word) {
  counted += 1;
  return word + counted;
}
