// The tree at the left: loaded as it is unfolded, and gone through by keys.

import {ask, el, name, plural} from "./dom.js";
import {at, marks} from "./words.js";

const tree = document.getElementById("tree");
let current = null;

function label(one) {
  return el("span", { class: "row" }, el("span", { class: "twist", "aria-hidden": "true" }),
    el("span", { class: "label" }, name(one.name), " ", el("span", { class: "soft" }, one.class), marks(one)));
}

function item(one, level) {
  const made = el("li", {
    role: "treeitem",
    "aria-level": level,
    tabindex: "-1",
    "data-n": one.n,
    "aria-expanded": one.many ? "false" : null,
    "aria-label": one.name + ", " + one.class + (one.marks ? ", " + one.marks.join(", ") : "")
  },
    label(one));
  made.one = one;
  return made;
}

function more(parent, count, level) {
  return el("li",
    { role: "treeitem", "aria-level": level, tabindex: "-1", "data-more": parent.one.n, class: "more" },
    el("span", { class: "row" }, el("span", { class: "twist" }), plural(count, "further object")));
}

async function load(one, after) {
  const level = Number(one.getAttribute("aria-level")) + 1;
  const told = await ask("children", { n: one.one.n, after });
  let group = one.querySelector(":scope > ul");
  if (!group) one.append((group = el("ul", { role: "group" })));
  const made = told.below.map((child) => item(child, level));
  group.append(...made, ...(told.more ? [ more(one, told.more, level) ] : []));
  one.loaded = after + told.below.length;
  return made;
}

export async function unfold(one) {
  if (!one.hasAttribute("aria-expanded")) return;
  one.setAttribute("aria-expanded", "true");
  if (!one.loading && !one.loaded) {
    one.loading = load(one, 0);
    await one.loading;
  } else {
    await one.loading;
  }
}

function shown() {
  return [...tree.querySelectorAll("[role=treeitem]") ].filter((one) => !one.closest("[aria-expanded=false] > ul"));
}

function focus(one) {
  for (const other of tree.querySelectorAll("[tabindex='0']")) other.tabIndex = -1;
  one.tabIndex = 0;
  one.focus();
}

async function further(one) {
  const parent = one.parentElement.closest("[role=treeitem]");
  one.remove();
  const made = await load(parent, parent.loaded);
  if (made.length) focus(made[0]);
}

function go(one) {
  if (one.dataset.more) return further(one);
  location.hash = at.object(one.dataset.n);
}

function typed(items, place, key) {
  const later = [...items.slice(place + 1), ...items.slice(0, place + 1) ];
  return later.find((one) => {
    const text = one.one ? one.one.name : "";
    return text.slice(text.indexOf("=") + 1).toLowerCase().startsWith(key.toLowerCase());
  });
}

tree.addEventListener("keydown", async (event) => {
  const one = event.target.closest("[role=treeitem]"), items = shown(), place = items.indexOf(one);
  if (!one || event.ctrlKey || event.altKey || event.metaKey) return;
  const open = one.getAttribute("aria-expanded"), parent = one.parentElement.closest("[role=treeitem]");
  let next = null;
  if (event.key === "ArrowDown")
    next = items[place + 1];
  else if (event.key === "ArrowUp")
    next = items[place - 1];
  else if (event.key === "Home")
    next = items[0];
  else if (event.key === "End")
    next = items[items.length - 1];
  else if (event.key === "ArrowRight" && open === "false")
    await unfold(one);
  else if (event.key === "ArrowRight" && open === "true")
    next = one.querySelector("[role=treeitem]");
  else if (event.key === "ArrowLeft" && open === "true")
    one.setAttribute("aria-expanded", "false");
  else if (event.key === "ArrowLeft")
    next = parent;
  else if (event.key === "Enter" || event.key === " ")
    go(one);
  else if (event.key.length === 1)
    next = typed(items, place, event.key);
  else
    return;
  event.preventDefault();
  if (next) focus(next);
});

tree.addEventListener("click", (event) => {
  const one = event.target.closest("[role=treeitem]");
  if (!one) return;
  if (event.target.closest(".twist") && one.hasAttribute("aria-expanded")) {
    if (one.getAttribute("aria-expanded") === "true")
      one.setAttribute("aria-expanded", "false");
    else
      unfold(one);
    return;
  }
  go(one);
});

// Unfolds what is above an object, and marks it as the one that is looked at.
export async function show(above, n) {
  let one = tree.querySelector("[role=treeitem]");
  for (const step of [...above.map((up) => up.n), n]) {
    const found = step === one.one.n ? one : one.querySelector(":scope > ul > [data-n='" + step + "']");
    if (!found) break;
    one = found;
    if (step !== n) await unfold(one);
  }
  if (current) current.removeAttribute("aria-current");
  current = one;
  one.setAttribute("aria-current", "true");
  for (const other of tree.querySelectorAll("[tabindex='0']")) other.tabIndex = -1;
  one.tabIndex = 0;
  const row = one.querySelector(".row");
  const box = tree.getBoundingClientRect(), place = row.getBoundingClientRect();
  if (place.top < box.top || place.bottom > box.bottom) tree.scrollTop += place.top - box.top - box.height / 3;
}

export async function begin(root) {
  const one = item(root, 1);
  one.tabIndex = 0;
  tree.replaceChildren(one);
  current = null;
  await unfold(one);
}
