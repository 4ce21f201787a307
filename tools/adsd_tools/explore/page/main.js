// The page: which view stands behind which address, the search, and the tree.

import {ask, el, number, plural, say} from "./dom.js";
import {objectPicker} from "./picker.js";
import {shown} from "./shown.js";
import * as tree from "./tree.js";
import {error} from "./words.js";
import {overview} from "./overview.js";
import {objectView} from "./object.js";
import {canView, principalView} from "./principal.js";
import {whoView} from "./who.js";
import {tryView} from "./trying.js";
import {plan} from "./plan.js";

const main = document.getElementById("main");
const VIEWS = {
  "" : overview,
  object: objectView,
  principal: principalView,
  can: canView,
  who: whoView,
  try: tryView
};
let turn = 0, first = true;

async function route() {
  const hash = location.hash;
  if (hash === "#main") return main.focus();
  if (hash && !hash.startsWith("#/")) return;
  const [word, ...words] = hash.slice(2).split("/").map(decodeURIComponent), own = (turn += 1);
  const view = VIEWS[word] || overview;
  let made;
  try {
    made = await view(...words);
  } catch (why) {
    made = { title: "Unknown", inside: [ el("h1", {}, "Unknown"), error(why) ] };
  }
  if (own !== turn) return;
  document.title = shown(made.title) + " \u2013 adsd-explore";
  main.replaceChildren(...[made.inside].flat(Infinity).filter((one) => one instanceof Node));
  for (const link of document.querySelectorAll("header nav a")) {
    const here = link.getAttribute("href") === "#/" + ([ "who", "try" ].includes(word) ? word : "");
    if (here && [ "", "who", "try" ].includes(word || ""))
      link.setAttribute("aria-current", "page");
    else
      link.removeAttribute("aria-current");
  }
  if (made.object) await tree.show(made.object.above, made.object.n);
  if (!first) {
    scrollTo(0, 0);
    main.focus({ preventScroll: true });
    say(made.title);
  }
  first = false;
}

function planned() {
  const count = plan.changes.length;
  document.getElementById("planned").textContent = count ? " (" + number(count) + ")" : "";
}

async function begin() {
  const told = await ask("start");
  const banner = document.getElementById("incomplete");
  banner.textContent = told.incomplete || "";
  banner.hidden = !told.incomplete;
  document.getElementById("store").textContent = told.store;
  const form = document.getElementById("search");
  form.append(objectPicker("Find an object", (one) => {
    location.hash = "#/object/" + one.n;
  }));
  form.addEventListener("submit", (event) => event.preventDefault());
  if (matchMedia("(max-width: 800px)").matches) document.getElementById("treebox").open = false;
  plan.watch(planned);
  await tree.begin(told.root);
  addEventListener("hashchange", route);
  await route();
  say(told.store + ", " + plural(told.objects, "object"));
}

begin().catch((why) => main.replaceChildren(error(why)));
