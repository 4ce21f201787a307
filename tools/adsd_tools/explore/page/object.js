// An object: who comes to control it, who is dangerous on it, and its descriptor in words.

import {ask, el, joined, name, number, plural} from "./dom.js";
import {control} from "./chains.js";
import {tryOut} from "./plan.js";
import {at, entry, marks, objectLink, people, principalLink, rank} from "./words.js";
import {whoForm} from "./who.js";

function path(one) {
  if (!one.above.length) return null;
  return el("nav", { class: "path", "aria-label": "what is above" },
    joined(one.above.map((up) => el("a", { href: at.object(up.n) }, name(up.name))),
      el("span", { "aria-hidden": "true" }, " \u203a ")));
}

// The dangerous rights on an object by rank, each with who has it and a link to by what.
export function dangers(one) {
  if (!one.dangers.length) return el("p", {}, "No account in this store has a dangerous right on it.");
  return el("ul", { class: "ranks" },
    one.dangers.map(
      (row) => el("li", {}, el("b", {}, number(row.count)),
        el("div", {}, rank(row), el("br"), people(row.first, row.count), " \u2014 ",
          joined(row.rights.map((right) => el("a", { href: at.who(one.n, right) },
                                  row.rights.length > 1 ? "by what: " + (right[1] || right[2]) : "by what",
                                  el("span", { class: "sr" }, " (" + row.title + ")"))),
            ", ")))));
}

function buttons(one, own) {
  const label = " (the entry for " + own.who.name + ")";
  return el("span", { class: "buttons" },
    el("button",
      { type: "button", onclick: () => tryOut({ op: "remove", n: one.n, old: own.text, label: one.name }) },
      "Try without it", el("span", { class: "sr" }, label)),
    el("button", {
      type: "button",
      onclick: () => {
        location.hash = "#/try/edit/" + one.n + "/" + encodeURIComponent(own.text);
      }
    },
      "Change it", el("span", { class: "sr" }, label)));
}

function entries(one, list) {
  return el("ol", { class: "entries" },
    list.map((own) => el("li", { class: own.inherited ? "inherited" : "" }, el("p", {}, entry(own)),
               el("p", { class: "small" },
                 own.inherited ? (own.from ? [ "inherited from ", objectLink(own.from) ]
                                           : el("span", { class: "mark stale" },
                                               "inherited, but no parent passes it down any more"))
                               : "its own",
                 own.note ? " \u00b7 " + own.note : "", own.text ? [ " \u00b7 ", el("code", {}, own.text) ] : ""),
               !own.inherited && own.text && buttons(one, own))));
}

function state(one) {
  const said = [];
  if ((one.marks || []).includes("stale"))
    said.push("It is stale: its list isn't the one that is computed from the root.");
  if (one.place)
    said.push("It is pending, number " + one.place + " in the queue: " + plural(one.left, "child", "children") +
      " still to go over.");
  return said.map((text) => el("p", { class: "mark" }, text));
}

export async function objectView(n) {
  const one = await ask("object", { n });
  const label = one.name.slice(one.n === 1 ? 0 : one.name.indexOf("=") + 1), form = await whoForm(one);
  return {
    title: label,
    object: one,
    inside: [
      path(one), el("h1", {}, name(label), " ", el("span", { class: "soft" }, one.class), marks(one)),
      el("p", { class: "small soft" }, name(one.dn), one.sid ? " \u00b7 " + one.sid : ""), state(one),
      one.sid &&
        el("p", {},
          el("a", { href: at.principal(one.sid), class: "go" }, "What ", name(label), " may do, and where")),
      one.members.count ? el("p", {}, plural(one.members.count, "member"), ": ",
                            joined(one.members.first.slice(0, 12).map((member) => objectLink(member)), ", "),
                            one.members.count > 12 ? " .." : "")
                        : null,
      el("section", { "aria-labelledby": "control" },
        el("h2", { id: "control" }, "Who can take control of this object"), control(one.n, label)),
      el("section", { "aria-labelledby": "dangers" }, el("h2", { id: "dangers" }, "Who has dangerous rights on it"),
        dangers(one)),
      el("section", { "aria-labelledby": "ask" }, el("h2", { id: "ask" }, "Who can .."), form),
      el("section", { "aria-labelledby": "list" }, el("h2", { id: "list" }, "Its list, in words"),
        el("p", {}, "Owner ", principalLink(one.owner), ", group ", principalLink(one.group), ". ",
          one.n === 1       ? "It is the root, and inherits nothing."
            : one.protected ? "It is protected: nothing is inherited."
                            : "It inherits from above.",
          " The first entry that speaks of a right and is for who asks decides."),
        one.entries.length ? entries(one, one.entries)
                           : el("p", {}, "The list has no entry: only the owner has anything."),
        el("p", { class: "buttons" },
          el("a", { class: "button", href: "#/try/add/" + one.n }, "Try another entry here"),
          el("button",
            { type: "button", onclick: () => tryOut({ op: "protect", n: one.n, on: !one.protected, label }) },
            one.protected ? "Try to allow inheritance" : "Try to block inheritance")),
        one.system.length
          ? el("details", {}, el("summary", {}, "System list: " + plural(one.system.length, "entry", "entries")),
              entries(one, one.system))
          : null)
    ]
  };
}
