// Chains of control, each a list of nodes with named edges between them, which the style draws. What the program is
// asked for comes when it is there.

import {ask, el, joined, name, number, plural, put, say} from "./dom.js";
import {at, deciding, error, objectLink, principalLink} from "./words.js";

const FIRST_PAUSE = 150, LAST_PAUSE = 700;
const WHOLE = {
  WD: "write the DACL",
  WO: "write the owner"
};

// What stands on the page until the program has answered, and then what is made of the answer.
export function later(what, words, made, done) {
  const box = el("div", { "aria-busy": "true" }, el("p", { class: "soft" }, "The program is asked .."));
  let pause = FIRST_PAUSE;
  async function look() {
    if (!box.isConnected && box.dataset.seen) return;
    box.dataset.seen = "1";
    const told = await ask(what, words);
    if (!told.ready) {
      box.firstChild.textContent = "The program is asked .. " + (told.far || "");
      setTimeout(look, pause);
      pause = Math.min(2 * pause, LAST_PAUSE);
      return;
    }
    box.replaceChildren();
    put(box, [ told.why ? el("p", { role: "alert" }, told.why) : made(told) ]);
    box.removeAttribute("aria-busy");
    if (done) say(done);
  }
  setTimeout(() => look().catch((why) => box.replaceChildren(error(why))), 0);
  return box;
}

function node(one, acts) {
  const made = one.sid && (acts || !one.n) ? principalLink(one) : one.n ? objectLink(one) : name(one.name);
  return el("span", { class: "node" }, made);
}

// What a step does, with the right by which, which leads to who has it.
function edge(step) {
  const right = step.right && el("a", { href: at.who(step.n, step.right) }, step.right[1] || WHOLE[step.right[2]],
                                el("span", { class: "sr" }, ": who can"));
  return el("span", { class: "edge" }, el("span", {}, step.does), right ? el("span", { class: "small" }, right) : "",
    el("span", { class: "sr" }, " "));
}

// The picture of a chain.
export function drawn(first, steps, label, kind) {
  return el("ol", { class: "drawn" + (kind ? " " + kind : ""), role: "list", "aria-label": label },
    el("li", {}, node(first, true)), steps.map((step) => el("li", {}, edge(step), node(step.to))));
}

// Each step in words, with the entry that decides and the line that asks it again.
function inWords(steps, whose) {
  return el("details", {},
    el("summary", {}, "By which entries, and how to ask again", el("span", { class: "sr" }, " (" + whose + ")")),
    el("ol", { class: "where" }, steps.map((step) => el("li", {},
                                   el("p", {}, name(step.from.name), " ", step.does, " ", name(step.to.name),
                                     step.by ? [ ": ", deciding(step.by) ] : ""),
                                   step.ask ? el("p", { class: "small" }, el("code", {}, step.ask)) : ""))));
}

function steps(count) { return count ? plural(count, "step") : "no step"; }

// ---- who comes to control an object

function members(row, isGroup) {
  const more = row.count - row.members.length;
  return row.count
    ? el("p", { class: "small" }, row.steps.length ? "By the same: " : isGroup ? "Who is in it: " : "Who has its identifier: ",
        joined(row.members.map(principalLink), ", "), more > 0 ? " and " + number(more) + " more" : "")
    : "";
}

function begun(row, label, isGroup) {
  return el("li", {}, row.steps.length ? drawn(row.who, row.steps, row.who.name + " comes to control " + label) : "",
    members(row, isGroup), row.steps.length ? inWords(row.steps, row.who.name) : "");
}

function byLength(rows, label, isGroup) {
  return [...new Set(rows.map((row) => row.length)) ].map((length) => [
    el("h3", {}, length ? "In " + steps(length) : "Without a step"),
    el("ul", { class: "where" }, rows.filter((row) => row.length === length).map((row) => begun(row, label, isGroup)))
  ]);
}

function controlled(told, label) {
  return [
    el("p", { class: "lead" },
      told.identities ? [ el("strong", {}, number(told.identities)), " that are no administrators come to control it, ",
        plural(told.accounts, "account"), " of them." ]
                      : "Nobody but administrators comes to control it."),
    byLength(told.rows, label, told.group),
    told.more ? el("p", { class: "soft" }, "and " + plural(told.more, "further chain")) : "",
    el("p", { class: "small soft" }, told.inside ? plural(told.inside, "identity", "identities") +
      " that are meant to rule come to it too. " : "", el("code", {}, told.ask))
  ];
}

export function control(n, label) { return later("chains", { n }, (told) => controlled(told, label)); }

// ---- what a principal comes to control

function target(row, whose) {
  return el("li", {},
    el("p", {}, objectLink(row.to), " ", el("span", { class: "soft" }, row.is + ", " + steps(row.length))),
    drawn(row.steps[0].from, row.steps, whose + " comes to control " + row.to.name), inWords(row.steps, row.to.name));
}

function reached(told, whose) {
  const count = told.targets.length + told.more;
  return [
    el("p", { class: "lead" },
      count ? [ el("strong", {}, plural(count, "target")), " of what rules the domain or is protected, the worst first",
        told.all ? ", and by the root all " + number(told.all) + " that there are:" : ":" ]
            : "Nothing that rules the domain, nor what is protected."),
    el("ul", { class: "where" }, told.targets.map((row) => target(row, whose))),
    told.more ? el("p", { class: "soft" }, "and " + number(told.more) + " more") : "",
    told.count ? el("details", {}, el("summary", {}, plural(told.count, "other object")),
                   el("ul", { class: "where" }, told.others.map((row) => target(row, whose))),
                   told.count > told.others.length
                     ? el("p", { class: "soft" }, "and " + number(told.count - told.others.length) + " more") : "")
               : "",
    el("p", { class: "small soft" }, el("code", {}, told.ask))
  ];
}

export function reaching(sid, whose) { return later("reaches", { sid }, (told) => reached(told, whose)); }

// ---- on the first page: a target with the shortest chain to it

export function nearest(one) {
  return el("div", { class: "control" },
    el("p", {}, el("b", { class: "count" }, number(one.identities)), " that are no administrators come to control ",
      objectLink(one.object), " (", one.is, "), ", plural(one.accounts, "account"), " of them. The shortest chain, ",
      steps(one.length), ":"),
    drawn(one.who, one.steps, "the shortest chain to " + one.object.name));
}

// ---- what a what-if cuts and makes

function changed(row) {
  const whose = row.who.name;
  return el("li", {},
    el("p", {}, principalLink(row.who), ": ",
      row.after === null ? "comes to it no more" : row.before === null ? "comes to it now"
        : "comes to it in " + steps(row.after) + " now, in " + steps(row.before) + " before"),
    row.cut.length ? drawn(row.who, row.cut, "cut: the chain of " + whose, "cut") : "",
    row.made.length ? drawn(row.who, row.made, "made: the chain of " + whose, "made") : "");
}

function compared(told) {
  return [
    el("p", {}, objectLink(told.to), ": ", number(told.before), " come to control it before, ", number(told.after),
      " at the end."),
    told.rows.length ? el("ul", { class: "where" }, told.rows.map(changed)) : "",
    told.more ? el("p", { class: "soft" }, "and " + number(told.more) + " more") : ""
  ];
}

export function cutPart(plan) {
  const box = el("div", {});
  setTimeout(async () => {
    try {
      const { targets } = await ask("cuts", { plan });
      box.replaceChildren(...targets.map((n) => later("cuts", { plan, n }, compared)));
    } catch (why) {
      box.replaceChildren(error(why));
    }
  }, 0);
  return el("section", { "aria-labelledby": "cuts" },
    el("h2", { id: "cuts" }, "Which chains of control it cuts, and which it makes"), box);
}
