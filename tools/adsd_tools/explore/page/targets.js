// The targets of an audit, the worst first: how many come to control each, and the shortest chain, drawn; below it the
// findings, each with what decides, the command that asks it again, and what takes it away. They are asked beside the
// rest of the page, and come when they are there.

import {later, nearest} from "./chains.js";
import {el, joined, name, number, plural} from "./dom.js";
import {objectLink, principalLink} from "./words.js";

function who(one) {
  const more = one.count - one.accounts.length;
  return [ one.who.sid ? principalLink(one.who) : name(one.who.name),
    one.count ? [ " (", joined(one.accounts.map(principalLink), ", "), more > 0 ? " and " + plural(more, "other") : "", ")" ]
              : "" ];
}

function where(one) {
  const more = one.on - one.objects.length;
  return [ joined(one.objects.map(objectLink), ", "), more > 0 ? " and " + plural(more, "other object") : "" ];
}

function fact(word, ...inside) { return [ el("dt", {}, word), el("dd", {}, inside) ]; }

function finding(one) {
  return el("li", {}, el("p", {}, who(one), " ", el("strong", {}, one.what), ": ", where(one),
                        one.look ? el("span", { class: "mark" }, "look") : ""),
    el("details", {}, el("summary", {}, "By what, and how it is mended"),
      el("dl", { class: "finding" }, one.more.length ? fact("and", one.more.join("; ")) : "",
        one.entry ? fact("by", el("code", {}, one.entry), one.at ? [ " at ", name(one.at) ] : "") : "",
        one.notes.length ? fact("note", one.notes.join("; ")) : "", fact("ask again", el("code", {}, one.ask)),
        fact("mend", one.words, one.fix.map((line) => el("code", { class: "line" }, line))))));
}

function findings(one) {
  const count = [ one.faults ? plural(one.faults, "finding") : "", one.looks ? plural(one.looks, "thing") + " to look at" : "" ];
  return el("details", {},
    el("summary", {}, "In one step: ", el("strong", {}, count.filter(Boolean).join(", ")),
      one.accounts ? " by " + plural(one.accounts, "account") : "", el("span", { class: "sr" }, " (" + one.title + ")")),
    el("ul", { class: "where" }, one.findings.map(finding)));
}

// A target: how many come to control it, and the shortest chain; then by what somebody comes there in one step.
function target(one) {
  const [first, ...others] = one.control;
  return el("section", { class: "target", "aria-labelledby": "target-" + one.key },
    el("h3", { id: "target-" + one.key }, one.title),
    el("p", { class: "soft" }, one.means[0].toUpperCase() + one.means.slice(1) + "."),
    first ? nearest(first) : "",
    others.length ? el("details", {},
                      el("summary", {}, plural(others.length, "other object"), " of this target, and who controls it",
                        el("span", { class: "sr" }, " (" + one.title + ")")), others.map(nearest)) : "",
    one.findings.length ? findings(one) : "");
}

function shown(told) {
  const worst = told.targets.flatMap((one) => one.findings).find((one) => !one.look);
  const root = told.targets.flatMap((one) => one.control).find((one) => one.object.n === 1);
  const lead = [ root ? [ number(root.identities), " that are no administrators come to control the domain's root. " ] : "", worst
    ? [ plural(told.faults, "finding"), " by which somebody who is no administrator takes over what rules the domain, or others. ",
        "The worst: ", who(worst), " ", worst.what, ", ", where(worst), "." ]
    : "Nobody but administrators takes over what rules the domain, in one step." ];
  return [ el("p", { class: "lead" }, lead), told.targets.map(target),
    el("p", { class: "soft" }, "A finding is one step. A chain is what ", el("code", {}, "adsd control"),
      " tells: none is shorter. It knows no certificates, sessions, local groups and files.") ];
}

// What stands on the page until the audit is through, and then its targets.
export function targets() {
  const made = later("audited", {}, shown, "the findings are there");
  made.className = "targets";
  return made;
}
