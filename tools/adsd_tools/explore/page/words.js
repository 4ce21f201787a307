// What comes again and again: links to objects and principals, chains of groups, entries in words.

import {el, joined, name, number, plural} from "./dom.js";

export const at = {
  object: (n) => "#/object/" + n,
  principal: (sid) => "#/principal/" + sid,
  can: (sid, n) => "#/can/" + sid + "/" + n,
  who: (n, right) => "#/who/" + n + "/" + right.map(encodeURIComponent).join("/"),
};

export function objectLink(one) { return el("a", { href: at.object(one.n) }, name(one.name)); }

export function principalLink(who) {
  return el("a", { href: at.principal(who.sid), title: who.sid }, name(who.name));
}

const HOW = {
  member: "a member of",
  primary: "its primary group",
  everyone: "as everybody is"
};

// How somebody comes to hold an identifier: the groups from one to the next.
export function chain(steps, first) {
  if (!steps.length) return first ? [ el("span", { class: "soft" }, "by itself") ] : [];
  const made = steps.map((step) => [el("span", { class: "arrow", "aria-hidden": "true" }, " \u25b8 "),
                           el("span", { class: "sr" }, ", " + HOW[step.how] + " "), principalLink(step),
                           step.how === "primary" ? el("span", { class: "soft" }, " (primary group)") : ""]);
  return [ el("span", { class: "chain" }, first ? principalLink(first) : "", made) ];
}

export function people(first, count, noun) {
  const more = count - first.length;
  return [
    joined(first.map(principalLink), ", "), more > 0 ? " and " + plural(more, "other " + (noun || "account")) : ""
  ];
}

const WORDS = {
  allow: "\u2713 allow",
  deny: "\u2717 deny",
  audit: "\u25e6 audit"
};

export function kind(word) { return el("span", { class: "kind " + word }, WORDS[word]); }

export function rights(list) {
  if (list.length > 4) {
    return el("span", {}, list.map((pair) => pair[0]).join(" "), " ",
      el("span", { class: "soft" }, "(" + list.map((pair) => pair[1]).join(", ") + ")"));
  }
  return el("span", {}, joined(list.map((pair) => el("abbr", { title: pair[0] }, pair[1])), ", "));
}

// An entry in a sentence.
export function entry(one) {
  return [
    kind(one.kind), " ", principalLink(one.who), ": ", rights(one.rights),
    one.on ? [ " on ", el("span", { class: "what" }, one.on) ] : "", "; ", one.applies,
    one.audits ? " (where it is " + one.audits.join(" or ") + ")" : ""
  ];
}

// What decides on a right.
export function deciding(by) {
  if (by.word === "owner") return [ "it holds the owner, and no entry is for owner rights" ];
  if (by.word === "privilege") return [ "by the privilege to take ownership" ];
  if (by.word) return [ "no entry" ];
  return [ "entry " + (by.place + 1) + ": ", entry(by) ];
}

export function marks(one) { return (one.marks || []).map((mark) => el("span", { class: "mark " + mark }, mark)); }

export function rank(row) {
  return [ el("strong", {}, row.title), row.means ? el("span", { class: "soft" }, ", " + row.means) : "" ];
}

export function count(value, word) { return [ el("b", { class: "count" }, number(value)), " " + word ]; }

export function error(why) { return el("p", { class: "error", role: "alert" }, why.message || String(why)); }
