// A principal: what it comes to control and what it may do, the worst first; its groups; and all its rights on one
// object.

import {ask, el, joined, name, number, plural} from "./dom.js";
import {reaching} from "./chains.js";
import {objectPicker} from "./picker.js";
import {at, chain, deciding, marks, objectLink, principalLink, rank, rights} from "./words.js";

function groups(one) {
  if (!one.groups.length) return el("p", {}, "It is in no group.");
  return el("ul", { class: "accounts" }, one.groups.map((group) => el("li", {}, chain(group.chain, one))));
}

function where(one, row) {
  const more = row.count - row.objects.length;
  return el("li", {},
    el("p", {}, joined(row.objects.map((object) => [objectLink(object)]), ", "),
      more > 0 ? " and " + plural(more, "other") : "", " ",
      el("span", { class: "soft" }, row.count > 1 ? number(row.count) + " \u00d7 " + row.class : row.class),
      row.protected ? el("span", { class: "mark protected" }, "protected") : "",
      row.on.length ? [ ": ", joined(row.on, ", ") ] : ""),
    row.by.map((by, place) => el("p", { class: "small why" }, deciding(by),
                 row.chains[place] && row.chains[place].length ? [ " \u00b7 ", chain(row.chains[place], one) ] : "")),
    el("p", { class: "small" },
      el("a", { href: at.can(one.sid, row.objects[0].n) }, "all rights on ", name(row.objects[0].name))));
}

function ranked(one, row, open) {
  return el("details", { open }, el("summary", {}, el("b", { class: "count" }, number(row.count)), " ", rank(row)),
    el("ul", { class: "where" }, row.rows.map((some) => where(one, some))),
    row.more ? el("p", { class: "soft" }, "and " + plural(row.more, "further object")) : "");
}

export async function principalView(sid) {
  const one = await ask("principal", { sid });
  const worst = one.ranks[0];
  const lead = worst
    ? [name(one.name), " has dangerous rights. The worst, on ", plural(worst.count, "object"), " of ",
      number(one.objects), ": it ", worst.title, "."]
    : [name(one.name), " has none of the dangerous rights, on any of ", number(one.objects), " objects."];
  return {
    title: one.name,
    inside: [
      el("h1", {}, name(one.name), " ", el("span", { class: "soft" }, one.class || "identifier"),
        marks({ marks: one.protected ? [ "protected" ] : [] })),
      el("p", { class: "small soft" }, one.sid), el("p", { class: "lead" }, lead),
      one.n
        ? el("p", {}, el("a", { class: "go", href: at.object(one.n) }, "Its object, and who can take control of it"))
        : "",
      one.account ? ""
                  : el("p", { class: "soft" },
                      "It isn't an account: told is what somebody may do who holds it, and no other group."),
      el("section", { "aria-labelledby": "reaches" },
        el("h2", { id: "reaches" }, "What it comes to control"), reaching(one.sid, one.name)),
      el("section", { "aria-labelledby": "may" }, el("h2", { id: "may" }, "What it may do, and where"),
        one.ranks.map((row, at) => ranked(one, row, at === 0)),
        one.none.length ? el("p", { class: "soft" }, "On no object: it " + one.none.join(", it ") + ".") : ""),
      el("section", { "aria-labelledby": "on" }, el("h2", { id: "on" }, "On one object"),
        el("div", { class: "form" },
          objectPicker("all its rights on",
            (object) => {
              location.hash = at.can(one.sid, object.n);
            }))),
      el("section", { "aria-labelledby": "groups" },
        el("h2", { id: "groups" }, "Its groups, and how it comes into them"), groups(one),
        one.privileges.length ? el("p", {}, "Privileges: " + one.privileges.join(", ") + ".") : "")
    ]
  };
}

const KINDS = {
  object: "the object as a whole",
  attribute: "attribute",
  set: "property set",
  right: "extended right",
  validated: "validated write",
  child: "children of class"
};

function on(row) {
  if (!row.names.length) return KINDS[row.kind];
  if (row.names.length <= 6) return KINDS[row.kind] + " " + row.names.join(", ");
  return el("details", {}, el("summary", {}, plural(row.names.length, KINDS[row.kind])), row.names.join(", "));
}

export async function canView(sid, n) {
  const [told, object] = await Promise.all([ ask("can", { sid, n }), ask("object", { n }) ]);
  const rows =
    told.rows.map((row) => el("tr", {}, el("th", { scope: "row" }, on(row)),
                    el("td", { "data-head": "rights" }, rights(row.rights)),
                    el("td", { "data-head": "by" }, row.by.map((by) => deciding(by)),
                      row.chains.map((steps) => (steps.length ? [ el("br"), chain(steps, told.who) ] : "")))));
  return {
    title: told.who.name + " on " + told.name,
    object,
    inside: [
      el("h1", {}, "What ", principalLink(told.who), " may do to ", objectLink(told)),
      told.ranks.length
        ? el("p", { class: "lead" }, "Dangerous: it ", joined(told.ranks.map((row) => row.title), ", it "), ".")
        : el("p", { class: "lead" }, "None of it is dangerous."),
      rows.length
        ? el("table", {}, el("caption", {}, "All that is granted, and what decides"),
            el("thead", {}, el("tr", {}, [ "on", "rights", "by" ].map((head) => el("th", { scope: "col" }, head)))),
            el("tbody", {}, rows))
        : el("p", {}, "Nothing is granted.")
    ]
  };
}
