// What stands out in the whole directory, before anything is asked.

import {ask, el, joined, number, plural} from "./dom.js";
import {targets} from "./targets.js";
import {at, objectLink, people, principalLink, rank} from "./words.js";

function fact(count, word) { return el("li", {}, el("b", {}, number(count)), word); }

// What they may do, with the attributes where it is by these.
function way(row) {
  if (!row.names.length || row.key === "members") return rank(row);
  return [ el("strong", {}, row.title), ": ", row.names.join(", "), row.more ? " .." : "" ];
}

function exposed(told) {
  if (!told.rows.length)
    return el("p", {}, "Nobody but administrators has a dangerous right there.");
  const rows =
    told.rows.map((row) => el("tr", {},
                    el("th", { scope: "row" }, objectLink(row), " ",
                      el("span", { class: "soft" }, row.is || row.class)),
                    el("td", { "data-head": "they" }, way(row)),
                    el("td", { "data-head": "who" }, people(row.first, row.accounts))));
  return el("table", { class: "ways" },
    el("caption", {}, "On what a protection run protects, the root, AdminSDHolder, domain controllers, the units ",
      "above them and the policies linked there; by accounts that are no administrators, the worst first"),
    el("thead", {},
      el("tr", {}, el("th", { scope: "col" }, "on"), el("th", { scope: "col" }, "they"),
        el("th", { scope: "col" }, "who"))),
    el("tbody", {}, rows));
}

// Who has a dangerous right on many objects.
function many(told) {
  if (!told.rows.length)
    return el("p", {}, "Nobody but administrators has a dangerous right on ten objects.");
  const rows = told.rows.map((row) => el("tr", {},
                               el("th", { scope: "row" }, people(row.first, row.accounts)),
                               el("td", { "data-head": "they" }, rank(row)),
                               el("td", { "data-head": "on" }, plural(row.count, "object"), ": ",
                                 joined(row.objects.map(objectLink), ", "),
                                 row.count > row.objects.length ? " .." : "")));
  return el("table", {},
    el("caption", {}, "On ten objects and more, of ", number(told.seen), " that were looked at; by accounts that are ",
      "no administrators, the worst first"),
    el("thead", {},
      el("tr", {}, el("th", { scope: "col" }, "who"), el("th", { scope: "col" }, "they"),
        el("th", { scope: "col" }, "on"))),
    el("tbody", {}, rows));
}

export async function overview() {
  const told = await ask("start"), all = told.everybody;
  const [found, everybody] = await Promise.all([ ask("exposed"), ask("principal", { sid: all.sid }) ]);
  const open = everybody.ranks[0];
  return { title: "Overview", inside: [
    el("h1", {}, "Rights in ", el("bdi", {}, told.root.name)),
    el("section", { "aria-labelledby": "targets" }, el("h2", { id: "targets" }, "Who may take over, by target"), targets()),
    el("ul", { class: "facts" }, fact(told.objects, "objects"), fact(told.accounts, "accounts"),
      fact(told.protected, "protected"),
      fact(told.stale, "stale"), fact(told.pending, "pending")),
    el("h2", {}, "Dangerous rights on what rules the domain"), exposed(found),
    el("h2", {}, "Rights on many objects"), many(found.many),
    el("h2", {}, "What everybody may do who has an account"),
    el("p", {}, "Whoever is in ", principalLink(all), ", and in no other group:"),
    open ? [el("ul", { class: "ranks" },
      everybody.ranks.map((row) => el("li", {}, el("b", {}, number(row.count)), el("span", {}, rank(row))))),
      el("p", {}, el("a", { href: at.principal(all.sid) }, "Where, and by which entries"))]
      : el("p", {}, "Nothing dangerous, on any object."),
    el("h2", {}, "Where to go from here"),
    el("ul", { class: "plain" },
      el("li", {}, "Unfold the tree, or find an object by its name: its list stands there in words, ",
        "and who is dangerous on it."),
      el("li", {}, "Go to an account or a group: what it may do, and where, the worst first."),
      el("li", {}, el("a", { href: "#/who" }, "Ask who can do what"), " to an object."),
      el("li", {}, el("a", { href: "#/try" }, "Try a change"), " of a list, and see who gains and who loses, ",
        "step by step."))] };
}
