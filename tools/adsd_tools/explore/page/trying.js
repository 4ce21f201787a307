// What if: changes of lists, made on a copy; who gains and who loses; the steps that pass them down; and the frames.

import {cutPart} from "./chains.js";
import {ask, el, file, fresh, joined, number, onLines, plural, say, tell} from "./dom.js";
import {entryForm, listForm} from "./form.js";
import {objectPicker, principalPicker} from "./picker.js";
import {inWords, legend, picture} from "./picture.js";
import {plan} from "./plan.js";
import {answered, rightSelect} from "./who.js";
import {error, objectLink, people, principalLink} from "./words.js";

const DOES = {
  add: "add an entry",
  edit: "replace an entry",
  remove: "remove an entry",
  revoke: "remove all entries of an account",
  list: "replace the list",
  protect: "block or allow inheritance",
  owner: "change the owner",
  run: "a protection run",
  settle: "propagate all that is pending"
};

function change(one, at, told) {
  const said = told && told.told[at];
  return el("li", { class: said && !said.ok ? "refused" : "" },
    one.n ? [ objectLink({ n: one.n, name: one.label }), ": " ] : "", DOES[one.op],
    one.op === "protect" ? (one.on ? " (protect)" : " (inherit)") : "",
    one.old ? [ " ", el("code", {}, one.old) ] : "", one.op === "edit" ? " \u2192 " : " ",
    one.ace || one.sddl || one.sid ? el("code", {}, one.ace || one.sddl || one.sid) : "",
    said
      ? [ " \u2014 ", el("span", { class: said.ok ? "yes" : "no" }, (said.ok ? "\u2713 " : "\u2717 ") + said.said) ]
      : "",
    " ",
    el("button", {
      type: "button",
      class: "less",
      onclick: () => {
        plan.take(at);
        redo();
      }
    },
      "Leave out", el("span", { class: "sr" }, " change " + (at + 1))));
}

function redo() {
  if (location.hash === "#/try")
    dispatchEvent(new HashChangeEvent("hashchange"));
  else
    location.hash = "#/try";
}

async function attempt() {
  if (!plan.told) plan.told = await tell("try", { changes: plan.sent(), by: plan.by });
  return plan.told;
}

function makers() {
  const run = el("button", {
    type: "button",
    onclick: () => {
      plan.add({ op: "run" });
      redo();
    }
  },
    "Add a protection run");
  const settle = el("button", {
    type: "button",
    onclick: () => {
      plan.add({ op: "settle" });
      redo();
    }
  },
    "Propagate everything first");
  const clear = el("button", {
    type: "button",
    onclick: () => {
      plan.clear();
      redo();
    }
  },
    "Begin anew");
  return el("p", { class: "buttons" }, run, plan.changes.length ? [ settle, clear ] : "");
}

// What is said where so many lists change that only dangerous rights were asked for.
const DANGERS_ALONE = "Many kinds of lists change, so that only dangerous rights are told here; " +
  "what else comes to an account, and goes, is told below for one at a time.";

function gainsTable(told) {
  const note = told.whole ? "" : el("p", { class: "soft" }, DANGERS_ALONE);
  if (!told.rows.length) {
    const what = told.whole ? "anything" : "a dangerous right";
    return el("div", {}, note, el("p", {}, "Nobody in this store gains or loses " + what + ", at no moment."));
  }
  const rows = told.rows.flatMap(
    (row) =>
      row.ranks.map((rank, at) => el("tr", { class: at ? "same" : "" },
                      at ? el("td", { class: "again" })
                         : el("th", { scope: "rowgroup", rowspan: null }, people(row.first, row.accounts)),
                      el("td", { "data-head": "what" }, rank.title),
                      ...["before", "now", "after"].map(
                        (head, place) => el("td", { class: "num", "data-head": head }, number(rank.counts[place]))),
                      el("td", { "data-head": "" }, sense(rank.key, rank.counts)))));
  return el("div", {}, note, el("table", { class: "gains" },
    el("caption", {},
      "On how many objects, of those where it comes or goes: in the store, at this step, and at the end"),
    el("thead", {},
      el("tr", {}, [ "who", "what", "before", "now", "after", "" ].map((head) => el("th", { scope: "col" }, head)))),
    el("tbody", {}, rows)));
}

function sense(key, [ before, now, after ]) {
  if (key === "any")
    return el("span", { class: "soft" }, after ? "on " + plural(after, "object") + " in the end" : "only meanwhile");
  const end = after > before ? el("span", { class: "no" }, "\u25b2 gains " + number(after - before))
    : after < before         ? el("span", { class: "yes" }, "\u25bc loses " + number(before - after))
                             : "the same in the end";
  return [
    end,
    now !== after
      ? el("span", { class: "soft" },
          now > after ? ", " + number(now - after) + " still had" : ", " + number(after - now) + " not yet")
      : ""
  ];
}

function difference(told) {
  const part = (label, list, mark) => list.length
    ? el("li", {}, label, ": ",
        joined(
          list.map((one) => el("span", { class: mark === "+" ? "no" : "yes" },
                     one.codes.map((code) => mark + code).join(" "), " ", el("span", { class: "what" }, one.on))),
          "; "))
    : "";
  if (!told.rows.length) return el("p", {}, "Nothing comes to ", principalLink(told.who), ", and nothing goes.");
  return el("ul", { class: "where" },
    told.rows.map(
      (row) => el("li", {},
        el("p", {}, joined(row.objects.map(objectLink), ", "),
          row.count > row.objects.length ? " and " + plural(row.count - row.objects.length, "other") : "", " ",
          el("span", { class: "soft" }, row.class)),
        el("ul", { class: "small" }, part("has come", row.came, "+"), part("has gone", row.went, "\u2212"),
          part("still comes", row.comes, "+"), part("still goes", row.goes, "\u2212")))));
}

// The part with the steps: a slider, the picture, and what hangs on the moment.
function moments(told, total) {
  const slider = el("input", { type: "range", min: 0, max: total, value: total, id: fresh("step"), step: 1 });
  const where = el("output", { for: slider.id, class: "where-now" });
  const drawn = el("div", {}), gains = el("div", { "aria-live": "off" });
    const lines = el("details", {}, el("summary", {}, "The picture in words")), follow = [];
    let own = 0;

    async function show() {
      const step = Number(slider.value), mine = (own += 1);
      const [now, who] =
        await Promise.all([ ask("moment", { plan: told.plan, step }), ask("gains", { plan: told.plan, step }) ]);
      if (mine !== own) return;
      where.textContent = `step ${number(step)} of ${number(total)}: ${plural(now.pending, "object")} pending, ${
        number(now.stale)} stale, ${number(now.changed)} changed`;
      drawn.replaceChildren(picture(now, matchMedia("(max-width: 600px)").matches),
        now.more > 0 ? el("p", { class: "soft" }, "and " + plural(now.more, "further object")) : "");
      lines.replaceChildren(lines.firstChild, inWords(now));
      gains.replaceChildren(gainsTable(who));
      for (const one of follow) one(step);
      say(where.textContent);
    }

    function go(step) {
      slider.value = step;
      return show();
    }

    slider.addEventListener("change", show);
    const button = (text, label, to) =>
      el("button", { type: "button", "aria-label": label, onclick: () => go(to(Number(slider.value))) }, text);
    const box = el("section", { "aria-labelledby": "steps" },
      el("h2", { id: "steps" }, "Before, while and after it is passed down"),
      el("div", { class: "steps" },
        el("label",
          { for: slider.id
          },
          "step"),
        button("|\u25c0", "to the beginning", () => 0),
        button("\u25c0", "one step back", (at) => Math.max(0, at - 1)), slider,
        button("\u25b6", "one step on", (at) => Math.min(total, at + 1)),
        button("\u25b6|", "to the end", () => total), where),
      gains, el("div", { class: "scroll" }, drawn), legend(), lines);
    box.go = go;
    box.follow = (one) => follow.push(one);
    box.step = () => Number(slider.value);
    return box;
}

// Who can do something, in the store, at the step that is looked at, and at the end.
function whoThen(told, box) {
    const form = el("div", { class: "form" }), result = el("div", {});
    let one = null, right = null;

    async function show() {
      if (!one || !right) return;
      const words = { n: one.n, kind: right[0], name: right[1], code: right[2] };
      const sides = await Promise.all([
        ask("who", words), ask("who", {...words, plan: told.plan, step: box.step() }),
        ask("who", {...words, plan: told.plan, step: -1 })
      ]);
      result.replaceChildren(...["in the store", "at step " + number(box.step()), "at the end"].map(
        (label, at) =>
          el("details", { open: at === 2 }, el("summary", {}, label + ": " + plural(sides[at].count, "account")),
            answered(sides[at], at ? {...words, plan: told.plan, step: at === 1 ? box.step() : -1 } : words))));
    }

    async function picked(found) {
      one = found;
      const select = rightSelect(await ask("askable", { n: one.n }), "what is done", null);
      form.replaceChildren(form.firstChild, select,
        el("button", {
          type: "button",
          onclick: () => {
            right = select.right();
            show();
          }
        },
          "Who can, then?"));
    }

    form.append(objectPicker("to which object", picked));
    box.follow(() => show());
    return el("section", { "aria-labelledby": "then" }, el("h2", { id: "then" }, "Who can .. then"), form, result);
}

function gainedPart(told, box) {
    const result = el("div", {});
    let sid = "";
    const show = async () =>
      sid && result.replaceChildren(difference(await ask("gained", { plan: told.plan, step: box.step(), sid })));
    box.follow(show);
    return el("section", { "aria-labelledby": "gained" },
      el("h2", { id: "gained" }, "What comes and goes, right by right"),
      el("div", { class: "form" }, principalPicker("for whom", (one) => {
        sid = one.sid;
        show();
      })), result);
}

function saving(told, form, called, text) {
  const href = file("frames", { plan: told.plan, form });
  return el("a", { class: "button", href, download: called }, text);
}

function frames(told) {
    const some = told.grants.filter((line) => line);
    return el("section", { "aria-labelledby": "frames" }, el("h2", { id: "frames" }, "The requests that make these changes"),
    el("p", {}, "For ", el("code", {}, "tools/adsd-ask frames FILE | adsd serve STORE"), ", or as frames already:"),
    el("pre", { tabindex: "0", "aria-label": "lines for adsd-ask" }, onLines(told.lines)),
    some.length ? [el("p", {},
      some.length === told.grants.length ? "As lines for " : "In part as lines for ",
      el("code", {}, "adsd grants STORE"), ":"),
      el("pre", { tabindex: "0", "aria-label": "lines for adsd grants" }, onLines(some))] : "",
    el("p", { class: "buttons" }, saving(told, "text", "adsd.txt", "Save the lines"),
      saving(told, "bytes", "adsd.frames", "Save the frames")));
}

function writing(told, start) {
    if (!start.write)
      return el("p", { class: "soft" }, "The store itself is left as it is: the explorer runs without ",
        el("code", {}, "--write"), ".");
    if (told.told.some((one) => !one.ok))
      return el("p", { class: "soft" }, "A change is refused, so nothing can be written.");
    const settle = el("input", { type: "checkbox", id: fresh("settle"), checked: true }), result = el("div", {});
    const what = joined(plan.changes.map((one) => (one.n ? one.label + ": " : "") + DOES[one.op]), "; ").join("");
    const label = () => "Write to " + start.store + ": " + what + (settle.checked ? "; and propagate it all" : "");
    const button = el("button", { type: "button", class: "danger" }, label());
    settle.addEventListener("change", () => {
      button.textContent = label();
    });
    button.addEventListener("click", async () => {
      button.disabled = true;
      try {
        const done = await tell("write", { plan: told.plan, settle: settle.checked });
        plan.clear();
        result.replaceChildren(el("p", { class: "lead", role: "status" },
                                 "Written to " + start.store + ". " + plural(done.pending, "object") + " pending."),
          el("p", {}, el("a", { href: "#/" }, "To the overview")));
      } catch (why) {
        result.replaceChildren(error(why));
      }
    });
    return el("section", { "aria-labelledby": "write", class: "write" },
      el("h2", { id: "write" }, "Write it to the store itself"), el("p", {}, settle, " ", el("label", { for: settle.id
      }, "and then propagate all that is pending")), button, result);
}

async function tried() {
    const told = await attempt();
    const list = el("ol", { class: "changes" }, plan.changes.map((one, at) => change(one, at, told)));
    const start = await ask("start"), last = await ask("moment", { plan: told.plan, step: -1 });
    const box = moments(told, last.total);
    await box.go(last.total > 0 && last.total <= 400 ? Math.min(last.total, 1) : last.total);
    return [
      list, makers(), box, cutPart(told.plan), gainedPart(told, box), whoThen(told, box), frames(told),
      writing(told, start)
    ];
}

async function byWhom() {
    const box = principalPicker("changes are made by", (one) => {
      plan.by = one.sid;
      plan.byName = one.name;
      plan.changed();
      redo();
    }, plan.byName || "the system and the administrators");
    const back = plan.by ? el("button", {
      type: "button",
      onclick: () => {
        plan.by = plan.byName = "";
        plan.changed();
        redo();
      }
    },
                             "By the administrators")
                         : "";
    return el("div", { class: "form" }, box, back);
}

// The form that the address asks for: at an object, or of an entry of its own.
async function asked(op, n, old) {
    if (!n) return null;
    const one = await ask("object", { n }), label = one.name.slice(one.n === 1 ? 0 : one.name.indexOf("=") + 1);
    const done = (object, ace) => {
      plan.add(op === "edit" ? { op, n: object.n, old, ace, label } : { op: "add", n: object.n, ace, label });
      redo();
    };
    return el("section", { "aria-labelledby": "new" },
      el("h2", { id: "new" }, op === "edit" ? "Replace an entry" : "A new entry"),
      op === "edit" ? el("p", {}, "It is now called ", el("code", {}, old)) : "",
      await entryForm({ n: one.n, label, old: op === "edit" ? old : "", done }));
}

export async function tryView(op, n, old) {
    const inside = [ el("h1", {}, "What if ..") ], form = await asked(op, n, old);
    if (!plan.changes.length) {
      inside.push(el("p", { class: "lead" },
        "Nothing is written: changes are made on a copy, by the program itself, and passed down step by step."));
    }
    if (form) inside.push(form);
    if (plan.changes.length && !form) {
      try {
        inside.push(...(await tried()));
      } catch (why) {
        inside.push(error(why), el("ol", { class: "changes" }, plan.changes.map((one, at) => change(one, at, null))),
          makers());
      }
    } else if (!form) {
      inside.push(makers());
    }
    if (!form) {
      const add = (object, ace) => {
        plan.add({ op: "add", n: object.n, ace, label: object.name });
        redo();
      };
      const list = (object, sddl) => {
        plan.add({ op: "list", n: object.n, sddl, label: object.name });
        redo();
      };
      inside.push(
        el("details", { open: !plan.changes.length, class: "part" },
          el("summary", {}, plan.changes.length ? "Another change" : "A new entry"), await entryForm({ done: add })),
        el("details", { class: "part" }, el("summary", {}, "A whole list, as SDDL"), listForm(list)),
        el("details", { class: "part" }, el("summary", {}, "Who makes the changes"), await byWhom()));
    }
    return { title: "What if ..", inside };
}
