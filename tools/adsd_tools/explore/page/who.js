// Who can do what to an object: by which entry, and by which groups.

import {ask, el, fresh, joined, name, plural} from "./dom.js";
import {objectPicker} from "./picker.js";
import {at, chain, deciding, error, objectLink, principalLink} from "./words.js";

export function rightSelect(asked, label, chosen) {
  const id = fresh("right");
  const option = (one) => el("option", { value: JSON.stringify(one.right) }, one.words);
  const select = el("select", { id }, el("optgroup", { label: "dangerous" }, asked.first.map(option)),
    el("optgroup", { label: "all rights" }, asked.all.map(option)));
  if (chosen) select.value = JSON.stringify(chosen);
  const box = el("div", {}, el("label", { for: id
  }, label), select);
  box.right = () => JSON.parse(select.value);
  box.field = select;
  return box;
}

// The form that asks of one object.
export async function whoForm(one, chosen) {
  const right = rightSelect(await ask("askable", { n: one.n }), "what is done", chosen);
  return el("form", {
    class: "form",
    onsubmit: (event) => {
      event.preventDefault();
      location.hash = at.who(one.n, right.right());
    }
  },
    right, el("button", { type: "submit" }, "Who can?"));
}

function account(one) {
  const ways = one.chains.filter((steps) => steps.length);
  return el("li", {}, ways.length ? joined(ways.map((steps) => chain(steps, one)), "; ") : principalLink(one));
}

function group(told, made, words) {
  const list = el("ul", { class: "accounts" }, made.accounts.map(account));
  const box = el("section", { class: "group" },
    el("h3", {}, plural(made.count, "account"), ", by ", joined(made.by.map(deciding), " and ")), list);
  let after = made.accounts.length;
  if (made.count > after) {
    const button = el("button", {
      type: "button",
      onclick: async () => {
        const next = await ask("who", {...words, after });
        const same = next.groups.find((other) => JSON.stringify(other.by) === JSON.stringify(made.by));
        list.append(...same.accounts.map(account));
        after += same.accounts.length;
        if (after >= made.count) button.remove();
      }
    },
      "Show more");
    box.append(button);
  }
  return box;
}

// The answer to who has a right, of a moment where one is given.
export function answered(told, words) {
  const others = told.others.length
    ? el("p", {}, "Besides, whoever is ", joined(told.others.map(principalLink), ", "),
        ": identifiers that no account of this store has.")
    : null;
  if (!told.count) return [ el("p", { class: "lead" }, "No account in this store."), others ];
  return [
    el("p", { class: "lead" }, el("strong", {}, plural(told.count, "account")),
      told.groups.length > 1 ? ", by " + told.groups.length + " ways:" : ":"),
    told.groups.map((made) => group(told, made, words)), others
  ];
}

export async function whoView(n, ...right) {
  if (!n) {
    const form = el("div", {});
    const box = objectPicker("to which object", async (one) => form.replaceChildren(await whoForm(one)));
    return {
      title: "Who can ..",
      inside: [
        el("h1", {}, "Who can .."), el("p", {}, "Name an object, then what is done to it."),
        el("div", { class: "form" }, box), form
      ]
    };
  }
  const [one, asked] = await Promise.all([ ask("object", { n }), ask("askable", { n }) ]);
  const label = one.name.slice(one.n === 1 ? 0 : one.name.indexOf("=") + 1);
  if (right.length < 3) {
    return {
      title: "Who can ..",
      object: one,
      inside: [ el("h1", {}, "Who can .. ", name(label)), await whoForm(one) ]
    };
  }
  const words = { n, kind: right[0], name: right[1], code: right[2] };
  const known = [...asked.first, ...asked.all ].find(
    (other) => JSON.stringify(other.right) === JSON.stringify(right.slice(0, 3)));
  const said = right[2] === "all" ? "has all rights (GA)" : known ? known.words : right.join(" ");
  let inside;
  try {
    inside = answered(await ask("who", words), words);
  } catch (why) {
    inside = [ error(why) ];
  }
  return {
    title: "Who " + said + ": " + label,
    object: one,
    inside: [
      el("h1", {}, "Who ", said, ": ", objectLink({ n: one.n, name: label })), inside,
      el("h2", {}, "Ask something else"), await whoForm(one, right.slice(0, 3))
    ]
  };
}
