// A field in which a name is typed and one of what is found is chosen: a combobox with a list below it.

import {ask, el, fresh, name, put, say} from "./dom.js";

const WAIT = 120;

// `find` gives a promise of what a text finds, `show` the pieces of a line, `text` what stands in the field then.
export function picker({label, find, show, text, picked, value, hint}) {
  const list = el("ul", { role: "listbox", id: fresh("list"), hidden: true, "aria-label": label });
  const field = el("input", {
    type: "text",
    id: fresh("field"),
    role: "combobox",
    autocomplete: "off",
    spellcheck: "false",
    "aria-expanded": "false",
    "aria-controls": list.id,
    "aria-autocomplete": "list",
    placeholder: hint || "",
    value: value || "",
  });
  let found = [], chosen = -1, asked = 0, timer = 0;

  function close() {
    list.hidden = true;
    field.setAttribute("aria-expanded", "false");
    field.removeAttribute("aria-activedescendant");
    chosen = -1;
  }

  function mark(at) {
    chosen = at;
    [...list.children].forEach((one, place) => one.setAttribute("aria-selected", place === at ? "true" : "false"));
    if (at < 0) return;
    field.setAttribute("aria-activedescendant", list.children[at].id);
    list.children[at].scrollIntoView({ block: "nearest" });
  }

  function take(at) {
    const one = found[at];
    if (!one) return;
    field.value = text(one);
    close();
    picked(one);
  }

  function open(made) {
    found = made;
    list.replaceChildren(...made.map((one, at) => put(el("li", {
      role: "option",
      id: fresh("option"),
      "aria-selected": "false",
      onmousedown: (event) => {
        event.preventDefault();
        take(at);
      },
    }),
                                       [ show(one) ])));
    list.hidden = !made.length;
    field.setAttribute("aria-expanded", made.length ? "true" : "false");
    say(made.length ? made.length + " found" : "nothing found");
    mark(made.length ? 0 : -1);
  }

  async function look() {
    const own = (asked += 1), wanted = field.value.trim();
    if (!wanted) return close();
    const made = await find(wanted).catch(() => []);
    if (own === asked && document.activeElement === field) open(made);
  }

  field.addEventListener("input", () => {
    clearTimeout(timer);
    timer = setTimeout(look, WAIT);
  });
  field.addEventListener("blur", () => {
    asked += 1;
    close();
  });
  field.addEventListener("keydown", (event) => {
    if (event.key === "ArrowDown" || event.key === "ArrowUp") {
      event.preventDefault();
      if (list.hidden) return look();
      mark((chosen + (event.key === "ArrowDown" ? 1 : found.length - 1)) % found.length);
    } else if (event.key === "Enter" && !list.hidden && chosen >= 0) {
      event.preventDefault();
      take(chosen);
    } else if (event.key === "Escape" && !list.hidden) {
      event.preventDefault();
      close();
    }
  });
  const box = el("div", { class: "picker" }, el("label", { for: field.id
  }, label), field, list);
  box.field = field;
  return box;
}

// A field for an object of the store.
export function objectPicker(label, picked, value) {
  return picker({
    label,
    picked,
    value,
    hint: "a name",
    find: async (wanted) => (await ask("find", { q: wanted })).found,
    show: (one) => [name(one.label), " ", el("span", { class: "soft" }, one.class), el("br"),
      el("span", { class: "soft small" }, name(one.dn))],
    text: (one) => one.label,
  });
}

// A field for a principal: of the store, or one that everybody knows, or an identifier.
export function principalPicker(label, picked, value) {
  return picker({
    label,
    picked,
    value,
    hint: "a name or an identifier",
    find: async (wanted) => (await ask("whom", { q: wanted })).found,
    show: (one) => [name(one.name), " ", el("span", { class: "soft small" }, one.sid)],
    text: (one) => one.name,
  });
}
