// The form of a new entry, or of another one in its place: by fields that make the text, or by the text itself.

import {ask, el, fresh, name} from "./dom.js";
import {objectPicker, principalPicker} from "./picker.js";

const WHOLE = [
  [ "everything", "GA" ], [ "read everything", "GR" ], [ "write every attribute", "WP" ], [ "write the list", "WD" ],
  [ "write the owner", "WO" ]
];
const NONE = "";

function select(label, options, changed) {
  const id = fresh("select"), made = el("select", { id, onchange: changed }, options);
  const box = el("div", {}, el("label", { for: id
  }, label), made);
  box.field = made;
  return box;
}

function choice(value, text) { return el("option", { value: JSON.stringify(value) }, text); }

// For which objects an entry is: flags and the class that inherits it.
function ranges(classes) {
  const made = [
    choice([ "", NONE, "" ], "this object"), choice([ "CI", NONE, "" ], "this object and all below it"),
    choice([ "CIIO", NONE, "" ], "all objects below it"),
    choice([ "CINP", NONE, "" ], "this object and those right below it")
  ];
  for (const one of classes)
    made.push(choice([ "CIIO", one.guid, one.name ], "all " + one.name + " objects below it"));
  return made;
}

function whats(asked) {
  const plain = WHOLE.map(([ text, code ]) => choice([ code, NONE ], text));
  const of = (one) => choice([ one.right[2], one.guid ], one.words);
  return [
    el("optgroup", { label: "on the object as a whole" }, plain),
    el("optgroup", { label: "dangerous" }, asked.first.filter((one) => one.guid).map(of)),
    el("optgroup", { label: "all rights" }, asked.all.filter((one) => one.guid).map(of))
  ];
}

function text(kind, range, what, sid) {
  const [flags, inherited] = range, [ code, guid ] = what;
  const types = guid || inherited ? { allow: "OA", deny: "OD" } : { allow: "A", deny: "D" };
  return "(" + [ types[kind], flags, code, guid, inherited, sid ].join(";") + ")";
}

// `done` gets the number of the object, its name, and the text of the entry.
export async function entryForm({n, label, old, done}) {
  const { classes } = await ask("classes");
  let object = n ? { n, name: label } : null, sid = "", asking = 0;
  const asked = el("p", { class: "error", role: "alert", hidden: true });
  const own = el("input", {
    type: "text",
    id: fresh("ace"),
    class: "wide",
    spellcheck: "false",
    autocomplete: "off",
    value: old || ""
  });
  const kind =
    select("kind", [ el("option", { value: "allow" }, "allow"), el("option", { value: "deny" }, "deny") ], write);
  const what = select("what", [], write);
  const range = select("on", ranges(classes), () => {
    write();
    fill();
  });
  const who = principalPicker("who", (one) => {
    sid = one.sid;
    write();
  });

  function write() {
    if (sid && what.field.value)
      own.value = text(kind.field.value, JSON.parse(range.field.value), JSON.parse(what.field.value), sid);
  }

  async function fill() {
    const mine = (asking += 1), of = JSON.parse(range.field.value)[2];
    const told = of ? await ask("askable", { class: of })
      : object      ? await ask("askable", { n: object.n })
                    : { first: [], all: [] };
    if (mine !== asking) return;
    const before = what.field.value;
    what.field.replaceChildren(...whats(told));
    if ([...what.field.options ].some((one) => one.value === before)) what.field.value = before;
    write();
  }

  function submit(event) {
    event.preventDefault();
    asked.hidden = true;
    if (object && own.value.trim()) return done(object, own.value.trim());
    asked.hidden = false;
    asked.textContent = object ? "Name the account, or write the entry." : "Name the object.";
  }

  await fill();
  return el("form", { class: "entry", onsubmit: submit },
    el("div", { class: "form" },
      n ? el("p", { class: "at" }, "at ", name(label))
        : objectPicker("at the object",
            (one) => {
              object = { n: one.n, name: one.label };
              fill();
            }),
      kind, who, what, range),
    el("div", {},
      el("label",
        { for: own.id
        },
        "the entry as SDDL, which may be written by hand"),
      own),
    asked, el("button", { type: "submit" }, old ? "Try it instead" : "Try this entry"));
}

// The form of a whole list as text.
export function listForm(done) {
  let object = null;
  const own = el("input", {
    type: "text",
    id: fresh("sddl"),
    class: "wide",
    spellcheck: "false",
    autocomplete: "off",
    placeholder: "D:(A;CI;GA;;;BA)"
  });
  return el("form", {
    class: "entry",
    onsubmit: (event) => {
      event.preventDefault();
      if (object && own.value.trim()) done(object, own.value.trim());
    }
  },
    objectPicker("of the object", (one) => {
      object = { n: one.n, name: one.label };
    }), el("div", {}, el("label", { for: own.id
    }, "its whole list as SDDL, without what it inherits"), own), el("button", { type: "submit" }, "Try this list"));
}
