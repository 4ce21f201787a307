// The changes of the what-if. They stay while the page does.

const watching = new Set();

export const plan = {
  changes: [],
  by: "",
  byName: "",
  told: null,

  add(change) {
    this.changes.push(change);
    this.changed();
  },

  take(at) {
    this.changes.splice(at, 1);
    this.changed();
  },

  clear() {
    this.changes = [];
    this.changed();
  },

  changed() {
    this.told = null;
    for (const one of watching) one();
  },

  watch(one) { watching.add(one);},

  // What the explorer is told: without the names that the page shows.
  sent() { return this.changes.map(({ label, on, ...rest }) => (on === undefined ? rest : {...rest, on }));},
};

// Puts a change behind those that are there, and goes to where they are tried.
export function tryOut(change) {
  plan.add(change);
  location.hash = "#/try";
}
