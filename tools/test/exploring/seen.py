"""That what is seen can be read and used by everybody: names and roles, contrasts, sizes, nothing wider than the window."""

# Of each text that is seen the contrast with what is behind it, where that is less than it has to be (WCAG 2.2, 1.4.3).
CONTRASTS = r"""
function color(text) {
  const found = text.match(/rgba?\(([^)]*)\)/);
  if (!found) return [0, 0, 0, 0];
  const parts = found[1].split(/[ ,\/]+/).map(Number);
  return [parts[0], parts[1], parts[2], parts.length > 3 ? parts[3] : 1];
}
function over(top, below) { return [0, 1, 2].map((i) => top[i] * top[3] + below[i] * (1 - top[3])).concat(1); }
function light(c) {
  const l = c.slice(0, 3).map((v) => { v /= 255; return v <= 0.04045 ? v / 12.92 : ((v + 0.055) / 1.055) ** 2.4; });
  return 0.2126 * l[0] + 0.7152 * l[1] + 0.0722 * l[2];
}
function behind(one) {
  const above = [];
  for (; one; one = one.parentElement) above.push(color(getComputedStyle(one).backgroundColor));
  return above.reverse().reduce((below, top) => over(top, below), [255, 255, 255, 1]);
}
const walker = document.createTreeWalker(document.body, NodeFilter.SHOW_TEXT), made = [];
for (let node = walker.nextNode(); node; node = walker.nextNode()) {
  const one = node.parentElement;
  const shown = one.checkVisibility({ checkOpacity: true, checkVisibilityCSS: true });
  if (!node.textContent.trim() || !shown || one.closest(".sr, script, style, noscript")) continue;
  const style = getComputedStyle(one), back = behind(one);
  if (one.disabled) continue;
  const front = over(color(one.closest("svg") ? style.fill : style.color), back), a = light(front), b = light(back);
  const ratio = (Math.max(a, b) + 0.05) / (Math.min(a, b) + 0.05), size = parseFloat(style.fontSize);
  const large = size >= 24 || (size >= 18.66 && Number(style.fontWeight) >= 700);
  if (ratio < (large ? 3 : 4.5)) made.push(node.textContent.trim().slice(0, 40) + ": " + ratio.toFixed(2));
}
return made;
"""
SIZES = r"""
const made = [];
for (const one of document.querySelectorAll("button, select, input, summary, [role=treeitem] > .row, a.button")) {
  if (!one.checkVisibility() || one.closest(".sr")) continue;
  const box = one.getBoundingClientRect();
  if (box.height < 24 || box.width < 24) {
    if (one.type === "checkbox") continue;
    made.push((one.textContent || one.type).slice(0, 40) + ": " + Math.round(box.width) + " x " + Math.round(box.height));
  }
}
return made;
"""
WIDE = """
return document.documentElement.scrollWidth > innerWidth ? document.documentElement.scrollWidth + " of " + innerWidth : "";
"""
IDS = """
const ids = [...document.querySelectorAll("[id]")].map((one) => one.id);
return ids.filter((one, at) => ids.indexOf(one) !== at).concat(
  [...document.querySelectorAll("[aria-labelledby], [aria-controls], [aria-activedescendant], label[for]")].flatMap((one) =>
    ["aria-labelledby", "aria-controls", "aria-activedescendant", "for"].map((key) => one.getAttribute(key)).filter(
      (id) => id && !document.getElementById(id))));
"""
# Roles whose elements are of no use without a name.
NAMED = {"button", "link", "textbox", "combobox", "listbox", "option", "slider", "checkbox", "tree", "treeitem", "heading",
         "navigation", "img", "image", "region", "search", "complementary", "ComboBoxSelect", "table"}
# How many there are of each, None where any number is good.
LANDMARKS = {"main": 1, "banner": 1, "search": 1, "navigation": None}
OF_REPORT = {"main": 1, "banner": 1, "navigation": 1}


def names(browser):
    """What of the accessibility tree has no name, and which landmarks there are."""
    nodes = browser.devtools("Accessibility.getFullAXTree")["nodes"]
    bare, count = [], {}
    for node in nodes:
        if node.get("ignored"):
            continue
        role = node.get("role", {}).get("value", "")
        count[role] = count.get(role, 0) + 1
        if role in NAMED - {"table", "image", "region", "search"} and not node.get("name", {}).get("value", "").strip():
            bare.append(role)
    levels = [prop["value"]["value"] for node in nodes if node.get("role", {}).get("value") == "heading" and not node.get("ignored")
              for prop in node.get("properties", []) if prop["name"] == "level"]
    return bare, count, levels


def check(tries, browser, where, narrow, landmarks=None):
    """Looks at all that is on the page now."""
    bare, count, levels = names(browser)
    tries.check(not bare, f"{where}: without a name: {bare}")
    missing = [role for role, many in (landmarks or LANDMARKS).items() if not count.get(role) or many and count[role] != many]
    tries.check(not missing, f"{where}: landmarks {missing}: {count}")
    steps = [after - before for before, after in zip(levels, levels[1:])]
    tries.check(levels.count(1) == 1 and levels[0] == 1 and max(steps, default=0) <= 1, f"{where}: headings {levels}")
    for what, script in (("contrast", CONTRASTS), ("wider than the window", WIDE), ("ids", IDS), ("small", SIZES if narrow else "return []")):
        found = browser.script(script)
        tries.check(not found, f"{where}: {what}: {found}")
    # (a request that the explorer refuses is told on the page, and by the browser too)
    said = [line for line in browser.said() if "/api/" not in line or "(Bad Request)" not in line]
    tries.check(not said, f"{where}: the console: {said}")
