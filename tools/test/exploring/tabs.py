"""The first page and an account's page: nothing of them scrolls sideways, and all of them is reached by Tab alone."""

TARGETS = """
const targets = document.querySelector(".targets");
return targets && !targets.hasAttribute("aria-busy");
"""
UNFOLD = "document.querySelectorAll('main details').forEach((one) => { one.open = true; })"
# What scrolls sideways by itself, or is wider than the window.
SIDEWAYS = r"""
return [...document.querySelectorAll("body *")].filter((one) => {
  if (!one.checkVisibility() || one.closest(".sr, svg, [role=tree]")) return false;
  const scrolls = ["auto", "scroll"].includes(getComputedStyle(one).overflowX) && one.scrollWidth > one.clientWidth + 1;
  return scrolls || one.getBoundingClientRect().right > innerWidth + 1;
}).map((one) => one.tagName + " " + one.textContent.trim().slice(0, 50)).slice(0, 5);
"""
# Notes what has had the focus since then, and where it couldn't be seen.
WATCH = """
window.reached = new Set();
window.unseen = [];
document.addEventListener("focusin", (event) => {
  const one = event.target, style = getComputedStyle(one), row = one.querySelector(":scope > .row");
  window.reached.add(one);
  if (style.outlineStyle === "none" && style.boxShadow === "none" && (!row || getComputedStyle(row).outlineStyle === "none"))
    window.unseen.push(one.tagName + " " + one.textContent.trim().slice(0, 40));
}, true);
document.activeElement.blur();
"""
USABLE = """
window.usable = [...document.querySelectorAll("a[href], button, input, select, summary, [tabindex='0']")].filter(
  (one) => one.checkVisibility() && !one.disabled);
return window.usable.length;
"""
LEFT = """
return [window.usable.filter((one) => !window.reached.has(one)).map((one) => one.tagName + " " + one.textContent.trim().slice(0, 40)),
  window.unseen];
"""


def page(one, what):
    """Looks at the page that is there, with all of it unfolded."""
    one.browser.script(UNFOLD)
    one.looks()
    if one.narrow:
        found = one.browser.script(SIDEWAYS)
        one.check(not found, f"{what}: it scrolls sideways: {found}")
    one.browser.script(WATCH)
    many = one.browser.script(USABLE)
    one.check(many > 10, f"{what}: only {many} are there to be used")
    for _ in range(0, many + 20, 50):
        one.browser.press(*["Tab"] * 50)
    left, unseen = one.browser.script(LEFT)
    one.check(not left, f"{what}: not reached by Tab, of {many}: {left[:5]}")
    one.check(not unseen, f"{what}: the focus isn't seen: {unseen[:5]}")


def tabs(one):
    """The first page with its targets, and an account's page, which is come to from there."""
    one.check(one.browser.until(TARGETS), "the targets don't come")
    page(one, "the first page")
    one.begin("tabs")
    one.find("dave")
    one.push("What dave may do, and where")
    one.reads("The worst, on 5 objects of 31")
    page(one, "an account's page")
