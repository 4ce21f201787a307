"""How the page looks, on a light or a dark screen and in print; and a few lines of script that it works without."""

# The heads of the tables, which stand before each cell where rows are stacked.
MAY = ["", "on", "rights", "why", "who has it by the list"]
ENTRIES = ["no.", "kind", "for whom", "rights", "on type", "for children of", "flags", "from", "for this token"]
WHO = ["name", "identifier", "held by the token", "object", "who belongs to it, by member and primary group"]
STACKED = {"may": MAY, "entries": ENTRIES, "who": WHO, "diff": ["", "came", "went", "dangerous"]}


def labels() -> str:
    """The rules that put the heads before the cells."""
    return "\n".join(f".{of} tr > :nth-child({place})::before {{ content: \"{head}: \"; }}"
                     for of, heads in STACKED.items() for place, head in enumerate(heads, 1) if head)


CSS = """
:root { color-scheme: light dark; --page: #ffffff; --text: #1b1d21; --soft: #565c66; --line: #c9ced6; --band: #f2f4f7;
  --link: #0b57a4; --yes: #0b5d33; --no: #a12b12; --mark: #7a4b00; --now: #fff3cf; --focus: #b4500a; }
@media (prefers-color-scheme: dark) { :root { --page: #15171b; --text: #e7e9ec; --soft: #a5adb8; --line: #3b424d;
  --band: #1e2127; --link: #8cc2ff; --yes: #7fd6a4; --no: #ffa48f; --mark: #f3c56b; --now: #3a3116; --focus: #ffb26b;
  } }
* { box-sizing: border-box; }
html { scroll-padding-top: 1rem; }
body { margin: 0; background: var(--page); color: var(--text);
  font: 16px/1.5 system-ui, "Segoe UI", "DejaVu Sans", sans-serif; }
.skip { position: absolute; left: -99rem; }
.skip:focus { left: 1rem; top: 1rem; background: var(--page); padding: .5rem 1rem; z-index: 2; }
header, main, footer, nav { max-width: 92rem; margin: 0 auto; padding: 0 1.25rem; overflow-wrap: anywhere; }
header { padding-top: 1.5rem; } header nav { padding: 0; }
h1 { font-size: 1.7rem; line-height: 1.25; margin: 0 0 .25rem; }
h2 { font-size: 1.3rem; margin: 2.5rem 0 .5rem; border-bottom: 2px solid var(--line); padding-bottom: .25rem; }
h3 { font-size: 1.05rem; margin: 1.5rem 0 .4rem; }
p, ul.plain { max-width: 62rem; margin: .4rem 0 .8rem; }
.soft { color: var(--soft); }
a { color: var(--link); text-underline-offset: .15em; }
:focus-visible { outline: 3px solid var(--focus); outline-offset: 2px; border-radius: 2px; }
nav ul { display: flex; flex-wrap: wrap; gap: .25rem 1.25rem; list-style: none; padding: 0; margin: .75rem 0 0; }
code, .code { font-family: ui-monospace, "DejaVu Sans Mono", Consolas, monospace; font-size: .875em; }
.code { overflow-wrap: anywhere; }
.scroll { overflow-x: auto; }
table { border-collapse: collapse; width: 100%; margin: .5rem 0 1rem; font-size: .92rem; }
caption { text-align: left; color: var(--soft); padding: .25rem 0; }
th, td { text-align: left; vertical-align: top; padding: .28rem .6rem; border-bottom: 1px solid var(--line); }
thead th { background: var(--band); border-bottom: 2px solid var(--line); font-weight: 600; }
tbody th { font-weight: 600; }
.facts { display: grid; grid-template-columns: max-content 1fr; gap: .2rem 1rem; margin: .5rem 0 1rem; }
.facts dt { color: var(--soft); }
.facts dd { margin: 0; overflow-wrap: anywhere; }
.numbers { display: flex; flex-wrap: wrap; gap: .6rem; padding: 0; margin: 1rem 0; list-style: none; }
.numbers li { border: 1px solid var(--line); border-radius: .4rem; padding: .45rem .9rem; min-width: 8rem;
  background: var(--band); }
.numbers b { display: block; font-size: 1.45rem; line-height: 1.2; }
.yes { color: var(--yes); } .no { color: var(--no); } .mark { color: var(--mark); }
.yes, .no, .mark { font-weight: 600; }
.banner { margin: 0; padding: .6rem 1rem; border: 3px solid currentColor; overflow-wrap: anywhere; }
.lead { font-size: 1.15rem; }
.harms { padding: 0; margin: .8rem 0 1.2rem; list-style: none; max-width: 62rem; }
.harms li { display: grid; grid-template-columns: 4.5rem 1fr; gap: .75rem; padding: .3rem 0;
  border-bottom: 1px solid var(--line); }
.harms b { text-align: right; font-size: 1.15rem; color: var(--no); font-variant-numeric: tabular-nums; }
ul.plain { margin: 0; padding: 0; list-style: none; } ul.plain li { margin: .1rem 0; overflow-wrap: anywhere; }
.harm th, .harm td, .diff th, .diff td { overflow-wrap: anywhere; } .harm tr > :nth-child(1) { width: 28%; }
.harm tr > :nth-child(3) { width: 6rem; } .diff tr > :nth-child(1) { width: 20%; }
.diff tr > :nth-child(4) { width: 16%; }
.diff tr > :nth-child(2), .diff tr > :nth-child(3) { width: 32%; }
#tree { line-height: 1.6; overflow-wrap: anywhere; }
.t .t, .t .g, .t > p { margin: .1rem 0 .1rem 1.1rem; } .t > summary { padding: .05rem 0; }
.t > summary b { font-weight: 600; }
.g { padding: .1rem 0 .1rem .6rem; border-left: 2px solid var(--line); }
.g ul { margin: 0; padding: 0; } .one ul, .one li { display: inline; }
.g li { display: inline-block; margin: 0 1rem 0 0; max-width: 100%; }
li:target, .t:target > summary, .g li:target { outline: 3px solid var(--focus); }
.legend { list-style: none; padding: 0; max-width: 62rem; } .legend li { margin: .15rem 0; }
.legend svg { vertical-align: -.15em; }
.moments { display: grid; grid-template-columns: repeat(auto-fill, minmax(min(100%, 24.5rem), 1fr)); gap: 1rem; }
figure { margin: 0; border: 1px solid var(--line); border-radius: .5rem; padding: .6rem .7rem; min-width: 0;
  overflow-wrap: anywhere; }
figure svg { display: block; max-width: 100%; height: auto; margin: .4rem 0; }
svg text { fill: var(--text); font-size: 13px; } svg .e, svg .y, svg .o { font-size: 12px; }
svg .e { fill: var(--mark); } svg .y { fill: var(--yes); font-weight: 600; }
svg .o { fill: var(--no); font-weight: 600; }
svg .l { stroke: var(--soft); fill: none; } svg .d { stroke: var(--soft); fill: var(--page); stroke-width: 1.5; }
svg .c { fill: var(--yes); } svg .s { fill: var(--mark); } svg .q { fill: var(--link); }
.card { border: 1px solid var(--line); border-radius: .5rem; padding: .3rem .8rem; margin: .5rem 0; }
.card:target { outline: 3px solid var(--focus); }
.card h3, .part h2 { display: inline; margin: 0 .75rem 0 0; border: 0; padding: 0; }
.card h3 { font-size: 1rem; } .card > summary { overflow-wrap: anywhere; }
.part { border-top: 2px solid var(--line); padding: .6rem 0; margin: 0; } .part > summary { font-size: 1.05rem; }
.part:first-of-type { margin-top: 2.5rem; }
.may td, .entries td, .who td, .who th { overflow-wrap: anywhere; }
.may .yes, .may .no { white-space: nowrap; } .may i { color: var(--soft); font-style: normal; }
.names { overflow-wrap: anywhere; } .keep { white-space: nowrap; }
details { margin: .3rem 0; } summary { cursor: pointer; padding: .1rem 0; }
.tools { display: none; gap: 1rem; flex-wrap: wrap; align-items: end; margin: .75rem 0; }
.tools label { display: block; } .tools div { max-width: 100%; }
.tools input[type=search], .tools select { font: inherit; padding: .3rem .5rem;
  width: 17rem; max-width: 100%;
  color: inherit; background: var(--page); border: 1px solid var(--soft); border-radius: .3rem; }
.scripted .tools { display: flex; }
#tree [hidden] { display: none; }
.sr { position: absolute; width: 1px; height: 1px; overflow: hidden; clip-path: inset(50%); white-space: nowrap; }
footer { margin: 3rem auto 2rem; color: var(--soft); font-size: .9rem; }
@media (max-width: 700px) { body { font-size: 15px; } header, main, footer { padding: 0 .8rem; }
  .facts { grid-template-columns: 1fr; } .facts dd { margin-bottom: .4rem; }
  .harms li { grid-template-columns: 3.4rem 1fr; }
  table, tbody, tr, th, td, caption { display: block; width: auto !important; }
  thead { position: absolute; width: 1px; height: 1px; overflow: hidden; clip-path: inset(50%); }
  tr { border: 1px solid var(--line); border-radius: .4rem; margin: .6rem 0; padding: .3rem 0; }
  th, td { border: 0; padding: .15rem .6rem; overflow-wrap: anywhere; } td:empty { display: none; }
  .keep { white-space: normal; } .card { padding: .3rem .5rem; }
  tr > ::before { color: var(--soft); font-weight: 400; }
LABELS }
@media print { :root { color-scheme: light; --page: #fff; --text: #000; --soft: #333; --line: #999; --band: #f1f1f1;
  --link: #000;
    --yes: #000; --no: #000; --mark: #000; --now: #ddd; }
  body { font-size: 9.5pt; } nav, .skip, .tools { display: none !important; } header, main, footer { max-width: none;
  padding: 0; }
  .scroll { overflow: visible; } table { font-size: 8.5pt; } thead { display: table-header-group; }
  tr, h2, h3 { break-inside: avoid; } h2, h3 { break-after: avoid; } .card { border-radius: 0; }
  a { text-decoration: none; } figure { break-inside: avoid; }
  details::details-content { content-visibility: visible; block-size: auto; } }
""".replace("LABELS", labels())

SCRIPT = """
(function () {
  function open(one) {
    for (; one; one = one.parentElement) if (one.tagName === "DETAILS") one.open = true;
  }
  function go() {
    var one = location.hash.length > 1 && document.getElementById(location.hash.slice(1));
    if (one) { open(one); one.scrollIntoView(); }
  }
  window.addEventListener("hashchange", go);
  document.addEventListener("click", function (event) {
    var link = event.target.closest && event.target.closest("a[href^='#']");
    if (link && link.getAttribute("href") === location.hash) go();
  });
  window.addEventListener("beforeprint", function () {
    document.querySelectorAll("details").forEach(function (one) { one.open = true; });
  });
  go();
  var box = document.getElementById("find"), which = document.getElementById("which");
  var told = document.getElementById("told"), tree = document.getElementById("tree");
  if (!box || !tree) return;
  document.documentElement.className = "scripted";
  function look(one, text, kind) {
    var fits = !kind || (" " + one.getAttribute("data-k") + " ").indexOf(" " + kind + " ") >= 0, count = 0, rows = 0;
    if (one.className !== "t") {
      one.querySelectorAll("li").forEach(function (name) {
        name.hidden = !fits || text && name.textContent.toLowerCase().indexOf(text) < 0;
        if (!name.hidden) count++;
      });
    } else {
      if (fits && one.firstChild.firstChild.textContent.toLowerCase().indexOf(text) >= 0) count++;
      Array.prototype.forEach.call(one.children, function (below) {
        if (below.hasAttribute("data-k")) rows += look(below, text, kind);
      });
      one.open = one.parentElement === tree || Boolean((text || kind) && rows);
    }
    one.hidden = !(count + rows);
    return count + rows;
  }
  function all() {
    var text = box.value.trim().toLowerCase(), count = look(tree.firstElementChild, text, which.value);
    tree.firstElementChild.hidden = false;
    told.textContent = count + (count === 1 ? " object" : " objects") + " found";
  }
  box.addEventListener("input", all);
  which.addEventListener("change", all);
})();
"""
