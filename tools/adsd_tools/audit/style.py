"""How the page looks: without outside parts, at any width, light or dark, and printed."""

STYLE = """
:root { color-scheme: light dark; --page: #fff; --text: #1b1b1b; --soft: #5a5a5a; --line: #d4d4d4; --band: #f5f5f3;
  --link: #0b57a4; --bad: #a3170f; --look: #7a5400; --focus: #b45f06; }
@media (prefers-color-scheme: dark) { :root { --page: #16181a; --text: #ececec; --soft: #a9adb2; --line: #3b4046;
  --band: #202327; --link: #8ec2ff; --bad: #ff9d93; --look: #ecc36a; --focus: #ffb454; } }
* { box-sizing: border-box; }
body { margin: 0; background: var(--page); color: var(--text);
  font: 16px/1.5 system-ui, "Segoe UI", "DejaVu Sans", sans-serif; }
.skip { position: absolute; left: -99rem; }
.skip:focus { left: 1rem; top: 1rem; background: var(--page); padding: .5rem 1rem; z-index: 2; }
header, main, footer { max-width: 76rem; margin: 0 auto; padding: 0 1.25rem; overflow-wrap: anywhere; }
h1 { font-size: 1.7rem; line-height: 1.25; margin: 1.5rem 0 .25rem; }
h2 { font-size: 1.3rem; margin: 2.5rem 0 .3rem; border-bottom: 2px solid var(--line); padding-bottom: .25rem; }
h3 { font-size: 1.05rem; margin: 0 0 .3rem; font-weight: 600; }
p { max-width: 62rem; margin: .4rem 0 .8rem; }
.soft { color: var(--soft); font-weight: 400; } .lead { font-size: 1.1rem; }
a { color: var(--link); text-underline-offset: .15em; }
:focus-visible { outline: 3px solid var(--focus); outline-offset: 2px; border-radius: 2px; }
code, pre { font-family: ui-monospace, "DejaVu Sans Mono", Consolas, monospace; font-size: .86em;
  overflow-wrap: anywhere; }
pre { white-space: pre-wrap; margin: 0; padding: .35rem .6rem; background: var(--band); border: 1px solid var(--line);
  border-radius: .3rem; user-select: all; }
table { border-collapse: collapse; width: 100%; margin: .5rem 0 1rem; font-size: .93rem; }
caption { text-align: left; color: var(--soft); padding: .25rem 0; }
th, td { text-align: left; vertical-align: top; padding: .3rem .6rem; border-bottom: 1px solid var(--line); }
thead th { background: var(--band); border-bottom: 2px solid var(--line); }
.n { text-align: right; font-variant-numeric: tabular-nums; white-space: nowrap; }
.bad { color: var(--bad); font-weight: 700; } .look { color: var(--look); font-weight: 700; }
.finding { border: 1px solid var(--line); border-left: .35rem solid var(--bad); border-radius: .4rem;
  padding: .6rem .9rem; margin: .7rem 0; }
.finding.l { border-left-color: var(--look); }
.finding:target { outline: 3px solid var(--focus); }
dl { display: grid; grid-template-columns: 6.5rem 1fr; gap: .25rem .8rem; margin: .3rem 0 0; }
dt { color: var(--soft); } dd { margin: 0; min-width: 0; overflow-wrap: anywhere; }
.control { margin: .6rem 0 1rem; padding: .5rem .8rem; background: var(--band); border: 1px solid var(--line);
  border-radius: .4rem; }
.control p { margin: .1rem 0 .4rem; } .control li { padding: .15rem 0; }
.node { display: inline-block; max-width: 100%; border: 1px solid var(--line); border-radius: .7rem; padding: 0 .5rem;
  background: var(--page); overflow-wrap: anywhere; }
.edge { color: var(--soft); font-size: .88em; white-space: nowrap; } .chain { line-height: 1.9; }
.drawn { list-style: none; margin: .2rem 0 .5rem; padding: 0; display: flex; flex-wrap: wrap; gap: .5rem 0; }
.drawn > li { display: flex; align-items: center; min-width: 0; max-width: 100%; padding: 0; }
.drawn .edge { position: relative; white-space: normal; padding: 0 1.1rem .1rem .6rem; margin: 0 .15rem;
  border-bottom: 2px solid var(--soft); }
.drawn .edge::after { content: ""; position: absolute; right: -1px; bottom: -6px; border-left: 9px solid var(--soft);
  border-top: 5px solid transparent; border-bottom: 5px solid transparent; }
.drawn > li:last-child > .node { border: 2px solid var(--bad); }
details { margin: .2rem 0; } summary { cursor: pointer; }
ul { margin: .2rem 0; padding-left: 1.2rem; }
.banner { margin: 0; padding: .6rem 1rem; border: 3px solid currentColor; overflow-wrap: anywhere; }
footer { margin: 3rem auto 2rem; color: var(--soft); font-size: .9rem; }
@media (max-width: 700px) { body { font-size: 15px; } header, main, footer { padding: 0 .8rem; }
  dl { grid-template-columns: 1fr; gap: 0; } dd { margin-bottom: .45rem; }
  .finding { padding: .5rem .6rem; }
  table.wide, .wide tbody, .wide tr, .wide th, .wide td, .wide caption { display: block; width: auto; }
  .wide thead { position: absolute; width: 1px; height: 1px; overflow: hidden; clip-path: inset(50%); }
  .wide tr { border: 1px solid var(--line); border-radius: .4rem; margin: .5rem 0; padding: .2rem 0; }
  .wide th, .wide td { border: 0; padding: .1rem .6rem; } .wide td:empty { display: none; }
  .wide .n { text-align: left; } .wide .n::after { content: " " attr(data-of); color: var(--soft); } }
@media (max-width: 600px) { .drawn { flex-direction: column; gap: 0; }
  .control .drawn > li { flex-direction: column; align-items: flex-start; padding: 0; }
  .drawn .edge { margin-left: 1.1rem; padding: .3rem .2rem .6rem .9rem; border-bottom: 0;
    border-left: 2px solid var(--soft); }
  .drawn .edge::after { right: auto; bottom: 0; left: -6px; border: 5px solid transparent; border-bottom: 0;
    border-top: 9px solid var(--soft); } }
@media print { .skip { display: none; } .finding, tr, h2 { break-inside: avoid; } h2 { break-after: avoid; } }
"""
