"""The page whole: one file of HTML without outside parts."""

import base64
import hashlib
from typing import Callable, List, Set, Tuple

from adsd_tools.forms.sids import text_of_sid

from . import events
from .html import facts, plural, table, tag, text
from .made import Made
from .moments import Front
from .result import Result
from .style import CSS, SCRIPT, WHO
from .told import Teller, describe_sid
from .tree import FIND, Tree

ABOUT = """The rights are what the program's command <code>effective</code> says, the lists are what <code>list</code>
says, and which objects the token sees is the program's answer to a search. The program is proved to answer by the
rules. The reasons, who else has a right, and what is stale or pending are worked out by this page's maker, which is
not proved, from the rows of the store. Each reason is given only where the list read by the tool is the program's to
the letter, and where what follows from it is what the program says; elsewhere it stands that the tool can't say. The
numbers of stale and pending objects are those of the program's <code>check</code>, or no page is made. Everything was
asked of a copy of the store."""
CARDS = """Objects of one class with one descriptor are alike for a token, but for their own identifier where the list
speaks of it. So each kind of them stands once. An entry counts where the token holds its identifier, and of a right the
first entry decides that counts and speaks of it."""
OTHERS = """Who has it by the list: those whom an entry allows the right, as if each held that one identifier alone.
Which accounts hold an identifier stands below, as far as the directory knows."""


# A part: its name, its head, and what is in it; and what writes it.
Part = Tuple[str, str, str]
Write = Callable[[str, str, str], str]


def link_to(made: Made) -> Tuple[Callable[[int], str], Set[int]]:
    """A function that names an object, with a link where it stands on the page, and what it was asked to link."""
    shown = {number for number, _ in made.numbers}
    linked: Set[int] = set()

    def link(number: int) -> str:
        name = text(made.state.objects[number].naming, 80)
        if number not in shown:
            return name
        linked.add(number)
        return tag("a", name, href=f"#o{number}")

    return link, linked


def token_facts(made: Made, told: Teller) -> str:
    token = made.token
    words = {1: "security", 2: "take-ownership", 4: "restore"}
    held = [name for bit, name in words.items() if token.privileges & bit]
    pairs = [("user", told.sid(token.user)), ("groups", ", ".join(map(told.sid, token.groups)) or "none")]
    if token.deny:
        pairs.append(("groups that only deny", ", ".join(map(told.sid, token.deny))))
    if token.restricting:
        pairs.append(("restricting identifiers", ", ".join(map(told.sid, token.restricting))))
    pairs.append(("privileges", ", ".join(held) or "none"))
    pairs.append(("system lists", "it reads and writes all of them (security)" if token.privileges & 1
                  else "it reads and writes none (without the privilege security)"))
    if made.how:
        pairs.insert(0, ("this token is", made.how))
    return facts(pairs)


def numbers(made: Made) -> str:
    counts, here = made.state.counts(), [number for number, _ in made.numbers]
    told = [(f"{len(here):,}", "objects here"), (f"{sum(one in made.sees for one in here):,}", "seen by the token"),
            (f"{sum(bool(made.of[one].writes) for one in here):,}", "with attributes that it writes"),
            (f"{sum('WD' in made.of[one].codes for one in here):,}", "whose list it writes"),
            (f"{counts['stale']:,}", "stale in the directory"), (f"{counts['pending']:,}", "pending in the directory")]
    return tag("ul", "".join(tag("li", f"<b>{number}</b>{word}") for number, word in told), of="numbers")


def section(name: str, head: str, body: str) -> str:
    return tag("section", tag("h2", head, id=name) + body, aria_labelledby=name)


def folded(name: str, head: str, body: str) -> str:
    return tag("details", tag("summary", tag("h2", head)) + body, of="part", id=name)


def body(made: Made) -> List[Tuple[str, str, str, Write]]:
    """The parts: the result and the differences open, and the rest folded."""
    link, linked = link_to(made)
    told = Teller(made.token, made.who, made.state.schema, link)
    notes = "".join(tag("p", note, of="mark") for note in made.notes)
    first = [("result", "What is dangerous", notes + Result(made, told).markup())]
    if made.shots:
        first.append(("front", "What comes and goes, and the front of the propagation", Front(made, told).markup()))
    cards = "\n".join(told.card(card, made.state) for card in made.cards)
    rest = [("token", "Whom this is about", token_facts(made, told) + numbers(made)),
            ("who", "Identifiers", identifiers(made, told)), ("about", "How this page was made", tag("p", ABOUT))]
    tree = Tree(made, told, linked).markup(made.numbers[0][0])
    rest.insert(1, ("objects", f"The tree: {plural(len(made.numbers), 'object')}", FIND + tree))
    rest.insert(2, ("cards", f"What may be done, and why: {plural(len(made.cards), 'card')}",
                    tag("p", CARDS) + tag("p", OTHERS) + cards))
    if made.events is not None:
        rest.insert(1, ("events", f"The security log: {plural(len(made.events), 'event')}", events.markup(made.events, told)))
    if told.lists.of_names:
        rest.insert(3, ("names", "Long lists of names", told.lists.markup()))
    parts: List[Tuple[List[Part], Write]] = [(first, section), (rest, folded)]
    return [(*part, write) for some, write in parts for part in some]


def identifiers(made: Made, told: Teller) -> str:
    rows = [describe_sid(told, sid) for sid in sorted(made.who.used, key=text_of_sid)]
    return table("", WHO, rows, of="who", aria_label="identifiers")


def policy() -> str:
    """What a browser may do with the page: show its own style and run its own script, and nothing else."""
    style, script = (base64.b64encode(hashlib.sha256(part.encode()).digest()).decode() for part in (CSS, SCRIPT))
    return (f"default-src 'none'; style-src 'sha256-{style}'; script-src 'sha256-{script}'; base-uri 'none'; "
            "form-action 'none'")


def page(made: Made) -> str:
    """The text of the page."""
    parts = body(made)
    nav = tag("nav", tag("ul", "".join(tag("li", tag("a", head, href=f"#{name}")) for name, head, _, _ in parts)),
              aria_label="parts of this page")
    root = text(made.state.names[1])
    banner = "".join(tag("p", text(line, 5000), of="no banner", role="alert") + "\n" for line in made.incomplete)
    head = banner + tag("header", tag("h1", f"Rights in {root}") +
               tag("p", f"{text(made.title)}: {plural(len(made.numbers), 'object')} as "
                   f"{text(made.who.name(made.token.user))} meets them", of="soft") + nav)
    sections = "\n".join(write(name, head, inner) for name, head, inner, write in parts)
    main = tag("main", sections, id="main", tabindex="-1")
    foot = tag("footer", "Made by tools/adsd-report, which is not proved.")
    return ('<!DOCTYPE html>\n<html lang="en">\n<head>\n<meta charset="utf-8">\n'
            f'<meta http-equiv="Content-Security-Policy" content="{policy()}">\n'
            '<meta name="viewport" content="width=device-width, initial-scale=1">\n'
            f"<title>Rights in {root}</title>\n<style>{CSS}</style>\n</head>\n<body>\n"
            f'<a class="skip" href="#main">to the content</a>\n{head}\n{main}\n{foot}\n<script>{SCRIPT}</script>\n'
            "</body>\n</html>\n")
