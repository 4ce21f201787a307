"""The map of the crates: the tables of docs/architecture.md, whose rows say what each crate is for and what it stands on."""

import os
import re

import front
from specs import TOP, crates, text_of, write_if_new

PAGE = os.path.join(TOP, "docs/architecture.md")


def deep(name, below, found):
    """All crates of this repository that a crate stands on."""
    if name not in found:
        own = [it for it in below[name] if it in below]
        found[name] = set(own).union(*(deep(it, below, found) for it in own))
    return found[name]


def direct(below):
    """For each crate those of this repository that it stands on and that no other of these stands on."""
    found = {}
    for name in below:
        deep(name, below, found)
    return {name: [it for it in below[name] if it in below and not any(it in found[other] for other in below[name] if other in below)] for name in below}


def faults(writes):
    below = {name: others for name, others in crates().items() if not name.startswith("tests_")}
    text, on, rows = text_of(PAGE), direct(below), []

    def row(match):
        rows.append(match[1])
        if match[1] not in below:
            return match[0]
        stands = ", ".join(f"`{it}`" for it in on[match[1]])
        return f"| `{match[1]}` | {front.sentences(front.page(match[1])[''])[0]} | {stands} |"

    wanted = re.sub(r"^\| `(\w+)` \|.*$", row, text, flags=re.M)
    found = [f"docs/architecture.md: the map has no row for {name}" for name in below if name not in rows]
    found += [f"docs/architecture.md: the map has a row for {name}, which crates.txt doesn't list" for name in rows if name not in below]
    found += [f"docs/architecture.md: {name} is in more rooms than one" for name in sorted(set(rows)) if rows.count(name) > 1]
    if wanted != text and writes:
        write_if_new(PAGE, wanted)
    elif wanted != text:
        found.append("docs/architecture.md: the map isn't what the front pages and crates.txt say: run tools/docs --write")
    return found
