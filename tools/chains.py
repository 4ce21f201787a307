"""What an edit costs by the times of docs/proofs.md: what is proved anew after it, and how long that takes at least with any number
of processors, which is the longest chain of crates above. And what a first check of a crate costs where nothing is proved: it and all
that it stands on."""

import os
import re
import subprocess
import sys

from specs import TOP, crates, text_of

ROW = re.compile(r"^\| `(\w+)` \|" + r" ([\d,]*) \|" * 6 + "$", re.M)
# A room of docs/architecture.md, and a crate of it.
ROOM, CRATE = re.compile(r"^### (.+)$", re.M), re.compile(r"^\| `(\w+)` \|", re.M)
# So many commits the figures of docs/proofs.md are over.
COMMITS = 372


def number(shown):
    return int(shown.replace(",", "") or 0)


def measured():
    """The seconds of each crate: of its proof, and of its tests and edits, by the table of docs/proofs.md."""
    rows = ROW.findall(text_of(os.path.join(TOP, "docs/proofs.md")))
    return {row[0]: (number(row[1]), number(row[2]) + number(row[3])) for row in rows}


def above(stands):
    """The crates that stand on each, also over others."""
    found = {name: set() for name in stands}
    for name in stands:
        todo = [it for it in stands[name] if it in stands]
        while todo:
            below = todo.pop()
            if name not in found[below]:
                found[below].add(name)
                todo += [it for it in stands[below] if it in stands]
    return found


def chains(stands, seconds):
    """The longest chain from each crate up, as its seconds and its crates."""
    on = {name: [it for it in stands if name in stands[it]] for name in stands}
    found = {}

    def from_here(name):
        if name not in found:
            took, way = max((from_here(it) for it in on[name]), default=(0, []))
            found[name] = took + seconds[name], [name, *way]
        return found[name]

    return {name: from_here(name) for name in stands}


def touched(commits, until):
    """The crates that each of the last commits up to one touched."""
    words = ["git", "log", f"-{commits}", "--name-only", "--format=%x00", until]
    said = subprocess.run(words, cwd=TOP, stdout=subprocess.PIPE, text=True, check=False)
    if said.returncode:
        sys.exit(said.returncode)
    return [set(re.findall(r"^crates/(\w+)/", commit, re.M)) for commit in said.stdout.split("\0")[1:]]


def rooms(stands):
    """The crates of each room of docs/architecture.md, and behind these the crates that are in none."""
    parts = ROOM.split(text_of(os.path.join(TOP, "docs/architecture.md")))[1:]
    found = {room: [it for it in CRATE.findall(text) if it in stands] for room, text in zip(parts[::2], parts[1::2])}
    found = {room: names for room, names in found.items() if names}
    found["none of them"] = [name for name in stands if not any(name in names for names in found.values())]
    return found


def first_checks():
    """For each room what a first check of its cheapest and of its dearest crate costs, with all below; and what a first check in a
    tree where these stand proved costs: of the crate alone."""
    stands, took = crates(), measured()
    higher = above(stands)
    own = {name: took.get(name, (0, 0))[0] for name in stands}
    whole = {name: own[name] + sum(own[it] for it in stands if name in higher[it]) for name in stands}
    lines = ["room\tfrom\tto\tthe crate alone"]
    for room, names in rooms(stands).items():
        least, most = (pick(names, key=lambda name: whole[name]) for pick in (min, max))
        alone = sorted(own[name] for name in names)
        lines.append(f"{room}\t{whole[least]:,} s ({least})\t{whole[most]:,} s ({most})\t{alone[0]:,} to {alone[-1]:,} s")
    return lines


def mean(figures, edits):
    return sum(figures[name] for name in edits) / max(1, len(edits))


def told(commits, until):
    """What is printed."""
    stands, took = crates(), measured()
    unknown = [name for name in stands if name not in took]
    seconds = {name: took.get(name, (0, 0))[0] for name in stands}
    higher, longest = above(stands), chains(stands, seconds)
    costs = {name: seconds[name] + sum(seconds[it] for it in higher[name]) for name in stands}
    every = [name for crates_of in touched(commits, until) for name in sorted(crates_of)]
    edits = [name for name in every if name in stands]
    whole, way = max(longest.values())
    lines = [f"{len(stands)} crates",
             f"all proofs: {sum(seconds.values()):,} s; tests and refused edits: {sum(it[1] for it in took.values()):,} s",
             f"longest chain: {whole:,} s, {len(way)} crates: " + ", ".join(f"{name} {seconds[name]}" for name in way),
             f"an edit of a crate, by the {len(edits)} of {commits} commits up to {until}: "
             f"{mean(costs, edits):,.0f} s are proved anew, of which {mean({name: longest[name][0] for name in stands}, edits):,.0f} s in one chain"]
    if len(every) > len(edits):
        lines.append(f"not counted: {len(every) - len(edits)} edits of crates that are gone")
    if unknown:
        lines.append(f"without a time: {', '.join(unknown)}")
    return lines
