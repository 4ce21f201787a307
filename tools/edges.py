"""What each crate stands on by crates.txt is what its files name: each name that isn't needed is a path more, which the toolchain
sums, and a crate more that is proved anew after an edit."""

import os
import re

from specs import CRATES, crates, text_of

# How the toolchain's crates and those of the repository are named in code and in definitions.
NAMED = (re.compile(r"\bRattle\.(\w+)\."), re.compile(r"(?<![\w:.])(\w+)::"))
COMMENT = {".rt": re.compile(r"//.*"), ".antt": re.compile(r"--.*")}


def files_of(name):
    for folder in ("src", "specs", "proofs"):
        for top, _, files in os.walk(os.path.join(CRATES, name, folder)):
            yield from (os.path.join(top, it) for it in files if it.endswith(tuple(COMMENT)))


def named_in(name):
    """The crates that the files of a crate name, outside comments."""
    found = set()
    for path in files_of(name):
        text = COMMENT[os.path.splitext(path)[1]].sub("", text_of(path))
        for pattern in NAMED:
            found.update(pattern.findall(text))
    return found


def faults():
    below = crates()
    found = []
    for name, stands in below.items():
        named = named_in(name)
        found += [f"crates.txt: {name} doesn't name {it}" for it in stands if it not in named]
        found += [f"crates.txt: {name} names {it}, which its line hasn't" for it in sorted(named) if it in below and it not in {name, *stands}]
        found += [f"crates.txt: {name} has {it} twice" for it in sorted(set(stands)) if stands.count(it) > 1]
    return found
