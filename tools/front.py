"""The front page of a crate: the `//!` comment at the head of its src/lib.rt or src/main.rt."""

import os
import re

from specs import CRATES, text_of


def page(name):
    """What stands under each heading, with what it is for under the empty one; each as one line."""
    files = [os.path.join(CRATES, name, "src", file) for file in ("lib.rt", "main.rt")]
    head = re.match(r"(?://!.*\n)*", text_of(next(file for file in files if os.path.exists(file))))[0]
    parts = re.split(r"^# (.*)$", "\n".join(line[4:] for line in head.split("\n") if line), flags=re.M)
    return {title: " ".join(text.split()) for title, text in zip(["", *parts[1::2]], parts[0::2])}


def sentences(text):
    return re.split(r"(?<=\.) (?=[A-Z`])", text) if text else []
