"""The part of a document that a script writes, between two comments."""

import os
import re

from specs import TOP, text_of, write_if_new


def faults(path, name, lines, writes):
    """Puts the lines between the document's comments of this name, or says that they aren't what stands there."""
    short = os.path.relpath(path, TOP)
    text = text_of(path) if os.path.exists(path) else ""
    begin, end = f"<!-- {name}: made by a script of tools/ -->\n", f"<!-- {name}: end -->"
    if begin not in text or end not in text:
        return [f"{short}: the comments {begin.strip()} and {end} aren't there"]
    head, _, rest = text.partition(begin)
    _, _, tail = rest.partition(end)
    wanted = head + begin + "\n".join(["", *lines, "", ""]) + end + tail
    if wanted == text:
        return []
    if writes:
        write_if_new(path, wanted)
        return []
    return [f"{short}: {name} isn't what the code says: run tools/docs --write, and read what changed"]
