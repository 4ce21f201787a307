"""Links between the documents."""

import os
import re

from specs import TOP, text_of


def anchor(heading):
    """The anchor of a heading, as the hosts of repositories make it."""
    heading = re.sub(r"[`*]", "", heading.strip().lower())
    return re.sub(r"[^\w\- ]", "", heading).replace(" ", "-")


def documents():
    for at, folders, names in os.walk(TOP):
        folders[:] = sorted(name for name in folders if name not in (".git", "out"))
        for name in sorted(names):
            if name.endswith(".md"):
                yield os.path.relpath(os.path.join(at, name), TOP)


def faults():
    found = []
    for name in documents():
        for target in re.findall(r"\]\(([^)\s]+)\)", text_of(os.path.join(TOP, name))):
            if re.match(r"\w+:", target):
                continue
            file, _, at = target.partition("#")
            path = os.path.normpath(os.path.join(TOP, os.path.dirname(name), file)) if file else os.path.join(TOP, name)
            if not os.path.exists(path):
                found.append(f"{name}: the link {target} leads nowhere")
            elif at and path.endswith(".md"):
                heads = {anchor(head) for head in re.findall(r"^#+ (.*)$", text_of(path), re.M)}
                if at not in heads:
                    found.append(f"{name}: the link {target} leads to no heading")
    return found
