"""What documents name: files that are there, names that are words of the code, crates of tables, options of scripts."""

import os
import re

from specs import TOP, crates, text_of
from words import listed

# Documents whose names are those of the code and of its definitions: each is a word of these, beside their comments.
NAMING = ("README.md", "docs/architecture.md", "docs/headline.md", "docs/proofs", "docs/reading.md")
# What is the toolchain's, or stands for any name.
OTHERS = {"plant", "logic", "dac8208d650f15bf", "CALLING.md", "src/m.rt", "proofs/m/f/"}
# Options of other programs.
OPTIONS = {"--cross-ncs"}
FENCED = re.compile(r"```.*?```", re.S)
FOLDERS = r"(?:src|specs|proofs|must-fail|cases|examples|tools|bench|docs)"
PATH = re.compile(rf"(?:[\w-]+/)*[\w-]+\.(?:rt|antt|edit|py|md|tsv|ldif|txt)|{FOLDERS}/(?:[\w.-]+/?)*")


def code_words():
    """The words of all files but documents, without comments of code and definitions, and the parts of their paths."""
    found = set()
    for path in listed():
        found.update(re.findall(r"[\w']+", path))
        if path.startswith(("release/", "docs/", "cases/runs/")) or path.endswith((".md", ".png")):
            continue
        with open(os.path.join(TOP, path), encoding="utf-8", errors="replace") as file:
            text = file.read()
        if path.endswith((".rt", ".antt")):
            mark = "//" if path.endswith(".rt") else "--"
            text = re.sub(rf"(?:^|\s){mark}(?:[/!]?(?: .*)?)$", "", text, flags=re.M)
        found.update(re.findall(r"[A-Za-z_][\w']*", text))
    return found


def blocks(path):
    """The paragraphs and points of lists of a document, each with the line where it begins, but for code in fences."""
    text = FENCED.sub(lambda match: "\n" * match[0].count("\n"), text_of(os.path.join(TOP, path)))
    at = 1
    for block in re.split(r"(?<=\n)(?=\n|- |\d+\. |\| )", text):
        yield at, block
        at += block.count("\n")


def ends_of(paths):
    """The crates that each end of a path stands in, a folder's too, and a file's without its ending; None for no crate."""
    found = {}
    for path in paths:
        parts = path.split("/")
        crate = parts[1] if parts[0] == "crates" and len(parts) > 2 else None
        for end in range(1, len(parts) + 1):
            for start in range(end):
                name = "/".join(parts[start:end])
                found.setdefault(name, set()).add(crate)
                found.setdefault(name.rpartition(".")[0] if end == len(parts) else name, set()).add(crate)
    return found


def options():
    """The options that tools/README.md names and that no script has which the same section names."""
    scripts = {}
    for path in listed("tools/*"):
        if not path.endswith((".md", ".png")):
            with open(os.path.join(TOP, path), encoding="utf-8", errors="replace") as file:
                scripts[path] = file.read()
    for part in text_of(os.path.join(TOP, "tools/README.md")).split("\n## "):
        told = [name for name in re.findall(r"(?:tools/)?\b([a-z][\w/-]+)", part) if "tools/" + name in scripts]
        folders = tuple(f"tools/adsd_tools/{name[5:]}" for name in told if name.startswith("adsd-"))
        own = [text for path, text in scripts.items() if path[6:] in told or path.startswith(folders)]
        for option in sorted(set(re.findall(r"(?<![\w-])--[a-z][\w-]+", part)) - OPTIONS):
            if not any(option in text for text in own):
                yield f"tools/README.md: no script of '{part.splitlines()[0].strip('# ')}' has the option {option}"


def tables():
    """The rows of docs/proofs.md for crates that aren't there."""
    for name in re.findall(r"^\| `((?:ad|cmd|tests)_\w+)`", text_of(os.path.join(TOP, "docs/proofs.md")), re.M):
        if name not in crates():
            yield f"docs/proofs.md: a table has a row for {name}, which crates.txt doesn't list"


def faults_of(document, line, code, named, ends, words):
    """What is wrong with a name in backticks in the same block as the names of these crates."""
    if PATH.fullmatch(code) and code not in OTHERS:
        where = ends.get(code.rstrip("/"), set())
        is_of_crate = named and code.startswith(("src/", "specs/", "proofs/"))
        if not where or is_of_crate and not named & where:
            yield f"{document}:{line}: there is no file {code}" + (f" of {', '.join(sorted(named))}" if named else "")
    elif document.startswith(NAMING) and "*" not in code and ".." not in code:
        for word in re.findall(r"[A-Za-z_][\w']*", code):
            if len(word) > 2 and word not in words:
                yield f"{document}:{line}: `{word}` is no word of the code"


def faults():
    paths, found, words = listed(), [], code_words() | OTHERS
    ends, known = ends_of(paths), set(crates())
    for document in [path for path in paths if path.endswith(".md") and path != "CHANGELOG.md"]:
        for at, block in blocks(document):
            codes = [(match.start(), " ".join(match[1].split())) for match in re.finditer(r"`([^`]+)`", block)]
            named = {code for _, code in codes if code in known} if document == "docs/architecture.md" else set()
            for start, code in codes:
                found += faults_of(document, block.count("\n", 0, start) + at, code, named, ends, words)
    return found + list(options()) + list(tables())
