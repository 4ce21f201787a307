"""The table of docs/profile/access.md: where each rule of the access check stands."""

import os
import re

from specs import CRATES, TOP, House, text_of, write_if_new

PAGE = os.path.join(TOP, "docs/profile/access.md")
HEAD = "## Where each rule stands\n"
OWNERS = ("ad_access", "ad_acl", "ad_types")


def files(kind, ending, crates=OWNERS):
    for crate in crates:
        for at, _, names in sorted(os.walk(os.path.join(CRATES, crate, kind))):
            for name in sorted(names):
                if name.endswith(ending):
                    yield os.path.join(at, name)


def places():
    """Where each name stands: for definitions, functions, lemmas and tests a table of names and files."""
    house = House()
    own = lambda file: file.split("/")[0] in OWNERS
    definitions, functions, lemmas, tests = {}, {}, {}, {}
    for file, specs in house.specs.items():
        for item in specs.items if own(file) else ():
            definitions.setdefault(item, os.path.join(CRATES, file))
    for file, code in house.code.items():
        for name, _ in code.functions() if own(file) else ():
            functions.setdefault(name, os.path.join(CRATES, file))
    for file in files("proofs", ".antt"):
        for name in re.findall(r"^(?:pub )?([\w'-]+) :", text_of(file), re.M):
            lemmas.setdefault(name, file)
    worked = os.path.join(TOP, "cases/access-worked.tsv")
    for fields in (line.split("\t") for line in text_of(worked).split("\n")):
        if len(fields) == 5:
            tests[fields[-1]] = worked
    for file in files("must-fail", ".edit"):
        tests[os.path.basename(file)[:-5]] = file
    for file in files("src", ".rt", ("tests_access",)):
        for name in re.findall(r"^fn (\w+)", text_of(file), re.M):
            tests.setdefault(name, file)
    return (("definition", definitions), ("function", functions), ("lemma", lemmas), ("test", tests))


def faults(writes):
    text = text_of(PAGE)
    head, _, rest = text.partition(HEAD)
    part, mark, tail = rest.partition("\n## ")
    known, found, lines = places(), [], []
    for line in part.split("\n"):
        cells = [cell.strip() for cell in line.strip("|").split("|")]
        if not line.startswith("| [") or len(cells) != 5:
            lines.append(line)
            continue
        for at, (what, where) in enumerate(known, 1):
            names = [] if cells[at] == "none" else re.findall(r"\[`?([^]`]+)`?\]\(", cells[at]) or [name.strip(" `") for name in cells[at].split(",")]
            told = []
            for name in names:
                if name not in where:
                    found.append(f"docs/profile/access.md: {cells[0]}: there is no {what} {name}")
                    continue
                shown = name if what == "test" and " " in name else f"`{name}`"
                told.append(f"[{shown}]({os.path.relpath(where[name], os.path.dirname(PAGE))})")
            cells[at] = ", ".join(told) or cells[at]
        lines.append("| " + " | ".join(cells) + " |")
    wanted = head + HEAD + "\n".join(lines) + mark + tail
    if not any(line.startswith("| [") for line in lines):
        found.append("docs/profile/access.md: there is no table of where each rule stands")
    elif wanted != text and not found:
        if writes:
            write_if_new(PAGE, wanted)
        else:
            found.append("docs/profile/access.md: the links of its table aren't where the names stand: run tools/docs --write")
    return found
