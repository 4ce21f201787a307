"""The sections of docs/claims.md: what each crate claims, by the sentences of its front page, and the clause that carries it, by
docs/claims.txt."""

import os
import re

import front
import generated
from specs import TOP, House, text_of
from trust import wrapped


class Crate:
    """The names of a crate, and the clauses of each of its functions."""

    def __init__(self, house, name):
        self.clauses = {}
        self.names = {name}
        fields = {}
        for file, specs in house.specs.items():
            if file.split("/")[0] == name:
                for item, its in specs.fields.items():
                    fields.setdefault(item, set()).update(its)
        for file, code in house.code.items():
            if file.split("/")[0] != name:
                continue
            for function, head in code.functions():
                named = set(re.findall(r"\bensures (?:\* ?)?(\w+) \{", head))
                # A contract that is one record has the record's fields as its clauses.
                for record in re.findall(r"\bensures (?:\* ?)?\{ *(\w+)", head):
                    named |= fields.get(record, set())
                self.clauses.setdefault(function, set()).update(named)
            self.names.update(re.findall(r"\b(?:struct|enum|trait|const|type|mod|fn|static) (\w+)", code.text))
            self.names.update(re.findall(r"^    (?:pub )?(\w+)(?:[:,({]| \{)", code.text, re.M))
            self.names.update(inside or name for name, (_, inside) in code.imports.items())
        for file, specs in house.specs.items():
            if file.split("/")[0] == name:
                self.names.update(specs.items)
                self.names.update(specs.owner)
                # The fields of a record that a contract cites are clauses too.
                for item, fields in specs.fields.items():
                    self.clauses.setdefault(item, set()).update(fields)
                self.names.update(inside or name for name, (_, inside) in specs.imports.items())
        self.names.update(self.clauses)


LINE = re.compile(r"^(?:(\d+)(?:-(\d+))?|(\+)) (.*)$")


def sections():
    """Each crate of docs/claims.txt with its lines: the numbers of sentences that one is about, none for a claim of its own; and the text."""
    for part in re.split(r"^## ", text_of(os.path.join(TOP, "docs/claims.txt")), flags=re.M)[1:]:
        head, _, body = part.partition("\n")
        lines = []
        for line in filter(None, body.split("\n")):
            match = LINE.match(line)
            if not match:
                raise SystemExit(f"docs/claims.txt, {head}: neither a sentence's number nor +: {line}")
            first = int(match[1]) if match[1] else 0
            lines.append((range(first, int(match[2] or first) + 1) if first else range(0), match[4]))
        yield head.strip(), lines


def words_of(block):
    """The names in a block's code, in parts: of `Log::append` both."""
    for code in re.findall(r"`([^`]+)`", block):
        if re.fullmatch(r"[A-Za-z_][\w:'-]*", code):
            yield code, [part for part in code.split("::") if part]


def faults_of(name, line, crate, others):
    """What a line names that the crate doesn't have, and the clauses that no contract has which it names."""
    called = set()
    for code, parts in words_of(line):
        for part in parts:
            if part not in crate.names and part not in others:
                yield f"docs/claims.txt, {name}: `{code}` isn't found in the code"
                break
        called.update(part for part in parts if part in crate.clauses)
    known = set().union(*(crate.clauses[it] for it in called or crate.clauses))
    for clause in re.findall(r"(?<!\*)\*(\w+)\*(?!\*)", line):
        if clause not in known:
            yield f"docs/claims.txt, {name}: no contract that is named there has a clause *{clause}*: {line[:70]}"


def made(name, lines, found):
    """The crate's section of docs/claims.md."""
    proved = front.sentences(front.page(name).get("Proved", ""))
    told = [at for numbers, _ in lines for at in numbers]
    if told != list(range(1, len(proved) + 1)):
        found.append(f"docs/claims.txt, {name}: it tells the sentences {told}, and its front page has {len(proved)} under '# Proved'")
    text = [f"## {name}", ""]
    for numbers, carried in lines:
        claim = " ".join(proved[at - 1] for at in numbers if at <= len(proved))
        line = (claim if carried == "-" else f"{claim} → {carried}") if claim else carried
        text += wrapped("- " + line.rstrip(".") + ".")
    return text + [""]


def faults(writes):
    house = House()
    crates = {name: Crate(house, name) for name in house.crates}
    known = set().union(*(crate.names for crate in crates.values()))
    for below in house.crates.values():
        known.update(below)
    known |= {"Ok", "Err", "Some", "None", "Option", "Result", "Vec", "IntoIterator", "Eq", "PartialEq", "usize", "true", "false", "self", "rt", "main", "eq"}
    found, page, told = [], [], dict(sections())
    for name in house.crates:
        if name in told:
            found += [fault for _, line in told[name] for fault in faults_of(name, line, crates[name], known)]
            page += made(name, told[name], found)
        elif not name.startswith("tests_"):
            found.append(f"docs/claims.txt: there is nothing of {name}")
    found += [f"docs/claims.txt: {name} is no crate of crates.txt" for name in told if name not in crates]
    promised = text_of(os.path.join(TOP, "docs/reading.md")).partition("## What is promised\n")[2].partition("\n## ")[0]
    for code, parts in words_of(promised):
        if any(part not in known for part in parts):
            found.append(f"docs/reading.md: `{code}` isn't found in the code")
    return found + generated.faults(os.path.join(TOP, "docs/claims.md"), "claims", page[:-1], writes)
