"""The commands of the program, from the one table of them: `FORMS` of crates/cmd_words/src/forms.rt has their names and the words after
them, `opening_of` of crates/cmd_words/specs/Table.antt how each opens its stores, and `statuses_of` how each may end. Completion and
launcher have lists of them, which are written anew; help, man page, documents and cases are compared."""

import os
import re

from specs import CRATES, TOP, text_of, write_if_new

FORMS = os.path.join(CRATES, "cmd_words/src/forms.rt")
TABLE = os.path.join(CRATES, "cmd_words/specs/Table.antt")
# Status 1 of `sample` would come of a text without a directory, and each size has one (crates/ad_gen_laws).
NEVER = {"sample": {1}}


class Command:
    def __init__(self, name, words, opening, statuses):
        self.name = name
        # The words as they are told, without what is said of them after a comma.
        self.words = words.partition(",")[0].split()
        self.opening = opening
        self.statuses = statuses


def rows(table, text):
    """What a function of the table gives for each command, in the order of its lines."""
    return re.findall(rf"^{table} (?:\(\w+[^)]*\)|[A-Z]\w+) =\s+([^\n]+)$", text, re.M)


def commands():
    forms = re.findall(r'^    \("(\w+)", "([^"]*)"\),$', text_of(FORMS), re.M)
    text = text_of(TABLE)
    openings, statuses = rows("opening_of", text), rows("statuses_of", text)
    ends = [{int(it) for it in re.findall(r"\d+", row)} for row in statuses]
    return [Command(*form, opening, end) for form, opening, end in zip(forms, openings, ends, strict=True)]


# ---- lists that are written

def rewritten(path, wanted, writes):
    """Puts lists in place of those that stand between what is before and after them."""
    text = new = text_of(path)
    short = os.path.relpath(path, TOP)
    for before, names, after in wanted:
        pattern = re.compile(rf"({before})[a-z0-9 |]*?({after})")
        if len(pattern.findall(new)) != 1:
            return [f"{short}: there is no list after '{before}'"]
        new = pattern.sub(lambda match, names=names: match[1] + names + match[2], new)
    if new == text:
        return []
    if writes:
        write_if_new(path, new)
        return []
    return [f"{short}: its lists of commands aren't those of the table: run tools/docs --write"]


def written(all_of, writes):
    names = {it: [command.name for command in all_of if command.opening == it] for it in ("NoStore", "Makes", "Writes", "Reads")}
    two = [command.name for command in all_of if command.words[1:] == ["STORE2"]]
    one = [command.name for command in all_of if command.words and command.name not in two]
    looks = [name for name in names["Reads"] if name not in two]
    bash = [
        ('local commands="', " ".join(command.name for command in all_of), '"'),
        (r'\[\[ " ', " ".join(command.name for command in all_of if command.words), r' " == \*" \$command "'),
    ]
    launcher = [
        (r"case \$\{1-\} in\n        ", " | ".join(names["Makes"] + names["Writes"]), r"\) umask"),
        (r"look_at_files write \"\$\{2-\}\" ;;\n        ", " | ".join(looks), r"\) look_at_files read \"\$\{2-\}\" ;;"),
        (r"look_at_files read \"\$\{2-\}\" ;;\n        ", " | ".join(two), r"\) look_at_files read \"\$\{2-\}\" \"\$\{3-\}\" ;;"),
        (r"case \$\{1-\} in\n        ", " | ".join(one), r"\)\n            if \[ \"\$\{ADSD_PROGRESS"),
    ]
    return rewritten(os.path.join(TOP, "tools/adsd.bash"), bash, writes) + rewritten(os.path.join(TOP, "tools/launcher.sh"), launcher, writes)


# ---- texts that are compared

def plain(form):
    return [word.strip("[]") for word in form.split()]


def compared(all_of):
    """Each text that has a form of each command: what it is, and the forms that it has."""
    text = text_of(os.path.join(TOP, "tools/help"))
    yield "tools/help", [plain(line[2:23]) for line in re.findall(r"^  [a-z]+ .*\./adsd.*$", text, re.M)], True
    folder = os.path.join(TOP, "tools/helps")
    yield "tools/helps", [plain(text_of(os.path.join(folder, name)).partition(":")[0])[1:] for name in os.listdir(folder)], False
    text = text_of(os.path.join(TOP, "docs/commands.md")).partition("\n| status |")[0]
    told = [plain(form) for form in re.findall(r"^\| `([a-z]+[^`]*)` \|", text, re.M)]
    yield "docs/commands.md", [words for words in told if words != ["adsd", ".."]], False
    text = re.sub(r"\\f[A-Z]", "", text_of(os.path.join(TOP, "docs/adsd.1")))
    synopsis = text.partition(".SH SYNOPSIS")[2].partition(".SH DESCRIPTION")[0]
    told = [plain(re.sub(r" <.*", "", line)) for line in re.findall(r"^adsd ([a-z]+.*)$", synopsis, re.M)]
    yield "docs/adsd.1", [words for words in told if words[0] != "help"], False
    told = text.partition(".SH COMMANDS")[2].partition(".SH COMPANIONS")[0]
    yield "docs/adsd.1, its commands", [plain(it.replace('"', "")) for it in re.findall(r"^\.BI? ([a-z].*)$", told, re.M)], False
    text = text_of(os.path.join(TOP, "cases/built"))
    yield "cases/built", [[name] for name in text.split()], True


def faults(writes):
    all_of = commands()
    found = written(all_of, writes)
    known = {command.name: command for command in all_of}
    for where, told, may_be_short in compared(all_of):
        names = [words[0] for words in told]
        found += [f"{where}: there is no command {name}" for name in names if name not in known]
        found += [f"{where}: {name} isn't told, or twice" for name in known if names.count(name) != 1]
        for name, *words in told:
            of = known[name].words if name in known else words
            if words != (of[: len(words)] if may_be_short else of):
                found.append(f"{where}: {name} has the words {' '.join(of) or 'of no store'}")
    for command in all_of:
        path = os.path.join(TOP, "tools/helps", command.name)
        told = text_of(path).partition("\nStatus ")[2] if os.path.exists(path) else ""
        numbers = {int(it) for it in re.findall(r"(?:^|[.\n ])([0-7]): ", told)}
        if numbers != command.statuses - NEVER.get(command.name, set()):
            found.append(f"tools/helps/{command.name}: its statuses are {sorted(command.statuses)}")
    return found
