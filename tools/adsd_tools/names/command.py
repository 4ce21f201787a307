"""The command: words, what is read and written, statuses."""

import argparse
import base64
import re
import sys
from typing import Iterator

from adsd_tools import incomplete
from adsd_tools.forms.sids import sid_of_text
from adsd_tools.rows import store
from adsd_tools.rows.accounts import Accounts
from adsd_tools.shown import SPELLED, Words, shown, text_of

ABOUT = """Puts the name of an account after each identifier of a text, as S-1-5-11 <authenticated users>:

    adsd list corp DN | adsd-names corp
    adsd-ask frames day.txt | adsd serve corp | adsd-ask replies | adsd-names corp

The names are those of the store at the end of the input, and of identifiers that are the same everywhere. Values
and names of LDIF say what they did, and so does the name of an object: no identifier within them gets a name. A value of
LDIF that has a control in it is written in base64, and anywhere else a control stands spelled, as \\1B. The store's
files are read and not locked. This script is not proved."""
STATUSES = "status: 0 written; 1 the store can't be read; 2 usage; 4 the input can't be read; 5 the output can't be written"
SID = re.compile(r"(?<![^ :;(,])S-1-(?:[0-9]+|0x[0-9a-f]+)(?:-[0-9]+)+(?![0-9-])")
# What stays as it is: values and names of LDIF, also where they go on, and the line of `list` with an object's name.
KEPT = re.compile(r"[A-Za-z][A-Za-z0-9;.-]*:|[ \t]|object ")
# A value of LDIF that stands as it is.
PLAIN = re.compile(r"([A-Za-z][A-Za-z0-9;.-]*):(?![:<]) *")


def named(line: str, accounts: Accounts) -> str:
    """A line with the names behind its identifiers."""
    def behind(found: "re.Match[str]") -> str:
        sid = sid_of_text(found[0])
        name = accounts.name(sid) if sid else None
        return f"{found[0]} <{name}>" if name else found[0]

    return line if KEPT.match(line) else SID.sub(behind, line)


def blocks(lines: list[str]) -> Iterator[list[str]]:
    """The lines, each with those by which it goes on, as LDIF has it."""
    block: list[str] = []
    for line in lines:
        if block and line[:1] != " ":
            yield block
            block = []
        block.append(line)
    yield block


def printed(lines: list[str], accounts: Accounts) -> list[str]:
    """A line and those by which it goes on, with nothing in them that a terminal obeys."""
    found = PLAIN.match(lines[0])
    if not found or not any(map(SPELLED.search, lines)):
        return [shown(named(line, accounts)) for line in lines]
    value = "".join([lines[0][found.end() :], *(line[1:] for line in lines[1:])])
    return [f"{found[1]}:: {base64.b64encode(value.encode('utf-8', 'surrogateescape')).decode()}"]


def say(line: str) -> None:
    sys.stderr.write(f"adsd-names: {shown(str(line))}\n")


def parsed(arguments: list[str]) -> argparse.Namespace:
    form = Words(prog="adsd-names", description=ABOUT, epilog=STATUSES,
                 formatter_class=argparse.RawDescriptionHelpFormatter)
    form.add_argument("store", metavar="STORE", help="the store, as `adsd` is given it")
    form.add_argument("file", nargs="?", default="-", metavar="FILE", help="the text; - is standard input")
    form.add_argument("--list", action="store_true",
                      help="read no text, and write a line of each account: identifier, name, and the object's name")
    return form.parse_args(arguments)


def given(file: str) -> list[str]:
    """The lines of the text, all read before the store is, so that the program in front of it has ended."""
    if file == "-":
        data = sys.stdin.buffer.read()
    else:
        with open(file, "rb") as opened:
            data = opened.read()
    return [line.removesuffix("\r") for line in text_of(data).split("\n")]


def main(arguments: list[str]) -> int:
    """Runs the command; the status."""
    asked = parsed(arguments)
    try:
        text = [] if asked.list else given(asked.file)
    except OSError as fault:
        say(f"{asked.file}: {fault.strerror}")
        return 4
    try:
        accounts = Accounts(asked.store)
    except store.Broken as why:
        say(f"{asked.store}: {why}")
        return 1
    except OSError as fault:
        say(f"{asked.store}: {fault.strerror}")
        return 1
    incomplete.warn(asked.store)
    made = [*accounts.lines(), ""] if asked.list else (line for block in blocks(text) for line in printed(block, accounts))
    try:
        sys.stdout.buffer.write("\n".join(made).encode("utf-8", "surrogateescape"))
        sys.stdout.buffer.flush()
    except OSError as fault:
        say(f"output: {fault.strerror}")
        return 5
    return 0
