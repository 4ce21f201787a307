"""The command: words, what is made in which order, statuses."""

import argparse
import contextlib
import gc
import os
import struct
import sys
import tempfile
from typing import Callable, Iterator, Sequence

from adsd_tools import incomplete, lines
from adsd_tools.ask.words import Wrong
from adsd_tools.files import write
from adsd_tools.forms.sids import sid_of_text, text_of_sid
from adsd_tools.report import program
from adsd_tools.report.protection import protected
from adsd_tools.report.state import State
from adsd_tools.rows import store
from adsd_tools.rows.accounts import Accounts
from adsd_tools.shown import Words, shown

from .chains import Chains
from .domain import ROOT, Domain
from .findings import Facts, Finding
from .others import Others
from .page import Page
from .questions import Questions
from .ruling import Ruling, ruling
from .targets import ordinary, targets
from .told import Names, Told, controlled, delegated, in_order, reached
from .written import as_csv, as_json

ABOUT = """Writes a page for auditors: who may take over what rules the domain, target by target, the worst first. Each
line has its entry, the command that asks it again, and what takes it away.

    adsd-audit corp >audit.html
    adsd-audit corp --csv | head

Who may what is asked of the program; nothing is judged here. Those who are meant to rule are left out: they are known
by their identifiers, and FILE of --rulers names more of them, a line each; that of --targets names more objects that
rule. The store is copied under a shared lock, so one that is served is refused. What is written is as secret as the
directory. This script is not proved."""
STATUSES = """status: 0 written; 1 the store can't be read, or the program fails; 2 usage; 5 the output can't be
written. Where it isn't 0, nothing is written."""


class NotNamed(Exception):
    """A line of a file that names nobody, or nothing."""


def say(line: object) -> None:
    sys.stderr.write(f"adsd-audit: {shown(str(line))}\n")


def parsed(arguments: Sequence[str]) -> argparse.Namespace:
    form = Words(prog="adsd-audit", description=ABOUT, epilog=STATUSES,
                 formatter_class=argparse.RawDescriptionHelpFormatter)
    form.add_argument("store", metavar="STORE", help="the store, as `adsd` is given it")
    forms = form.add_mutually_exclusive_group()
    forms.add_argument("--json", dest="form", action="store_const", const="json", help="write JSON")
    forms.add_argument("--csv", dest="form", action="store_const", const="csv", help="write CSV, with headings")
    form.add_argument("--rulers", metavar="FILE",
                      help="who is meant to have all rights besides: identifiers or names of accounts")
    form.add_argument("--targets", metavar="FILE",
                      help="what rules besides: identifiers, names of accounts or of objects")
    form.add_argument("--output", metavar="FILE", help="write it there instead of to standard output")
    form.add_argument("--jobs", metavar="N", type=int, default=os.cpu_count() or 1,
                      help="how many questions are asked at once")
    form.add_argument("--progress", action="store_true",
                      help="say how far it is, also where standard error is no terminal")
    made = form.parse_args(arguments)
    if made.jobs < 1:
        form.error("--jobs is at least 1")
    return made


def names_in(path: str) -> Iterator[str]:
    """The names in a file, a line each. Empty lines and those with # are none."""
    with open(path, encoding="utf-8", errors="surrogateescape") as opened:
        for line in opened:
            name = line.strip()
            if name and not name.startswith("#"):
                yield name


def rulers(path: str, accounts: Accounts) -> Iterator[str]:
    """The identifiers of a file's lines: each is one, or an account's name."""
    for name in names_in(path):
        sid = sid_of_text(name) or accounts.sid(name)
        if sid is None:
            raise NotNamed(f"{path}: unknown account {name}")
        yield text_of_sid(sid)


def named_targets(path: str, domain: Domain) -> Iterator[int]:
    """The objects of a file's lines: each is a name, an identifier, or an account's name."""
    for name in names_in(path):
        number = domain.found(name)
        if number is None:
            number = domain.accounts.of_sid.get(sid_of_text(name) or domain.accounts.sid(name) or b"")
        if number is None:
            raise NotNamed(f"{path}: unknown account or object {name}")
        yield number


def audited(path: str, copy: str, jobs: int, tell: program.Tell, named: str = "", more: str = "",
            when_ruled: Callable[[Domain, Ruling], None] = lambda domain, ruling: None) -> tuple[Told, Names]:
    """The audit of a copy of a store, which is told by the store's path; `named` is a file of further rulers, and
    `more` one of further targets. `when_ruled` is told who rules, as soon as that is known."""
    accounts, binary = Accounts(copy), program.program()
    domain, notes = Domain(accounts), list[str]()
    questions = Questions(binary, copy, domain.names, jobs, tell)
    tell("who rules")
    ruled_by = ruling(domain, questions, rulers(named, accounts) if named else ())
    when_ruled(domain, ruled_by)
    guarded = protected(binary, copy, State(copy, None, accounts.directory), notes)
    chains = Chains(domain, questions, ruled_by)
    some = list(named_targets(more, domain)) if more else []
    heads = targets(domain, ruled_by, guarded, some, chains.leading())
    facts = Facts(domain, questions, ruled_by, guarded)
    facts.ask(heads.values())
    facts.ask(ordinary(domain, heads))
    found = in_order(facts.findings() + list(Others(domain, facts, ruled_by, guarded).all()))
    chained(domain, chains, found)
    told = Told(path, len(domain.objects), questions.count, questions.knows_control, found,
                reached(domain, facts, heads), delegated(domain, ruled_by), sorted(questions.without))
    tell("who comes to control the targets")
    told.control = chains.reached(controlled(domain, facts, heads)) if questions.knows_control else []
    told.answers, told.incomplete, told.notes = questions.count, incomplete.lines(path), notes
    return told, Names(domain)


def chained(domain: Domain, chains: Chains, found: Sequence[Finding]) -> None:
    """Puts beside each finding the chain to the root that begins with it, or the one that leads on from its objects."""
    for one in found:
        if one.look or one.objects == [ROOT]:
            continue
        holders = [one.who, *(domain.sid(number) or "" for number in one.members)]
        one.chain = chains.of_finding(holders, one.objects)
        one.onward = () if one.chain else chains.from_object(one.objects)


def output(text: str, path: str) -> None:
    """Writes what was made, to a file or to standard output."""
    data = text.encode("utf-8", "backslashreplace")
    if path:
        write(path, data)
        return
    sys.stdout.buffer.write(data)
    sys.stdout.buffer.flush()


def main(arguments: Sequence[str]) -> int:
    """Runs the command; the status."""
    asked = parsed(arguments)
    gc.disable()
    try:
        with tempfile.TemporaryDirectory(prefix="adsd-audit-") as place:
            tell = program.teller(asked.progress, "adsd-audit")
            told, names = audited(asked.store, store.copied(asked.store, place), asked.jobs, tell, asked.rulers or "",
                                  asked.targets or "")
    except (store.Broken, NotNamed, Accounts.Ambiguous, program.Failed, lines.Unread, Wrong) as why:
        say(f"{asked.store}: {why}")
        return 1
    except (struct.error, LookupError, ValueError) as why:
        say(f"{asked.store}: its rows can't be read: {why}")
        return 1
    except OSError as fault:
        say(f"{fault.filename or asked.store}: {fault.strerror}")
        return 1
    incomplete.warn(asked.store)
    forms = {"json": as_json, "csv": as_csv}
    made = forms[asked.form](told, names) if asked.form else Page(told, names).made()
    try:
        output(made, asked.output or "")
    except OSError as fault:
        say(f"{asked.output or 'output'}: {fault.strerror}")
        with contextlib.suppress(OSError):
            sys.stdout.close()
        return 5
    return 0
