"""The command: words, what is made on copies, statuses."""

import argparse
import os
import sys
import tempfile
from typing import List, NoReturn

from adsd_tools import incomplete
from adsd_tools.ask import words
from adsd_tools.ask import answers as replies
from adsd_tools.forms import ber, filters
from adsd_tools.report import program
from adsd_tools.report.front import BadFrames
from adsd_tools.rows import store
from adsd_tools.rows.accounts import Accounts
from adsd_tools.shown import shown

from . import answers, controlling, differing, questions, told
from .moments import Unanswered, frames, moments

ABOUT = """Serves frames on a copy of a store and tells who gains and who loses a right by them: before the frames, right
after them, and once every list is passed down (`adsd settle`). The store stays as it is.

    adsd-whatif corp frames WP:member CN=club,OU=staff,DC=corp,DC=example
    adsd-whatif corp grants.txt --grants --as ann
    adsd-whatif corp changes.ldif --changes --as ann --json
    adsd-whatif corp frames --diff
    adsd-whatif corp grants.txt --grants --as ann --control

FRAMES is a file of frames, or of lines as `adsd-ask frames` takes them; with --grants of lines of `adsd grants`, with
--changes of change records; - is standard input. RIGHT and NAME are as of `adsd who`. Without them the dangerous rights
are asked on the objects that the frames touch, on those that a list is passed down to, and on the protected ones, once
for those of one class and one descriptor. A line of a change has a sign, what decides at the three moments (no: it
isn't granted), the identifier and the name: + gained, - lost, +- and -+ only until all is passed down.

With --diff all that anyone gains or loses on any object is told instead, as the lines of `adsd diff` (docs/profile/diff.md):
from before the frames to right after them, and to when all is passed down.

With --control it is told instead who comes to control some objects, or what rules the domain, by which chains of steps
(docs/profile/control.md): how many at each moment, and for whom the least number of steps changes, with the chain that
is cut and the one that is made.

Every line comes from `adsd who`, `adsd diff` or `adsd control` on the three copies. The program is the launcher's, or the one that the environment's
ADSD names. This script is not proved."""
STATUSES = """status: 0 written; 1 the store, the frames or a question can't be taken; 2 usage; 4 a file can't be read;
5 the output can't be written. Where it isn't 0, nothing is written."""


class Words(argparse.ArgumentParser):
    """The words of the command. A fault is told in one line."""

    def error(self, message: str) -> NoReturn:
        say(message)
        sys.exit(2)


def say(line: object) -> None:
    sys.stderr.write(f"adsd-whatif: {shown(str(line))}\n")


def positive(text: str) -> int:
    if not text.isdigit() or not 0 < int(text) <= 1_000_000:
        raise argparse.ArgumentTypeError(f"{text!r} isn't a number from 1 to 1000000")
    return int(text)


def parsed(arguments: List[str]) -> argparse.Namespace:
    form = Words(prog="adsd-whatif", description=ABOUT, epilog=STATUSES,
                 formatter_class=argparse.RawDescriptionHelpFormatter)
    form.add_argument("store", metavar="STORE", help="the store, as `adsd` is given it")
    form.add_argument("frames", metavar="FRAMES", help="the requests that are made on the copy; - is standard input")
    form.add_argument("asked", nargs="*", metavar="RIGHT NAME", help="a right, and the object on which it is asked; of --control names")
    kind = form.add_mutually_exclusive_group()
    kind.add_argument("--grants", action="store_true", help="FRAMES has lines of `adsd grants`, also with names, as of `adsd-ask grants`")
    kind.add_argument("--changes", action="store_true", help="FRAMES has change records, as of `adsd change`")
    form.add_argument("--as", metavar="NAME", dest="as_name",
                      help="serve them with the token that the store gives this account (connection 0)")
    form.add_argument("--all", action="store_true", help="without questions: ask about every kind of object")
    form.add_argument("--each", action="store_true", help="without questions: ask about each object by itself")
    form.add_argument("--kinds", metavar="N", type=positive, default=40,
                      help="without questions: so many kinds of objects are asked about at most (%(default)s)")
    form.add_argument("--every", action="store_true", help="tell the questions in which nothing changes too")
    form.add_argument("--diff", action="store_true", help="tell everyone's gains and losses on all objects, as `adsd diff`")
    form.add_argument("--control", action="store_true",
                      help="tell who comes to control the objects named, or what rules the domain")
    form.add_argument("--json", action="store_true", help="write JSON")
    form.add_argument("--jobs", metavar="N", type=positive, default=min(4, os.cpu_count() or 1),
                      help="how many queries run at once (%(default)s)")
    form.add_argument("--progress", action="store_true",
                      help="show progress, also where standard error is no terminal")
    asked = form.parse_intermixed_args(arguments)
    if len(asked.asked) % 2 and not asked.control:
        form.error("a RIGHT needs a NAME after it")
    if asked.diff and (asked.asked or asked.all or asked.each or asked.every):
        form.error("--diff tells of all rights and objects: it takes no RIGHT NAME, --all, --each or --every")
    if asked.control and (asked.diff or asked.all or asked.each or asked.every):
        form.error("--control takes names alone, no --diff, --all, --each or --every")
    if (asked.grants or asked.changes) and asked.as_name is None:
        form.error("--grants and --changes want --as NAME, whose token the changes are made with")
    return asked


def given(asked: argparse.Namespace) -> bytes:
    """The bytes of FRAMES."""
    if asked.frames == "-":
        return sys.stdin.buffer.read()
    with open(asked.frames, "rb") as opened:
        return opened.read()


def built(asked: argparse.Namespace, place: str) -> str:
    """The text that is written."""
    tell = program.teller(asked.progress, "adsd-whatif")
    data = given(asked)
    copy = store.copied(asked.store, place)
    path = program.program()
    # What is no directory is refused by the program before any of it is read here.
    program.counts(path, copy)
    made = moments(path, copy, frames(asked, path, copy, data, Accounts(copy)))
    made.incomplete = (incomplete.warn if asked.json else incomplete.lines)(asked.store)
    if asked.diff:
        differs = differing.texts(path, made)
        return differing.document(made, differs) + "\n" if asked.json else "\n".join(differing.lines(made, differs)) + "\n"
    if asked.control:
        reached = controlling.told(path, made, asked.asked, asked.jobs)
        said = controlling.document(made, reached) if asked.json else "\n".join(controlling.lines(made, reached))
        return said + "\n"
    if asked.asked:
        found, left_out, notes = questions.of_words(asked.asked), 0, []
    else:
        seen_rows = questions.Seen(path, made)
        found, left_out = questions.of_objects(seen_rows, asked.each, asked.all, asked.kinds)
        notes = list(dict.fromkeys(seen_rows.notes))
    answers.fill(path, made, found, asked.jobs, tell)
    for question in found:
        why = answers.faulty(question)
        if question.own and why:
            raise words.Wrong(f"{question.right} {question.shown}: {why}")
    if asked.json:
        return told.document(made, found, left_out, notes, asked.every) + "\n"
    return "\n".join(told.lines(made, found, left_out, notes, asked.every)) + "\n"


def main(arguments: List[str]) -> int:
    """Runs the command; the status."""
    asked = parsed(arguments)
    try:
        with tempfile.TemporaryDirectory(prefix="adsd-whatif-") as place:
            text = built(asked, place)
    except (store.Broken, program.Failed, ber.Broken) as why:
        say(f"{asked.store}: {why}")
        return 1
    except (words.Wrong, filters.NoFilter, BadFrames, Unanswered, replies.Broken, differing.Refused) as why:
        say(f"{asked.frames}: {why}" if str(why).startswith(("line ", "frame ", "adsd ")) else why)
        return 1
    except OSError as fault:
        say(f"{fault.filename}: {fault.strerror}")
        return 4
    try:
        sys.stdout.buffer.write(text.encode("utf-8", "backslashreplace"))
        sys.stdout.buffer.flush()
    except OSError as fault:
        say(f"output: {fault.strerror}")
        return 5
    return 0
