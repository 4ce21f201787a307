"""The command: words, what is asked of the program, statuses."""

import argparse
import os
import sys
import tempfile
from typing import Dict, List, NoReturn, Optional, Set, Tuple

from adsd_tools import incomplete
from adsd_tools.ask import words
from adsd_tools.forms import ber, filters
from adsd_tools.rows import store
from adsd_tools.lines import Event
from adsd_tools.rows.accounts import Accounts
from adsd_tools.shown import brief, shown

from . import cards, library, program, tokens
from .deciding import Deciding
from .front import BadFrames, Front, frames_of
from .made import Made
from .names import Principals
from .page import page
from .protection import protected
from .state import State

ABOUT = """Writes one page of HTML without outside parts about a store and a token: first what of its rights is
dangerous, by rank, and by which entry; then which rights come and go as a list is passed down, moment by moment; then,
folded, the tree, each right with the entry that decides it, and who else has it.

    adsd-report corp --user S-1-5-21-1-2-3-1001 --group AU --group WD >page.html
    adsd-report corp --user ann >page.html
    adsd-report corp --user BA --frames day.txt --steps 1 >page.html

A name alone has the whole token that the store gives it, as `adsd token` tells it; of another token the page says what
that has besides. The store is copied, and only the copy is asked and changed. Frames are made on the copy first: the tree is that after
them. Steps go on from there, as many at a time as are told, until nothing is pending; the tree doesn't show them. The
program is the launcher's, or the one that the environment's ADSD names, and what decides is asked of the proved library
(ADSD_LIBRARY may name it). This script is not proved."""
STATUSES = """status: 0 written; 1 the store, the frames or a word can't be taken, or there is no library; 2 usage; 4 a file can't be read;
5 the page can't be written. Where it isn't 0, nothing is written."""


class Words(argparse.ArgumentParser):
    """The words of the command. A fault is told in one line."""

    def error(self, message: str) -> NoReturn:
        say(message)
        sys.exit(2)


def say(line: object) -> None:
    sys.stderr.write(f"adsd-report: {shown(str(line))}\n")


def positive(text: str) -> int:
    if not text.isdigit() or not 0 < int(text) <= 1_000_000:
        raise argparse.ArgumentTypeError(f"{text!r} isn't a number from 1 to 1000000")
    return int(text)


def parsed(arguments: List[str]) -> argparse.Namespace:
    form = Words(prog="adsd-report", description=ABOUT, epilog=STATUSES,
                 formatter_class=argparse.RawDescriptionHelpFormatter)
    form.add_argument("store", help="the store, as `adsd` is given it")
    form.add_argument("--user", required=True, metavar="SID",
                      help="the token's user: an identifier, an alias, or the name of an account of the store")
    form.add_argument("--group", action="append", default=[], metavar="SID",
                      help="a group of the token; * are all that the store gives the user, as `adsd token` tells them")
    form.add_argument("--deny-only", action="append", default=[], metavar="SID", help="a deny-only group")
    form.add_argument("--restricting", action="append", default=[], metavar="SID", help="a restricting SID")
    form.add_argument("--privilege", action="append", default=[], choices=words.PRIVILEGES)
    form.add_argument("--base", metavar="DN", help="show the objects at and below this name alone")
    form.add_argument("--frames", metavar="FILE", help="requests (frames, or lines of adsd-ask) that are made on the copy first")
    form.add_argument("--steps", metavar="N", type=positive, help="then make so many propagation steps at a time, and show each moment")
    form.add_argument("--moments", metavar="N", type=positive, default=24, help="how many moments are shown (%(default)s)")
    form.add_argument("--jobs", metavar="N", type=positive, default=min(4, os.cpu_count() or 1),
                      help="how many queries run at once (%(default)s)")
    form.add_argument("--progress", action="store_true",
                      help="show progress, also where standard error is no terminal")
    return form.parse_args(arguments)


def agreed(path: str, copy: str, state: State) -> None:
    """Refuses a store of which the program counts otherwise than what was read of it."""
    said, read = program.counts(path, copy), state.counts()
    if said != read:
        raise store.Broken(f"the program's check says {said}, and what was read of its rows is {read}")


def chosen(state: State, base: Optional[str]) -> List[Tuple[int, int]]:
    """The objects that are shown, in the order of the tree, with their depths."""
    number = 1 if base is None else state.found(base)
    if number is None:
        raise words.Wrong(f"--base {brief(base or '')}: no object has this name")
    return list(state.in_tree_order(number))


def seen_of(path: str, copy: str, state: State, token: bytes, made: List[str]) -> Set[int]:
    """The numbers of the objects that the program shows the token; a note where its answer isn't whole."""
    names, code = program.seen(path, copy, token, state.names[1])
    if code != 0:
        made.append(f"The search for what the token sees ended with code {code}, so that some may be missing.")
    by_name = {name: number for number, name in state.names.items()}
    unknown = [name for name in names if name not in by_name]
    if unknown:
        raise store.Broken(f"the program shows {brief(unknown[0])}, which wasn't found in the rows")
    return {by_name[name] for name in names}


def reasons_of(state: State, numbers: List[Tuple[int, int]], token: tokens.Token,
               deciding: Deciding) -> Dict[int, cards.Seen]:
    """Why each object is seen or not: once for all below one, where it hangs on that one alone."""
    made: Dict[int, cards.Seen] = {}
    known: Dict[int, cards.Seen] = {}
    lists_objects = state.lists_objects()
    for number, _ in numbers:
        key = number if lists_objects else -state.objects[number].parent
        if key not in known:
            known[key] = cards.why_seen(state, number, token, lists_objects, deciding)
        made[number] = known[key]
    return made


def given_of(asked: argparse.Namespace, accounts: Accounts) -> List[bytes]:
    """The frames that are made on the copy first."""
    with open(asked.frames, "rb") as opened:
        return frames_of(opened.read(), accounts)


def events_of(asked: argparse.Namespace, path: str, copy: str, accounts: Accounts) -> Optional[List[Event]]:
    """The events that the frames leave, where there are frames and the program tells them."""
    return program.events(path, copy, given_of(asked, accounts)) if asked.frames else None


def shots_of(asked: argparse.Namespace, path: str, copy: str, token: Tuple[tokens.Token, bytes], accounts: Accounts,
             tell: program.Tell) -> Front:
    """The moments of the frames and of the steps ahead; the frames stay made on `copy`."""
    given = given_of(asked, accounts) if asked.frames else []
    front = Front(path, copy, token, asked.moments, tell)
    front.serve(given)
    if asked.steps:
        program.copy_slots(copy, copy + ".ahead")
        ahead = Front(path, copy + ".ahead", token, asked.moments, tell)
        ahead.shots, ahead.known = front.shots, front.known
        program.copy_slots(copy, copy + ".ahead.before")
        ahead.ahead(asked.steps)
        front.left_out += ahead.left_out
    return front


def built(asked: argparse.Namespace, place: str) -> str:
    """The text of the page."""
    tell = program.teller(asked.progress)
    copy = store.copied(asked.store, place)
    path = program.program()
    # What is no directory is refused by the program before any of it is read here.
    program.counts(path, copy)
    library.open_library(os.path.join(place, "library"))
    deciding = Deciding(library.Calls())
    accounts = Accounts(copy)
    whom = tokens.of_words(asked, path, copy, accounts)
    token = whom.token, whom.data
    events = events_of(asked, path, copy, accounts)
    front = shots_of(asked, path, copy, token, accounts, tell) if asked.frames or asked.steps else None
    state = State(copy, known=accounts.directory)
    agreed(path, copy, state)
    numbers = chosen(state, asked.base)
    notes: List[str] = []
    sees = seen_of(path, copy, state, token[1], notes)
    reasons = reasons_of(state, numbers, token[0], deciding)
    copies = program.Copies(path, copy, asked.jobs, tell)
    made, of = cards.all_cards(state, [number for number, _ in numbers], token, copies, deciding)
    whole = Made(os.path.basename(asked.store), state, token[0], Principals(state), sees, reasons, made, of, numbers)
    whole.protected = protected(path, copy, state, notes)
    whole.how, whole.notes = whom.how, whom.notes(whole.who.name) + notes
    whole.events, whole.incomplete = events, incomplete.warn(asked.store)
    if front is not None:
        whole.shots, whole.left_out = front.shots, front.left_out
    return page(whole)


def main(arguments: List[str]) -> int:
    """Runs the command; the status."""
    asked = parsed(arguments)
    try:
        with tempfile.TemporaryDirectory(prefix="adsd-report-") as place:
            text = built(asked, place)
    except library.Missing as why:
        say(f"no library: {why}")
        return 1
    except store.Broken as why:
        say(f"{asked.store}: {why}")
        return 1
    except (words.Wrong, filters.NoFilter, BadFrames) as why:
        say(f"{asked.frames}: {why}" if str(why).startswith(("line ", "frame ")) else why)
        return 1
    except (program.Failed, ber.Broken) as why:
        say(f"{asked.store}: {why}")
        return 1
    except OSError as fault:
        say(f"{fault.filename}: {fault.strerror}")
        return 4
    try:
        sys.stdout.buffer.write(text.encode("utf-8", "backslashreplace"))
        sys.stdout.buffer.flush()
    except OSError as fault:
        say(f"output: {fault.strerror}")
        return 5
    return 0
