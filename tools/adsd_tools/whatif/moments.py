"""The three moments of a store: before the frames, after them, and once every list is passed down. Each is a copy."""

import argparse
import struct
from dataclasses import dataclass, field
from typing import Dict, List, Sequence, Tuple

from adsd_tools import lines as adsd_lines
from adsd_tools.ask import answers, named, requests, tokens
from adsd_tools.forms.sids import text_of_sid
from adsd_tools.report import program
from adsd_tools.report.front import frames_of
from adsd_tools.report.tokens import user_of
from adsd_tools.rows.accounts import Accounts
from adsd_tools.run import run
from adsd_tools.shown import line_of

TOKEN, STEPS = 1, 3
BEFORE, AFTER, SETTLED = "before", "after", "settled"
HEAD = struct.Struct(">BHI")
# Results that are no refusal: success, and the two of a compare.
GOOD = ("0", "5", "6")


class Unanswered(Exception):
    """Frames or lines that the program doesn't take, with its reason."""


@dataclass
class Moments:
    """The store of each moment by its word, what the frames were answered, what was pending after them, and what the
    export lacked that the store was made of."""

    stores: Dict[str, str]
    answered: List[Tuple[int, str]] = field(default_factory=list)
    count: int = 0
    pending: int = 0
    stale: int = 0
    steps: int = 0
    incomplete: List[str] = field(default_factory=list)


def made_by(path: str, words: Sequence[str], given: bytes) -> bytes:
    """The frames that a command of the program makes of lines."""
    done = run([path, *words], given)
    if done.returncode:
        said = line_of(done.stdout)
        raise Unanswered(f"adsd {words[0]} ended with {done.returncode}: {said or 'nothing was said'}")
    return done.stdout


def split(data: bytes) -> List[bytes]:
    """The frames, or answers, of some bytes."""
    made: List[bytes] = []
    at = 0
    while at + HEAD.size <= len(data):
        end = at + HEAD.size + HEAD.unpack_from(data, at)[2]
        made.append(data[at:end])
        at = end
    return made


def frames(asked: argparse.Namespace, path: str, copy: str, given: bytes, accounts: Accounts) -> List[bytes]:
    """The frames that are served: with `--as` a token for connection 0 goes first."""
    if asked.grants:
        made = split(made_by(path, ["grants", copy], named.grant_lines(given, accounts)))
    elif asked.changes:
        made = split(made_by(path, ["change"], given))
    else:
        made = frames_of(given, accounts)
    if asked.as_name is not None:
        told = tokens.of_store(path, copy, text_of_sid(user_of(asked.as_name, path, copy, accounts)))
        made.insert(0, requests.frame(TOKEN, 0, told.data()))
    return made


def result(answer: bytes) -> str:
    """The line that tells an answer: of a message that of its result."""
    kind, connection, _ = HEAD.unpack_from(answer)
    told = [line for line in answers.frame_lines(kind, connection, answer[HEAD.size :]) if line.startswith("# ")]
    return told[-1][2:] if told else "no result"


def refused(line: str) -> bool:
    """Whether a result's line tells a refusal."""
    word, _, rest = line.partition(": ")
    return word in answers.OPERATIONS.values() and rest.split(" ")[0] not in GOOD


def served(path: str, store: str, given: Sequence[bytes]) -> List[str]:
    """Serves frames on a copy; the line of each answer."""
    done = run([path, "serve", store], b"".join(given))
    lines = [result(answer) for answer in split(done.stdout)]
    if done.returncode:
        raise Unanswered(f"adsd serve ended with {done.returncode} after {len(lines)} of {len(given)} frames")
    return lines


def moments(path: str, copy: str, given: Sequence[bytes]) -> Moments:
    """The moments of some frames, each a copy of its own; `copy` stays as it is. Where nothing is pending after them,
    the last moment is that after them."""
    after, settled = copy + ".after", copy + ".settled"
    program.copy_slots(copy, after)
    lines = served(path, after, given)
    made = Moments({BEFORE: copy, AFTER: after, SETTLED: after}, count=len(given))
    made.answered = [(number, line) for number, line in enumerate(lines, 1) if refused(line)]
    counts = program.counts(path, after)
    made.pending, made.stale = counts["pending"], counts["stale"]
    if made.pending:
        program.copy_slots(after, settled)
        made.stores[SETTLED] = settled
        made.steps = program.answered(adsd_lines.settle, program.asked([path, "settle", settled]))
    return made
