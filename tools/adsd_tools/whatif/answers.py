"""What the program answers to the questions at each moment, and what of it changes."""

import time
from concurrent.futures import Future, ThreadPoolExecutor
from dataclasses import dataclass
from typing import Callable, Dict, List, Optional, Protocol, Sequence, Set, Tuple

from adsd_tools import lines
from adsd_tools.forms.sids import text_of_sid
from adsd_tools.report.program import Failed, answered
from adsd_tools.rows.accounts import Accounts
from adsd_tools.run import run
from adsd_tools.shown import line_of, shown

from .moments import AFTER, BEFORE, SETTLED, Moments

MOMENTS = (BEFORE, AFTER, SETTLED)


@dataclass
class Answer:
    """Who has a right: what decides and the name, by identifier; or why there is no answer."""

    who: Dict[str, Tuple[str, str]]
    why_not: str = ""


class Asked(Protocol):
    """What is asked: a right, the object's name at each moment, and the answer at each."""

    right: str
    names: Dict[str, Optional[str]]
    answers: Dict[str, Answer]


def said_by(path: str, *words: str) -> Tuple[bytes, Optional[str]]:
    """What the program says to some words; and why it has no answer, where that is so."""
    try:
        done = run([path, *words], tell=False)
    except (OSError, ValueError) as fault:
        raise Failed(f"{path}: {fault}") from None
    why = answered(lambda said: lines.reason(words[0], said), done.stdout) if done.returncode == 3 else None
    if done.returncode and why is None:
        raise Failed(f"adsd {words[0]} ended with {done.returncode}: {line_of(done.stdout) or 'nothing was said'}")
    return done.stdout, why


class People:
    """Who there is in the store of each moment, by identifier. A line of the program that tells of nobody there is one
    that a name made, and would hide somebody who is."""

    def __init__(self, stores: Set[str]) -> None:
        self.of = {store: self.read(store) for store in stores}

    def read(self, store: str) -> Dict[str, str]:
        accounts = Accounts(store)
        names = accounts.names()
        return {text_of_sid(sid): names[number] for number, sid in accounts.sids.items()}

    def hold(self, store: str, word: str, sid: str, name: str) -> None:
        """Refuses a line of a command that has this identifier and this name; a hyphen is the name of nobody's object."""
        if self.of[store].get(sid, "-") != shown(name):
            raise Failed(f"adsd {word} tells of {sid} {shown(name)}, and the store has no such account")


def who(path: str, store: str, right: str, name: Optional[str], people: People) -> Answer:
    """The program's answer to `who`."""
    if name is None:
        return Answer({}, "no object")
    said, why = said_by(path, "who", store, right, name)
    if why is not None:
        return Answer({}, shown(why))
    found = answered(lines.who, said)
    for one in found:
        people.hold(store, "who", one.sid, one.name)
    return Answer({one.sid: (one.decides, one.name) for one in found})


def fill(path: str, moments: Moments, questions: Sequence[Asked], jobs: int, tell: Callable[[str], None]) -> None:
    """Asks every question at every moment, several at once; a moment that has the store of the one before isn't asked."""
    todo: List[Tuple[Asked, str, "Future[Answer]"]] = []
    begun, people = time.time(), People(set(moments.stores.values()))
    with ThreadPoolExecutor(jobs) as pool:
        for question in questions:
            of: Dict[Tuple[str, Optional[str]], "Future[Answer]"] = {}
            for word in MOMENTS:
                key = moments.stores[word], question.names[word]
                if key not in of:
                    of[key] = pool.submit(who, path, key[0], question.right, key[1], people)
                todo.append((question, word, of[key]))
        for number, (question, word, one) in enumerate(todo, 1):
            question.answers[word] = one.result()
            if time.time() - begun > 2:
                tell(f"{number} of {len(todo)} answers of the program")


@dataclass(frozen=True)
class Change:
    """Who gains or loses a right: the sign, what decides at each moment (None where it isn't granted), and who it is."""

    sign: str
    before: Optional[str]
    after: Optional[str]
    settled: Optional[str]
    sid: str
    name: str


def sign_of(had: Sequence[Optional[str]]) -> str:
    """`+` gained, `-` lost at last; `+-` and `-+` where it is so only until the lists are passed down."""
    before, after, settled = (one is not None for one in had)
    if before != settled:
        return "+" if settled else "-"
    return ("+-" if after else "-+") if after != before else ""


def changes(question: Asked) -> Tuple[Tuple[Change, ...], int]:
    """Who gains or loses the right of a question, in the order of the answers; and how many keep it all the time."""
    order: Dict[str, str] = {}
    keep, made = 0, []
    for word in (SETTLED, AFTER, BEFORE):
        for sid, (_, name) in question.answers[word].who.items():
            order.setdefault(sid, name)
    for sid, name in order.items():
        found = [question.answers[word].who.get(sid) for word in MOMENTS]
        had = [None if one is None else one[0] for one in found]
        sign = sign_of(had)
        keep += not sign
        if sign:
            made.append(Change(sign, had[0], had[1], had[2], sid, name))
    return tuple(made), keep


def faulty(question: Asked) -> str:
    """Why a question has no answer at any moment; empty where it has one at some."""
    why = [question.answers[word].why_not for word in MOMENTS]
    return why[0] if all(why) else ""
