"""The one place that asks the program who may what: `who` once for each right and object, or, where the program knows
it, `rights` once for each right. What is asked twice is asked once."""

import re
import threading
from concurrent.futures import ThreadPoolExecutor
from typing import Iterable, NamedTuple, Optional, Sequence

from adsd_tools import control, lines
from adsd_tools.forms.sids import text_of_sid
from adsd_tools.report.program import Failed, Tell
from adsd_tools.run import run
from adsd_tools.shown import line_of, shown

NO_ANSWER = 3
# What decides in a line of `who`: what is granted by the parent's list has that word before it.
DECIDES = re.compile(r"(?:parent:)?(?:owner|privilege|-|[1-9][0-9]{0,18})")
MEMBER, PLACE = re.compile(r"in ([1-9][0-9]*) (S-[^ ]+) (.+)"), re.compile(r"on ([1-9][0-9]*) (?:([+-]) )?(.+)")
# A right: its text; and an object, by its number.
Asked = tuple[str, int]


class Holder(NamedTuple):
    """Who has a right: what decides (a place of the list, `owner`, `privilege`), and its identifier's text."""

    decides: str
    sid: str


def holders(said: bytes) -> tuple[list[Holder], list[str]]:
    """The lines of `who`; and the identifiers of those who have no token, so that it isn't known of them."""
    made, without = [], []
    for line in lines.lines("who", said):
        word, _, rest = line.partition(" ")
        sid, _, name = rest.partition(" ")
        if lines.sid(sid) is None or not name or not (word == "none" or DECIDES.fullmatch(word)):
            raise lines.Unread("who", line)
        if word == "none":
            without.append(sid)
        else:
            made.append(Holder(word, sid))
    return made, without


def sets_of(said: bytes) -> dict[str, frozenset[str]]:
    """The lines of `rights`: the identifiers of those who have the right on an object, by the object's name."""
    sets: dict[str, set[str]] = {}
    of: list[tuple[str, Optional[str], str]] = []
    for line in lines.lines("rights", said):
        member, place = MEMBER.fullmatch(line), PLACE.fullmatch(line)
        if member and lines.sid(member[2]) is not None:
            sets.setdefault(member[1], set()).add(member[2])
        elif place:
            of.append((place[1], place[2], place[3]))
        elif not line.startswith("none "):
            raise lines.Unread("rights", line)
    return {name: frozenset(sets.get(number, ())) for number, _, name in of}


class Questions:
    """Asks the program at a path of a store, several things at once. A name stands for each object's number."""

    def __init__(self, path: str, store: str, names: dict[int, str], jobs: int, tell: Tell) -> None:
        self.path, self.store, self.names, self.jobs, self.tell = path, store, names, jobs, tell
        self.answers: dict[Asked, list[Holder]] = {}
        self.tokens: dict[int, frozenset[str]] = {}
        self.sets: dict[str, dict[str, frozenset[str]]] = {}
        self.control: dict[int, control.Told] = {}
        # Identifiers without a token; and how many answers were asked for.
        self.without: set[str] = set()
        self.count, self.counting = 0, threading.Lock()
        self.knows_rights, self.knows_control = self.knows("rights", "WD"), self.knows("control", self.names[1])
        self.knows_intents = self.asked("who", "see", self.names[1]) is not None

    def knows(self, word: str, argument: str) -> bool:
        """Whether the program has a command: it answers, or says why it can't. An answer is kept."""
        done = run([self.path, word, self.store, argument], tell=False)
        if done.returncode == 0 and word == "control":
            self.control[1] = control.read(done.stdout)
        if done.returncode == 0 and word == "rights":
            self.sets[argument] = {shown(name): sids for name, sids in sets_of(done.stdout).items()}
        return done.returncode in (0, NO_ANSWER)

    def asked(self, *words: str, given: bytes = b"") -> Optional[bytes]:
        """What the program says; None where it says that there is no answer: no such right, no such principal."""
        with self.counting:
            self.count += 1
            if self.count % 50 == 0:
                self.tell(f"{self.count} answers of the program")
        done = run([self.path, words[0], self.store, *words[1:]], given, tell=False)
        if done.returncode == NO_ANSWER and lines.reason(words[0], done.stdout) in lines.REASONS:
            return None
        if done.returncode:
            said = line_of(done.stdout) or line_of(done.stderr) or "nothing was said"
            raise Failed(f"adsd {words[0]} ended with {done.returncode}: {said}")
        return done.stdout

    def every(self, work: Sequence[Asked]) -> None:
        """Asks `who` for each of some rights and objects, several at once."""
        with ThreadPoolExecutor(self.jobs) as pool:
            for one, said in zip(work, pool.map(lambda one: self.asked("who", one[0], self.names[one[1]]), work)):
                found, without = holders(said) if said is not None else ([], [])
                self.answers[one] = found
                self.without.update(without)

    def ahead(self, wanted: Iterable[Asked], inside: frozenset[str]) -> None:
        """Asks what will be asked for, but where the program tells first that nobody outside of some identifiers has
        it."""
        work = [one for one in dict.fromkeys(wanted) if one not in self.answers]
        if self.knows_rights:
            self.all_objects(dict.fromkeys(right for right, _ in work))
            for right, number in work:
                if self.sets[right].get(self.names[number], frozenset()) <= inside:
                    self.answers[right, number] = []
            work = [one for one in work if one not in self.answers]
        self.every(work)

    def all_objects(self, rights: Iterable[str]) -> None:
        """Asks `rights` for each of some rights."""
        new = [right for right in rights if right not in self.sets]
        with ThreadPoolExecutor(self.jobs) as pool:
            for right, said in zip(new, pool.map(lambda right: self.asked("rights", right), new)):
                found = sets_of(said) if said is not None else {}
                self.sets[right] = {shown(name): sids for name, sids in found.items()}

    def who(self, right: str, number: int) -> list[Holder]:
        """Who has a right on an object. Nobody has one that the schema hasn't."""
        if (right, number) not in self.answers:
            self.every([(right, number)])
        return self.answers[right, number]

    def held(self, numbers: Iterable[int]) -> dict[int, frozenset[str]]:
        """The identifiers that the tokens of some principals have; none where it has no token."""
        new = [number for number in dict.fromkeys(numbers) if number not in self.tokens]
        with ThreadPoolExecutor(self.jobs) as pool:
            for number, said in zip(new, pool.map(lambda number: self.asked("token", self.names[number]), new)):
                told = lines.token(said) if said is not None else []
                self.tokens[number] = frozenset(text_of_sid(one) for word, one in told
                                                if isinstance(one, bytes) and word in ("user", "group"))
        return self.tokens

    def with_more(self, number: int, *sids: str) -> frozenset[str]:
        """The identifiers that a principal's token has together with some others."""
        said = self.asked("token", self.names[number], *sids)
        told = lines.token(said) if said is not None else []
        return frozenset(text_of_sid(one) for word, one in told if isinstance(one, bytes) and word in ("user", "group"))

    def controls(self, numbers: Iterable[int]) -> dict[int, control.Told]:
        """Who comes to control each of some objects, and how."""
        wanted = list(dict.fromkeys(numbers))
        new = [number for number in wanted if number not in self.control]
        with ThreadPoolExecutor(self.jobs) as pool:
            for number, said in zip(new, pool.map(lambda number: self.asked("control", self.names[number]), new)):
                if said is not None:
                    self.control[number] = control.read(said)
        return {number: self.control[number] for number in wanted if number in self.control}

    def can(self, number: int, right: str) -> list[tuple[str, str]]:
        """What decides and the name of each object on which a principal has a right."""
        said = self.asked("can", self.names[number], right)
        return [] if said is None else lines.can(said)

    def listing(self, number: int) -> lines.Listing:
        said = self.asked("list", self.names[number])
        if said is None:
            raise Failed(f"{self.names[number]} isn't there any more")
        return lines.listed(said)

    def effective(self, number: int, token: bytes) -> list[lines.Granted]:
        """What a token has on an object, line by line."""
        said = self.asked("effective", self.names[number], given=token)
        return [] if said is None else lines.effective(said)
