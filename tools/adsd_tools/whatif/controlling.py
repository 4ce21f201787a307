"""Who comes to control what, before frames, right after them and once every list is passed down, as `adsd control`
tells it of the copies: which chains are cut, and which are made."""

from concurrent.futures import Future, ThreadPoolExecutor
from dataclasses import dataclass
from typing import Any, Dict, Iterator, List, Optional, Sequence, Tuple

from adsd_tools import control
from adsd_tools.ask.words import Wrong
from adsd_tools.forms.sids import below, text_of_sid
from adsd_tools.report.program import answered
from adsd_tools.report.protection import HOLDER
from adsd_tools.rows.accounts import Accounts
from adsd_tools.shown import json_of, shown

from .answers import MOMENTS, said_by, sign_of
from .moments import AFTER, BEFORE, SETTLED, Moments
from .told import counts_of, head

# What rules a domain, besides its root and AdminSDHolder: groups by their last numbers, and the administrators.
GROUPS, ADMINISTRATORS = (512, 518, 519, 516), "S-1-5-32-544"
LONGER = "~"
# Who comes to control an object: an identifier and a name.
Who = Tuple[str, str]


@dataclass(frozen=True)
class Side:
    """Who comes to control an object at a moment, with the places of the chains; or why nothing is told."""

    told: Optional[control.Told]
    why_not: str = ""

    def who(self) -> Dict[Who, int]:
        if self.told is None:
            return {}
        nodes = self.told.nodes
        return {(nodes[place].sid, nodes[place].name or "-"): place for place in self.told.identities()}

    def length(self, place: Optional[int]) -> Optional[int]:
        return None if self.told is None or place is None else self.told.lengths[place]

    def chain(self, place: Optional[int]) -> List[Tuple[str, str, str]]:
        """The steps of a chain: of each the kind, what decides, and the name of where it leads."""
        if self.told is None or place is None:
            return []
        return [(step.kind, step.decides, self.told.nodes[step.end].name or "-") for step in self.told.chain(place)]


@dataclass(frozen=True)
class Changed:
    """Who comes to control an object otherwise than before: the sign, the length at each moment (None where there is no
    chain), who it is, and the chains that are cut and made."""

    sign: str
    lengths: List[Optional[int]]
    who: Who
    cut: List[Tuple[str, str, str]]
    made: List[Tuple[str, str, str]]


@dataclass(frozen=True)
class Target:
    """What is told of an object: its name, the sides by moment, and who changes."""

    name: str
    sides: Dict[str, Side]
    changes: List[Changed]
    keep: int


def side(path: str, store: str, name: str) -> Side:
    """The program's answer to `control`."""
    said, why = said_by(path, "control", store, name)
    return Side(None, shown(why)) if why is not None else Side(answered(control.read, said))


def targets(copy: str) -> List[str]:
    """What rules the domain, by its name or identifier."""
    accounts = Accounts(copy)
    names, domain = accounts.names(), accounts.sids.get(1)
    groups = [text_of_sid(sid) for sid in (below(domain, rid) for rid in GROUPS) if sid]
    return [names[1], HOLDER + names[1], *groups, ADMINISTRATORS]


def changed(sides: Dict[str, Side]) -> Tuple[List[Changed], int]:
    """Whose chains to an object change, and how many keep theirs."""
    found = {word: one.who() for word, one in sides.items()}
    made, keep = [], 0
    for who in dict.fromkeys(one for word in (SETTLED, AFTER, BEFORE) for one in found[word]):
        places = {word: found[word].get(who) for word in MOMENTS}
        lengths = [sides[word].length(places[word]) for word in MOMENTS]
        sign = sign_of([None if one is None else str(one) for one in lengths])
        sign = sign or (LONGER if len(set(lengths)) > 1 else "")
        keep += not sign
        if sign:
            at = AFTER if sign == "+-" else SETTLED
            cut = sides[BEFORE].chain(places[BEFORE]) if sign in ("-", "-+", LONGER) else []
            ways = sides[at].chain(places[at]) if sign != "-" and sign != "-+" else []
            made.append(Changed(sign, lengths, who, cut, ways))
    return made, keep


def told(path: str, moments: Moments, names: Sequence[str], jobs: int) -> List[Target]:
    """Asks about some objects, or about what rules the domain."""
    asked: Dict[Tuple[str, str], "Future[Side]"] = {}
    chosen = list(dict.fromkeys(names or targets(moments.stores[BEFORE])))
    with ThreadPoolExecutor(jobs) as pool:
        for name in chosen:
            for store in moments.stores.values():
                if (store, name) not in asked:
                    asked[store, name] = pool.submit(side, path, store, name)
    made = []
    for name in chosen:
        sides = {word: asked[moments.stores[word], name].result() for word in MOMENTS}
        there = [one.told for one in sides.values() if one.told is not None]
        if not there and names:
            raise Wrong(f"control {name}: {sides[BEFORE].why_not}")
        if there:
            changes, keep = changed(sides)
            made.append(Target(there[-1].nodes[there[-1].asked].name or name, sides, changes, keep))
    return made


def lines(moments: Moments, found: Sequence[Target]) -> Iterator[str]:
    """The lines of the frames, and a block for each object."""
    yield from head(moments, 0, 0, ())
    for one in found:
        yield from ("", f"object {one.name}")
        yield from (f"{word} {there.why_not}" for word, there in one.sides.items() if there.told is None)
        yield "identities " + " ".join(str(len(one.sides[word].who())) for word in MOMENTS)
        for change in one.changes:
            sizes = ("no" if size is None else str(size) for size in change.lengths)
            yield " ".join([change.sign, *sizes, *change.who])
            yield from (f"cut {kind} {decides} {name}" for kind, decides, name in change.cut)
            yield from (f"made {kind} {decides} {name}" for kind, decides, name in change.made)
        yield f"keep {one.keep}"


def steps(chain: Sequence[Tuple[str, str, str]]) -> List[Dict[str, str]]:
    return [{"kind": kind, "decides": decides, "to": name} for kind, decides, name in chain]


def change_of(change: Changed) -> Dict[str, Any]:
    before, after, settled = change.lengths
    return {"sign": change.sign, BEFORE: before, AFTER: after, SETTLED: settled, "sid": change.who[0],
            "name": change.who[1], "cut": steps(change.cut), "made": steps(change.made)}


def document(moments: Moments, found: Sequence[Target]) -> str:
    """The same as JSON."""
    made: List[Dict[str, Any]] = []
    for one in found:
        changes = [change_of(change) for change in one.changes]
        made.append({"object": one.name, "identities": {word: len(one.sides[word].who()) for word in MOMENTS},
                     "noAnswer": {word: there.why_not for word, there in one.sides.items() if there.told is None},
                     "keep": one.keep, "changes": changes})
    return json_of({**counts_of(moments), "control": made}, 1)
