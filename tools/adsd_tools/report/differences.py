"""Which rights came to a token and which went: between two moments, and from the first moment to the last."""

from typing import AbstractSet, Dict, Iterable, List, Protocol, Sequence, Set, Tuple

from adsd_tools.forms.rights import RIGHTS
from adsd_tools.rows.schema import Schema

from .effective import Pair, Right, Rights
from .harms import HARMS, RANK, dangerous

ORDER = ("object", "attribute", "set", "right", "validated", "child")
ONE = {"attribute": "attribute", "set": "property set", "right": "extended right", "validated": "validated write",
       "child": "children of class"}


class Shot(Protocol):
    """A moment, of which alone is asked which rights the token had and has."""

    rights: Dict[int, Pair]


def total(shots: Iterable[Shot]) -> Dict[int, Pair]:
    """What a token had at the first moment and has at the last, by object, where that isn't the same."""
    made: Dict[int, Pair] = {}
    for shot in shots:
        for number, (before, after) in shot.rights.items():
            made[number] = made.get(number, (before, after))[0], after
    return {number: pair for number, pair in made.items() if pair[0] != pair[1]}


def changed(pair: Pair) -> Pair:
    """What came and what went of a pair of then and now."""
    before, after = pair
    return after - before, before - after


def alike(pairs: Dict[int, Pair]) -> List[Tuple[Rights, Rights, List[int]]]:
    """The objects of which the same came and went: triples of what came, what went, and their numbers."""
    made: Dict[Pair, List[int]] = {}
    for number, pair in pairs.items():
        made.setdefault(changed(pair), []).append(number)
    return [(came, went, numbers) for (came, went), numbers in made.items()]


def phrases(rights: Iterable[Right]) -> List[Tuple[List[str], Dict[str, Tuple[str, ...]]]]:
    """Rights as pairs of codes and of what these are on, names by kind: codes on the same stand together."""
    on: Dict[str, Dict[str, List[str]]] = {}
    same: Dict[Tuple[Tuple[str, Tuple[str, ...]], ...], List[str]] = {}
    for kind, name, code in sorted(rights, key=lambda right: (ORDER.index(right[0]), right[1].lower(), right[1])):
        on.setdefault(code, {}).setdefault(kind, []).append(name)
    for code in RIGHTS:
        if code in on:
            same.setdefault(tuple((kind, tuple(names)) for kind, names in on[code].items()), []).append(code)
    return [(codes, dict(key)) for key, codes in same.items()]


def several(kind: str, count: int) -> str:
    """So many things of a kind, in words."""
    if count == 1:
        return ONE[kind]
    return f"children of {count} classes" if kind == "child" else f"{count} {ONE[kind]}s"


def short(codes: Sequence[str], targets: Dict[str, Tuple[str, ...]]) -> str:
    """A phrase in few words, as a picture has room for: names where they are few, else how many there are."""
    told = []
    for kind, names in targets.items():
        if kind == "object":
            told.append("object")
        elif len(names) <= 2:
            told.append(", ".join(f"{ONE[kind]} {name}" if kind in ("set", "child") else name for name in names))
        else:
            told.append(several(kind, len(names)))
    return f"{' '.join(codes)} {', '.join(told)}"


class Dangers:
    """What of the differences is dangerous."""

    def __init__(self, schema: Schema, protected: AbstractSet[int]) -> None:
        self.schema, self.protected = schema, protected
        self.known: Dict[Rights, AbstractSet[Tuple[Right, str]]] = {}

    def words(self, rights: Rights) -> AbstractSet[Tuple[Right, str]]:
        if rights not in self.known:
            self.known[rights] = frozenset(dangerous(rights, self.schema).items())
        return self.known[rights]

    def ranks(self, number: int, pair: Pair) -> List[Set[int]]:
        """The ranks of what came to an object that is dangerous, and of what went."""
        before, after = map(self.words, pair)
        made = []
        for rights in (after - before, before - after):
            words = {word for _, word in rights}
            if "members" in words and number not in self.protected:
                words = words - {"members"} | {"groups"}
            made.append({RANK[word] for word in words})
        return made

    def worst(self, numbers: Iterable[int], pairs: Dict[int, Pair]) -> int:
        """The rank of the worst that came or went on some objects; after the last where there is none."""
        return min((rank for number in numbers for ranks in self.ranks(number, pairs[number]) for rank in ranks),
                   default=len(HARMS))
