"""The words of a request: which each has, and what each may be. Whatever isn't one of these is Wrong, and nothing else
looks at a number, a name or an identifier that somebody sends."""

import re
from typing import Any, Callable, Mapping

from adsd_tools.forms.sids import sid_of_text

from .trying import Wrong

NUMBER, MOST_NUMBER = re.compile("0|[1-9][0-9]{0,9}"), 0xFFFF_FFFF
LAST, MOST_TEXT, MOST_SID = "-1", 2000, 200


def number(text: str) -> int:
    """A number without a sign and in as few digits as it has."""
    if not NUMBER.fullmatch(text) or int(text) > MOST_NUMBER:
        raise Wrong(f"not a number from 0 to {MOST_NUMBER}")
    return int(text)


def step(text: str) -> int:
    """A number, or -1 for the last moment."""
    return -1 if text == LAST else number(text)


def text(given: str) -> str:
    if len(given) > MOST_TEXT:
        raise Wrong("a text is too long")
    return given


def sid(given: str, what: str = "that") -> bytes:
    """An identifier's bytes."""
    made = sid_of_text(given) if len(given) <= MOST_SID and given.isascii() else None
    if made is None:
        raise Wrong(f"{what} isn't a SID")
    return made


# Of each request the words: how each is read, and what stands for it where it isn't given, if it needn't be.
NEEDED = object()
Word = tuple[Callable[[str], object], object]
N, SID, AFTER, Q = (number, NEEDED), (sid, NEEDED), (number, 0), (text, "")
AT: Mapping[str, Word] = {"plan": Q, "step": (step, -1)}
WORDS: dict[str, Mapping[str, Word]] = {
    "start": {}, "classes": {}, "children": {"n": N, "after": AFTER}, "find": {"q": Q}, "whom": {"q": Q},
    "object": {"n": N, **AT}, "askable": {"n": (number, None), "class": (text, None)},
    "who": {"n": N, "kind": Q, "name": Q, "code": Q, "after": AFTER, **AT}, "principal": {"sid": SID, **AT},
    "can": {"sid": SID, "n": N, **AT}, "exposed": AT, "moment": AT, "gains": AT, "gained": {"sid": SID, **AT},
    "frames": {"plan": Q, "form": Q}, "audited": {}, "chains": {"n": N}, "reaches": {"sid": SID},
    "cuts": {"plan": Q, "n": (number, None)},
}


def words(name: str, given: Mapping[str, str]) -> dict[str, Any]:
    """The words of a request as they are meant."""
    made: dict[str, Any] = {}
    wanted = WORDS[name]
    for one in given:
        if one not in wanted:
            raise Wrong("unknown parameter")
    for one, (read, other) in wanted.items():
        if one in given:
            made[one] = read(given[one])
        elif other is NEEDED:
            raise Wrong(f"missing parameter {one}")
        else:
            made[one] = other
    return made
