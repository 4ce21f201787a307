"""What is printed: lines, each a word, a blank and a value, as the program's own; or one document of JSON."""

from typing import Any, Dict, Iterator, List, Optional, Sequence, Tuple

from adsd_tools.shown import json_of, shown

from .answers import MOMENTS, Change, changes
from .moments import Moments
from .questions import Question

# What blocks have in common: name, first name, how many are alike, why there is no answer, who changes, how many keep.
Key = Tuple[str, str, int, Tuple[Tuple[str, str], ...], Tuple[Change, ...], int]


def plural(count: int, one: str, many: Optional[str] = None) -> str:
    return f"{count} {one if count == 1 else many or one + 's'}"


def blocks(questions: Sequence[Question], every: bool) -> Tuple[Dict[Key, List[str]], int]:
    """What is told: questions of one object whose answers change alike stand together. Those without a change are left
    out unless they are the words' own, or `every`; how many these are."""
    made: Dict[Key, List[str]] = {}
    quiet = 0
    for question in questions:
        found, keep = changes(question)
        why = tuple((word, question.answers[word].why_not) for word in MOMENTS if question.answers[word].why_not)
        if not found and not question.own and not every:
            quiet += 1
            continue
        key = question.shown, question.was, question.alike, why, found, keep
        made.setdefault(key, []).append(question.right)
    return made, quiet


def head(moments: Moments, quiet: int, left_out: int, notes: Sequence[str]) -> Iterator[str]:
    """The lines before the blocks."""
    yield from moments.incomplete
    yield f"# {plural(moments.count, 'frame')}, {len(moments.answered)} refused"
    yield from (f"# frame {number}: {shown(line)}" for number, line in moments.answered)
    if moments.pending:
        yield (f"# after them {moments.pending} pending and {moments.stale} stale; "
               f"settled by {plural(moments.steps, 'step')}")
    else:
        yield "# after them nothing is pending, so it is settled"
    yield from (f"# {shown(note)}" for note in notes)
    if quiet:
        yield f"# in {plural(quiet, 'more question')} nobody gains or loses the right"
    if left_out:
        yield f"# {plural(left_out, 'more kind')} of objects not asked about: --kinds N asks about more"


def lines(moments: Moments, questions: Sequence[Question], left_out: int, notes: Sequence[str], every: bool) -> Iterator[str]:
    """All lines of the answer."""
    made, quiet = blocks(questions, every)
    yield from head(moments, quiet, left_out, notes)
    last = None
    for (name, was, alike, why, found, keep), rights in made.items():
        if name != last:
            yield from ("", f"object {shown(name)}")
            yield from ([f"was {shown(was)}"] if was else [])
            yield from ([f"alike {alike}"] if alike else [])
        last = name
        yield from (f"right {shown(right)}" for right in rights)
        yield from (f"{word} {reason}" for word, reason in why)
        for one in found:
            had = " ".join(decides or "no" for decides in (one.before, one.after, one.settled))
            yield f"{one.sign} {had} {one.sid} {shown(one.name)}"
        yield f"keep {keep}"


def counts_of(moments: Moments) -> Dict[str, Any]:
    """What JSON says of the frames and of what was pending after them."""
    first = {"incomplete": moments.incomplete} if moments.incomplete else {}
    return {**first, "frames": {"count": moments.count, "refused": [{"frame": number, "result": line} for number, line in moments.answered]},
            "after": {"pending": moments.pending, "stale": moments.stale, "stepsToSettle": moments.steps}}


def document(moments: Moments, questions: Sequence[Question], left_out: int, notes: Sequence[str], every: bool) -> str:
    """The same as JSON: `null` where a right isn't granted, else what decides."""
    told: List[Dict[str, Any]] = []
    quiet = 0
    for question in questions:
        found, keep = changes(question)
        if not found and not question.own and not every:
            quiet += 1
            continue
        told.append({"right": question.right, "object": question.shown, "alike": question.alike, "keep": keep,
                     "noAnswer": {word: question.answers[word].why_not for word in MOMENTS
                                  if question.answers[word].why_not},
                     "changes": [vars(one) for one in found], **({"was": question.was} if question.was else {})})
    made = {**counts_of(moments), "questions": told, "withoutChange": quiet, "kindsNotAsked": left_out, "notes": list(notes)}
    return json_of(made, 1)
