"""An operator's word that all replicas pass over an entry which none of them takes. It stands in the log."""

from adsd_tools.ask.requests import frame
from adsd_tools.ldap.program import DROP, MESSAGE
from adsd_tools.run import run

from . import entries
from .applying import NO_FRAME
from .copying import cut_to, removed
from .ordered import Other
from .position import Positions
from .slots import Unfit

SUFFIX = ".skip"


def position_of(store):
    found = Positions(store).read()
    if found is None:
        raise Unfit(f"{store} isn't a replica's store: it has no .position")
    return found


def frames_of(entry):
    """An entry's frames as bytes, on the connection that those before had: before a message of nobody the token that
    it has is taken away."""
    first = [(MESSAGE, DROP)] if entry.frames[:1] and entry.frames[0][0] == MESSAGE else []
    return b"".join(frame(kind, 0, body) for kind, body in (*first, *entry.frames))


def between(log, position, number):
    """The frames of the entries that stand between a store and an entry, and the id of the one before that. (A replica
    that ended there may have more to take before it.)"""
    at, given = position.head(), []
    while at.number + 1 < number:
        found = [(place, data) for place, data in log.some(at.number + 1).found if place < number]
        if not found:
            raise Other(f"entry {at.number + 1} isn't in the log")
        for place, data in found:
            own = entries.id_of(data)
            if place != at.number + 1:
                raise Other(f"entry {at.number + 1} isn't in the log")
            if not log.is_skipped(place, own, at.id):
                given.append(frames_of(taken(log, place, data, at)))
            at = entries.Head(place, own)
    return b"".join(given), at.id


def taken(log, number, data, at):
    """An entry behind another one; Other where it isn't taken either."""
    try:
        if entries.before_of(data) == at.id:
            return entries.read(number, data, log.own, log.keys)
    except entries.Broken:
        pass
    raise Other(f"entry {number} isn't taken either, and comes first; nothing is passed over")


def refused(log, program, store, position, number, data, given):
    """Why no replica takes an entry after what is given to the program before it; nothing where one may."""
    try:
        entry = entries.read(number, data, log.own, log.keys)
    except entries.Broken as why:
        return str(why)
    ends = [served(program, store, position, some) for some in (given, given + frames_of(entry))]
    if ends[0] == NO_FRAME:
        raise Other(f"an entry before {number} has a frame that the program doesn't take; nothing is passed over")
    return f"entry {number} has a frame that the program doesn't take" if ends[1] == NO_FRAME else ""


def served(program, store, position, given):
    """What the program ends with where some frames are given to it, over a copy of the store at its position."""
    copy = store + SUFFIX
    try:
        removed(copy)
        cut_to(store, copy, position)
        return run([program, "serve", copy], given, tell=False).returncode
    finally:
        removed(copy)


def skip(log, program, store, position, number):
    """Notes in the log that an entry is passed over: only one that no replica takes, and that comes for the store of
    one that ended there, which may have others to take before."""
    if position.entry >= number:
        raise Other(f"{store} stands at {position.entry}: the entry that comes next is {position.entry + 1}; nothing "
                    "is passed over")
    found, _ = log.replicas()
    ahead = sorted(name.decode("ascii", "replace") for name, at in found.items() if at >= number)
    if ahead:
        raise Other(f"replica {', '.join(ahead)} has taken entry {number}; nothing is passed over")
    held = dict(log.read(number, 1).found).get(number)
    if held is None:
        raise Other(f"entry {number} isn't in the log")
    given, before = between(log, position, number)
    why = refused(log, program, store, position, number, held, given)
    if not why:
        raise Other(f"entry {number} is one that replicas take; nothing is passed over")
    log.skip(number, entries.id_of(held), before)
    return f"{why}; it is passed over from now on, id {entries.id_of(held).hex()}"
