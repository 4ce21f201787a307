"""Puts back the keys that say what a log is, where somebody wrote something else over them: its id, its release, its
head, and the first entry that is kept. A replica's store tells the first, the program here the second, and the entries,
which name each other, the rest. What is of its form is never touched, nor an id or a release that isn't there."""

from typing import Dict, List, Optional, Tuple

from . import entries
from .ordered import FORMS, Ordered, Other, is_formed, line_of
from .position import Position
from .roster import absent, put_of

# So many entries are read at once: each has 1.5 MB at most.
SOME = 8


def repair(log: Ordered, position: Position, release: bytes) -> List[str]:
    """Puts back what isn't of its form; lines that tell what."""
    held: Dict[bytes, Optional[bytes]] = log.keys_of_form()
    broken = [key for key in FORMS if not is_formed(key, held[key])]
    for key in (b"id", b"release"):
        if held[key] is None:
            raise Other(f"log {log.name} has no {key.decode()}; nothing was changed")
    if b"id" not in broken and held[b"id"] != position.own:
        raise Other(f"log {log.name} isn't the one of this store; nothing was changed")
    first, last = ends_of(log, position)
    made = {b"id": position.own, b"release": release, b"first": b"%d" % first, b"head": line_of(last)}
    # (the head goes on while others are put back)
    same = [absent(log.key(key)) if held[key] is None else log.is_value(log.key(key), held[key])
            for key in {*broken, b"id", b"release"}]
    if broken and not log.txn(same, [put_of(log.key(key), made[key]) for key in broken])[0]:
        raise Other("somebody else wrote to the log meanwhile; nothing was changed: ask again")
    return [f"the key {key.decode()} of log {log.name} is {made[key].decode()} again" for key in broken]


def ends_of(log: Ordered, position: Position) -> Tuple[int, entries.Head]:
    """The number of the first entry that is kept, and the last one, as the entries say from a store's position on."""
    kept = dict(log.raw(position.entry, 1)).get(position.entry)
    if kept is not None and entries.id_of(kept) != position.id:
        raise Other(f"entry {position.entry} of the log isn't the one that this store has: take that of a replica that "
                    "follows the log; nothing was changed")
    at, lowest = last_of(log, position.head()), log.lowest()
    first = at.number + 1 if lowest is None else lowest
    ahead = sorted((name, number) for name, number in log.replicas()[0].items() if number > at.number)
    told = [f"replica {name.decode('ascii', 'replace')} has told that it has {number}" for name, number in ahead]
    told += [f"the entries begin at {first}"] if first > at.number + 1 else []
    if told:
        raise Other(f"from this store on the log goes up to {at.number}, and {', '.join(told)}: take the store whose "
                    "position has the greatest entry; nothing was changed")
    return first, at


def last_of(log: Ordered, at: entries.Head) -> entries.Head:
    """The last entry that stands behind another one: each names the one before it, or is passed over."""
    while True:
        found = log.raw(at.number + 1, SOME)
        for number, data in found:
            own = entries.id_of(data)
            if number != at.number + 1:
                return at
            if entries.before_of(data) != at.id and not log.is_skipped(number, own, at.id):
                return at
            at = entries.Head(number, own)
        if not found:
            return at
