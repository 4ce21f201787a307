"""A store at a position: the beginning of a log, and a copy of a replica for a new one.

A copy is the live slot up to the records of a position, with a closed gate after them, and an empty other slot. What
the replica does meanwhile stands after that, or in the other slot. Only where two snapshots come meanwhile the slot
is written over; then the copy is made anew."""

import os
from dataclasses import replace

from adsd_tools.files import write
from adsd_tools.rows import store as rows
from adsd_tools.run import run
from adsd_tools.shown import line_of

from . import digests
from .ordered import Other, new_id
from .position import SUFFIX, Old, Positions, beginning
from .slots import SLOTS, Slots, Unfit

TRIES = 5


def removed(store):
    for name in (*SLOTS, SUFFIX):
        if os.path.exists(store + name):
            os.remove(store + name)


def begin(program, store, log, name):
    """Begins a log with a store, which becomes its first replica."""
    positions = Positions(store)
    try:
        known = positions.read()
    except Old:
        known = None
    if known is not None and log.find() == known.own:
        raise Unfit(f"{store} is replica {known.name} of log {known.log} already")
    # The program makes a store of version 2 of it, and says whether it is one at all.
    done = run([program, "serve", store])
    if done.returncode:
        said = line_of(done.stdout)
        raise Unfit(f"{store} can't be served: adsd serve ended with {done.returncode}" + (f": {said}" if said else ""))
    own, slots = new_id(), Slots(store)
    positions.make(beginning(log.name, own, name, slots.look(), digests.beginning(rows.table(store))))
    slots.close()
    if not log.begin(own):
        os.remove(positions.path)
        raise Other(f"etcd has a log {log.name} already: a new replica begins with a copy of one that follows it")
    log.register(name.encode(), 0, positions.read().told())


def copied(store, new, name, log_of):
    """Makes a copy of a replica's store for a new one; its position. `log_of` gives the log of a position."""
    for path in (new + one for one in (*SLOTS, SUFFIX)):
        if os.path.exists(path):
            raise Unfit(f"{path} exists")
    for _ in range(TRIES):
        position = Positions(store).read()
        if position is None:
            raise Unfit(f"{store} isn't a replica's store: it has no {SUFFIX}")
        log = log_of(position)
        log.anew(name.encode())
        log.register(name.encode(), position.entry, position.told())
        try:
            made = copied_at(store, new, replace(position, name=name))
            return made
        except Unfit as why:
            removed(new)
            fault = why
    raise fault


def cut_to(store, new, position):
    """Makes a store of what another one was at a position."""
    slots = Slots(store)
    try:
        write(new, slots.cut(position.generation, position.records), new=True)
    finally:
        slots.close()
    write(new + SLOTS[1], b"\0", new=True)


def copied_at(store, new, position):
    cut_to(store, new, position)
    Positions(new).make(position)
    return position
