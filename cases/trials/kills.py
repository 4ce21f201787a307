"""Calls of the program that are killed."""

import os
import subprocess
import sys
import time

from . import journal, program


def sizes(store):
    """The lengths of the store's files, None for one that isn't there."""
    paths = [os.path.join(store.folder, name) for name in program.SLOTS]
    return [os.path.getsize(path) if os.path.exists(path) else None for path in paths]


def wait_for_write(started, store, before):
    """Waits until a file of the store has another length than before, or the call has ended."""
    while started.poll() is None and sizes(store) == before:
        pass


def timed(store, words, given):
    """How long a call takes by itself, in all and from its first write on, and what it emits. Its input is an open
    file."""
    before, began = sizes(store), time.monotonic()
    started = subprocess.Popen([store.program, *words], cwd=store.folder, stdin=given, stdout=subprocess.PIPE)
    wait_for_write(started, store, before)
    wrote = time.monotonic()
    said, _ = started.communicate()
    ended = time.monotonic()
    if started.returncode != 0:
        sys.exit(f"adsd {' '.join(words)} ended with {started.returncode}")
    return (ended - began, ended - wrote), said


def killed(store, words, given, after, from_write=False):
    """What a call emitted that was killed so many seconds after its start, or after its first write. Its input is an
    open file."""
    before = sizes(store)
    started = subprocess.Popen([store.program, *words], cwd=store.folder, stdin=given, stdout=subprocess.PIPE)
    if from_write:
        wait_for_write(started, store, before)
    time.sleep(after)
    started.kill()
    emitted = started.stdout.read()
    started.wait()
    return emitted


def moment(draw, took):
    """A random moment of a call that takes so long, earlier ones more often, since to begin and to kill take time."""
    return took * draw.random() ** 2


def is_torn(slots):
    """Whether something stands behind the gate that ends the live slot's records: a record that wasn't taken in."""
    stored = journal.bodies(slots)
    length = journal.HEAD + sum(journal.GATE_AND_LENGTH + len(body) for body in stored) + 1
    return len(journal.live_of(slots)) > length


def tell(phases):
    for left, count in sorted(phases.items(), key=lambda one: -one[1]):
        print(f"  {count:5} left {left}")
