"""What has to be so after all faults: the stores hold the same rows, those that one plain `adsd serve` makes of the
entries; each change that was answered stands in the log once, with the answer that the plain run gives, or was refused
without an entry."""

import os
import re
import shutil
import subprocess

from ldap_client import PROGRAM
from adsd_tools.ask.requests import frame
from adsd_tools.ldap import messages
from adsd_tools.ldap.program import DROP, MESSAGE, TOKEN
from adsd_tools.replica import entries
from adsd_tools.rows import store
from replica_world import Late

MARK = re.compile(rb"w\d+-\d+\.")
MOST = 900_000
# What a replica says that ends since it has another directory than the others.
DIFFER = "docs/replicas.md, Replicas that differ"
# So often all is looked at, where the log goes on meanwhile.
TRIES = 20


def all_entries(world):
    """The whole log."""
    log, at, found = world.log(), 1, []
    while True:
        part = log.read(at)
        found += [entries.read(number, data) for number, data in part.found]
        if not part.found:
            return found
        at = part.found[-1][0] + 1


def frames_of(entry):
    """An entry's frames; before a message of nobody the one that takes a token away."""
    first = [(MESSAGE, DROP)] if entry.frames[0][0] == MESSAGE else []
    return b"".join(frame(kind, 0, body) for kind, body in (*first, *entry.frames))


def replayed(world, found, name="plain"):
    """A store that one plain run made of all entries, and the answer to each."""
    path = os.path.join(world.place, name)
    for slot in ("", ".b"):
        shutil.copyfile(world.base + slot, path + slot)
    answers = []
    for at in range(0, len(found), MOST // 2):
        given = b"".join(frames_of(entry) for entry in found[at : at + MOST // 2])
        done = subprocess.run([PROGRAM, "serve", path], input=given, stdout=subprocess.PIPE, check=True)
        said, place = done.stdout, 0
        while place < len(said):
            size = int.from_bytes(said[place + 3 : place + 7], "big")
            if said[place] != 0x80 | TOKEN and size:
                answers.append(said[place + 7 : place + 7 + size])
            place += 7 + size
    return path, answers


def same_rows(first, second):
    """How many rows two stores hold otherwise."""
    one, other = store.table(first), store.table(second)
    return sum(one.get(key) != other.get(key) for key in {*one, *other})


class Lasting(str):
    """What differs, and isn't made by any want of time: it counts at once, and isn't tried again."""


def differences(world, notes=None):
    """All that isn't as it should be. The replicas hold still for it: a keeper's steps would come between. Where they
    weren't at the log's end then, or something came into the log that one of them had sent before, all is looked at
    again."""
    for _ in range(TRIES):
        world.wait("level", world.is_level)
        running = [one for one in world.replicas if one.is_running() and not one.is_stopped]
        for one in running:
            one.stop()
        try:
            found = all_entries(world)
            if all(one.position() == len(found) for one in world.replicas):
                return list(map(Lasting, compared(world, found, notes)))
        finally:
            for one in running:
                one.go_on()
    raise Late(f"the log doesn't come to rest: it has {world.head()} entries")


def compared(world, found, notes):
    """What isn't as a plain run of these entries makes it."""
    path, answers = replayed(world, found)
    wrong = []
    if len(answers) != len(found):
        return [f"{len(found)} entries, {len(answers)} answers"]
    for one in world.replicas:
        count = same_rows(path, one.store)
        if count:
            wrong.append(f"replica {one.name} at {one.position()} differs from a plain run of {len(found)} entries in "
                         f"{count} rows")
    wrong += [f"replica {one.name} has seen that it differs" for one in world.replicas if DIFFER in one.said()]
    ids = [entry.request for entry in found]
    if len(set(ids)) < len(ids):
        wrong.append(f"{len(ids) - len(set(ids))} entries stand twice")
    if [entry.before for entry in found[1:]] != [entry.id for entry in found[:-1]]:
        wrong.append("an entry doesn't name the one before it")
    return wrong + (marked(found, answers, notes) if notes else [])


def marked(found, answers, notes):
    """Where what was answered isn't what the log says."""
    places, wrong = {}, []
    for entry, answer in zip(found, answers):
        kind, body = entry.frames[-1]
        marks = MARK.findall(body) if kind == MESSAGE and not is_other(body) else []
        if marks:
            places.setdefault(marks[-1].decode(), []).append(messages.code_of(answer)[0])
    for mark, code in notes.answers.items():
        codes = places.get(mark, [])
        if len(codes) > 1:
            wrong.append(f"{mark} stands {len(codes)} times in the log")
        elif code is not None and codes != [code] and (codes or not code):
            wrong.append(f"{mark} was answered by {code}, and the log has {codes}")
    return wrong + notes.faults


def is_other(body):
    """Whether a message has no mark of its own: a deletion, or a list."""
    message = messages.read(body)
    return message is None or message.operation == 0x4A or b"nTSecurityDescriptor" in body
