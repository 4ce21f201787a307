"""The front of a propagation: what is stale and what is pending after each piece of a stream of frames."""

import os
import struct
from dataclasses import dataclass, field
from typing import Dict, FrozenSet, Iterable, List, Optional, Set, Tuple, Union

from adsd_tools.ask import requests
from adsd_tools.rows.accounts import Accounts
from adsd_tools.rows.store import SLOTS

from .effective import Pair, Rights, rights_of
from .html import plural
from .program import Serving, Tell, answered, asked, copy_slots
from .state import State
from .tokens import Token

TOKEN, MESSAGE, STEPS, RUN = 1, 2, 3, 4
WORDS = {0x66: "modify", 0x68: "add", 0x4A: "delete", 0x6C: "rename"}


# What decides on the rights of a token at an object: its class, its descriptor, whether it has an identifier, and what of
# that counts for the token.
Key = Tuple[int, bytes, bool, FrozenSet[int]]


class BadFrames(Exception):
    """Frames that can't be served, with where and why."""


@dataclass
class Snapshot:
    """A moment: what was done last, what is stale and pending then, which descriptors changed since the one before,
    and of these objects all rights that the token had and has now, as triples of kind, name and code."""

    label: str
    state: State
    changed: Set[int] = field(default_factory=set)
    rights: Dict[int, Pair] = field(default_factory=dict)

    def over(self, other: "Snapshot") -> None:
        """Takes in what changed at the moment before, which isn't shown."""
        self.changed |= other.changed
        for number, (before, after) in other.rights.items():
            self.rights[number] = before, self.rights.get(number, (before, after))[1]


def frames_of(data: bytes, accounts: Accounts) -> List[bytes]:
    """The frames of some bytes: frames as they are, or lines of text as `adsd-ask frames` takes them, which may name
    accounts."""
    if data[:1] not in (b"\1", b"\2", b"\3", b"\4"):
        return list(requests.frames(requests.lines_of(data), accounts))
    made: List[bytes] = []
    at = 0
    while at < len(data):
        size = 7 + struct.unpack_from(">I", data, at + 3)[0] if at + 7 <= len(data) else len(data) + 1
        if at + size > len(data) or data[at] > RUN or not data[at]:
            raise BadFrames(f"frame {len(made) + 1} at {at}: it is cut short or of no kind")
        made.append(data[at : at + size])
        at += size
    return made


def label_of(number: int, frame: bytes, body: bytes) -> str:
    """What a frame was, in words, with what its answer told."""
    kind, inner = frame[0], frame[7:]
    if kind in (STEPS, RUN):
        first, _ = struct.unpack(">II", body)
        said = plural(first, "step") if kind == STEPS else f"run, {plural(first, 'object')} changed"
    else:
        tags = [tag for tag in WORDS if bytes([tag]) in inner[2:12]]
        said = WORDS[tags[0]] if len(tags) == 1 else "message"
    return f"frame {number}: {said}"


class Front:
    """Serves frames on a copy and keeps a snapshot after each that moved the front."""

    def __init__(self, path: str, store: str, token: Tuple[Token, bytes], most: int, tell: Tell) -> None:
        """`token` is a pair: the token as words gave it, and its bytes."""
        self.path, self.store, self.token, self.most, self.tell = path, store, token, most, tell
        self.shots: List[Snapshot] = []
        self.known: Dict[Key, Rights] = {}
        self.left_out = 0

    def stamp(self) -> List[Tuple[int, int]]:
        found = [os.stat(self.store + slot) for slot in SLOTS if os.path.exists(self.store + slot)]
        return [(one.st_mtime_ns, one.st_size) for one in found]

    def shot(self, label: str, always: bool) -> None:
        """Keeps a snapshot of the store as it stands, where something of the front moved."""
        before = self.shots[-1] if self.shots else None
        state = State(self.store, before.state if before else None)
        changed = {number for number, one in state.objects.items() if before is not None
                   and (number not in before.state.objects or before.state.objects[number].normal != one.normal)}
        moved = before is None or changed or state.queue != before.state.queue
        if not always and not moved:
            return
        made = Snapshot(label, state, changed, self.gained(before, state, changed))
        if len(self.shots) > self.most:
            self.left_out += 1
            made.over(self.shots.pop())
        self.shots.append(made)
        copy_slots(self.store, self.store + ".before")
        self.tell(f"{len(self.shots) + self.left_out} moments, {len(state.queue)} pending")

    def gained(self, before: Optional[Snapshot], state: State, changed: Set[int]) -> Dict[int, Pair]:
        """What the token had and has now on the changed objects, as the program says of a copy of then and of now."""
        made: Dict[int, Pair] = {}
        if before is None or not changed:
            return made
        copy_slots(self.store, self.store + ".now")
        for number in sorted(changed & before.state.objects.keys()):
            made[number] = (self.rights(before.state, number, ".before"), self.rights(state, number, ".now"))
        return made

    def rights(self, state: State, number: int, copy: str) -> Rights:
        key = key_of(state, number, self.token[0])
        if key not in self.known:
            words: List[Union[str, bytes]] = [self.path, "effective", self.store + copy, state.names[number]]
            self.known[key] = answered(rights_of, asked(words, self.token[1]))
        return self.known[key]

    def serve(self, frames: Iterable[bytes]) -> None:
        """Serves the frames, with a moment at the start."""
        self.shot("at the start", True)
        serving = Serving(self.path, self.store)
        try:
            for number, frame in enumerate(frames, 1):
                before = self.stamp()
                _, body = serving.answer(frame)
                if frame[0] == STEPS or self.stamp() != before:
                    self.shot(label_of(number, frame, body), frame[0] in (STEPS, RUN))
        finally:
            serving.close()

    def ahead(self, steps: int) -> None:
        """Makes so many steps at a time until nothing is pending."""
        made, serving = 0, Serving(self.path, self.store)
        try:
            while self.shots[-1].state.queue:
                _, body = serving.answer(requests.frame(STEPS, 0, struct.pack(">I", steps)))
                made += struct.unpack(">II", body)[0]
                self.shot(f"{plural(made, 'step')} ahead", True)
        finally:
            serving.close()


def touched(shots: Iterable[Snapshot]) -> Set[int]:
    """The objects that are stale, pending or changed at some moment."""
    made: Set[int] = set()
    for shot in shots:
        made |= shot.changed | shot.state.stale | {parent for parent, _ in shot.state.queue}
    return made


def key_of(state: State, number: int, token: Token) -> Key:
    """What decides on the rights of a token at an object: two objects with one key give it the same."""
    own = state.own_sid(number)
    return state.objects[number].of_class, state.objects[number].normal, own is not None, token.answers_to(own)
