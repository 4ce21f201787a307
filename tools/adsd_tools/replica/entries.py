"""The entries of the log: a version, the id of the entry before, the number of a request, and the frames that each
replica gives to its program.

The frames are those of docs/profile/frames.md, on connection 0: a token and a message, a message alone (of nobody), a
count of steps, or a run. The number of a request is 16 bytes: whoever put an entry knows it again by that. They are
random, or made of the name that a client gave to its request.

An entry that is signed or sealed (seal.py) has version 3, and says so in a byte behind the request's number.

An entry's id is the SHA-256 of its bytes, and so of the id before it too: two logs that have one id at one place have
the same entries up to there. Before the first entry stands the id that a log begins with, made of who it is. What waits
to be put is an entry's content alone: which entry stands before it is known when it is put."""

import hashlib
import os
import struct
from dataclasses import dataclass
from typing import Tuple

from adsd_tools.ask.requests import frame
from adsd_tools.ldap.program import HEADER, MESSAGE, RUN, STEPS, TOKEN

from .seal import PLAIN, Unsealed

VERSION, KEYED = b"\x02", b"\x03"
ID, REQUEST = 32, 16
FRONT = 1 + ID + REQUEST
# How the number of a request begins that a client gave a name to.
NAMED = b"name"
# What a frame takes (docs/profile/frames.md).
MOST_BODY, MOST_STEPS = 1_048_576, 1_000_000
# As many bytes as an entry may have: etcd takes requests of 1.5 MB, and of an entry the key and the log's head besides.
MOST = 1_500_000
FORMS = ((TOKEN, MESSAGE), (MESSAGE,), (STEPS,), (RUN,))


class Broken(Exception):
    """Bytes that are no entry."""


@dataclass(frozen=True)
class Entry:
    """An entry: its place in the log, its id and that of the entry before, the request's number, and its frames, each a
    kind and a body."""

    number: int
    id: bytes
    before: bytes
    request: bytes
    frames: Tuple[Tuple[int, bytes], ...]


@dataclass(frozen=True)
class Head:
    """An entry's number and id: where a log ends, or a replica stands."""

    number: int
    id: bytes

    def told(self):
        return f"{self.number} ({self.id.hex()})"


def beginning(own):
    """Where a log that has no entry ends."""
    return Head(0, hashlib.sha256(b"adsd-replica log " + own).digest())


def made(*frames, request=b""):
    """The content of a new entry."""
    return (request or os.urandom(REQUEST)) + b"".join(frame(kind, 0, body) for kind, body in frames)


def of_message(token, body, request=b""):
    """An entry of a change by somebody; without a token it is nobody's."""
    return made(*([(TOKEN, token)] if token else []), (MESSAGE, body), request=request)


def named(whose, name):
    """The number of a request that somebody gave a name to."""
    told = hashlib.sha256(b"%d " % len(whose) + whose + name).digest()
    return NAMED + told[: REQUEST - len(NAMED)]


def is_named(request):
    return request.startswith(NAMED)


def of_steps(count):
    return made((STEPS, struct.pack(">I", count)))


def of_run():
    return made((RUN, b""))


def request_of(content):
    return content[:REQUEST]


def chained(head, contents, own=b"", keys=PLAIN):
    """The bytes of entries behind a head, one after the other, and the head after them."""
    found = []
    for content in contents:
        request, body = content[:REQUEST], content[REQUEST:]
        if keys.flags:
            front = KEYED + head.id + request + bytes([keys.flags])
        else:
            front = VERSION + head.id + request
        found.append(front + keys.closed(own, front, body))
        head = Head(head.number + 1, id_of(found[-1]))
    return found, head


def id_of(data):
    return hashlib.sha256(data).digest()


def before_of(data):
    return data[1 : 1 + ID]


def read(number, data, own=b"", keys=PLAIN):
    """The entry that stands at a place of the log; Broken where these bytes are none that is taken here."""
    if data[:1] not in (VERSION, KEYED) or len(data) < FRONT:
        raise Broken(f"entry {number} is none that is known here")
    end = FRONT + (data[:1] == KEYED)
    try:
        flags = data[FRONT] if end > FRONT else 0
        body = keys.opened(own, data[:end], flags, data[end:])
    except IndexError:
        raise Broken(f"entry {number} is cut short") from None
    except Unsealed as why:
        raise Broken(f"entry {number} {why}") from None
    return Entry(number, id_of(data), before_of(data), data[1 + ID : FRONT], frames_of(number, body))


def frames_of(number, body):
    """The frames of an entry."""
    at, frames = 0, []
    while at < len(body):
        head = body[at : at + HEADER]
        if len(head) < HEADER or head[1:3] != b"\0\0":
            raise Broken(f"entry {number} has no whole frame")
        size = int.from_bytes(head[3:], "big")
        at += HEADER + size
        if at > len(body):
            raise Broken(f"entry {number} is cut short")
        frames.append((head[0], body[at - size : at]))
    if tuple(kind for kind, _ in frames) not in FORMS or not all(is_frame(*one) for one in frames):
        raise Broken(f"entry {number} has other frames than an entry has")
    return tuple(frames)


def is_frame(kind, body):
    """Whether the program takes a frame, as far as its length and its steps say."""
    if kind == STEPS:
        return len(body) == 4 and 1 <= int.from_bytes(body, "big") <= MOST_STEPS
    return not body if kind == RUN else len(body) <= MOST_BODY


def skipped(number, data):
    """What stands for an entry that is passed over: it has no frames."""
    return Entry(number, id_of(data), before_of(data), data[1 + ID : FRONT].ljust(REQUEST, b"\0"), ())
