"""Inputs and slots that were changed at random places."""

import os
import random
import re
import time

from . import program
from .inputs import access_input, question
from .starts import FEW

TIMES, FEW_TIMES = 3000, 100
# A name that isn't there is told as it stands, whatever its bytes are.
LINE = re.compile(rb"line (\d+) [a-z].*\n", re.S)


def changed(draw, data):
    """The bytes with one to three changes: others in their place, some more, some fewer, or a piece a second time."""
    data = bytearray(data)
    for _ in range(draw.randint(1, 3)):
        at = draw.randrange(len(data) + 1)
        end = min(len(data), at + draw.choice((1, 1, 1, 2, 4, 8, 40)))
        data[at:end] = draw.choice((
            lambda piece: draw.randbytes(len(piece)),
            lambda piece: bytes([draw.choice((0, 1, 0x7F, 0x80, 0xFF))]) * len(piece),
            lambda piece: bytes(byte ^ (1 << draw.randrange(8)) for byte in piece),
            lambda piece: b"",
            lambda piece: piece + piece,
            lambda piece: piece + draw.randbytes(draw.randint(1, 9)),
        ))(data[at:end])
    return bytes(data)


def frames(judge, draw, what):
    """Frames: the status is 0 or 1, the output is whole answers, and the store settles."""
    status, said = judge.run("serve", "S", given=changed(draw, b"".join(program.frames_of(FEW))))
    judge.want(what, status in (0, 1) and program.whole_answers(said)[1] == len(said), True)
    settles(judge, what)


def settles(judge, what):
    """The store as it is stands for a directory, settles, and nothing is stale then."""
    status, said = judge.store.run("settle", "S")
    judge.want(what + ", settle", (status, said.startswith(b"steps ")), (0, True))
    status, said = judge.store.run("check", "S")
    judge.want(what + ", check", (status, b"\npending 0\nstale 0\n" in said), (0, True))


def slots(judge, draw, what):
    """A slot: the store stands for no directory, or it settles."""
    first, second = judge.base
    status, said = judge.run("check", "S", slots=(changed(draw, first), second))
    if status == 0:
        settles(judge, what)
    else:
        judge.want(what, (status, said.startswith(b"store ")), (3, True))


def texts(judge, draw, what):
    """A text of LDIF: a line of it is named, or it loads, and settles."""
    with open(program.BASE, "rb") as file:
        given = changed(draw, file.read())
    judge.store.put((None, None))
    status, said = judge.store.run("load", "S", given=given)
    if status == 0:
        settles(judge, what)
    else:
        found = LINE.fullmatch(said)
        judge.want(what, status == 1 and found and int(found.group(1)) <= given.count(b"\n") + 1, True)


def questions(judge, draw, what):
    """A question: it is answered, or is none."""
    status, said = judge.run("access", given=changed(draw, access_input(*question())))
    judge.want(what, (status, len(said)) in ((0, 9), (1, 0)), True)


def all_kinds(judge):
    """Each kind in turn. What begins the draw is said, and can be given as SEED."""
    seed = int(os.environ.get("SEED", time.time_ns()))
    draw = random.Random(seed)
    for at in range(FEW_TIMES if judge.short else TIMES):
        for one in (frames, slots, texts, questions):
            one(judge, draw, f"{one.__name__} {at} (SEED={seed})")
