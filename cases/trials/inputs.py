"""Inputs that are cut at each place, come in small pieces, or claim sizes that aren't there."""

import fcntl
import os
import re
import struct
import subprocess
import termios

from . import journal, program
from .starts import BOB, FEW, ROOT, TOKEN

LINE = re.compile(rb"line (\d+) [a-z][ -~]*\n")
ALL_KINDS = [
    TOKEN,
    f"modify 1 dn='{BOB}' replace:description='cut'",
    "steps 7",
    "run",
]


class Judge:
    """Counts what was tried, and keeps what was wrong."""

    def __init__(self, built, place, short):
        self.store, self.short = program.Store(built, os.path.join(place, "one")), short
        self.tried, self.wrong = 0, []
        self.base = program.loaded(built, os.path.join(place, "base"))

    def want(self, what, said, expected):
        self.tried += 1
        if said != expected:
            self.wrong.append(f"{what}: {said!r:.120}, expected {expected!r:.120}")

    def run(self, *words, given=b"", slots=None):
        """A call over the store of BASE, or over these slots."""
        self.store.put(slots or self.base)
        return self.store.run(*words, given=given)

    def serve(self, *lines):
        return self.run("serve", "S", given=b"".join(program.frames_of(lines)))


def question():
    """The bytes of a question of `access`, and what is granted."""
    from adsd_tools.ask import words

    token = words.token("S-1-5-21-1-2-3-1104", groups="S-1-5-11", deny="S-1-5-32-546", restricting="S-1-1-0")
    entry = bytes.fromhex("00002400ff010f00") + words.sid("S-1-5-21-1-2-3-1104")
    kind = "ab721a531e2f11d0981900aa0040529b"
    other = bytes.fromhex("05003800ff010f00" "01000000" + kind) + words.sid("S-1-1-0")
    return token, words.sid("S-1-5-18"), acl(entry, other), (0x20094).to_bytes(4, "big")


def acl(*entries, size=None, count=None):
    """A list of these entries, each with its own size in its head, and the list with this size and count in its own."""
    body = b"".join(entry[:2] + len(entry).to_bytes(2, "little") + entry[4:] for entry in entries)
    size = len(body) + 8 if size is None else size
    count = len(entries) if count is None else count
    return b"\4\0" + size.to_bytes(2, "little") + count.to_bytes(2, "little") + b"\0\0" + body


def access_input(token, owner, dacl, want):
    return len(token).to_bytes(4, "big") + token + owner + dacl + want


def cut_frames(judge):
    """Frames of every kind, cut at each byte: what stands before the cut is answered, and nothing of what is cut."""
    stream = b"".join(program.frames_of(ALL_KINDS))
    status, whole = judge.run("serve", "S", given=stream)
    judge.want("the whole stream", status, 0)
    for end in range(len(stream)):
        count, at = program.whole_answers(stream[:end])
        _, said = whole_prefix(whole, count)
        judge.want(f"cut at {end}", judge.run("serve", "S", given=stream[:end]), (0 if at == end else 1, said))


def whole_prefix(answers, count):
    at = 0
    for _ in range(count):
        at += 7 + int.from_bytes(answers[at + 3 : at + 7], "big")
    return count, answers[:at]


def cut_questions(judge):
    """A question of `access`, and a token for `effective`, cut at each byte: refused, and nothing is said."""
    from adsd_tools.ask import words

    whole = access_input(*question())
    judge.want("the whole question", judge.run("access", given=whole)[0], 0)
    for end in range(len(whole)):
        judge.want(f"question cut at {end}", judge.run("access", given=whole[:end]), (1, b""))
    token = words.token("S-1-5-32-544", groups="S-1-5-11", deny="S-1-5-32-546", restricting="S-1-1-0")
    judge.want("the whole token", judge.run("effective", "S", BOB, given=token)[0], 0)
    for end in range(len(token)):
        judge.want(f"token cut at {end}", judge.run("effective", "S", BOB, given=token[:end]), (1, b""))


def cut_texts(judge):
    """BASE's LDIF cut behind each line: it loads, or the line that is said to be at fault is there, or is 0."""
    with open(program.BASE, "rb") as file:
        lines = file.read().splitlines(keepends=True)
    for count in range(len(lines) + 1):
        judge.store.put((None, None))
        status, said = judge.store.run("load", "S", given=b"".join(lines[:count]))
        found = LINE.fullmatch(said)
        refused = status == 1 and found and int(found.group(1)) <= count and judge.store.slots() == (None, None)
        judge.want(f"{count} lines", bool(refused or (status == 0 and said.startswith(b"objects "))), True)


def cut_slots(judge):
    """BASE's first slot cut at each byte: empty where nothing is left, else broken. In short form at some places."""
    first, second = judge.base
    ends = range(len(first))
    if judge.short:
        ends = sorted({*range(30), *range(30, len(first), 997), *range(len(first) - 4, len(first))})
    for end in ends:
        expected = (3, b"store broken\n" if end else b"store empty\n")
        judge.want(f"slot cut at {end}", judge.run("check", "S", slots=(first[:end], second)), expected)
    judge.want("no second slot", judge.run("check", "S", slots=(first, b"")), (3, b"store broken\n"))


def in_pieces(store, words, given, size):
    """The status and the output of a call whose input comes in pieces: so many bytes once those before were read."""
    theirs, ours = os.pipe()
    started = subprocess.Popen([store.program, *words], cwd=store.folder, stdin=theirs, stdout=subprocess.PIPE,
        stderr=subprocess.DEVNULL)
    for at in range(0, len(given), size):
        os.write(ours, given[at : at + size])
        while struct.unpack("i", fcntl.ioctl(theirs, termios.FIONREAD, bytes(4)))[0] and started.poll() is None:
            os.sched_yield()
    os.close(ours)
    os.close(theirs)
    said, _ = started.communicate()
    return started.returncode, said


def pieces(judge):
    """Every command's input in pieces of 1, 2, 3 and 7 bytes: the same status, the same output, the same store."""
    with open(program.BASE, "rb") as file:
        text = file.read()
    calls = [
        (judge.base, ("serve", "S"), b"".join(program.frames_of(FEW))),
        ((None, None), ("load", "S"), text),
        ((None, None), ("access",), access_input(*question())),
        ((None, None), ("sddl",), b"O:BAD:(A;;RPWP;;;AU)(D;;WP;;;BG)\n"),
        (judge.base, ("serve", "S"), b"".join(program.frames_of(FEW))[:-3]),
    ]
    for slots, words, given in calls:
        judge.store.put(slots)
        whole = judge.store.run(*words, given=given), judge.store.slots()
        for size in (1, 2, 3, 7):
            judge.store.put(slots)
            said = in_pieces(judge.store, words, given, size), judge.store.slots()
            judge.want(f"{words[0]} in pieces of {size}", said, whole)


def rows_of(judge, changed):
    """The slots of BASE with some of its rows changed."""
    table = journal.rows(judge.base)
    table.update(changed)
    return journal.written({place: row for place, row in sorted(table.items()) if row is not None})


