"""The program, asked on copies of a store: what it lists, grants and shows, and what it makes of frames."""

import os
import queue
import struct
import subprocess
import sys
import time
from concurrent.futures import ThreadPoolExecutor
from typing import IO, Callable, Dict, Iterable, List, Optional, Sequence, Set, Tuple, TypeVar, Union, cast

from adsd_tools import lines
from adsd_tools.ask import requests
from adsd_tools.files import copy
from adsd_tools.forms import ber
from adsd_tools.rows.store import SLOTS
from adsd_tools.run import ADSD, TOP, hand_on, run
from adsd_tools.shown import line_of, shown, shown_bytes

# Where the program is installed, and what names it in the repository.
INSTALLED, WHICH = os.path.join(TOP, "program"), os.path.join(TOP, "tools", "which-program")
Made = TypeVar("Made")
Tell = Callable[[str], None]
SEARCH, ENTRY, DONE, ALL_OF = 0x63, 0x64, 0x65, 0xA0
SUBTREE = 2
NO_SUCH_WORDS = 2


class Failed(Exception):
    """An answer that isn't the one of a sound store, with what was asked."""


def program() -> str:
    """The path of the program, to be asked on copies: the one that ADSD names, the installed one, or that of the
    repository. A store itself is opened by the launcher alone, which looks at its files."""
    if os.environ.get("ADSD"):
        return ADSD
    if os.path.exists(INSTALLED):
        return INSTALLED
    found = subprocess.run([WHICH, "--must"], stdin=subprocess.DEVNULL, stdout=subprocess.PIPE, text=True)
    if found.returncode:
        raise Failed("there is no program to run: ./adsd --version says why")
    return found.stdout.rstrip("\n")


def asked(words: Sequence[Union[str, bytes]], given: bytes = b"") -> bytes:
    """What the program says to some words; Failed where its status isn't 0."""
    try:
        done = run(words, given)
    except OSError as fault:
        raise Failed(f"{line_of(words[0])}: {fault.strerror}") from None
    if done.returncode:
        said = line_of(done.stdout)
        raise Failed(f"adsd {line_of(words[1])} ended with {done.returncode}: {said or 'nothing was said'}")
    return done.stdout


def answered(reader: Callable[[bytes], Made], said: bytes) -> Made:
    """What one of the readers of lines.py makes of an answer; Failed where it isn't of its form."""
    try:
        return reader(said)
    except lines.Unread as why:
        raise Failed(str(why)) from None


def counts(path: str, store: str) -> Dict[str, int]:
    """The numbers of `check`, by their words."""
    return answered(lines.check, asked([path, "check", store]))


def events(path: str, store: str, frames: Iterable[bytes]) -> Optional[List[lines.Event]]:
    """The events that the frames leave in the security log of a store, or None where the program has no such command."""
    try:
        done = run([path, "audit", store], b"".join(frames), tell=False)
    except OSError as fault:
        raise Failed(f"{path}: {fault.strerror}") from None
    if done.returncode == NO_SUCH_WORDS:
        return None
    if done.returncode:
        raise Failed(f"adsd audit ended with {done.returncode}")
    return answered(lines.audit, done.stdout)


class Copies:
    """Copies of a copied store, so that the program can be asked several things at once: it locks what it opens."""

    def __init__(self, path: str, store: str, count: int, tell: Tell) -> None:
        self.path, self.tell = path, tell
        self.free: "queue.Queue[str]" = queue.Queue()
        self.count = count
        for number in range(count):
            made = f"{store}.{number}"
            copy_slots(store, made)
            self.free.put(made)

    def ask(self, word: str, name: bytes, given: bytes = b"") -> bytes:
        store = self.free.get()
        try:
            return asked([self.path, word, store, name], given)
        finally:
            self.free.put(store)

    def all(self, questions: Iterable[Tuple[str, bytes, bytes]]) -> List[bytes]:
        """The answers to a list of (word, name, input), in order."""
        made, begun = [], time.time()
        with ThreadPoolExecutor(self.count) as pool:
            found = [pool.submit(self.ask, *question) for question in questions]
            for number, one in enumerate(found, 1):
                made.append(one.result())
                if time.time() - begun > 2:
                    self.tell(f"{number} of {len(found)} answers of the program")
        return made


def copy_slots(store: str, made: str) -> None:
    for slot in SLOTS:
        if os.path.exists(store + slot):
            copy(store + slot, made + slot)


class Serving:
    """A run of `serve` on a copy: a frame goes in and its answer is waited for, so the slots can be read between."""

    def __init__(self, path: str, store: str) -> None:
        words = [path, "serve", store]
        try:
            pipe = subprocess.PIPE
            self.child = subprocess.Popen(words, stdin=pipe, stdout=pipe, stderr=pipe, bufsize=0)
        except OSError as fault:
            raise Failed(f"{path}: {fault.strerror}") from None
        # With pipes asked for, they are there.
        self.given, self.told = cast(IO[bytes], self.child.stdin), cast(IO[bytes], self.child.stdout)
        self.said = hand_on(cast(IO[bytes], self.child.stderr))

    def taken(self, size: int) -> bytes:
        made = b""
        while len(made) < size:
            piece = self.told.read(size - len(made))
            if not piece:
                raise Failed(f"adsd serve ended with {self.child.wait()}: {line_of(made) or 'no answer'}")
            made += piece
        return made

    def answer(self, frame: bytes) -> Tuple[int, bytes]:
        """The kind and the body of the answer to a frame."""
        try:
            self.given.write(frame)
        except OSError:
            raise Failed(f"adsd serve ended with {self.child.wait()}") from None
        head = self.taken(7)
        kind, _, size = struct.unpack(">BHI", head)
        return kind, self.taken(size)

    def close(self) -> int:
        self.given.close()
        self.told.close()
        status = self.child.wait()
        self.said.join(1)
        return status


def seen(path: str, store: str, token: bytes, root: bytes) -> Tuple[Set[bytes], Optional[int]]:
    """The names that a token sees, by a search of the whole directory whose filter is true of every object."""
    nothing, enumerated = ber.number(0), ber.ENUMERATED
    asked_for = ber.sequence(
        ber.octets(root), ber.number(SUBTREE, enumerated), ber.number(0, enumerated), nothing, nothing, ber.truth(False),
        ber.sequence(tag=ALL_OF), ber.sequence(ber.octets(b"1.1")), tag=SEARCH)
    frame = requests.frame(2, 1, ber.sequence(ber.number(1), asked_for))
    serving = Serving(path, store)
    try:
        serving.answer(requests.frame(1, 1, token))
        _, body = serving.answer(frame)
    finally:
        serving.close()
    names: Set[bytes] = set()
    code = None
    for _, message in ber.parts(body):
        tag, inner = ber.parts(message)[1]
        if tag == ENTRY:
            names.add(shown_bytes(ber.parts(inner)[0][1]))
        elif tag == DONE:
            code = int.from_bytes(ber.parts(inner)[0][1], "big")
    return names, code


def teller(wanted: bool, name: str = "adsd-report") -> Tell:
    """A function that tells how far the work is, on standard error: where that is a terminal, or it is asked for."""
    last = [0.0]

    def tell(line: str) -> None:
        if (wanted or sys.stderr.isatty()) and time.time() - last[0] > 1:
            last[0] = time.time()
            sys.stderr.write(f"{name}: {shown(line)}\n")

    return tell
