"""Questions to the program about chains of control, over the store that is explored or over what a what-if makes of it:
asked beside all else, one after the other, on a copy that has a name meanwhile. Answers are kept."""

import os
import threading
import uuid
from collections import OrderedDict
from typing import Callable, Sequence, Union

from adsd_tools import control, lines
from adsd_tools.run import run
from adsd_tools.shown import line_of

from .private import Slots, unname

MOST_KEPT, NO_ANSWER = 24, 3
# What is asked: the command, whom it is about, and the frames that are served first.
Key = tuple[str, bytes, bytes]
# What is told; or why nothing is.
Answer = Union[control.Told, str]


class Asking:
    """Asks the program at a path about copies of some slots."""

    def __init__(self, path: str, folder: str, slots: Slots, fail: Callable[[str], None]) -> None:
        self.path, self.folder, self.slots, self.fail = path, folder, slots, fail
        self.kept: OrderedDict[Key, Answer] = OrderedDict()
        self.begun: dict[Key, threading.Thread] = {}
        self.lock, self.one, self.closed = threading.Lock(), threading.Lock(), False

    def told(self, word: str, name: bytes, frames: Sequence[bytes] = ()) -> Union[Answer, None]:
        """What there is of an answer; None while it is asked for."""
        key = word, name, b"".join(frames)
        with self.lock:
            if key in self.kept:
                self.kept.move_to_end(key)
                return self.kept[key]
            if key not in self.begun:
                self.begun[key] = threading.Thread(target=self.run, args=(key,), daemon=True)
                self.begun[key].start()
        return None

    def run(self, key: Key) -> None:
        """Asks, and keeps what is told."""
        try:
            with self.one:
                made = self.asked(*key)
        except Exception as fault:  # noqa: BLE001 (whatever it is, the rest of the page stands)
            made = "the program gave no answer"
            if not self.closed:
                self.fail(f"adsd {key[0]} failed: {type(fault).__name__}: {fault}")
        with self.lock:
            self.kept[key] = made
            self.begun.pop(key)
            while len(self.kept) > MOST_KEPT:
                self.kept.popitem(last=False)

    def close(self) -> None:
        """Nothing is told of what is still asked for: the slots go."""
        self.closed = True

    def asked(self, word: str, name: bytes, frames: bytes) -> Answer:
        """The program's answer over a copy, which then has no name any more."""
        copy = os.path.join(self.folder, f"chains-{uuid.uuid4().hex}")
        try:
            self.slots.put(copy)
            if frames:
                run([self.path, "serve", copy], frames, tell=False)
            done = run([self.path, word, copy, name], tell=False)
        finally:
            unname(copy)
        if done.returncode == NO_ANSWER:
            return lines.reason(word, done.stdout) or "no answer"
        if done.returncode:
            raise OSError(line_of(done.stdout or done.stderr) or f"it ended with {done.returncode}")
        return control.read(done.stdout, word == control.WORD[True])
