"""Runs another program for a companion. What it says on standard error is handed on line by line, each as it is shown
(shown.py), so that no name in it reaches a terminal as it is. Not proved."""

import os
import subprocess
import sys
import threading
from typing import IO, Sequence, Union

from adsd_tools.shown import shown, text_of

# The repository, or the folder into which tools/install puts the program; and the program, as companions call it.
TOP = os.path.dirname(os.path.dirname(os.path.dirname(os.path.abspath(__file__))))
ADSD = os.environ.get("ADSD") or os.path.join(TOP, "adsd")


def say(data: bytes) -> None:
    """Hands on what was said on standard error."""
    for line in text_of(data).removesuffix("\n").split("\n") if data else ():
        try:
            sys.stderr.write(f"{shown(line)}\n")
            sys.stderr.flush()
        except (OSError, ValueError):
            return  # Where nobody takes the lines, the work goes on.


def run(words: Sequence[Union[str, bytes]], given: bytes = b"",
        tell: bool = True) -> "subprocess.CompletedProcess[bytes]":
    """What a program makes of some words and of what it is given, once it has ended; `tell` hands on what it says."""
    done = subprocess.run(words, input=given, stdout=subprocess.PIPE, stderr=subprocess.PIPE)
    if tell:
        say(done.stderr)
    return done


def hand_on(pipe: IO[bytes]) -> threading.Thread:
    """Hands on what comes from a pipe, beside all else, until it ends."""
    def every() -> None:
        with pipe:
            for line in pipe:
                say(line)

    beside = threading.Thread(target=every, daemon=True)
    beside.start()
    return beside
