"""Whether a store was made of an export that lacks what matters, and the line that says so. Not proved.

`adsd-import --partial` writes what an export lacks into its LDIF, as a line of the first record of the schema. `adsd
load` keeps the lines of such records, so that the store has it, and so has each copy of the store. A file
STORE.incomplete beside a store says the same of it, by its first line. Every companion that opens a store calls `line`,
`lines` or `warn` here, and shows what comes before all else.
"""

import os
import stat
import struct
import sys
from typing import Optional

from adsd_tools.rows import store as rows
from adsd_tools.shown import shown, text_of

# The line of a schema record, and how the line begins that is shown.
ATTRIBUTE, WORD, SUFFIX = "adsdIncomplete", "INCOMPLETE:", ".incomplete"
MOST = 4000
# How a row has the name of the line: a store that hasn't these bytes needs no further reading.
NAMED = struct.pack(">Q", len(ATTRIBUTE)) + ATTRIBUTE.encode()


def sentence(lacked: str) -> str:
    """The line that is shown, of what an export lacks."""
    return f"{WORD} the export lacked {lacked}; so rights and accounts may be missing here"


def cut(text: str) -> str:
    """A text of others as one line of bounded length."""
    text = shown(text)
    return text if len(text) <= MOST else text[:MOST] + ".."


def beside(path: str) -> Optional[str]:
    """The line that the file beside a store has; None where there is no such file. No link is followed, and a pipe
    isn't waited for: others may write in the folder."""
    try:
        handle = os.open(path + SUFFIX, os.O_RDONLY | os.O_NOFOLLOW | os.O_NONBLOCK)
    except FileNotFoundError:
        return None
    except OSError as fault:
        return f"{WORD} {cut(path)}{SUFFIX}: {fault.strerror}"
    with open(handle, "rb") as opened:
        if not stat.S_ISREG(os.fstat(handle).st_mode):
            return f"{WORD} {cut(path)}{SUFFIX} is no file"
        told = text_of(opened.readline(MOST)).rstrip("\r\n")
    return cut(told if told.startswith(WORD) else f"{WORD} {told}")


def within(path: str) -> Optional[str]:
    """The line of what the store itself says; None where it says nothing, or can't be read, which its reader tells."""
    try:
        if not any(NAMED in data for data in rows.both(path) if data):
            return None
        for _, told in rows.records(path):
            for name, value in told:
                if name == ATTRIBUTE.encode():
                    return sentence(cut(text_of(value)))
    except (rows.Broken, OSError, struct.error, LookupError, ValueError):
        pass
    return None


def line(path: str) -> Optional[str]:
    """`INCOMPLETE: ..` of a store that was made of an export that lacks what matters; else None."""
    return within(path) or beside(path)


def lines(*paths: str) -> list[str]:
    """The lines of some stores, each once."""
    return list(dict.fromkeys(filter(None, map(line, paths))))


def warn(*paths: str) -> list[str]:
    """The same, after they were said on standard error: for a companion whose output is data."""
    told = lines(*paths)
    sys.stderr.write("".join(f"{one}\n" for one in told))
    sys.stderr.flush()
    return told
