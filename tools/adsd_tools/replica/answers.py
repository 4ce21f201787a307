"""What named requests were answered, in a file beside the store: so one that comes again is answered as before, also by
a replica that was started anew meanwhile.

A record is written before the position that counts its entry, and both are synced. Where the file has grown to twice
what is kept, the newest half of it is written anew."""

import os
import struct
import zlib
from dataclasses import dataclass

from adsd_tools.files import put, write

SUFFIX = ".answers"
HEAD = struct.Struct(">Q16sI")
# So many bytes of the newest records are kept, and so many stand in the file at most before it is written anew.
KEPT = 8 << 20
MOST = 2 * KEPT


@dataclass(frozen=True)
class Answer:
    """What was answered to the entry of a named request."""

    number: int
    request: bytes
    reply: bytes

    def record(self):
        made = HEAD.pack(self.number, self.request, len(self.reply)) + self.reply
        return made + zlib.crc32(made).to_bytes(4, "big")


def read(data):
    """The records of some bytes, as far as they are whole."""
    at, found = 0, []
    while at + HEAD.size <= len(data):
        number, request, size = HEAD.unpack_from(data, at)
        end = at + HEAD.size + size
        if data[end : end + 4] != zlib.crc32(data[at:end]).to_bytes(4, "big"):
            break
        found.append(Answer(number, request, data[at + HEAD.size : end]))
        at = end + 4
    return found


class Unsynced:
    """The file of the answers, open once more."""

    def __init__(self, file):
        self.file = file

    def sync(self):
        try:
            os.fdatasync(self.file)
        finally:
            os.close(self.file)


class Answers:
    """The answers of a store's replica."""

    def __init__(self, store):
        self.path, self.file, self.size, self.known, self.is_synced = store + SUFFIX, None, 0, {}, True

    def open(self, number):
        """Reads what stands there, up to an entry: what is behind it is given to the program once more."""
        try:
            with open(self.path, "rb") as file:
                found = [one for one in read(file.read()) if one.number <= number]
        except FileNotFoundError:
            return
        self.known = {one.request: one for one in found}
        self.anew()

    def anew(self):
        """Writes the newest records, and keeps no others."""
        kept, size, known = [], 0, list(self.known.values())
        for one in reversed(known):
            size += len(one.record())
            if size > KEPT:
                break
            kept.append(one)
        for one in known[: len(known) - len(kept)]:
            self.known.pop(one.request, None)
        self.close()
        data = b"".join(one.record() for one in reversed(kept))
        write(self.path, data)
        self.size, self.is_synced = len(data), True

    def note(self, answer):
        """Keeps an answer in mind. (The first one to a request stays.)"""
        self.known.setdefault(answer.request, answer)

    def write(self, some):
        """Writes records behind the others; they aren't synced yet."""
        data = b"".join(one.record() for one in some)
        if self.file is None:
            if not os.path.exists(self.path):
                write(self.path, b"")
            self.file = os.open(self.path, os.O_WRONLY | os.O_APPEND | os.O_NOFOLLOW | os.O_CLOEXEC)
        put(self.file, (data,))
        self.size, self.is_synced = self.size + len(data), False
        if self.size > MOST:
            self.anew()

    def unsynced(self):
        """What has to be synced, in another thread; None where nothing has."""
        if self.is_synced or self.file is None:
            return None
        self.is_synced = True
        return Unsynced(os.dup(self.file))

    def close(self):
        if self.file is not None:
            os.close(self.file)
            self.file = None
