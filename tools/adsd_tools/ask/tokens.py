"""The token that a store gives a principal, as the program's command `token` tells it (docs/profile/who.md#token)."""

import struct
from dataclasses import dataclass, field

from adsd_tools import lines
from adsd_tools.run import run
from adsd_tools.shown import line_of, shown

from .words import Wrong

ANSWERED, NO_SUCH_WORDS, NO_ANSWER = 0, 2, 3


class NoToken(Wrong):
    """A name that has no token in a store, with the program's reason."""


class NoCommand(Wrong):
    """A program that is older than the command."""


@dataclass
class Told:
    """A token as the lines have it: bytes of identifiers, and the privileges as a sum."""

    user: bytes = b""
    owner: bytes = b""
    primary: bytes = b""
    groups: list[bytes] = field(default_factory=list)
    privileges: int = 0

    def data(self) -> bytes:
        """The token's bytes, of version 2 (docs/profile/identifiers.md#tokens)."""
        marked = b"".join(b"\x00" + group for group in self.groups)
        head = bytes([2, self.privileges]) + self.user + self.owner + self.primary
        return head + struct.pack(">H", len(self.groups)) + marked + struct.pack(">H", 0)


def read(said: bytes) -> Told:
    """The token of the command's lines."""
    made = Told()
    for word, value in lines.token(said):
        if word == "group" and isinstance(value, bytes):
            made.groups.append(value)
        else:
            setattr(made, word, value)
    return made


def of_store(path: str, store: str, name: str, *more: str) -> Told:
    """The token of a name, with further identifiers, by the program at `path`; NoToken where it has none."""
    try:
        done = run([path, "token", store, name, *more], tell=False)
    except (OSError, ValueError) as fault:
        raise Wrong(f"{path}: {fault}") from None
    if done.returncode == NO_SUCH_WORDS:
        raise NoCommand("the program has no command token, or can't take this name")
    try:
        why = lines.reason("token", done.stdout) if done.returncode == NO_ANSWER else None
        if why is not None:
            raise NoToken(shown(why))
        if done.returncode != ANSWERED:
            raise Wrong(f"adsd token ended with {done.returncode}: {line_of(done.stdout) or 'nothing was said'}")
        return read(done.stdout)
    except lines.Unread as why:
        raise Wrong(str(why)) from None
