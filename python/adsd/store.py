"""A store, asked through the program `adsd`."""

import os
import struct
import subprocess
import tempfile
from dataclasses import dataclass, field
from typing import Any, Dict, Iterable, Iterator, List, Optional, Sequence, Tuple

from . import _arguments as arguments
from ._ask import ber, filters
from .tokens import Token

_SCOPES = {"base": 0, "one": 1, "sub": 2}
_ACTS = {"add": 0, "delete": 1, "replace": 2}
_SD_FLAGS = b"1.2.840.113556.1.4.801"
# The greatest number of LDAP (RFC 4511 4.1.1), and as many steps as a frame may ask for (docs/profile/frames.md).
_MOST, _STEPS = 0x7FFFFFFF, 1_000_000


@dataclass(frozen=True)
class Result:
    """How an operation ended: LDAP's code, the part of the name that exists, and the text."""

    code: int
    matched: str
    text: str


@dataclass(frozen=True)
class Entry:
    """What a search shows of an object: its name, and the values of its attributes in bytes."""

    dn: str
    attributes: Dict[str, List[bytes]] = field(default_factory=dict)


class StoreError(RuntimeError):
    """The program ended otherwise than it should: its status, and what it said."""


def _frame(kind: int, body: bytes) -> bytes:
    return struct.pack(">BHI", kind, 0, len(body)) + body


def _caller(token: Optional[Token]) -> Optional[Token]:
    """Whose the call is; nobody's where that is None, and by nothing else."""
    return None if token is None else arguments.kind(token, "token", Token)


def _filter(value: str) -> bytes:
    arguments.text(value, "filter")
    try:
        made: bytes = filters.read(value)
        return made
    except filters.NoFilter as fault:
        raise ValueError(f"filter: {fault}") from None
    except RecursionError:
        raise ValueError("filter: it is too deep") from None


def _change(value: Any, name: str) -> bytes:
    act, attribute, values = arguments.row(value, name, "an act, an attribute and values", 3)
    number, named = arguments.choice(act, f"{name}, act", _ACTS), arguments.text(attribute, f"{name}, attribute")
    given = arguments.pieces(values, f"{name}, values", arguments.octets, ordered=False)
    item = ber.sequence(ber.octets(named), _sequence_of(given, ber.SET))
    made: bytes = ber.sequence(ber.number(number, ber.ENUMERATED), item)
    return made


def _sequence_of(values: Iterable[bytes], tag: int) -> bytes:
    return ber.sequence(*map(ber.octets, values), tag=tag)


class Store:
    """A store of the program, whose rules are proved. Each call runs the program once, under the token of the call.

        store = Store("corp")
        store.search(token, "DC=corp,DC=example", scope="sub", filter="(cn=bob)", attributes=["mail"])

    `program` is the command, `adsd` or what ADSD names. A directory without a token has an anonymous caller.
    """

    def __init__(self, path: "str | os.PathLike[str]", program: Optional[str] = None) -> None:
        if not isinstance(path, (str, os.PathLike)):
            raise arguments.other_kind(path, "path", "a path")
        self.path = os.fsdecode(path)
        if not self.path or "\0" in self.path:
            raise ValueError(f"path: {self.path!r} is no file's")
        if program is not None and not arguments.word(program, "program"):
            raise ValueError("program: it is empty")
        self.program = program or os.environ.get("ADSD") or "adsd"

    def _run(self, words: "Sequence[str | bytes]", data: bytes = b"") -> bytes:
        # (what is read stands in a file, so that no pipe fills while the program answers)
        with tempfile.TemporaryFile() as given:
            given.write(data)
            given.seek(0)
            done = subprocess.run([self.program, *words], stdin=given, stdout=subprocess.PIPE, stderr=subprocess.PIPE, check=False)
        if done.returncode:
            said = done.stdout[-200:] + done.stderr[-200:]
            raise StoreError(f"{self.program} {words[0]} ended with {done.returncode}: {said.decode('utf-8', 'replace').strip()}")
        return done.stdout

    def _answers(self, token: Optional[Token], frames: Sequence[bytes]) -> Iterator[bytes]:
        """The bodies of the answers to frames, behind that to the token."""
        first = [_frame(1, token.to_bytes())] if token is not None else []
        data, at, left = self._run(["serve", self.path], b"".join([*first, *frames])), 0, len(first)
        while at < len(data):
            size = struct.unpack_from(">I", data, at + 3)[0]
            if left == 0:
                yield data[at + 7 : at + 7 + size]
            left = max(0, left - 1)
            at += 7 + size

    def _messages(self, token: Optional[Token], request: bytes, sd_flags: int = 0) -> List[Tuple[int, bytes]]:
        caller, flags = _caller(token), arguments.number(sd_flags, "sd_flags", _MOST)
        value = ber.octets(ber.sequence(ber.number(flags)))
        control = [ber.sequence(ber.octets(_SD_FLAGS), ber.truth(True), value)] if flags else []
        message = ber.sequence(ber.number(1), request, *([ber.sequence(*control, tag=0xA0)] if control else []))
        body = next(iter(self._answers(caller, [_frame(2, message)])), b"")
        return [ber.parts(inner)[1] for _, inner in ber.parts(body)]

    def _result(self, messages: List[Tuple[int, bytes]]) -> Result:
        if not messages:
            raise StoreError("the program answered nothing")
        code, matched, text = (part[1] for part in ber.parts(messages[-1][1])[:3])
        return Result(int.from_bytes(code, "big"), matched.decode("utf-8", "replace"), text.decode("utf-8", "replace"))

    def search(self, token: Optional[Token], base: str, scope: str = "base", filter: str = "(objectClass=*)",
               attributes: Sequence[str] = (), size: int = 0, sd_flags: int = 0) -> Tuple[List[Entry], Result]:
        """What the token sees: the entries, and how the search ended. Scopes are `base`, `one` and `sub`."""
        top, wide = arguments.text(base, "base"), arguments.choice(scope, "scope", _SCOPES)
        most, named = arguments.number(size, "size", _MOST), arguments.pieces(attributes, "attributes", arguments.text,
                                                                              ordered=False)
        request = ber.sequence(
            ber.octets(top), ber.number(wide, ber.ENUMERATED), ber.number(0, ber.ENUMERATED), ber.number(most),
            ber.number(0), ber.truth(False), _filter(filter), _sequence_of(named, ber.SEQUENCE), tag=0x63)
        messages, found = self._messages(token, request, sd_flags), []
        for tag, body in messages:
            if tag == 0x64:
                (_, dn), (_, shown) = ber.parts(body)
                pairs = [ber.parts(one) for _, one in ber.parts(shown)]
                found.append(Entry(dn.decode(), {name.decode(): [v for _, v in ber.parts(values)] for (_, name), (_, values) in pairs}))
        return found, self._result(messages)

    def modify(self, token: Optional[Token], dn: str, changes: Sequence[Tuple[str, str, Sequence[bytes]]], sd_flags: int = 0) -> Result:
        """Changes an object: each change is `add`, `delete` or `replace`, an attribute, and values."""
        items = arguments.pieces(changes, "changes", _change)
        request = ber.sequence(ber.octets(arguments.text(dn, "dn")), ber.sequence(*items), tag=0x66)
        return self._result(self._messages(token, request, sd_flags))

    def steps(self, count: int = 1_000_000) -> Tuple[int, int]:
        """Makes so many steps of propagation: how many were made, and how many are pending then."""
        asked = struct.pack(">I", arguments.number(count, "count", _STEPS, least=1))
        return struct.unpack(">II", next(self._answers(None, [_frame(3, asked)])))

    def run(self) -> Tuple[int, int]:
        """Makes a protection run: how many objects changed, and how many are protected."""
        return struct.unpack(">II", next(self._answers(None, [_frame(4, b"")])))

    def list(self, dn: str) -> str:
        """The lines of `adsd list`: what stands in the descriptor of an object."""
        return self._run(["list", self.path, arguments.word(dn, "dn")]).decode()

    def effective(self, token: Token, dn: str) -> str:
        """The lines of `adsd effective`: what the token may do at an object."""
        caller = arguments.kind(token, "token", Token)
        return self._run(["effective", self.path, arguments.word(dn, "dn")], caller.to_bytes()).decode()
