"""Lines of text become frames (docs/profile/frames.md), each with at most one message (RFC 4511)."""

import base64
import shlex
import struct
from typing import Callable, Optional, Union

from adsd_tools.forms import ber, filters
from adsd_tools.rows.accounts import Accounts

from . import records, words
from .words import Wrong

SCOPES = {"base": 0, "one": 1, "sub": 2}
ACTS = ("add", "delete", "replace")
SD_FLAGS = b"1.2.840.113556.1.4.801"


def frame(kind: int, connection: int, body: bytes) -> bytes:
    return struct.pack(">BHI", kind, connection, len(body)) + body


def control(name: bytes, value: bytes) -> bytes:
    return ber.sequence(ber.octets(name), ber.truth(True), ber.octets(value))


def message(number: int, request: bytes, controls: list[bytes]) -> bytes:
    return ber.sequence(ber.number(number), request, *([ber.sequence(*controls, tag=0xA0)] if controls else []))


class Line:
    """A line: its word, its connection, and its `key=value` pairs in order, each of which is to be used."""

    def __init__(self, text: str,
                 split: Callable[[str], list[str]] = lambda text: shlex.split(text, comments=True)) -> None:
        try:
            pieces = split(text)
        except ValueError as wrong:
            raise Wrong(str(wrong)) from None
        self.word, rest = pieces[0], pieces[1:]
        self.number = int(rest.pop(0)) if rest and rest[0].isdigit() else None
        self.connection = 0 if self.word == "steps" else self.number or 0
        if self.connection > 1023:
            raise Wrong("a connection is a number from 0 to 1023")
        self.pairs = [piece.partition("=") for piece in rest]
        bare = [key for key, sign, _ in self.pairs if not sign]
        if bare:
            raise Wrong(f"{bare[0]!r} isn't of the form key=value")

    def take(self, key: str, default: Optional[str] = None) -> str:
        found = [pair for pair in self.pairs if pair[0] == key]
        if len(found) > 1:
            raise Wrong(f"{key} is given twice")
        if not found:
            if default is None:
                raise Wrong(f"{self.word} needs {key}=")
            return default
        self.pairs.remove(found[0])
        return found[0][2]

    def ended(self) -> None:
        if self.pairs:
            raise Wrong(f"{self.word} takes no {self.pairs[0][0]}=")


def value_of(text: str) -> bytes:
    """The bytes of a value: text, or base64 behind `base64:`, or the bytes of an identifier behind `sid:`."""
    if text.startswith("base64:"):
        return base64.b64decode(text[7:], validate=True)
    if text.startswith("sid:"):
        return words.sid(text[4:])
    if text.startswith("sddl:"):
        return words.descriptor(text[5:])
    return text.encode()


def yes(text: str) -> bool:
    if text not in ("yes", "no"):
        raise Wrong(f"{text!r} is neither yes nor no")
    return text == "yes"


def sd_control(line: Line) -> list[bytes]:
    parts = words.listed(line.take("sd", ""))
    unknown = [part for part in parts if part not in words.PARTS]
    if unknown:
        raise Wrong(f"{unknown[0]!r} isn't a part of a descriptor; these are: {', '.join(words.PARTS)}")
    flags = sum(words.PARTS[part] for part in set(parts))
    return [control(SD_FLAGS, ber.sequence(ber.number(flags)))] if flags else []


def search(line: Line) -> tuple[bytes, list[bytes]]:
    controls = sd_control(line)
    scope = line.take("scope", "base")
    if scope not in SCOPES:
        raise Wrong(f"{scope!r} isn't a scope; these are: {', '.join(SCOPES)}")
    attributes = [ber.octets(name.encode()) for name in words.listed(line.take("attrs", ""))]
    made = ber.sequence(
        ber.octets(line.take("base").encode()), ber.number(SCOPES[scope], ber.ENUMERATED), ber.number(0, ber.ENUMERATED),
        ber.number(int(line.take("size", "0"))), ber.number(0), ber.truth(yes(line.take("types-only", "no"))),
        filters.read(line.take("filter", "(objectClass=*)")), ber.sequence(*attributes), tag=0x63)
    return made, controls


def compare(line: Line) -> tuple[bytes, list[bytes]]:
    pair = ber.sequence(ber.octets(line.take("attr").encode()), ber.octets(value_of(line.take("value"))))
    return ber.sequence(ber.octets(line.take("dn").encode()), pair, tag=0x6E), []


def add(line: Line) -> tuple[list[str], list[bytes]]:
    controls, dn = sd_control(line), line.take("dn")
    found: dict[str, list[bytes]] = {}
    for key, _, value in line.pairs:
        found.setdefault(key, []).append(value_of(value))
    line.pairs = []
    return records.added(dn, found.items()), controls


def modify(line: Line) -> tuple[list[str], list[bytes]]:
    controls, dn = sd_control(line), line.take("dn")
    items: list[tuple[str, str, list[bytes]]] = []
    last = None
    for key, _, value in line.pairs:
        act, sign, name = key.partition(":")
        if act not in ACTS or not sign:
            raise Wrong(f"{key!r} isn't one of add:NAME, delete:NAME, replace:NAME")
        if key != last:
            items.append((act, name, []))
        if value or act == "add":
            items[-1][2].append(value_of(value))
        last = key
    line.pairs = []
    return records.modified(dn, items), controls


def delete(line: Line) -> tuple[list[str], list[bytes]]:
    return records.deleted(line.take("dn"), yes(line.take("tree", "no"))), []


def rename(line: Line) -> tuple[list[str], list[bytes]]:
    return records.renamed(line.take("dn"), line.take("rdn"), line.take("superior", "")), []


def unbind(line: Line) -> tuple[bytes, list[bytes]]:
    return ber.octets(b"", tag=0x42), []


# A request, and what a change record can't say of one: searches, compares, unbinds, and controls with a value.
OWN = {"search": search, "compare": compare, "unbind": unbind}
CHANGES = {"add": add, "modify": modify, "delete": delete, "rename": rename}
MESSAGES = (*OWN, *CHANGES)
TOKEN_WORDS = ("owner", "primary", "groups", "deny", "restricting")


def operation(line: Line) -> tuple[bytes, list[bytes]]:
    """The request of a line of a message, and its controls."""
    if line.word in OWN:
        request, controls = OWN[line.word](line)
        line.ended()
        return request, controls
    record, controls = CHANGES[line.word](line)
    line.ended()
    (request, own), = records.requests([record])
    return request, own + controls


class Message:
    """What one line says of a message: its connection, its request or the record of its change, and its controls."""

    def __init__(self, at: int, line: Line) -> None:
        self.at, self.connection = at, line.connection
        self.record: list[str] = []
        self.request = b""
        if line.word in OWN:
            self.request, self.controls = OWN[line.word](line)
        else:
            self.record, self.controls = CHANGES[line.word](line)

    def frame(self, number: int) -> bytes:
        return frame(2, self.connection, message(number, self.request, self.controls))


def one_line(at: int, text: str, accounts: Optional[Accounts] = None) -> Union[Message, bytes]:
    """The frame of a line, or what it says of a message. Tokens may name these accounts."""
    line = Line(text)
    if line.word == "token":
        given = {key: line.take(key, "") for key in TOKEN_WORDS}
        given["privileges_of"] = line.take("privileges", "")
        token = words.token(line.take("user"), accounts=accounts, **given)
        made: Union[Message, bytes] = frame(1, line.connection, token)
    elif line.word == "steps":
        made = frame(3, 0, struct.pack(">I", line.number or 1_000_000))
    elif line.word == "run":
        made = frame(4, line.connection, b"")
    elif line.word in MESSAGES:
        made = Message(at, line)
    else:
        raise Wrong(f"{line.word!r} isn't one of token, {', '.join(MESSAGES)}, steps, run")
    line.ended()
    return made


def fill(messages: list[Message]) -> None:
    """Gives the messages that are changes their requests, all in one call of the program."""
    changes = [message for message in messages if message.record]
    try:
        found = records.requests([message.record for message in changes])
    except records.Faulty as wrong:
        raise Wrong(f"line {changes[wrong.place].at}: {wrong}") from None
    for message, (request, controls) in zip(changes, found):
        message.request, message.controls = request, controls + message.controls


def lines_of(data: bytes) -> list[str]:
    """The lines of some bytes: each ends with LF, before which a CR may stand, and with nothing else."""
    made = []
    for at, line in enumerate(data.split(b"\n"), 1):
        try:
            made.append(line.removesuffix(b"\r").decode())
        except UnicodeDecodeError:
            raise Wrong(f"line {at}: it isn't UTF-8") from None
    return made


def frames(lines: list[str], accounts: Optional[Accounts] = None) -> list[bytes]:
    """The frames of lines of text, whose tokens may name these accounts; empty lines and those that begin with # are
    passed over. Messages are numbered from 1."""
    made = []
    for at, text in enumerate(lines, 1):
        if text.strip() and not text.lstrip().startswith("#"):
            try:
                made.append(one_line(at, text, accounts))
            except (Wrong, filters.NoFilter, ValueError) as wrong:
                raise Wrong(f"line {at}: {wrong}") from None
    messages = [one for one in made if isinstance(one, Message)]
    fill(messages)
    numbers = {id(one): number for number, one in enumerate(messages, 1)}
    return [one.frame(numbers[id(one)]) if isinstance(one, Message) else one for one in made]
