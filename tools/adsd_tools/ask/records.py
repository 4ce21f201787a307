"""Changes as change records (RFC 2849), and the requests that `adsd change` makes of them: nothing here spells a change."""

import base64
import re
import struct
from typing import Iterable, Iterator

from adsd_tools.forms import ber
from adsd_tools.run import ADSD, run
from adsd_tools.shown import text_of

from .words import Wrong

TREE_DELETE = b"1.2.840.113556.1.4.805"
HEADER = struct.Struct(">BHI")
FAULT = re.compile(r"line ([1-9][0-9]*) ([^\n]+)\n")


def spelled(name: str, value: bytes) -> str:
    """A line of a record, whatever its value."""
    return f"{name}:: {base64.b64encode(value).decode()}" if value else f"{name}:"


def record(dn: str, kind: str, lines: list[str], controls: Iterable[bytes] = ()) -> list[str]:
    """The lines of a record; its controls have no value and are critical."""
    asked = [f"control: {name.decode()} true" for name in controls]
    return [spelled("dn", dn.encode()), *asked, f"changetype: {kind}", *lines]


def added(dn: str, attributes: Iterable[tuple[str, list[bytes]]]) -> list[str]:
    return record(dn, "add", [spelled(name, value) for name, values in attributes for value in values])


def modified(dn: str, items: list[tuple[str, str, list[bytes]]]) -> list[str]:
    """Items of a word, a name and values, in order."""
    return record(dn, "modify", [line for act, name, values in items
                                 for line in (f"{act}: {name}", *(spelled(name, value) for value in values), "-")])


def deleted(dn: str, tree: bool) -> list[str]:
    return record(dn, "delete", [], [TREE_DELETE] if tree else [])


def renamed(dn: str, rdn: str, superior: str) -> list[str]:
    """The old naming value goes."""
    behind = [spelled("newsuperior", superior.encode())] if superior else []
    return record(dn, "modrdn", [spelled("newrdn", rdn.encode()), "deleteoldrdn: 1", *behind])


class Faulty(Wrong):
    """The first record that is none: its place among them, and the program's word for why."""

    def __init__(self, place: int, why: str) -> None:
        super().__init__(f"no change record: {why}")
        self.place = place


def place_of(records: list[list[str]], line: int) -> int:
    """The record that this line, counted from 1, stands in."""
    for place, lines in enumerate(records):
        line -= len(lines) + 1
        if line <= 0:
            return place
    return len(records) - 1


def requests(records: list[list[str]]) -> list[tuple[bytes, list[bytes]]]:
    """The request of each record as an element, and its controls as elements."""
    if not records:
        return []
    text = "\n\n".join("\n".join(lines) for lines in records) + "\n"
    done = run([ADSD, "change"], text.encode())
    fault = FAULT.fullmatch(text_of(done.stdout)) if done.returncode == 1 else None
    if fault:
        raise Faulty(place_of(records, int(fault[1])), fault[2])
    if done.returncode:
        raise Wrong(f"adsd change ended with {done.returncode}")
    return [message_parts(body) for body in bodies(done.stdout)]


def bodies(frames: bytes) -> Iterator[bytes]:
    at = 0
    while at < len(frames):
        size = HEADER.unpack_from(frames, at)[2]
        at += HEADER.size + size
        yield frames[at - size : at]


def message_parts(body: bytes) -> tuple[bytes, list[bytes]]:
    """A message without its number: the request, and the controls."""
    (_, message), = ber.parts(body)
    _, (tag, inner), *behind = ber.parts(message)
    return ber.element(tag, inner), [ber.element(*control) for _, held in behind for control in ber.parts(held)]
