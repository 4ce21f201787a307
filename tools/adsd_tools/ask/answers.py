"""The frames that `adsd serve` answers, as LDIF and words."""

import base64
import struct
from typing import Iterator, Optional

from adsd_tools.forms import ber
from adsd_tools.forms import descriptor as descriptors
from adsd_tools.forms.rights import codes
from adsd_tools.forms.sids import text_of_guid, text_of_sid
from adsd_tools.shown import shown, text_of

CODES = {
    0: "success", 2: "protocol error", 4: "size limit exceeded", 5: "compare false", 6: "compare true", 7: "authentication method not supported",
    11: "admin limit exceeded", 12: "unavailable critical extension", 16: "no such attribute", 17: "undefined attribute type",
    19: "constraint violation", 20: "attribute or value exists", 21: "invalid attribute syntax", 32: "no such object", 34: "invalid DN syntax",
    50: "insufficient access rights", 53: "unwilling to perform", 64: "naming violation", 65: "object class violation",
    66: "not allowed on non-leaf", 67: "not allowed on RDN", 68: "entry already exists", 69: "object class modification prohibited",
}
OPERATIONS = {0x61: "bind", 0x65: "search", 0x67: "modify", 0x69: "add", 0x6B: "delete", 0x6D: "rename", 0x6F: "compare", 0x78: "extended"}
KINDS, OBJECT_KINDS = ("A", "D", "AU"), ("OA", "OD", "OU")
FLAGS = {1: "OI", 2: "CI", 4: "NP", 8: "IO", 16: "ID", 64: "SA", 128: "FA"}


class Broken(Exception):
    """Bytes that are no answers."""


def entry_text(entry: descriptors.Entry) -> str:
    kind = (OBJECT_KINDS if entry.object or entry.inherited else KINDS)[entry.kind]
    flags = "".join(name for bit, name in FLAGS.items() if entry.flags & bit)
    guids = [text_of_guid(guid) if guid else "" for guid in (entry.object, entry.inherited)]
    return "(" + ";".join([kind, flags, "".join(codes(entry.mask)), *guids, text_of_sid(entry.sid)]) + ")"


def list_text(acl: descriptors.Acl) -> str:
    return ("P" if acl.protected else "") + "".join(map(entry_text, acl.entries))


def descriptor_text(data: bytes) -> Optional[str]:
    """A descriptor's parts as SDDL, or None where the bytes are none."""
    try:
        made, _ = descriptors.read(data)
    except (descriptors.Unreadable, struct.error, IndexError):
        return None
    text = f"O:{text_of_sid(made.owner)}" if made.owner else ""
    text += f"G:{text_of_sid(made.group)}" if made.group else ""
    text += f"D:{list_text(made.dacl)}" if made.dacl else ""
    return text + (f"S:{list_text(made.sacl)}" if made.sacl else "")


def value_line(name: str, value: bytes) -> str:
    if name.lower() == "ntsecuritydescriptor":
        text = descriptor_text(value)
        if text is not None:
            return f"# {name} {text}"
    if name.lower() == "objectsid" and len(value) >= 8 and len(value) == 8 + 4 * value[1]:
        return f"# {name} {text_of_sid(value)}\n{name}:: {base64.b64encode(value).decode()}"
    plain = all(32 <= byte < 127 for byte in value) and not value[:1] in (b" ", b":", b"<") and not value.endswith(b" ")
    return f"{name}: {value.decode()}" if plain else f"{name}:: {base64.b64encode(value).decode()}"


def entry_lines(body: bytes) -> list[str]:
    (_, dn), (_, attributes) = ber.parts(body)
    lines = [value_line("dn", dn)]
    for _, held in ber.parts(attributes):
        (_, named), (_, values) = ber.parts(held)
        found, name = [value for _, value in ber.parts(values)], shown(text_of(named))
        lines += [value_line(name, value) for value in found] or [f"# {name} without values"]
    return lines + [""]


def result_lines(tag: int, body: bytes) -> list[str]:
    fields = ber.parts(body)
    code, matched, text = (field[1] for field in fields[:3])
    number = int.from_bytes(code, "big")
    told = f"# {OPERATIONS.get(tag, hex(tag))}: {number} {CODES.get(number, '')}".rstrip()
    told += f", matched {text_of(matched)}" if matched else ""
    return [shown(told + (f", {text_of(text)}" if text else "")), ""]


def message_lines(body: bytes) -> list[str]:
    lines = []
    for _, message in ber.parts(body):
        (_, number), (tag, inner) = ber.parts(message)[:2]
        if not any(number):
            lines += ["# notice of disconnection: what was sent is no message", ""]
        else:
            lines += entry_lines(inner) if tag == 0x64 else result_lines(tag, inner)
    return lines


def frame_lines(kind: int, connection: int, body: bytes) -> list[str]:
    if kind == 0x81:
        return [f"# token: taken for connection {connection}", ""]
    if kind == 0x82:
        return message_lines(body)
    first, second = struct.unpack(">II", body)
    if kind == 0x83:
        return [f"# steps: {first} made, {second} pending", ""]
    return [f"# run: {first} objects changed, {second} protected", ""]


def lines(data: bytes) -> Iterator[str]:
    """The lines of all answers, and at the end whether bytes are left that are no whole answer."""
    at = 0
    while at < len(data):
        if at + 7 > len(data):
            raise Broken("the last answer is cut short")
        kind, connection, size = struct.unpack_from(">BHI", data, at)
        if kind not in range(0x81, 0x85):
            raise Broken(f"{kind:#x} isn't a kind of answer")
        body = data[at + 7 : at + 7 + size]
        if len(body) < size:
            raise Broken("the last answer is cut short")
        yield from frame_lines(kind, connection, body)
        at += 7 + size
