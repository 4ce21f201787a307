"""What takes a finding away: lines for `adsd grants`, or a record for `adsd change`; and entries as the text that both
read."""

from dataclasses import dataclass
from typing import Sequence

from adsd_tools.forms.descriptor import ALLOW, DENY, INHERITED, Entry
from adsd_tools.forms.rights import FLAGS, codes
from adsd_tools.forms.sids import text_of_guid, text_of_sid

from .domain import Domain

GRANTS, CHANGE = "grants", "change"
ALL_NAMED = 0xF01FF


@dataclass(frozen=True)
class Fix:
    """Lines for a command of the program, or none; and what is to be done in words, where that isn't all."""

    command: str
    lines: tuple[str, ...]
    words: str


def mask_text(mask: int) -> str:
    """The codes of a mask, or its number where there isn't one for each right."""
    named = codes(mask)
    return f"0x{mask:x}" if any(one.startswith("0x") for one in named) else "".join(named)


def entry_text(entry: Entry, inherited: bool = True) -> str:
    """The text of an entry in SDDL (docs/profile/sddl.md); without the flag ID, if not `inherited`."""
    typed = entry.object is not None or entry.inherited is not None
    kind = ("O" if typed else "") + ("A" if entry.kind == ALLOW else "D")
    flags = entry.flags if inherited else entry.flags & ~INHERITED
    marks = "".join(name for name, bit in FLAGS.items() if flags & bit)
    types = [text_of_guid(guid) if guid else "" for guid in (entry.object, entry.inherited)]
    return f"({kind};{marks};{mask_text(entry.mask)};{types[0]};{types[1]};{text_of_sid(entry.sid)})"


def removal(domain: Domain, at: int, going: Sequence[Entry]) -> Fix:
    """The lines that take some entries of one identifier from an object's own list. Such a line takes all entries of
    the identifier, so what stays of them is granted anew."""
    sid, name = text_of_sid(going[0].sid), domain.names[at]
    stays = [entry for entry in domain.entries(at)
             if entry.sid == going[0].sid and not entry.flags & INHERITED and entry not in going]
    made = [f"revoke {sid} {name}"]
    made += [f"grant {entry_text(entry)} {name}" for entry in stays if entry.kind == ALLOW]
    made += [f"deny {entry_text(entry)} {name}" for entry in reversed(stays) if entry.kind == DENY]
    return Fix(GRANTS, tuple(made), "")


def all_of(domain: Domain, sid: str, numbers: Sequence[int]) -> Fix:
    """The lines that take all entries of an identifier from the lists of some objects."""
    return Fix(GRANTS, tuple(f"revoke {sid} {domain.names[number]}" for number in numbers), "")


def leaves(domain: Domain, group: int, member: int) -> Fix:
    """The record that takes a member out of a group."""
    what = ("changetype: modify", "delete: member", f"member: {domain.names[member]}", "-")
    return Fix(CHANGE, (f"dn: {domain.names[group]}", *what), "")


def words(told: str) -> Fix:
    return Fix("", (), told)
