"""What an object inherits of one entry of the list above it ([MS-DTYP] 2.5.3.4)."""

from dataclasses import replace

from adsd_tools.forms.descriptor import INHERIT_ONLY, INHERITED
from adsd_tools.forms.sids import CREATOR_GROUP, CREATOR_OWNER

from .descriptor import Entry

CONTAINER_INHERIT, NO_PROPAGATE, AUDIT_BITS = 0x02, 0x04, 0xC0


def copies(entry: Entry, of_class: bytes, owner: bytes, group: bytes) -> list[Entry]:
    """What a child of a class inherits of one entry of its parent's list."""
    if not entry.flags & CONTAINER_INHERIT:
        return []
    fits = entry.inherited is None or entry.inherited == of_class
    for_creator = entry.sid in (CREATOR_OWNER, CREATOR_GROUP)
    sid = {CREATOR_OWNER: owner, CREATOR_GROUP: group}.get(entry.sid, entry.sid)
    audits = entry.flags & AUDIT_BITS
    effective = replace(entry, flags=audits | INHERITED, sid=sid)
    down = replace(entry, flags=audits | CONTAINER_INHERIT | INHERIT_ONLY | INHERITED)
    if entry.flags & NO_PROPAGATE:
        return [effective] if fits else []
    if not fits:
        return [down]
    return [effective, down] if for_creator else [replace(entry, flags=audits | CONTAINER_INHERIT | INHERITED)]
