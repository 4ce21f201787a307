"""Descriptors beside impacket's, both ways: impacket_cases.py COUNT

Of COUNT descriptors by chance: impacket reads our bytes as the same owner, group and entries, and its bytes of what it read are read by us
as the same descriptor. Prints a line for each difference, and ends with 0 where there is none."""

import struct
import sys

import drawn
from adsd import Descriptor, guid_text, sid_text
from impacket.ldap.ldaptypes import ACCESS_ALLOWED_OBJECT_ACE, SR_SECURITY_DESCRIPTOR


def entries(acl):
    """The entries of a list as impacket reads them: type, flags, mask, GUIDs and identifier."""
    found = []
    for ace in acl["Data"] if acl else []:
        body = ace["Ace"]
        guids = ["", ""]
        if ace["AceType"] in (5, 6, 7):
            if body.hasFlag(ACCESS_ALLOWED_OBJECT_ACE.ACE_OBJECT_TYPE_PRESENT):
                guids[0] = guid_text(body["ObjectType"])
            if body.hasFlag(ACCESS_ALLOWED_OBJECT_ACE.ACE_INHERITED_OBJECT_TYPE_PRESENT):
                guids[1] = guid_text(body["InheritedObjectType"])
        found.append((ace["AceType"], ace["AceFlags"], body["Mask"]["Mask"], *guids, body["Sid"].formatCanonical()))
    return found


def own_entries(data, offset):
    """The entries of a list at an offset in canonical bytes."""
    if not offset:
        return []
    count, at, found = struct.unpack_from("<H", data, offset + 4)[0], offset + 8, []
    for _ in range(count):
        kind, flags, size, mask = struct.unpack_from("<BBHI", data, at)
        place, guids = at + 8, ["", ""]
        if kind in (5, 6, 7):
            present = struct.unpack_from("<I", data, place)[0]
            place += 4
            for number in (0, 1):
                if present >> number & 1:
                    guids[number], place = guid_text(data[place : place + 16]), place + 16
        found.append((kind, flags, mask, *guids, sid_text(data[place : at + size])))
        at += size
    return found


def main(count):
    chance, faults = drawn.chance_of(2), []
    for _ in range(count):
        text = drawn.sddl(chance, with_objects=True, with_owner_rights=True, with_sacl=True)
        own = Descriptor.from_sddl(text)
        data = own.to_bytes()
        theirs = SR_SECURITY_DESCRIPTOR(data=data)
        rows = [(theirs["OwnerSid"].formatCanonical(), text[2 : text.index("G:")]),
                (entries(theirs["Dacl"]), own_entries(data, struct.unpack_from("<I", data, 16)[0])),
                (entries(theirs["Sacl"]), own_entries(data, struct.unpack_from("<I", data, 12)[0])),
                (Descriptor(theirs.getData()), own)]
        faults += [f"{text}: {is_so}, expected {wanted}" for is_so, wanted in rows if is_so != wanted]
    for fault in faults[:20]:
        print(f"DIFFERS impacket: {fault}")
    print(f"impacket: {count} descriptors, {len(faults)} differences")
    return 1 if faults else 0


if __name__ == "__main__":
    sys.exit(main(int(sys.argv[1])))
