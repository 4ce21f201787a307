"""How SharpHound reads a list: entry by entry, each that allows is an edge, whatever stands before it. For tests alone: what
adsd-bloodhound tells comes of the proved check, and this says where the two differ. The entries are those that impacket reads, where it
is installed, else those that this file reads."""

import struct
import uuid

ALL, GENERIC_WRITE = 0xF01FF, 0x20028
SW, WP, CR, WD, WO = 0x8, 0x20, 0x100, 0x40000, 0x80000
ALLOW, DENY, INHERIT_ONLY = (0, 5), (1, 6), 0x08
KEY = "5b47d60f-6090-40b2-9f37-2a4de88f3063"
RESET, MEMBER, SPN, CHANGES, CHANGES_ALL = (
    "00299570-246d-11d0-a768-00aa006e0529", "bf9679c0-0de6-11d0-a285-00aa003049e2", "f3a64788-5306-11d1-a9c5-0000f80367c1",
    "1131f6aa-9c07-11d1-f79f-00c04fc2dcd2", "1131f6ad-9c07-11d1-f79f-00c04fc2dcd2")
# What an edge says that other edges say too.
SAYS = {"User": {"AllExtendedRights": ["ForceChangePassword"], "GenericWrite": ["WriteSPN", "AddKeyCredentialLink"]},
        "Computer": {"GenericWrite": ["AddKeyCredentialLink", "AddAllowedToAct"]},
        "Group": {"GenericWrite": ["AddMember", "AddSelf"], "AddMember": ["AddSelf"]},
        "OU": {"GenericWrite": ["WriteGPLink"]},
        "Domain": {"AllExtendedRights": ["GetChanges", "GetChangesAll", "GetChangesInFilteredSet"], "GenericWrite": ["WriteGPLink"]}}
WITH_RIGHTS, WITH_WRITE = ("User", "Computer", "Domain"), ("User", "Group", "Computer", "OU", "Domain")

try:
    from impacket.ldap.ldaptypes import ACCESS_ALLOWED_OBJECT_ACE, SR_SECURITY_DESCRIPTOR
    READER = "impacket"
except ImportError:
    READER = "the test"


def sid_text(data):
    subs = struct.unpack_from(f"<{data[1]}I", data, 8)
    return f"S-1-{int.from_bytes(data[2:8], 'big')}" + "".join(f"-{sub}" for sub in subs)


def of_impacket(data):
    read = SR_SECURITY_DESCRIPTOR(data=data)
    found = []
    for ace in read["Dacl"]["Data"] if read["Dacl"] else []:
        body, guid, inherited = ace["Ace"], None, None
        if ace["AceType"] in (5, 6):
            if body.hasFlag(ACCESS_ALLOWED_OBJECT_ACE.ACE_OBJECT_TYPE_PRESENT):
                guid = str(uuid.UUID(bytes_le=body["ObjectType"]))
            if body.hasFlag(ACCESS_ALLOWED_OBJECT_ACE.ACE_INHERITED_OBJECT_TYPE_PRESENT):
                inherited = str(uuid.UUID(bytes_le=body["InheritedObjectType"]))
        found.append((ace["AceType"], ace["AceFlags"], body["Mask"]["Mask"], guid, inherited, body["Sid"].formatCanonical()))
    return read["OwnerSid"].formatCanonical(), found


def of_bytes(data):
    """The owner and the entries of a self-relative descriptor: type, flags, mask, GUIDs and identifier."""
    owner, at = struct.unpack_from("<I", data, 4)[0], struct.unpack_from("<I", data, 16)[0]
    count, place, found = struct.unpack_from("<H", data, at + 4)[0], at + 8, []
    for _ in range(count):
        kind, flags, size, mask = struct.unpack_from("<BBHI", data, place)
        begin, guids = place + 8, [None, None]
        if kind in (5, 6):
            present = struct.unpack_from("<I", data, begin)[0]
            begin += 4
            for number in (0, 1):
                if present >> number & 1:
                    guids[number], begin = str(uuid.UUID(bytes_le=data[begin : begin + 16])), begin + 16
        found.append((kind, flags, mask, *guids, sid_text(data[begin : place + size])))
        place += size
    return sid_text(data[owner:]), found


def read(data):
    return of_impacket(data) if READER == "impacket" else of_bytes(data)


def of_entry(mask, guid, kind):
    """The edges of one entry that allows."""
    if mask & ALL == ALL:
        return {"GenericAll"} if guid is None else set()
    made = {name for name, bit in (("WriteDacl", WD), ("WriteOwner", WO)) if mask & bit}
    if kind == "Group" and mask & SW and not mask & WP and guid == MEMBER:
        made.add("AddSelf")
    if mask & CR and kind in WITH_RIGHTS:
        named = {"User": {RESET: "ForceChangePassword"}, "Domain": {CHANGES: "GetChanges", CHANGES_ALL: "GetChangesAll"}}.get(kind, {})
        made |= {"AllExtendedRights"} if guid is None else {named[guid]} if guid in named else set()
    if mask & WP and kind in WITH_WRITE:
        named = {"User": {SPN: "WriteSPN", KEY: "AddKeyCredentialLink"}, "Computer": {KEY: "AddKeyCredentialLink"}, "Group": {MEMBER: "AddMember"}}.get(kind, {})
        made |= {"GenericWrite"} if guid is None else {named[guid]} if guid in named else set()
    return made


def said(edges, kind):
    """All that some edges say: those that follow from them too."""
    says = SAYS.get(kind, {})
    made = set(edges)
    if "GenericAll" in made:
        made |= {"WriteDacl", "WriteOwner", *(["AllExtendedRights"] if kind in WITH_RIGHTS else []),
                 *(["GenericWrite"] if kind in WITH_WRITE else [])}
    for _ in range(2):
        made |= {name for edge in list(made) for name in says.get(edge, [])}
    return made


def edges(data, kind):
    """What the entries of a descriptor say, by identifier."""
    owner, entries = read(data)
    made = {owner: {"Owns"}}
    for of, flags, mask, guid, _, sid in entries:
        if of in ALLOW and not flags & INHERIT_ONLY:
            made.setdefault(sid, set()).update(of_entry(mask, guid, kind))
    return {sid: said(names, kind) for sid, names in made.items()}


# ---- why the proved answer is another one

def why_not(data, sid, name):
    """Why an edge that an entry says isn't granted; None where no reason is found."""
    owner, entries = read(data)
    bit = {"WriteDacl": WD, "WriteOwner": WO}.get(name)
    if bit and not any(entry[2] & bit and entry[0] in ALLOW and entry[3] is None and not entry[1] & INHERIT_ONLY and entry[5] == sid
                       for entry in entries):
        return "of one type alone"
    if name == "Owns":
        return "set by owner rights" if any(entry[5] == "S-1-3-4" and not entry[1] & INHERIT_ONLY for entry in entries) else None
    if sid == owner and any(entry[5] == "S-1-3-4" and entry[0] in DENY for entry in entries):
        return "set by owner rights"
    denied = {entry[5] for entry in entries if entry[0] in DENY and not entry[1] & INHERIT_ONLY}
    return "denied" if sid in denied else "denied to everybody" if denied & {"S-1-1-0", "S-1-5-11"} else None


def why_too(data, sid, guids):
    """Why something is granted of which no entry says it alone: by several entries, by a type that has it (a property set or the
    class), or by a validated write of any type."""
    _, entries = read(data)
    own = [entry for entry in entries if entry[0] in ALLOW and entry[5] == sid and not entry[1] & INHERIT_ONLY]
    if any(entry[3] in guids for entry in own):
        return "by class or property set"
    if any(entry[2] & SW and entry[3] is None for entry in own):
        return "all validated writes"
    return "several entries" if len(own) > 1 else "all rights of a type" if any(entry[2] & ALL == ALL for entry in own) else None
