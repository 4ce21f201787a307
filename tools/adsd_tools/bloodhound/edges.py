"""The edges to an object: for each identifier that its list names, what the proved check grants to it alone."""

from dataclasses import dataclass
from typing import List, Tuple

from adsd_tools.forms import descriptor
from adsd_tools.forms.descriptor import ALLOW, INHERIT_ONLY, INHERITED
from adsd_tools.forms.sids import NOBODY, guid_of_text, sid_of_text, text_of_sid
from adsd_tools.rows import store

from .library import token_of

SW, RP, WP, CR, WD, WO, ALL = 0x8, 0x10, 0x20, 0x100, 0x40000, 0x80000, 0xF01FF
RESET, SELF_MEMBERSHIP, CHANGES, CHANGES_ALL, CHANGES_FILTERED = map(guid_of_text, (
    "00299570-246d-11d0-a768-00aa006e0529", "bf9679c0-0de6-11d0-a285-00aa003049e2",
    "1131f6aa-9c07-11d1-f79f-00c04fc2dcd2", "1131f6ad-9c07-11d1-f79f-00c04fc2dcd2",
    "89e95b76-444d-4c62-991a-0facbeda640c"))
LAPS = ("ms-mcs-admpwd", "mslaps-password", "mslaps-encryptedpassword")
# The groups that every token has.
EVERYBODY = [sid_of_text(text) for text in ("S-1-1-0", "S-1-5-11")]
# On which kinds of objects BloodHound takes control access, and write property, for several rights.
WITH_RIGHTS, WITH_WRITE = {"User", "Computer", "Domain"}, {"User", "Group", "Computer", "OU", "Domain", "GPO"}
# Identifiers at which no edge begins: of the system, of services and kinds of logon, which SharpHound leaves out too; and of creators,
# owner rights and the object itself, which no token has.
NO_START = {f"S-1-5-{number}" for number in (2, 3, 4, 6, 7, 10, 18, 19, 20)} | {"S-1-2", "S-1-2-0", "S-1-0-0"}
NO_START_BELOW = ("S-1-3-", "S-1-5-80-", "S-1-5-82-", "S-1-5-90-", "S-1-5-96-")


def starts(sid):
    """Whether an edge may begin at an identifier."""
    text = text_of_sid(sid)
    return text not in NO_START and not text.startswith(NO_START_BELOW)


def without(normal, parsed, owner=None, explicit=False):
    """The normal bytes with another owner, or with those entries of the DACL alone that weren't inherited."""
    made, at = normal[:1] + (owner or parsed.owner) + parsed.group, 1 + len(parsed.owner) + len(parsed.group)
    count, at = int.from_bytes(normal[at : at + 8], "big"), at + 8
    kept = []
    for _ in range(count):
        size = int.from_bytes(normal[at + 2 : at + 4], "little")
        if not explicit or not normal[at + 1] & INHERITED:
            kept.append(normal[at : at + size])
        at += size
    return made + len(kept).to_bytes(8, "big") + b"".join(kept) + normal[at:]


@dataclass(frozen=True)
class Narrow:
    """An edge for one right: its name; the ways to it, each a path, what the identifier has to be granted on it, and what
    everybody's groups may grant instead; the broad edge by which BloodHound takes it for granted; and the edges besides
    GenericAll with which it isn't told."""

    name: str
    ways: List[Tuple[List[bytes], int, int]]
    broad: str
    told_by: Tuple[str, ...]


RIGHTS = ("AllExtendedRights", ("AllExtendedRights",))


def by_right(name, guid):
    return Narrow(name, [([guid], CR, 0)], *RIGHTS)


class Edges:
    """Judges once for each descriptor, kind and class, and identifier."""

    def __init__(self, library, schema):
        self.library, self.schema, self.kept = library, schema, {}

    def attribute(self, of_class, name):
        """The path of an attribute, None where the schema hasn't it."""
        return self.schema.attribute_path(of_class, name) if name in self.schema.of_attribute else None

    def narrow(self, kind, of_class, passwords):
        """The edges for single rights that BloodHound has of a kind of objects."""
        made = []
        if kind == "User":
            made += [by_right("ForceChangePassword", RESET), self.by_write("WriteSPN", of_class, "serviceprincipalname")]
        if kind in ("User", "Computer"):
            made.append(self.by_write("AddKeyCredentialLink", of_class, "msds-keycredentiallink"))
        if kind == "Computer":
            made.append(self.by_write("AddAllowedToAct", of_class, "msds-allowedtoactonbehalfofotheridentity"))
        if kind == "Group":
            made += [self.by_write("AddMember", of_class, "member"),
                     Narrow("AddSelf", [([SELF_MEMBERSHIP], SW, 0)], "", ("GenericWrite", "AddMember"))]
        if kind == "Domain":
            made += [by_right("GetChanges", CHANGES), by_right("GetChangesAll", CHANGES_ALL),
                     by_right("GetChangesInFilteredSet", CHANGES_FILTERED)]
        if kind in ("OU", "Domain"):
            made.append(self.by_write("WriteGPLink", of_class, "gplink"))
        if passwords:
            # (control access on a confidential attribute is the right that counts, and whoever has it may read the others)
            masks = [(CR, RP) if self.schema.is_confidential(name) else (RP, 0) for name in passwords]
            ways = [(self.attribute(of_class, name), *mask) for name, mask in zip(passwords, masks)]
            made.append(Narrow("ReadLAPSPassword", ways, *RIGHTS))
        return [one for one in made if one.ways]

    def named_in(self, data, want):
        """The identifiers to which a descriptor that stands in an attribute grants something of a mask, each alone and with
        everybody's groups."""
        try:
            parsed, _ = descriptor.read(data)
            normal = normal_of(parsed)
        except (descriptor.Unreadable, IndexError, ValueError):
            return []
        named = [entry.sid for entry in parsed.dacl.entries if entry.kind == ALLOW and not entry.flags & INHERIT_ONLY]
        both = ((sid, (token_of(sid, [one for one in EVERYBODY if one != sid]), token_of(sid))) for sid in dict.fromkeys(map(bytes, named)))
        return [sid for sid, tokens in both if starts(sid) and all(self.library.granted(normal, token, [], want) for token in tokens)]

    def by_write(self, name, of_class, attribute):
        path = self.attribute(of_class, attribute)
        return Narrow(name, [(path, WP, 0)] if path else [], "GenericWrite", ("GenericWrite",))

    def of(self, normal, kind, of_class, passwords=()):
        """The edges of an object: triples of the identifier's bytes, the edge's name, and whether only inherited entries grant it."""
        key = normal, kind, of_class, passwords
        if key not in self.kept:
            parsed, narrow = store.descriptor_of(normal), self.narrow(kind, of_class, passwords)
            named = [entry.sid for entry in parsed.dacl.entries if entry.kind == ALLOW and not entry.flags & INHERIT_ONLY]
            sids = dict.fromkeys(map(bytes, [parsed.owner, *named]))
            self.kept[key] = [edge for sid in sids if starts(sid) for edge in self.of_sid(normal, parsed, sid, kind, narrow)]
        return self.kept[key]

    def of_sid(self, normal, parsed, sid, kind, narrow):
        groups = [group for group in EVERYBODY if group != sid]
        tokens, owners = [token_of(sid, groups), token_of(sid)], [None]
        if sid == bytes(parsed.owner):
            # (what is had by owning is told by Owns: all else has to be granted to nobody's object too)
            owners.append(NOBODY)
            if all(self.library.granted(normal, token, [], WD) for token in tokens):
                yield sid, "Owns", False
        found = self.granted([without(normal, parsed, owner) for owner in owners], tokens, kind, narrow)
        if found:
            own = self.granted([without(normal, parsed, owner, True) for owner in owners], tokens, kind, narrow)
            yield from ((sid, name, name not in own) for name in told(found, narrow))

    def granted(self, lists, tokens, kind, narrow):
        """The names of the edges that each of some descriptors grants to two tokens: the one with everybody's groups, in which what
        is denied to everybody counts, and the one without, which has what the identifier itself is granted."""
        def has(path, mask, shared):
            masks = [mask | shared, mask]
            return all(self.library.granted(one, token, path, want) == want for one in lists for token, want in zip(tokens, masks))

        whole = ALL
        for one in lists:
            for token in tokens:
                whole &= self.library.granted(one, token, [], ALL) if whole else 0
        single = [one for one in narrow if any(has(*way) for way in one.ways)]
        lacks = {one.broad for one in narrow if one not in single} - {""}
        broad = [("GenericAll", whole == ALL and not lacks), ("WriteDacl", whole & WD), ("WriteOwner", whole & WO),
                 ("AllExtendedRights", whole & CR and kind in WITH_RIGHTS and "AllExtendedRights" not in lacks),
                 ("GenericWrite", whole & WP and kind in WITH_WRITE and "GenericWrite" not in lacks)]
        return [name for name, is_so in broad if is_so] + [one.name for one in single]


def normal_of(parsed):
    """The normal bytes of a descriptor (docs/profile/descriptors.md), of its owner and DACL; nobody owns it where it names none."""
    entries = [descriptor.entry_bytes(entry) for entry in parsed.dacl.entries] if parsed.dacl else []
    head = b"\0" + (parsed.owner or NOBODY) + (parsed.group or NOBODY)
    return head + len(entries).to_bytes(8, "big") + b"".join(entries) + bytes(8)


def told(found, narrow):
    """Those of some edges that are told: none that another one says too."""
    if "GenericAll" in found:
        return ["GenericAll"]
    covered = {one.name for one in narrow if set(one.told_by) & set(found)}
    return [name for name in found if name not in covered]
