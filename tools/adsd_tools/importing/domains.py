"""The domains of a forest: which one is imported, what is of others, and what crosses from the one to the others."""

from typing import Dict, Iterable, List, Optional, Set

from adsd_tools.forms import names
from adsd_tools.forms.descriptor import Descriptor
from adsd_tools.forms.sids import sid_at, text_of_sid
from adsd_tools.shown import brief

from .index import Key, Object
from .report import Refused, Report
from .text import Line

HEADS = ("domaindns", "domain")
TRUST, FOREIGN = "trusteddomain", "foreignsecurityprincipal"
# What a trusted domain's record says ([MS-ADTS] 6.1.6.7): its direction, and bits of its attributes.
DIRECTIONS = {b"0": "disabled", b"1": "they trust us", b"2": "we trust them", b"3": "both ways"}
BITS = {0x1: "not transitive", 0x4: "identifiers filtered", 0x8: "of a forest", 0x10: "selective",
        0x20: "within the forest", 0x40: "as external"}
OF_DOMAINS = bytes([0, 0, 0, 0, 0, 5, 21, 0, 0, 0])


def domain_of(sid: Optional[bytes]) -> Optional[bytes]:
    """The domain's identifier of that of an account or a domain (S-1-5-21 and three numbers); None of another one."""
    if sid is None or sid[0] != 1 or sid[1] not in (4, 5) or sid[2:12] != OF_DOMAINS:
        return None
    return bytes([1, 4]) + sid[2:24]


def is_domain(sid: Optional[bytes]) -> bool:
    """Whether an identifier is that of a domain."""
    return sid is not None and sid == domain_of(sid)


def named(text: str) -> Key:
    """The key of a domain's name, as a distinguished name or as that of DNS (`child.corp.example`)."""
    if "=" not in text:
        text = ",".join(f"DC={part}" for part in text.split("."))
    try:
        return names.read(text.encode("utf-8", "surrogateescape")).key()
    except names.NoName as why:
        raise Refused(f"--domain {text}: {why}") from None


class Domains:
    """The heads of all domains that the files have, and the one that is imported, if one is chosen."""

    def __init__(self, objects: Iterable[Object]) -> None:
        self.heads = {one.key: one for one in objects
                      if is_domain(one.sid) and any(name in HEADS for name in one.told)}
        self.own: Optional[Object] = None
        self.counts: Dict[Key, int] = {}
        # Of identifiers of domains what these are called; and what crosses to each: how many, and what is so.
        self.called: Dict[bytes, str] = {}
        self.foreign: Dict[bytes, int] = {}
        self.crossing: Dict[str, Dict[str, int]] = {}
        self.listed: Dict[bytes, Set[bytes]] = {}
        self.trusts: List[str] = []

    def choose(self, asked: Optional[str], base: Optional[names.Name]) -> Optional[Object]:
        """The head of the domain that is imported; None where the files have one alone, or a base is asked for."""
        all_of_them = ", ".join(one.words() for one in self.heads.values())
        if asked is not None:
            self.own = self.heads.get(named(asked))
            if self.own is None:
                raise Refused(f"--domain {brief(asked)}: the files have no such domain, but {all_of_them or 'none'}")
        elif base is None and len(self.heads) > 1:
            raise Refused(f"the files have {len(self.heads)} domains, and each is a store of its own: give one of them "
                          f"as --domain: {all_of_them}")
        return self.own

    def head_of(self, key: Key) -> Optional[Object]:
        """The head of the domain that a name is in."""
        for at in range(len(key)):
            found = self.heads.get(key[at:])
            if found is not None:
                return found
        return None

    def is_elsewhere(self, one: Object) -> bool:
        """Whether an object is of another domain than the one that is imported; these are counted."""
        if self.own is None:
            return False
        head = self.head_of(one.key)
        if head is None or head is self.own:
            return False
        self.counts[head.key] = self.counts.get(head.key, 0) + 1
        return True

    def crosses(self, attribute: str, key: Key) -> Optional[str]:
        """The words of the other domain that a value's name is in, which are counted; None where it is in none."""
        head = self.head_of(key) if self.own is not None else None
        if head is None or head is self.own:
            return None
        found = self.crossing.setdefault(head.words(), {})
        found[attribute] = found.get(attribute, 0) + 1
        return head.words()

    def look(self, one: Object, lines: List[Line]) -> None:
        """Looks at an object that is imported: a trust, or a principal of another domain."""
        domain = domain_of(one.sid) if one.of_class == FOREIGN else None
        if domain is not None:
            self.foreign[domain] = self.foreign.get(domain, 0) + 1
        if one.of_class == TRUST:
            self.trust(one, {line.name.lower(): line.value for line in lines})

    def trust(self, one: Object, told: Dict[str, bytes]) -> None:
        """Names a trust: whose it is, its identifier, its direction, and what its attributes say."""
        partner, bits = brief(told.get("trustpartner", one.dn)), told.get("trustattributes", b"0")
        sid = told.get("securityidentifier", b"")
        has_sid = bool(sid) and sid_at(sid, 0, len(sid)) == sid
        words = [partner, text_of_sid(sid) if has_sid else "no identifier",
                 DIRECTIONS.get(told.get("trustdirection", b""), "direction unknown")]
        number = int(bits) if bits.isdigit() else 0
        self.trusts.append(", ".join(words + [word for bit, word in BITS.items() if number & bit]))
        if has_sid:
            self.called[sid] = f"trust {partner}"

    def listed_in(self, made: Descriptor) -> None:
        """Looks at a descriptor for identifiers of other domains."""
        entries = [entry.sid for acl in (made.dacl, made.sacl) if acl for entry in acl.entries]
        for sid in {made.owner or b"", made.group or b"", *entries}:
            domain = domain_of(sid) if sid else None
            if domain is not None:
                self.listed.setdefault(domain, set()).add(sid)

    def tell(self, own: Optional[bytes], report: Report) -> None:
        """Writes into the report's summary which domains there are, and what crosses."""
        told = report.crossing
        for head in self.heads.values():
            if head.sid is not None:
                self.called.setdefault(head.sid, f"domain {head.words()}")
            if self.own is not None and head is not self.own:
                count = self.counts.get(head.key, 0)
                told.append(f"domain {head.words()}: {count} objects left out, which --domain takes")
        told += [f"trust: {one}" for one in self.trusts]
        for words, found in self.crossing.items():
            told += [f"crosses to {words}: {count} values of {name}" for name, count in found.items()]
        for what, counts in (("foreign principals", self.foreign),
                             ("identifiers in lists", {domain: len(sids) for domain, sids in self.listed.items()})):
            for domain, count in sorted(counts.items()):
                if domain != own:
                    called = self.called.get(domain, "not in these files")
                    told.append(f"{what}: {count} of {text_of_sid(domain)} ({called})")
