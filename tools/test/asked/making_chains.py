"""Directories made by chance in which chains of control lead somewhere: AdminSDHolder, linked policies, blocked
inheritance, keys, passwords that are read, descriptors that are values, and rights of replication."""

import base64
from typing import List

from adsd_tools.forms.descriptor import Acl, Entry
from adsd_tools.forms.rights import RIGHTS
from adsd_tools.forms.sids import guid_of_text, known_sid

from .making import BASE, Maker, Thing, guids_of_schema

ACT, MANAGED, KEY = "msDS-AllowedToActOnBehalfOfOtherIdentity", "msDS-GroupMSAMembership", "msDS-KeyCredentialLink"
# Attributes: a name, a syntax, and whether it is confidential. All classes may have the first ones, accounts the others.
OF_ALL = (("gPLink", 12, ""), ("gPOptions", 9, ""), (ACT, 10, ""), (MANAGED, 10, ""))
OF_ACCOUNTS = ((KEY, 12, ""), ("altSecurityIdentities", 12, ""), ("ms-Mcs-AdmPwd", 12, "searchFlags: 128\n"),
               ("ms-Mcs-AdmPwdExpirationTime", 12, ""), ("msLAPS-Password", 12, "searchFlags: 128\n"),
               ("msLAPS-EncryptedPassword", 10, ""), ("msLAPS-PasswordExpirationTime", 12, ""))
REPLICATION = {"DS-Replication-Get-Changes": "1131f6aa-9c07-11d1-f79f-00c04fc2dcd2",
               "DS-Replication-Get-Changes-All": "1131f6ad-9c07-11d1-f79f-00c04fc2dcd2"}
RESET, MEMBERSHIP = "00299570-246d-11d0-a768-00aa006e0529", "bf9679c0-0de6-11d0-a285-00aa003049e2"
POLICY_CLASS = """dn: CN=groupPolicyContainer
objectClass: classSchema
lDAPDisplayName: groupPolicyContainer
schemaIDGUID:: AAAAwAAAAECAAAAAAAAAIQ==
subClassOf: container
rDNAttID: cn
possSuperiors: container
possSuperiors: domainDNS

"""
EVERYONE, EVERYBODY = known_sid("S-1-1-0"), (known_sid("S-1-1-0"), known_sid("S-1-5-11"))
MARKS = ("0", "0", "0", "1", "2", "2", "3", "4", "")
# Links of other forms, by which the pairs end, or that name nothing.
ODD = ("[HTTP://x;0]", "[LDAP://CN=nothing;0]", "[LDAP://;0]", "[LDAP://CN=p0", " ", "[LDAP://no name;2]")


def attribute(name: str, syntax: int, more: str, place: int) -> str:
    guid = base64.b64encode(bytes([0, 0, 0, 0xA0, 0, 0, 0, 0x40, 0x80, 0, 0, 0, 0, 0, 1, place])).decode()
    return (f"dn: CN={name}\nobjectClass: attributeSchema\nlDAPDisplayName: {name}\nattributeSyntax: 2.5.5.{syntax}\n"
            f"schemaIDGUID:: {guid}\n{more}\n")


def with_chains(schema: str) -> str:
    """The schema with what chains lead over."""
    for above, names in (("objectClass: classSchema\nlDAPDisplayName: top\n", OF_ALL),
                         ("objectClass: classSchema\nlDAPDisplayName: user\n", OF_ACCOUNTS)):
        schema = schema.replace(above, above + "".join(f"mayContain: {name}\n" for name, _, _ in names), 1)
    rights = "".join(f"dn: CN={name}\nobjectClass: controlAccessRight\ncn: {name}\nrightsGuid: {guid}\n"
                     "validAccesses: 256\n\n" for name, guid in REPLICATION.items())
    made = "".join(attribute(*one, place) for place, one in enumerate(OF_ALL + OF_ACCOUNTS))
    return schema.rstrip("\n") + "\n\n" + made + POLICY_CLASS + rights


class ChainMaker(Maker):
    """Makes one directory of a number. What is granted in it is narrow, so that chains have several steps."""

    def __init__(self, seed: int) -> None:
        super().__init__(seed)
        self.schema = with_chains(self.schema)
        types = guids_of_schema(self.schema)
        own = [guid_of_text(text) for text in (*REPLICATION.values(), RESET, MEMBERSHIP)]
        self.types = types + [guid for guid in own * 2 if guid] + [
            base64.b64decode(line.split(":: ")[1]) for name in (KEY, ACT, "gPLink", "ms-Mcs-AdmPwd", "member")
            for line in self.record(name) if line.startswith("schemaIDGUID::")]

    def record(self, name: str) -> List[str]:
        return self.schema.partition(f"lDAPDisplayName: {name}\n")[2].partition("\n\n")[0].split("\n")

    def tree(self) -> None:
        """The units, policies, and AdminSDHolder; a unit below a unit, so that there is something to block."""
        super().tree()
        chance = self.chance
        self.policies = [self.add(f"CN=p{number}", BASE, "groupPolicyContainer").name
                         for number in range(chance.randint(0, 3))]
        if chance.random() < 0.7:
            system = self.add("CN=System", BASE, "container").name
            self.add("CN=AdminSDHolder", system, "container")
        for thing in self.things:
            if thing.of_class in ("domainDNS", "organizationalUnit"):
                self.link(thing)

    def link(self, thing: Thing) -> None:
        """Links some policies to a unit, and blocks what comes from above."""
        chance = self.chance
        if chance.random() < 0.6:
            names = [chance.choice([*self.policies, *self.policies, BASE]) for _ in range(chance.randint(1, 3))]
            scheme = chance.choice(("LDAP://", "LDAP://", "ldap://"))
            pairs = [f"[{scheme}{name};{chance.choice(MARKS)}]" for name in names]
            if chance.random() < 0.2:
                pairs.insert(chance.randrange(len(pairs) + 1), chance.choice(ODD))
            text = "".join(pairs)
            thing.lines.append(f"gPLink:: {base64.b64encode(text.encode()).decode()}")
        if chance.random() < 0.4:
            thing.lines.append(f"gPOptions: {chance.choice((0, 1, 1, 2, 3, -1))}")

    def accounts(self) -> None:
        super().accounts()
        chance = self.chance
        for thing in self.things:
            if thing.of_class not in ("user", "computer"):
                continue
            for name in ("ms-Mcs-AdmPwd", "ms-Mcs-AdmPwdExpirationTime", "msLAPS-Password",
                         "msLAPS-PasswordExpirationTime"):
                if chance.random() < 0.25:
                    thing.lines.append(f"{name}: 1")
            for name in (ACT, MANAGED):
                if chance.random() < 0.3:
                    data = self.descriptor() if chance.random() < 0.9 else b"none"
                    thing.lines.append(f"{name}:: {base64.b64encode(data).decode()}")

    def made(self) -> str:
        text = super().made()
        if self.chance.random() < 0.3:
            text = text.replace("dSHeuristics: 001\n", "dSHeuristics: 001000000100000f\n")
        return text

    def acl(self) -> Acl:
        """Fewer entries for everybody than of other directories, and more for a single right."""
        chance = self.chance
        entries = [one for one in (self.entry() for _ in range(chance.randint(0, 4))) if one.kind != 2]
        masks = (RIGHTS["WP"], RIGHTS["CR"], RIGHTS["CR"] | RIGHTS["RP"], RIGHTS["WD"], RIGHTS["SW"])
        for _ in range(chance.randint(0, 2)):
            of = chance.choice([None, *self.types])
            entries.insert(0, Entry(0, chance.choice((0, 2, 10)), chance.choice(masks), of, None, self.sid()))
        if chance.random() < 0.6:
            entries.append(Entry(0, 2, chance.choice((0x20094, RIGHTS["LC"], RIGHTS["LC"] | RIGHTS["LO"])), None, None,
                                 EVERYONE))
        return Acl(entries, chance.random() < 0.3)

    def sid(self) -> bytes:
        """Seldom everybody: else each leads everywhere in one step."""
        made = super().sid()
        return super().sid() if made in EVERYBODY and self.chance.random() < 0.8 else made

