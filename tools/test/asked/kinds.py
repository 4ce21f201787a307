"""The kinds of edges of docs/profile/control.md, a row each: where an edge leads, and from whom."""

from typing import NamedTuple, Optional, Tuple

EACH, ROOT_ALONE, GROUPS = "each", "root", "groups"
# Where an edge begins whoever holds that: the words of a row.
THE_ROOT, PARENT, HOLDER, POLICIES, MEMBERS = "root", "parent", "holder", "policies", "members"
RP_BIT = 0x10


class Way(NamedTuple):
    """At an object that has a value of one of these attributes (or any, where none is named): who is told yes to each
    of these questions."""

    asks: Tuple[str, ...]
    stored: Tuple[str, ...] = ()


class Kind(NamedTuple):
    """A kind: the objects to which it leads, or the attribute that their class may have; the ways; the attributes whose
    value is a descriptor, each with the bit that has to be granted or None for any; where edges begin by place; the
    question on a container above; and whether it counts in a length."""

    of: str
    ways: Tuple[Way, ...] = ()
    held: Tuple[Tuple[str, Optional[int]], ...] = ()
    begins: str = ""
    above: str = ""
    counts: bool = True


ACCOUNTS, ACT = "unicodePwd", "msDS-AllowedToActOnBehalfOfOtherIdentity"
LAPS, LAPS_TIME = ("ms-Mcs-AdmPwd", "ms-Mcs-AdmPwdExpirationTime"), "msLAPS-PasswordExpirationTime"
KINDS = {
    "descriptor": Kind(EACH, (Way(("WD",)), Way(("WO",)))),
    "reset": Kind(ACCOUNTS, (Way(("reset",)),)),
    "join": Kind(GROUPS, (Way(("write:member",)), Way(("join",)))),
    "key": Kind(ACCOUNTS, (Way(("write:msDS-KeyCredentialLink",)), Way(("write:altSecurityIdentities",)))),
    "act": Kind(EACH, (Way((f"write:{ACT}",)),), ((ACT, None),)),
    "secret": Kind(EACH, (Way((f"read:{LAPS[0]}",), LAPS),
                          *(Way((f"read:{name}",), (name, LAPS_TIME)) for name in ("msLAPS-Password",
                                                                                  "msLAPS-EncryptedPassword"))),
                   (("msDS-GroupMSAMembership", RP_BIT),)),
    "replicate": Kind(ROOT_ALONE, (Way(("CR:DS-Replication-Get-Changes", "CR:DS-Replication-Get-Changes-All")),)),
    "all": Kind(EACH, begins=THE_ROOT),
    "child": Kind(EACH, begins=PARENT),
    "protect": Kind(EACH, begins=HOLDER),
    "link": Kind(ACCOUNTS, begins=POLICIES, above="write:gPLink"),
    "member": Kind(GROUPS, begins=MEMBERS, counts=False),
}
