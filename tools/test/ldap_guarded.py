"""Changes by which a delegate would become more, with the answers that they have to get: of the bridge over
tools/test/delegate.ldif (ldap_guards.py), and of Samba over a domain with such a delegate (ldap_guarded_samba.py).

The codes are Samba's, of 4.17; where the bridge answers otherwise, docs/clients.md says why. `{g1}` is the number of
the group g1, and `<..>` an identifier's bytes."""

from dataclasses import dataclass
from typing import Tuple

ADD, DELETE, REPLACE = "add", "delete", "replace"


@dataclass(frozen=True)
class Change:
    """A change that the delegate asks for: the object's CN, the class of a new one or nothing, what is done with which
    attribute to which values, and the codes of the bridge and of Samba."""

    name: str
    of_class: str
    items: Tuple[Tuple[str, str, Tuple[str, ...]], ...]
    code: int
    by_samba: int


def modify(name, code, *items, by_samba=None):
    """A Modify of words as `replace:primaryGroupID=512`; of several values with several words of one item."""
    return Change(name, "", tuple(map(item_of, items)), code, code if by_samba is None else by_samba)


def add(of_class, code, *items, by_samba=None):
    made = tuple((ADD, *item_of(f"add:{item}")[1:]) for item in items)
    return Change("new", of_class, made, code, code if by_samba is None else by_samba)


def item_of(text):
    act, _, rest = text.partition(":")
    name, sign, value = rest.partition("=")
    return act, name, (value,) if sign else ()


BAD = "<S-1-5-21-1-2-3-512>"
PRIMARY = [
    modify("vic", 53, "replace:primaryGroupID=512"), modify("vic", 53, "replace:PRIMARYgroupid=512"),
    modify("vic", 53, "replace:primaryGroupID=99999"), modify("vic", 21, "replace:primaryGroupID=x"),
    modify("vic", 53, "replace:description=x", "replace:primaryGroupID=512"),
    modify("vic", 53, "delete:primaryGroupID=513", "add:primaryGroupID=512"),
    modify("vic", 53, "delete:primaryGroupID"), modify("vic", 53, "delete:primaryGroupID=513"),
    modify("vic", 53, "replace:primaryGroupID"), modify("vic", 0, "replace:primaryGroupID=513"),
    modify("srv", 53, "replace:primaryGroupID=516"),
    # A group of mail is in no token; Samba takes it, and makes it the primary group.
    modify("vic", 53, "replace:primaryGroupID={m1}", by_samba=0), modify("vic", 0, "replace:primaryGroupID={g1}"),
    # Samba makes an account a member of the primary group that it had, and the program doesn't.
    modify("vic", 53, "replace:primaryGroupID=513", by_samba=0),
    add("user", 53, "primaryGroupID=512"),
    # The usual one changes nothing.
    add("user", 0, "primaryGroupID=513", by_samba=53), add("computer", 0, "userAccountControl=4096"),
    add("computer", 0, "userAccountControl=4096", "primaryGroupID=515", by_samba=53)]
TRUST = [
    modify("vic", 50, "replace:userAccountControl=524800"), modify("vic", 50, "replace:userAccountControl=16777728"),
    modify("vic", 50, "delete:userAccountControl=512", "add:userAccountControl=524800"),
    modify("srv", 50, "replace:userAccountControl=8192"), modify("srv", 50, "replace:userAccountControl=83890176"),
    modify("srv", 50, "replace:userAccountControl=528384"), modify("vic", 0, "replace:userAccountControl=514"),
    modify("vic", 0, "replace:userAccountControl=512"),
    add("user", 50, "userAccountControl=524800"), add("user", 50, "userAccountControl=16777728"),
    add("computer", 50, "userAccountControl=8192"), add("computer", 50, "userAccountControl=83890176")]
HISTORY = [
    modify("vic", 53, f"add:sIDHistory={BAD}"), modify("vic", 53, f"replace:sIDHistory={BAD}"),
    modify("vic", 53, "delete:sIDHistory"), modify("vic", 53, "replace:sIDHistory"),
    add("user", 53, f"sIDHistory={BAD}")]
LOGIN = [
    modify("vic", 68, "replace:sAMAccountName=g1"), modify("vic", 68, "replace:sAMAccountName=DEL"),
    modify("vic", 68, "delete:sAMAccountName=vic", "add:sAMAccountName=Del"),
    modify("vic", 0, "replace:sAMAccountName=VIC"), modify("vic", 0, "replace:sAMAccountName=vic"),
    add("user", 68, "sAMAccountName=DEL")]
SYSTEM = [
    modify("vic", 53, f"replace:objectSid={BAD}"), modify("vic", 19, "replace:objectGUID=0123456789abcdef"),
    modify("vic", 19, "replace:whenCreated=20200102030405.0Z"), modify("vic", 19, "replace:uSNChanged=7"),
    modify("vic", 19, "replace:instanceType=4"), modify("vic", 19, "replace:isDeleted=TRUE"),
    modify("vic", 19, "replace:systemFlags=1"), modify("vic", 53, "replace:isCriticalSystemObject=TRUE"),
    modify("vic", 53, "replace:sAMAccountType=805306369"), add("user", 53, "sAMAccountType=805306369"),
    add("user", 53, f"objectSid={BAD}"), add("user", 53, "isCriticalSystemObject=TRUE"),
    add("user", 0, "instanceType=4"),
    # Samba refuses the first by another code, and takes the second and puts its own time in the place.
    add("user", 19, "objectGUID=0123456789abcdef", by_samba=53),
    add("user", 19, "whenCreated=20200102030405.0Z", by_samba=0)]
CHANGES = PRIMARY + TRUST + HISTORY + LOGIN + SYSTEM
