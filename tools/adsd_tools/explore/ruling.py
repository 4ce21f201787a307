"""What the domain is ruled by, beside what a protection run looks at: the root, AdminSDHolder, the domain controllers,
the units above them, and the policies that are linked to these; and who is meant to rule it. It says where to look and
whom to leave out; what is granted there is asked."""

import re

from adsd_tools.ldap.accounts import ADMINISTRATORS, below
from adsd_tools.report.protection import HOLDER

from .texts import told

# What stands in gPLink, and the bit of a link that isn't followed.
LINK, DISABLED = re.compile(r"\[LDAP://([^;\]]+);([0-9]{1,9})\]", re.IGNORECASE), 1
# The last numbers of the groups of domain controllers, those that are read alone too; and of the administrators of the
# domain, the schema and the forest.
CONTROLLERS, RULERS = (516, 521), (512, 518, 519)


def in_groups(world, accounts, numbers):
    """The accounts that are in groups of the domain with these numbers, as bits by their places."""
    made = 0
    for number in numbers if world.own(1) else ():
        made |= accounts.holders.get(below(world.own_sid(1), number), 0)
    return made


def rulers(world, accounts):
    """The accounts that are meant to rule: administrators and domain controllers. Operators aren't, though a protection
    run protects them."""
    return in_groups(world, accounts, CONTROLLERS + RULERS) | accounts.holders.get(ADMINISTRATORS, 0)


def linked(world, number):
    """The policies that are linked to an object."""
    for value in world.values(number, "gPLink"):
        for name, options in LINK.findall(value.decode("utf-8", "replace")):
            found = world.by_dn.get(name.casefold())
            if found and not int(options) & DISABLED:
                yield found


def called(world, policy):
    """What a policy is called where it is shown."""
    names = world.values(policy, "displayName")[:1]
    return f"the policy {told(names[0], 80)}" if names else "a policy"


def ruling(world, accounts):
    """The objects, each with what it is."""
    made = {1: "the domain's root"}
    holder = world.found(HOLDER + world.names[1].decode("utf-8", "replace"))
    if holder is not None:
        made[holder] = "its list goes to all that is protected"
    for place in accounts.places_of(in_groups(world, accounts, CONTROLLERS)):
        number = accounts.numbers[place]
        made[number] = "a domain controller"
        for above in world.above(number):
            made.setdefault(above, "above domain controllers")
    for number in list(made):
        for policy in linked(world, number):
            made.setdefault(policy, f"{called(world, policy)}, linked to {world.label(number)}")
    return made
