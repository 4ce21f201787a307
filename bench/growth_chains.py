"""The cases of bench/growth about chains of control: of each, how the work grows with objects, entries or links."""

from growth_cases import CHECK, Call, case, with_descriptors
from growth_parts import BASE, BOB, CLUB, ROOT, STAFF, descriptor, make, who

# Four times as much to do may take so many times as long.
MOST = 4.5
WRITES = 0x40000
LINK = """
dn: CN=gPLink
objectClass: attributeSchema
lDAPDisplayName: gPLink
attributeSyntax: 2.5.5.12
schemaIDGUID:: AAAAoAAAAECAAAAAAAAA8Q==
isSingleValued: TRUE
"""


def told(text, name, count, word="control"):
    """Who comes to control an object, or what somebody comes to control, which is at least so many."""
    return Call(text, b"", lambda said: said.count(b"\nstep ") >= count, (word, "S", name), bare={"words": CHECK})


def accounts(count, text=BASE, lists=()):
    """The text with so many accounts, each with an identifier, and some of them with a list."""
    made = [f"\ndn: CN=u{number},{STAFF}\nobjectClass: user\nobjectSid: S-1-5-21-7-9-9-{number}\n"
            for number in range(count)]
    return text + "".join(one + line for one, line in zip(made, [*lists, *[""] * count]))


def account(number):
    return who(7, number)


def members(count):
    """The accounts' text, where all are members of one group."""
    lines = "".join(f"member: CN=u{number},{STAFF}\n" for number in range(count))
    return accounts(count, BASE.replace(f"dn: {CLUB}\n", f"dn: {CLUB}\n{lines}", 1))


def listed(entries):
    """The text, where a user has a list of these entries."""
    return BASE.replace(f"dn: {BOB}\n", f"dn: {BOB}\n{descriptor(entries)}", 1)


def linked(names):
    """The text, where a unit links policies of these names."""
    unit, links = "lDAPDisplayName: organizationalUnit\n", "".join(f"[LDAP://{name};0]" for name in names)
    text = (BASE + LINK).replace(unit, f"{unit}mayContain: gPLink\n", 1)
    text = text.replace(f"dn: {STAFF}\n", f"dn: {STAFF}\ngPLink: {links}\n", 1)
    return text + "".join(f"\ndn: {name}\nobjectClass: container\n" for name in names)


@case("control-objects", 4000, 500, most=MOST)
def control_objects(count):
    """Who comes to control the domain, among so many accounts."""
    return told(accounts(count), ROOT, 1)


@case("control-all", 4000, 500, most=MOST)
def control_all(count):
    """Who comes to control somebody whom everybody with an account controls, of so many accounts."""
    return told(accounts(count, listed([make.entry(0, WRITES, make.USERS)])), BOB, count)


@case("control-entries", 300, 150, most=MOST)
def control_entries(count):
    """Who comes to control somebody whose list has so many entries for everybody, each of another type, before one."""
    entries = [make.entry(0, 0x10, make.USERS, f"b0000000-0000-4000-8000-{number:012x}") for number in range(count)]
    return told(listed([*entries, make.entry(0, WRITES, make.USERS)]), BOB, 1)


@case("control-named", 400, 200, "for each who is told what decides is looked for from the first entry on")
def control_named(count):
    """Who comes to control somebody whose list names so many identifiers that nobody here has."""
    return told(listed([make.entry(0, WRITES, who(8, number)) for number in range(count)]), BOB, count)


@case("control-members", 4000, 500, most=MOST)
def control_members(count):
    """Who comes to control a group of so many members."""
    return told(members(count), CLUB, count)


@case("control-links", 1000, 250, most=MOST)
def control_links(count):
    """Who comes to control an account over which so many policies are linked."""
    return told(linked([f"CN=p{number},CN=System,{ROOT}" for number in range(count)]), BOB, count)


@case("control-linked", 4000, 500, most=MOST)
def control_linked(count):
    """What comes to be controlled by a policy that is linked over so many accounts."""
    name = f"CN=p,CN=System,{ROOT}"
    return told(accounts(count, linked([name])), name, count, "reach")


@case("control-chain", 400, 200, "each different list has a set, of a byte an identity")
def control_chain(count):
    """Who comes to control somebody over so many steps, each by an entry of a list of its own."""
    lists = [descriptor([make.entry(0, WRITES, account(number + 1))]) for number in range(count - 1)]
    return told(accounts(count, lists=lists), f"CN=u0,{STAFF}", count - 1)


@case("control-lists", 400, 200, "each different list has a set, of a byte an identity")
def control_lists(count):
    """Who comes to control the domain, where each of so many objects has a list for an identifier of its own."""
    return told(with_descriptors(count), ROOT, 1)


@case("reach-all", 4000, 500, most=MOST)
def reach_all(count):
    """What somebody comes to control who controls the domain, among so many accounts."""
    return told(accounts(count), "CN=ann," + STAFF, count, "reach")
