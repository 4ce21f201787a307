"""OpenLDAP's slapd with the directories of make.py: its schema, and a slapd.conf over mdb.

What slapd has no word for is left out: the classes that an object may stand below, links, the names of attributes and classes by GUID, and the
descriptors that a class gives. The attributes of the auxiliary classes that users have by themselves are users' own ones."""
import os

import make

SYNTAX = {1: 12, 2: 26, 9: 27, 10: 40, 12: 15, 16: 27, 17: 40}
MATCH = {1: "distinguishedNameMatch", 2: "caseIgnoreIA5Match", 9: "integerMatch", 10: "octetStringMatch", 12: "caseIgnoreMatch",
         16: "integerMatch", 17: "octetStringMatch"}
BUILT_IN = ("objectClass", "cn", "distinguishedName", "name", "description")
KEPT = ["description", "nTSecurityDescriptor", "distinguishedName", "name"]
# A line of slapd.conf has so few words that the attributes of many classes are taken from abstract classes with so many each.
MOST_NAMES = 80
# A database of mdb takes so many indexes at most, that of objectClass among them.
MOST_INDEXES = 124
# Who has bound may read and write all but descriptors, which the program doesn't show either where they aren't asked for.
RIGHTS = "access to attrs=nTSecurityDescriptor by * none\naccess to * by users write by * auth\nsizelimit unlimited\n"


def schema(real):
    """The schema as slapd reads it: without what it has by itself, and every class may have a descriptor."""
    out = []
    for i, (name, syntax, single, _) in enumerate(make.attributes(real) + [("nTSecurityDescriptor", 10, True, None)]):
        if name not in BUILT_IN:
            out.append("attributetype ( 1.3.6.1.4.1.99999.1.%d NAME '%s' EQUALITY %s SYNTAX 1.3.6.1.4.1.1466.115.121.1.%d%s )"
                       % (i, name, MATCH[syntax], SYNTAX[syntax], " SINGLE-VALUE" if single else ""))
    every = make.classes(real)
    may = {one[0]: one[4].split() for one, _ in every}
    for i, ((name, above, category, naming, _, _), beside) in enumerate(every):
        more = [attribute for one in beside for attribute in may[one]]
        parts = [f"{name}Beside{at}" for at in range(0, len(more), MOST_NAMES)]
        for at, part in enumerate(parts):
            out.append(object_class(f"3.{i}.{at}", part, "top", "ABSTRACT", more[at * MOST_NAMES:][:MOST_NAMES]))
        kind = "AUXILIARY" if category == 3 else "STRUCTURAL MUST " + naming
        if name != "top":
            out.append(object_class(f"2.{i}", name, " $ ".join([above, *parts]), kind, KEPT + may[name]))
    return "\n".join(out) + "\n"


def object_class(number, name, above, kind, may):
    return f"objectclass ( 1.3.6.1.4.1.99999.{number} NAME '{name}' SUP ( {above} ) {kind} MAY ( {' $ '.join(may)} ) )"


def config(place, real=False, indexes=("objectClass", "sAMAccountName", "objectSid"), more="", told=None):
    """Writes a slapd.conf with these indexes for equality, and an empty folder for the database, and gives the path. The schema
    is that of make.py, or the one that is told."""
    os.mkdir(os.path.join(place, "db"))
    path = os.path.join(place, "slapd.conf")
    with open(path, "w", encoding="utf-8") as out:
        modules = os.environ.get("SLAPD_MODULES", "/usr/lib/ldap")
        out.write(f"modulepath {modules}\nmoduleload back_mdb\n" + (told or schema(real)))
        out.write(f'database mdb\nsuffix "{make.ROOT}"\ndirectory {place}/db\nmaxsize 4294967296\n{more}')
        out.writelines(f"index {name} eq\n" for name in indexes)
    return path
