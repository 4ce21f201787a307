"""A domain of Samba's real schema, for `run`: what examples/hour/provision makes, with users besides, for the program and
for slapd.

The users stand in units of a hundred, with the lines that `samba-tool user create` and a directory of persons give one. They
have no list of their own in the text, so that loading gives each the class's default: 24 entries, and what it inherits. slapd gets
the same objects with the values that the program shows. Its schema is made of the records: of each attribute that an object has
the name and a syntax, and of each class its name and the class above it. Every object may have all of these attributes."""

import base64
import os
import subprocess

import slapd
from adsd_tools.forms.sids import below, sid_of_text

TOP = os.path.dirname(os.path.dirname(os.path.dirname(os.path.abspath(__file__))))
DOMAIN = "S-1-5-21-1754576855-880412937-656926279"
ROOT, IN_UNIT, FIRST = "DC=corp,DC=example", 100, 20_000
# Syntaxes as slapd has them; all others are bytes there.
SYNTAXES = {"2.5.5.1": ("12", "distinguishedNameMatch"), "2.5.5.2": ("26", "caseIgnoreIA5Match"), "2.5.5.9": ("27", "integerMatch"),
            "2.5.5.12": ("15", "caseIgnoreMatch"), "2.5.5.16": ("27", "integerMatch"), "2.5.5.5": ("26", "caseIgnoreIA5Match"),
            "2.5.5.4": ("15", "caseIgnoreMatch")}
OCTETS = ("40", "octetStringMatch")
# What slapd has of itself, and what it makes or doesn't show.
BUILT_IN = ("objectclass", "cn", "name", "description", "distinguishedname", "uid", "uidnumber", "gidnumber", "seealso", "userpassword",
            "createtimestamp", "modifytimestamp", "structuralobjectclass", "subschemasubentry", "labeleduri", "ref")
NOT_SHOWN = ("ntsecuritydescriptor", "unicodepwd", "memberof", "ntpwdhistory", "lmpwdhistory", "dbcspwd", "supplementalcredentials",
             "subschemasubentry", "structuralobjectclass", "createtimestamp", "modifytimestamp")
# The bits of searchFlags: an index for equality.
INDEXED = 1


def records(text):
    """The records of a text: pairs of a name and a value's bytes, the dn first."""
    for block in text.replace(b"\n ", b"").split(b"\n\n"):
        made = []
        for line in block.split(b"\n"):
            name, colon, value = line.partition(b":")
            if colon and line[:1] != b"#":
                made.append((name.decode(), base64.b64decode(value[1:]) if value[:1] == b":" else value.strip(b" ")))
        if made:
            yield made


def is_of_schema(record):
    return any(name == "objectClass" and value in (b"attributeSchema", b"classSchema", b"controlAccessRight") for name, value in record)


def user(number, unit):
    """The lines of a user."""
    login, name = f"u{number:06}", f"Ann Lee {number:06}"
    place = f"OU=people{unit:03},{ROOT}"
    sid = base64.b64encode(below(sid_of_text(DOMAIN), FIRST + number)).decode()
    lines = [f"dn: CN={name},{place}", "objectClass: top", "objectClass: person", "objectClass: organizationalPerson", "objectClass: user"]
    lines += [f"cn: {name}", f"sn: Lee {number % 977}", "givenName: Ann", f"displayName: {name}", f"name: {name}", f"distinguishedName: CN={name},{place}"]
    lines += [f"objectSid:: {sid}", "objectGUID:: " + base64.b64encode(b"user%012d" % number).decode(), f"sAMAccountName: {login}"]
    lines += [f"userPrincipalName: {login}@corp.example", f"mail: {login}@mail.corp.example", f"description: Account of {name}"]
    lines += ["userAccountControl: 512", "primaryGroupID: 513", "accountExpires: 9223372036854775807", "pwdLastSet: 133400000000000000"]
    lines += ["codePage: 0", "countryCode: 0", "badPwdCount: 0", "logonCount: 0", "sAMAccountType: 805306368", "instanceType: 4"]
    lines += ["title: Clerk", f"department: Unit {unit}", "company: Corp of Examples", f"telephoneNumber: +49 30 {number:07}"]
    return lines + [f"objectCategory: CN=Person,CN=Schema,CN=Configuration,{ROOT}"]


def unit(number):
    name = f"OU=people{number:03},{ROOT}"
    return [f"dn: {name}", "objectClass: top", "objectClass: organizationalUnit", f"ou: people{number:03}", f"name: people{number:03}",
            f"distinguishedName: {name}", f"objectCategory: CN=Organizational-Unit,CN=Schema,CN=Configuration,{ROOT}"]


def imported(place, folder):
    """The text of the domain as `adsd-import` writes it. `folder` has one that was made before; else it is made."""
    if folder is None:
        folder = os.path.join(place, "dc")
        subprocess.run([os.path.join(TOP, "examples/hour/provision"), folder], check=True)
    out = os.path.join(place, "domain.ldif")
    words = [os.path.join(TOP, "tools/adsd-import"), os.path.join(folder, "export.ldif"), "-o", out, "-r", os.devnull]
    subprocess.run(words, check=True, stderr=subprocess.DEVNULL)
    with open(out, "rb") as opened:
        return opened.read()


class Domain:
    """The domain with so many users, and what slapd needs of it."""

    def __init__(self, place, users, folder):
        self.text = imported(place, folder)
        made = [unit(at) for at in range((users + IN_UNIT - 1) // IN_UNIT)]
        made += [user(at, at // IN_UNIT) for at in range(users)]
        self.text += "".join("\n".join(lines) + "\n\n" for lines in made).encode()
        told = list(records(self.text))
        self.schema = [dict(one) for one in told if is_of_schema(one)]
        self.objects = [one for one in told if not is_of_schema(one)]

    def write(self, path):
        """Writes the text that the program loads; how many objects it has."""
        with open(path, "wb") as opened:
            opened.write(self.text)
        return len(self.objects)

    def attributes(self):
        """The attributes that objects have and slapd shows, by name in lower case: the record of each."""
        used = {name.lower() for one in self.objects for name, _ in one[1:]} - set(NOT_SHOWN)
        found = {one["lDAPDisplayName"].decode().lower(): one for one in self.schema if "attributeSyntax" in one}
        return {name: one for name, one in found.items() if name in used}

    def indexed(self):
        """The attributes that are indexed there and that objects have."""
        return [one["lDAPDisplayName"].decode() for one in self.attributes().values() 
                if int(one.get("searchFlags", b"0")) & INDEXED and one["lDAPDisplayName"] != b"objectClass"]

    def slapd_schema(self):
        """slapd's schema of what objects have."""
        # (Descriptors aren't there, as in the other shape: the rights of slapd.py name them.)
        told, names = ["attributetype ( 1.3.6.1.4.1.99999.4.1 NAME 'nTSecurityDescriptor' SYNTAX 1.3.6.1.4.1.1466.115.121.1.40 )"], []
        for at, (low, one) in enumerate(sorted(self.attributes().items())):
            name, (syntax, match) = one["lDAPDisplayName"].decode(), SYNTAXES.get(one["attributeSyntax"].decode(), OCTETS)
            names.append(name)
            if low not in BUILT_IN:
                told.append(f"attributetype ( 1.3.6.1.4.1.99999.1.{at} NAME '{name}' EQUALITY {match} SYNTAX 1.3.6.1.4.1.1466.115.121.1.{syntax} )")
        parts = [names[at : at + slapd.MOST_NAMES] for at in range(0, len(names), slapd.MOST_NAMES)]
        told += [slapd.object_class(f"3.{at}", f"every{at}", "top", "ABSTRACT", part) for at, part in enumerate(parts)]
        used = {value.decode().lower() for one in self.objects for name, value in one[1:] if name == "objectClass"} - {"subschema"}
        above = {one["lDAPDisplayName"].decode().lower(): one for one in self.schema if "subClassOf" in one}
        done = {"top"}
        while used - done:
            for at, (low, one) in enumerate(sorted(above.items())):
                over = one["subClassOf"].decode().lower()
                if low in used - done and over in done | (set(above) - used):
                    kind = "AUXILIARY" if one.get("objectClassCategory") == b"3" else "STRUCTURAL"
                    over = over if over in done and over != "top" else " $ ".join(["top", *(f"every{part}" for part in range(len(parts)))])
                    told.append(f"objectclass ( 1.3.6.1.4.1.99999.2.{at} NAME '{one['lDAPDisplayName'].decode()}' SUP ( {over} ) {kind} )")
                    done.add(low)
        return "\n".join(told) + "\n"

    def write_for_slapd(self, path):
        """Writes the objects with what slapd shows of them."""
        shown = set(self.attributes())
        with open(path, "wb") as opened:
            for one in self.objects:
                if any(name == "objectClass" and value == b"subSchema" for name, value in one):
                    continue  # slapd's own class of that name isn't one of objects.
                lines = [b"dn:: " + base64.b64encode(one[0][1])]
                lines += [name.encode() + b":: " + base64.b64encode(value) for name, value in one[1:] if name.lower() in shown]
                opened.write(b"\n".join(lines) + b"\n\n")
