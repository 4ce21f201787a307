"""The objects of a store as BloodHound names them: kinds, identifiers, names and properties."""

import calendar
import re
import time
import uuid

from adsd_tools.forms.known import WELL_KNOWN
from adsd_tools.forms.sids import sid_at, text_of_guid, text_of_sid
from adsd_tools.rows import store
from adsd_tools.rows.accounts import Accounts

from .edges import LAPS

ROOT, COUNTS, SERVER_TRUST = 1, 0x80000000, 0x2000
# What stands in gPLink: links with their options.
LINK, LINK_DISABLED, LINK_ENFORCED = re.compile(r"\[LDAP://([^;\]]+);([0-9]{1,9})\]", re.IGNORECASE), 1, 2
# Of a class, or one above it: the first that fits. What stands below a policy isn't written.
KINDS = (("grouppolicycontainer", "GPO"), ("msds-groupmanagedserviceaccount", "User"), ("msds-managedserviceaccount", "User"),
         ("computer", "Computer"), ("user", "User"), ("group", "Group"), ("organizationalunit", "OU"), ("container", "Container"))
# Identifiers that are the same everywhere and no groups.
USERS = {"S-1-0-0", "S-1-5-7", "S-1-5-18", "S-1-5-19", "S-1-5-20"}
TEXTS = {"displayname": "displayName", "email": "mail", "title": "title", "homedirectory": "homeDirectory",
         "description": "description", "operatingsystem": "operatingSystem", "logonscript": "scriptPath"}
FLAGS = {"dontreqpreauth": 0x400000, "passwordnotreqd": 0x20, "pwdneverexpires": 0x10000, "unconstraineddelegation": 0x80000,
         "trustedtoauth": 0x1000000, "sensitive": 0x100000}
TIMES = {"lastlogon": "lastLogon", "lastlogontimestamp": "lastLogonTimestamp", "pwdlastset": "pwdLastSet"}
EXPIRES = {"ms-mcs-admpwd": "ms-mcs-admpwdexpirationtime", "mslaps-password": "mslaps-passwordexpirationtime",
           "mslaps-encryptedpassword": "mslaps-passwordexpirationtime"}
SPACE = uuid.UUID("5b7d4f0e-2f1c-4f06-9d0a-0c7f5c1f6a52")


class NoDomain(Exception):
    """A store whose root isn't a domain's, with why."""


class Nodes:
    """What of a store is written, by number, and what each is called."""

    def __init__(self, path):
        self.accounts = Accounts(path)
        self.directory, self.schema, self.values = self.accounts.directory, self.accounts.schema, self.accounts.values
        self.objects, self.sids = self.directory.objects, self.accounts.sids
        self.names = {number: name.decode("utf-8", "backslashreplace")
                      for number, name in store.names_of(self.directory, self.schema.naming).items()}
        self.by_name = {name.casefold(): number for number, name in self.names.items()}
        if ROOT not in self.sids:
            raise NoDomain("the root has no objectSid, by which BloodHound names the domain")
        self.domain_sid = text_of_sid(self.sids[ROOT])
        parts = [part.partition("=") for part in self.names[ROOT].split(",")]
        self.domain = ".".join(value for name, _, value in parts if name.upper() == "DC").upper() or self.names[ROOT].upper()
        self.of_class, self.kinds, self.children, self.named = {}, {}, {}, {}
        self.sort()

    def kind_of_class(self, of_class):
        """The kind of a class; the empty text where BloodHound has none."""
        if of_class not in self.of_class:
            names = {self.schema.class_names[one].lower() for one in self.schema.chain(of_class)}
            self.of_class[of_class] = next((kind for name, kind in KINDS if name in names), "")
        return self.of_class[of_class]

    def sort(self):
        """The kinds of all objects that are written, parents before children: an object of no kind is a container where
        something that is written stands below it."""
        left_out, order, below = set(), [ROOT], {}
        for number, one in self.objects.items():
            below.setdefault(one.parent, []).append(number)
        for number in order:
            kind = "Domain" if number == ROOT else self.kind_of_class(self.objects[number].of_class)
            if self.objects[number].parent in left_out:
                left_out.add(number)
            elif kind:
                self.kinds[number] = kind
                left_out.update([number] if kind == "GPO" else [])
            order += below.get(number, [])
        for number in reversed(order):
            parent = self.objects[number].parent
            if number in self.kinds and parent and parent not in self.kinds:
                self.kinds[parent] = "Container"
        for number in order:
            if number in self.kinds and number != ROOT:
                self.children.setdefault(self.objects[number].parent, []).append(number)

    # ---- identifiers

    def of_sid(self, sid):
        """The identifier and the kind of whoever has a security identifier."""
        sid, text = bytes(sid), text_of_sid(sid)
        if sid not in self.named:
            self.named[sid] = self.of_text(text, self.accounts.of_sid.get(sid))
        return self.named[sid]

    def of_text(self, text, number):
        kind = self.kinds.get(number) or ("User" if text in USERS else "Group" if text in WELL_KNOWN else "Base")
        return (text if text.startswith("S-1-5-21-") else f"{self.domain}-{text}"), kind

    def identifier(self, number):
        """The identifier of an object: its objectSid's where BloodHound takes that, else its objectGUID; where it has none, one
        made of its name."""
        if number in self.sids and self.kinds[number] not in ("OU", "Container"):
            return self.of_sid(self.sids[number])[0]
        value = next(iter(self.values(number, "objectGUID")), b"")
        guid = text_of_guid(value) if len(value) == 16 else str(uuid.uuid5(SPACE, self.names[number].casefold()))
        return guid.upper()

    def pair(self, number):
        return {"ObjectIdentifier": self.identifier(number), "ObjectType": self.kinds[number]}

    def members(self, number):
        """The members of a group; none where it doesn't count for access, since no token has it."""
        group = next(iter(self.values(number, "groupType")), None)
        value = whole(group)
        if group is not None and (value is None or not value & COUNTS):
            return []
        sids = [self.sids[one] for one in map(as_number, self.values(number, "member")) if one in self.sids]
        return [{"ObjectIdentifier": name, "ObjectType": kind} for name, kind in map(self.of_sid, sids)]

    def links(self, number):
        """The policies that are linked to a unit or the domain by links that are followed, and whether each is enforced."""
        made = []
        for value in self.values(number, "gPLink"):
            for name, options in LINK.findall(value.decode("utf-8", "backslashreplace")):
                found = self.by_name.get(name.casefold())
                if self.kinds.get(found) == "GPO" and not int(options) & LINK_DISABLED:
                    made.append({"GUID": self.identifier(found), "IsEnforced": bool(int(options) & LINK_ENFORCED)})
        return made

    def primary_group(self, number):
        value = whole(next(iter(self.values(number, "primaryGroupID")), None))
        return None if value is None or not 0 <= value < 2**32 else f"{self.domain_sid}-{value}"

    def history(self, number):
        """Whose identifiers an account has besides its own."""
        sids = [sid_at(value, 0, len(value)) for value in self.values(number, "sIDHistory")]
        return [{"ObjectIdentifier": name, "ObjectType": kind} for name, kind in (self.of_sid(sid) for sid in sids if sid)]

    def passwords(self, number):
        """The attributes of LAPS that a computer has a password in; those that would have one, where it has a time of its end."""
        known = [name for name in LAPS if name in self.schema.of_attribute] if self.kinds[number] == "Computer" else []
        there = [name for name in known if self.values(number, name)]
        return tuple(there or [name for name in known if self.values(number, EXPIRES[name])])

    # ---- properties

    def text(self, number, name):
        value = next(iter(self.values(number, name)), None)
        return None if value is None else value.decode("utf-8", "backslashreplace")

    def called(self, number):
        """What BloodHound shows of an object: NAME@DOMAIN, of a computer NAME.DOMAIN."""
        kind, own = self.kinds[number], self.text(number, "sAMAccountName")
        if kind == "Domain":
            return self.domain
        if kind == "GPO":
            own = self.text(number, "displayName")
            return f"{own or self.objects[number].naming.decode('utf-8', 'backslashreplace')}@{self.domain}".upper()
        own = own if own and kind in ("User", "Group", "Computer") else self.objects[number].naming.decode("utf-8", "backslashreplace")
        return (f"{own.rstrip('$')}.{self.domain}" if kind == "Computer" else f"{own}@{self.domain}").upper()

    def properties(self, number):
        kind, made = self.kinds[number], {}
        made.update(domain=self.domain, name=self.called(number), distinguishedname=self.names[number].upper(),
                    domainsid=self.domain_sid, isaclprotected=self.is_protected(number))
        if kind in ("User", "Group", "Computer"):
            made.update(samaccountname=self.text(number, "sAMAccountName"),
                        admincount=whole(next(iter(self.values(number, "adminCount")), None)) not in (None, 0))
        made.update({name: self.text(number, attribute) for name, attribute in TEXTS.items() if self.values(number, attribute)})
        created = epoch(self.text(number, "whenCreated"))
        if created is not None:
            made["whencreated"] = created
        if kind in ("User", "Computer"):
            made.update(self.of_account(number))
        if kind == "OU":
            made["blocksinheritance"] = whole(self.text(number, "gPOptions")) == 1
        if kind == "GPO":
            made["gpcpath"] = self.text(number, "gPCFileSysPath") or ""
        if kind == "Computer":
            made["haslaps"] = bool(self.passwords(number))
        return made

    def of_account(self, number):
        """What is told of who logs on, as far as the store has it."""
        names = [value.decode("utf-8", "backslashreplace") for value in self.values(number, "servicePrincipalName")]
        made, control = {"serviceprincipalnames": names, "hasspn": bool(names)}, whole(self.text(number, "userAccountControl"))
        if control is not None:
            made.update({name: bool(control & bit) for name, bit in FLAGS.items()}, enabled=not control & 2)
        for name, attribute in TIMES.items():
            value = whole(self.text(number, attribute))
            if value is not None and value >= 0:
                made[name] = max(0, value // 10_000_000 - 11_644_473_600) if 0 < value < 2**63 - 1 else 0
        return made

    def is_controller(self, number):
        return bool((whole(self.text(number, "userAccountControl")) or 0) & SERVER_TRUST)

    def is_protected(self, number):
        return bool(self.objects[number].normal[0] & 1)

    def well_known(self):
        """The groups that were named, are the same everywhere, and have no object that is written, as (identifier, name)."""
        made = {}
        for sid, (identifier, kind) in self.named.items():
            if self.accounts.of_sid.get(sid) not in self.kinds and kind == "Group":
                made[identifier] = f"{WELL_KNOWN[text_of_sid(sid)]}@{self.domain}".upper()
        return sorted(made.items())


def as_number(value):
    return int.from_bytes(value, "big")


def whole(value):
    """The whole number of a text or its bytes, None where it is none."""
    try:
        return int(value)
    except (TypeError, ValueError):
        return None


def epoch(text):
    """The seconds since 1970 of a generalized time."""
    try:
        return calendar.timegm(time.strptime(text[:14], "%Y%m%d%H%M%S")) if text else None
    except ValueError:
        return None


