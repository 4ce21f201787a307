"""What Active Directory fills in where an Add doesn't give it (docs/clients.md#what-active-directory-fills-in).
Nothing of it needs a right besides that to make the object."""

import random
import time
import uuid

from . import operations
from .numerals import number_of as number_of_value

OCTETS, NAME, TIME = "2.5.5.10", "2.5.5.1", "2.5.5.11"
NUMBERS = ("2.5.5.9", "2.5.5.16")
NORMAL, WORKSTATION, SERVER, PARTIAL = 0x200, 0x1000, 0x2000, 0x4000000
# An account that is disabled, and may have no password.
NEW_ACCOUNT = 0x222
GLOBAL_SECURITY = -2147483646
NEVER = str(2**63 - 1)
ZEROS = ("badPwdCount", "codePage", "countryCode", "badPasswordTime", "lastLogoff", "lastLogon", "pwdLastSet",
         "logonCount")
LETTERS = "ABCDEFGHIJKLMNOPQRSTUVWXYZ0123456789"


def now_text():
    """The time as a value of GeneralizedTime."""
    return time.strftime("%Y%m%d%H%M%S.0Z", time.gmtime())


def login():
    """A login as Active Directory makes one: $, six and twelve letters."""
    made = random.SystemRandom().choices(LETTERS, k=18)
    return f"${''.join(made[:6])}-{''.join(made[6:])}"


def number_of(operation, name, other):
    """The number that an Add gives, or another one; None where what it gives is none."""
    values = operation.values(name)
    return number_of_value(values[0]) if values else other


def control_of(operation):
    """The control of a new account; 0 where what is given is no number."""
    return number_of(operation, "useraccountcontrol", NEW_ACCOUNT) or 0


def primary_of(operation):
    """The primary group of a new account: users, computers, servers of the domain, and those that hold some secrets."""
    control = control_of(operation)
    if not control & (WORKSTATION | SERVER):
        return 513
    return 516 if control & SERVER else 521 if control & PARTIAL else 515


def of_account(operation):
    """What users and computers get."""
    machine = control_of(operation) & (WORKSTATION | SERVER)
    found = {"userAccountControl": str(NEW_ACCOUNT), "primaryGroupID": str(primary_of(operation)),
             "accountExpires": NEVER, "sAMAccountType": str(0x30000001 if machine else 0x30000000),
             "sAMAccountName": login()}
    return {**found, **dict.fromkeys(ZEROS, "0")}


def of_group(operation):
    """What groups get."""
    kind = number_of(operation, "grouptype", GLOBAL_SECURITY)
    base = 0x20000000 if kind is not None and kind & 4 else 0x10000000
    mail = 1 if kind is not None and not kind & 0x80000000 else 0
    return {"groupType": str(GLOBAL_SECURITY), "sAMAccountType": str(base + mail), "sAMAccountName": login()}


def wanted(operation, schema, of_class, counter):
    """All that there is to fill in, by name: bytes."""
    chain = {schema.class_names[one].lower() for one in schema.chain(of_class)}
    told = of_account(operation) if "user" in chain else of_group(operation) if "group" in chain else {}
    told.update(instanceType="4", whenCreated=now_text(), whenChanged=now_text())
    if counter is not None:
        told.update(uSNCreated=str(counter), uSNChanged=str(counter))
    if schema.classes[of_class].text("defaultHidingValue").upper() == "TRUE":
        told["showInAdvancedViewOnly"] = "TRUE"
    made = {name: value.encode() for name, value in told.items()}
    category = schema.category(schema.class_names[of_class].encode())
    return {"objectGUID": uuid.uuid4().bytes_le, **made, **({"objectCategory": category} if category else {})}


def syntaxes(name):
    """The syntaxes by which an attribute is filled in."""
    known = {"objectGUID": (OCTETS,), "objectCategory": (NAME,), "sAMAccountName": ("2.5.5.12",),
             "showInAdvancedViewOnly": ("2.5.5.8",), "whenCreated": (TIME,), "whenChanged": (TIME,)}
    return known.get(name, NUMBERS)


def filled(operation, schema, of_class, counter):
    """The items of an Add with what is filled in: what the class allows and nothing gave."""
    given = {item.lower for item in operation.items}
    allowed = {name.lower() for name in schema.allowed_names(of_class)}
    more = [operations.Item(operations.ADDS, name.encode(), (value,))
            for name, value in wanted(operation, schema, of_class, counter).items()
            if name.lower() in allowed and name.lower() not in given
            and schema.syntax(name.lower()) in syntaxes(name) and not schema.link_number(name.lower())]
    return operation.items + tuple(more)
