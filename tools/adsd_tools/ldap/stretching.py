"""Passwords as the store has them where it is served with --store-passwords.

The program keeps one SHA-256 of what it is given, without salt. So it is given no password, but what scrypt makes of it
and of the account's own identifier, and a bind is checked by that alone: who has the store's files has no short way to
a password."""

import base64
import hashlib

from adsd_tools.forms.sids import guid_of_text, sid_of_text

from . import operations, searches
from .searches import Refused

# Cost, block size and lanes of scrypt.
COST, BLOCK, LANES, MOST_MEMORY = 2**14, 8, 1, 2**26
PASSWORD, GUID, SID = "unicodepwd", "objectguid", "objectsid"
UNWILLING = 53
# A change of a password has two values.
MOST_VALUES = 4
NO_SALT = "00000057: the password of a new object without an objectGUID is set once it is there"
TOO_MANY = "00000057: a change of a password has two values"


def stretched(value, salt):
    """What the store is given for a value of unicodePwd."""
    salt = b"adsd unicodePwd\0" + salt
    made = hashlib.scrypt(value, salt=salt, n=COST, r=BLOCK, p=LANES, maxmem=MOST_MEMORY, dklen=32)
    return f'"scrypt:{base64.b64encode(made).decode()}"'.encode("utf-16-le")


def salt_in(entry):
    """What is an account's own: its objectGUID, else its objectSid; None where neither is read."""
    return next((bytes(values[0]) for values in map(entry.values, (GUID, SID)) if values), None)


async def salt_of(accounts, name):
    """The salt of the object of a name. Of one that the bridge's own account doesn't see, whose password nobody binds
    by, it is the name."""
    found = await accounts.search(searches.TRUE, (b"objectGUID", b"objectSid"), name, searches.BASE)
    return (salt_in(found[0]) if found else None) or hashlib.sha256(name).digest()


def values_of(operation):
    """The values of unicodePwd in an operation."""
    found = [value for item in operation.items if item.lower == PASSWORD for value in item.values]
    if len(found) > MOST_VALUES:
        raise Refused(UNWILLING, TOO_MANY)
    return found


async def of_change(session, operation):
    """What the store is given for each password in a change; of a new object nothing, which isn't there yet."""
    bridge = session.bridge
    values = values_of(operation) if operation.kind == operations.MODIFY else ()
    if not bridge.options.store_passwords or not values:
        return {}
    salt = await salt_of(bridge.accounts, operation.name)
    return {value: await bridge.checks.run(session.host, stretched, value, salt) for value in dict.fromkeys(values)}


async def of_new(session, operation):
    """What the store is given for each password of a new object, by its objectGUID."""
    bridge = session.bridge
    values = values_of(operation) if operation.kind == operations.ADD else ()
    if not bridge.options.store_passwords or not values:
        return {}
    given = operation.values(GUID)
    if len(given) != 1:
        raise Refused(UNWILLING, NO_SALT)
    return {value: await bridge.checks.run(session.host, stretched, value, given[0]) for value in dict.fromkeys(values)}


def replaced(operation, known):
    """An operation with what the store is given in the place of passwords."""
    items = tuple(operations.Item(item.act, item.name, tuple(known.get(value, value) for value in item.values))
                  if item.lower == PASSWORD else item for item in operation.items)
    return operations.replace(operation, items=items) if known else operation


# ---- exports


def value_of(line):
    """The name of a line of LDIF in lower case, and its value."""
    name, _, rest = line.partition(b":")
    data = base64.b64decode(rest[1:].strip()) if rest[:1] == b":" else rest.strip()
    return name.strip().lower().decode("latin-1"), data


def salt_of_lines(lines):
    """The salt of a record."""
    told = dict(map(value_of, (line for line in lines if line.lower().startswith((b"objectguid:", b"objectsid:")))))
    guid, sid = told.get(GUID), told.get(SID)
    if guid:
        return guid if len(guid) == 16 else guid_of_text(guid.decode("latin-1").strip("{}"))
    return sid and (sid_of_text(sid.decode("latin-1")) if sid.startswith(b"S-") else sid)


def of_record(lines):
    """The lines of a record of LDIF, with what the store is given in the place of passwords. ValueError where it has a
    password and neither objectGUID nor objectSid."""
    if not any(line.lower().startswith(b"unicodepwd:") for line in lines):
        return lines
    whole = []
    for line in lines:
        if line[:1] == b" " and whole:
            whole[-1] = whole[-1].rstrip(b"\r\n") + line[1:]
        else:
            whole.append(line)
    salt = salt_of_lines(whole)
    if not salt:
        name = whole[0].decode("utf-8", "replace").strip()
        raise ValueError(f"{name}: a password, and neither objectGUID nor objectSid")
    return [b"unicodePwd:: " + base64.b64encode(stretched(value_of(line)[1], salt)) + b"\n"
            if line.lower().startswith(b"unicodepwd:") else line for line in whole]


def of_export(lines):
    """The lines of an export, record by record."""
    record = []
    for line in lines:
        if line.strip(b"\r\n"):
            record.append(line)
            continue
        yield from of_record(record)
        yield line
        record = []
    yield from of_record(record)
