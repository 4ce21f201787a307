"""Passwords as the file of names keeps them: a salted hash by hashlib, or the text itself."""

import base64
import functools
import hashlib
import hmac
import os
import re

# The numbers of a new hash: cost, block size and lanes of scrypt, the rounds of PBKDF2.
USUAL, ROUNDS = (2**14, 8, 1), 600_000
# What a hash may ask for, so that a file can't ask for all memory.
MOST_MEMORY, MOST_ROUNDS = 2**28, 10**8


# How hashes of other systems begin, which would else be taken for the password's text.
OTHERS = re.compile(r"\{[A-Za-z0-9-]+\}|\$[0-9a-z]+\$")


class Unreadable(Exception):
    """A text that begins like a hash and is none that is known here."""


def by_scrypt(password, salt, cost, block, lanes):
    return hashlib.scrypt(password, salt=salt, n=cost, r=block, p=lanes, maxmem=MOST_MEMORY, dklen=32)


def by_pbkdf2(password, salt, rounds):
    return hashlib.pbkdf2_hmac("sha256", password, salt, rounds)


@functools.lru_cache(maxsize=None)
def check_scrypt(*numbers):
    """Runs it once by these numbers, since only that tells whether they are taken; a ValueError where they aren't."""
    by_scrypt(b"", bytes(16), *numbers)


METHODS = {"scrypt": (by_scrypt, 3), "pbkdf2": (by_pbkdf2, 1)}


def written(method, numbers, salt, made):
    return ":".join([method, *map(str, numbers), base64.b64encode(salt).decode(), base64.b64encode(made).decode()])


def made(password, method="scrypt"):
    """The text of a new hash of a password."""
    salt, numbers = os.urandom(16), USUAL if method == "scrypt" else (ROUNDS,)
    return written(method, numbers, salt, METHODS[method][0](password, salt, *numbers))


def read(text):
    """What tells whether some bytes are the password that a text stands for."""
    if OTHERS.match(text):
        raise Unreadable("the password begins like a hash of another system; `adsd-ldap name` makes one that is taken")
    method, sign, rest = text.partition(":")
    if not sign or method not in METHODS:
        given = text.encode()
        return lambda password: hmac.compare_digest(password, given)
    run, count = METHODS[method]
    fields = rest.split(":")
    try:
        if len(fields) != count + 2:
            raise ValueError
        numbers = [int(field) for field in fields[:count]]
        salt, kept = (base64.b64decode(field, validate=True) for field in fields[count:])
        if len(salt) < 8 or len(kept) != 32 or not 1 <= numbers[0] <= MOST_ROUNDS:
            raise ValueError
        if method == "scrypt":
            check_scrypt(*numbers)
    except (ValueError, OverflowError, MemoryError):
        raise Unreadable(f"the password begins with {method}: and is no hash that `adsd-ldap name` makes") from None
    return lambda password: hmac.compare_digest(run(password, salt, *numbers), kept)
