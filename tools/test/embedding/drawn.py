"""Descriptors and tokens by chance, for the comparisons beside this file. The same seed gives the same ones."""

import random

SIDS = ["S-1-5-21-1-2-3-1001", "S-1-5-21-1-2-3-1002", "S-1-5-21-1-2-3-513", "S-1-5-32-544", "S-1-5-11", "S-1-1-0", "S-1-5-32-545"]
OWNER_RIGHTS = "S-1-3-4"
RIGHTS = [1 << bit for bit in range(9)] + [1 << bit for bit in range(16, 20)]
GUIDS = ["bf967aba-0de6-11d0-a285-00aa003049e2", "bf9679c0-0de6-11d0-a285-00aa003049e2", "4c164200-20c0-11d0-a768-00aa006e0529"]
FLAGS = ["", "", "CI", "OICI", "CIIO", "ID", "CIID", "CINP"]


def mask(chance):
    return sum(chance.sample(RIGHTS, chance.randint(1, 6)))


def entry(chance, with_objects, with_owner_rights):
    who = OWNER_RIGHTS if with_owner_rights and chance.random() < 0.1 else chance.choice(SIDS)
    kind, guid, inherited = chance.choice("AAD"), "", ""
    if with_objects and chance.random() < 0.4:
        kind = "O" + kind
        guid, inherited = chance.choice(["", *GUIDS]), chance.choice(["", "", GUIDS[0]])
        guid = guid if guid or inherited else GUIDS[1]
    return f"({kind};{chance.choice(FLAGS)};{mask(chance):#x};{guid};{inherited};{who})"


def sddl(chance, with_objects=False, with_owner_rights=False, with_sacl=False):
    entries = "".join(entry(chance, with_objects, with_owner_rights) for _ in range(chance.randint(0, 6)))
    text = f"O:{chance.choice(SIDS)}G:{chance.choice(SIDS)}D:{chance.choice(['', '', 'P'])}{entries}"
    return text + (f"S:(AU;SA;{mask(chance):#x};;;S-1-1-0)" if with_sacl and chance.random() < 0.3 else "")


def token(chance):
    """A user and its groups."""
    user, *groups = chance.sample(SIDS, chance.randint(1, 5))
    return user, groups


def chance_of(seed):
    return random.Random(seed)
