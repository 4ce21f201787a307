"""The words of a question: identifiers, rights, privileges and descriptors."""

import struct
from typing import Optional

from adsd_tools.forms.rights import RIGHTS
from adsd_tools.forms.sids import sid_of_alias, sid_of_text
from adsd_tools.rows.accounts import Accounts
from adsd_tools.run import ADSD, run
from adsd_tools.shown import line_of

PRIVILEGES = {"security": 1, "take-ownership": 2, "restore": 4}
PARTS = {"owner": 1, "group": 2, "dacl": 4, "sacl": 8}


class Wrong(Exception):
    """A word that can't be meant, with why."""


def sid(text: str, accounts: Optional[Accounts] = None) -> bytes:
    """The bytes of an identifier: numeric, or an alias that needs no domain, or the name of one of some accounts."""
    made = sid_of_text(text)
    if made is None:
        made = sid_of_alias(text.upper(), None)[0]
    if made is None and accounts is not None:
        try:
            made = accounts.sid(text)
        except accounts.Ambiguous as why:
            raise Wrong(str(why)) from None
    if made is None:
        of_store = ", nor an account of the store" if accounts is not None else ""
        raise Wrong(f"{text!r} is neither a SID nor an alias of SDDL outside a domain{of_store}")
    return made


def groups_of(text: str, user: bytes, accounts: Optional[Accounts] = None) -> list[bytes]:
    """The bytes of a list of groups; the word * is all groups of the user's that a store tells."""
    made: list[bytes] = []
    for item in listed(text):
        if item != "*":
            made.append(sid(item, accounts))
        elif accounts is None:
            raise Wrong("* (all groups of a user) needs --store STORE")
        else:
            made += accounts.groups(user)
    return made


def listed(text: str) -> list[str]:
    return [item for item in text.split(",") if item]


def mask(text: str) -> int:
    """The rights of codes that stand one after the other, or of 0x and hexadecimal digits."""
    if text.lower().startswith("0x"):
        return int(text, 16)
    codes = [text[at : at + 2].upper() for at in range(0, len(text), 2)]
    unknown = [code for code in codes if code not in RIGHTS]
    if unknown:
        raise Wrong(f"{unknown[0]} isn't a right")
    return sum({RIGHTS[code] for code in codes})


def privileges(text: str) -> int:
    unknown = [name for name in listed(text) if name not in PRIVILEGES]
    if unknown:
        raise Wrong(f"{unknown[0]!r} isn't a privilege; these are: {', '.join(PRIVILEGES)}")
    return sum(PRIVILEGES[name] for name in set(listed(text)))


def token(user: str, owner: str = "", primary: str = "", groups: str = "", deny: str = "", restricting: str = "",
          privileges_of: str = "", accounts: Optional[Accounts] = None) -> bytes:
    """A token's bytes, of version 2, as docs/profile/identifiers.md has them."""
    own = sid(user, accounts)
    marked = [b"\x00" + group for group in groups_of(groups, own, accounts)]
    marked += [b"\x01" + sid(group, accounts) for group in listed(deny)]
    others = [sid(group, accounts) for group in listed(restricting)]
    head = bytes([2, privileges(privileges_of)]) + own
    head += b"".join(sid(text, accounts) if text else own for text in (owner, primary))
    return head + struct.pack(">H", len(marked)) + b"".join(marked) + struct.pack(">H", len(others)) + b"".join(others)


def adsd(word: str, given: bytes) -> bytes:
    done = run([ADSD, word], given)
    if done.returncode:
        raise Wrong(f"adsd {word} ended with {done.returncode}: {line_of(done.stdout)}")
    return done.stdout


def descriptor(text: str) -> bytes:
    """The self-relative bytes of a descriptor's text, which `adsd sddl` makes of it."""
    return bytes.fromhex(adsd("sddl", text.encode()).split(b"\n")[0].decode())
