"""The words of adsd-ask, and what they ask for."""

import argparse
import struct
import sys
from typing import Optional

from adsd_tools import incomplete, lines
from adsd_tools.forms import ber
from adsd_tools.forms.rights import codes
from adsd_tools.forms.sids import text_of_sid
from adsd_tools.rows.accounts import Accounts
from adsd_tools.rows.store import Broken
from adsd_tools.shown import Words, shown

from . import answers, named, requests, words

ABOUT = """
    adsd-ask access --sddl SDDL --user SID [--group SID].. --want RIGHTS   which of the rights are granted, which not
    adsd-ask frames [--store STORE] [FILE]      turns lines of text into the frames that `adsd serve STORE` takes
    adsd-ask replies [FILE]                     turns its answers into LDIF and words
    adsd-ask effective STORE NAME --as NAME     what an account may do on an object, as `adsd effective` tells it
    adsd-ask list STORE NAME                    the descriptor of an object, as `adsd list` tells it
    adsd-ask grants STORE [FILE]                lines of `adsd grants`, in which accounts, attributes, classes and rights
                                                may stand by name: grant (OA;CI;WP;displayName;user;bob) OU=staff,DC=x
    adsd-ask search STORE FILTER [ATTR..] --as NAME [--base DN]
                                                what an account finds below the root or another object, as LDIF; without
                                                attributes the names alone

With --store, a name of an account of that store may stand for its identifier: user=bob, groups=club,AU; and groups=* are
all groups that the user is in by the store, directly or by others, and AU and WD. Identifiers and aliases go first.

A line of frames has a word, the number of a connection (0 if none is given), and pairs key=value; '#' begins a comment, and values with
blanks stand in quotes. A value after base64:, sid: or sddl: is the bytes that the text encodes.

    token 1 user=SID groups=SID,SID privileges=security,restore owner=SID primary=SID deny=SID restricting=SID
    search 1 base=DN scope=base|one|sub filter='(cn=ann)' attrs=cn,mail size=0 types-only=no sd=owner,group,dacl,sacl
    compare 1 dn=DN attr=NAME value=VALUE
    add 1 dn=DN objectClass=user description='of the staff'
    modify 1 dn=DN add:member=DN delete:description= replace:nTSecurityDescriptor='sddl:D:(A;;GA;;;BA)' sd=dacl
    delete 1 dn=DN tree=no
    rename 1 dn=DN rdn=CN=new superior=DN
    unbind 1
    steps 100
    run
"""
OWNER_AT, DACL_AT = 4, 16


def parsed(arguments: list[str]) -> argparse.Namespace:
    form = Words(prog="adsd-ask", description="Asks access checks in words, turns lines of text into requests, and answers into LDIF.", epilog=ABOUT,
                 formatter_class=argparse.RawDescriptionHelpFormatter)
    words_of = form.add_subparsers(dest="word", required=True)
    check = words_of.add_parser("access", help="asks one access check")
    check.add_argument("--sddl", required=True, help="a security descriptor with an owner and a DACL, as SDDL")
    check.add_argument("--user", required=True, help="the user of the token, also its owner and primary group")
    check.add_argument("--group", action="append", default=[], help="a group of the token")
    check.add_argument("--deny-only", action="append", default=[], help="a deny-only group")
    check.add_argument("--restricting", action="append", default=[], help="a restricting SID")
    check.add_argument("--privilege", action="append", default=[], choices=words.PRIVILEGES)
    check.add_argument("--want", required=True, help="the wanted rights: codes of SDDL, or 0x and hexadecimal digits")
    frames = words_of.add_parser("frames", help="turns lines of text into frames")
    replies = words_of.add_parser("replies", help="turns answers into LDIF and words")
    effective = words_of.add_parser("effective", help="what an account may do on an object")
    listing = words_of.add_parser("list", help="lists the descriptor of an object")
    search = words_of.add_parser("search", help="what an account finds")
    grants = words_of.add_parser("grants", help="turns lines of adsd grants, with names, into frames")
    for one in (effective, listing, grants, search):
        one.add_argument("store", metavar="STORE", help="the store, as `adsd` is given it")
    for one in (effective, listing):
        one.add_argument("name", metavar="NAME", help="the object: a distinguished name, or an account's name")
    for one in (effective, search):
        one.add_argument("--as", metavar="NAME", dest="as_name", required=True,
                         help="who asks, with the token that the store gives this account")
    search.add_argument("filter", metavar="FILTER", help="as LDAP has it: (sIDHistory=*)")
    search.add_argument("attributes", metavar="ATTR", nargs="*", help="which attributes are told (none)")
    search.add_argument("--base", metavar="DN", help="below which object (the root)")
    for one in (check, frames):
        one.add_argument("--store", metavar="STORE", help="take the names of accounts from this store")
    for one in (frames, replies, grants):
        one.add_argument("file", nargs="?", default="-", metavar="FILE", help="- is standard input")
    return form.parse_args(arguments)


def accounts_of(asked: argparse.Namespace) -> Optional[Accounts]:
    """The accounts that may be named, or None."""
    if asked.store is None:
        return None
    try:
        made = Accounts(asked.store)
    except Broken as why:
        raise words.Wrong(f"{asked.store}: {why}") from None
    incomplete.warn(asked.store)
    return made


def part(data: bytes, at: int) -> int:
    return int(struct.unpack_from("<I", data, at)[0])


def access(asked: argparse.Namespace) -> None:
    """Asks the program for the granted rights; a text without an owner has the token's user as one."""
    accounts = accounts_of(asked)
    own = text_of_sid(words.sid(asked.user, accounts))
    given = asked.sddl if asked.sddl.upper().startswith("O:") else f"O:{own}{asked.sddl}"
    data = words.descriptor(given)
    if not part(data, DACL_AT):
        raise words.Wrong("the descriptor has no DACL")
    owner = data[part(data, OWNER_AT) :]
    owner = owner[: 8 + 4 * owner[1]]
    dacl = data[part(data, DACL_AT) :]
    dacl = dacl[: struct.unpack_from("<H", dacl, 2)[0]]
    token = words.token(asked.user, groups=",".join(asked.group), deny=",".join(asked.deny_only), accounts=accounts,
                        restricting=",".join(asked.restricting), privileges_of=",".join(asked.privilege))
    want = words.mask(asked.want)
    mask = int(words.adsd("access", struct.pack(">I", len(token)) + token + owner + dacl + struct.pack(">I", want)), 16)
    print(f"granted {mask:08x}: {' '.join(codes(mask)) or 'nothing'}")
    left = [code for code in codes(want) if code not in codes(mask)]
    if left and not want & 0xF0000000:
        print(f"not granted: {' '.join(left)}")


def given(name: str) -> bytes:
    if name == "-":
        return sys.stdin.buffer.read()
    with open(name, "rb") as opened:
        return opened.read()


def by_name(asked: argparse.Namespace) -> bytes:
    """What the program answers where names stand for what it reads."""
    accounts = accounts_of(asked)
    if accounts is None:
        raise words.Wrong("there is no store")
    if asked.word == "effective":
        return named.effective(asked.store, asked.name, asked.as_name, accounts)
    if asked.word == "list":
        return named.listing(asked.store, asked.name, accounts)
    if asked.word == "search":
        return named.search(asked.store, asked.filter, asked.attributes, asked.as_name, asked.base, accounts)
    return named.grants(asked.store, given(asked.file), accounts)


def main(arguments: list[str]) -> int:
    asked = parsed(arguments)
    try:
        if asked.word == "access":
            access(asked)
        elif asked.word == "frames":
            made = b"".join(requests.frames(requests.lines_of(given(asked.file)), accounts_of(asked)))
            sys.stdout.buffer.write(made)
        elif asked.word in ("effective", "list", "grants", "search"):
            sys.stdout.buffer.write(by_name(asked))
        else:
            for line in answers.lines(given(asked.file)):
                print(line)
    except named.Refused as why:
        sys.stdout.buffer.write(why.printed)
        return why.status
    except (words.Wrong, lines.Unread, answers.Broken, ber.Broken, OSError) as wrong:
        print(f"adsd-ask: {shown(str(wrong))}", file=sys.stderr)
        return 1
    return 0
