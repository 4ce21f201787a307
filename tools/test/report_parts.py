"""The reasons of tools/adsd-report by themselves, on worked cases of docs/profile/access.md and others made by hand, and on
lists by chance beside plain_why.py, which goes entry by entry."""

import random
import struct

import plain_why

from adsd_tools.forms.descriptor import ALLOW, AUDIT, DENY, INHERIT_ONLY, Entry
from adsd_tools.forms.sids import sid_of_text
from adsd_tools.report import deciding, normals
from adsd_tools.report.differences import Dangers, phrases, short
from adsd_tools.report.harms import RANK, RESET, SELF_MEMBERSHIP, VALIDATED_SPN, dangerous
from adsd_tools.report.html import tag, text
from adsd_tools.report.picture import fitting, width
from adsd_tools.report.tokens import Token, token_of

BA, SY, NO, OW, PS = map(sid_of_text, ("S-1-5-32-544", "S-1-5-18", "S-1-5-7", "S-1-3-4", "S-1-5-10"))
OWN = sid_of_text("S-1-5-21-1-2-3-1001")
SET, ONE, OTHER, OF_CLASS = (bytes([number] * 16) for number in (1, 2, 3, 4))
RP, WP, RC, WD, WO = 0x10, 0x20, 0x20000, 0x40000, 0x80000


def entry(kind, mask, sid, of_type=None, flags=0):
    return Entry(kind, flags, mask, of_type, None, sid)


def bytes_of(one):
    """The bytes of an entry."""
    if one.object is None:
        return struct.pack("<BBHI", one.kind, one.flags, 8 + len(one.sid), one.mask) + one.sid
    head = struct.pack("<BBHII", one.kind + 5, one.flags, 28 + len(one.sid), one.mask, 1)
    return head + one.object + one.sid


def checked(asked, owner, entries, own):
    """What decides on a list of these entries, by the proved library."""
    parts = normals.Parts(0, owner, NO, tuple(map(bytes_of, entries)), ())
    return deciding.Checked(asked, parts.normal(), own)


def tried(asked, owner, entries, token, bit, path=(), own=None):
    why = checked(asked, owner, entries, own).of_token(token, list(path), bit)
    return why.granted, why.by


ADMIN, BOTH, LESS = token_of(BA), token_of(SY, (BA,), (), (SY,)), token_of(SY, (), (BA,))
# What it is about, owner, entries, token, right, path, the object's own identifier; whether it is granted and by what.
CASES = [
    ("an allow entry", NO, [entry(ALLOW, RP, BA)], ADMIN, RP, (), None, (True, (1,))),
    ("the first entry decides", NO, [entry(ALLOW, RP, BA), entry(DENY, RP, BA)], ADMIN, RP, (), None, (True, (1,))),
    ("a denial in front", NO, [entry(DENY, RP, BA), entry(ALLOW, RP, BA)], ADMIN, RP, (), None, (False, (1,))),
    ("no entry", NO, [entry(ALLOW, RP, BA)], ADMIN, WP, (), None, (False, (None,))),
    ("an owner", BA, [], ADMIN, RC, (), None, (True, ("owner",))),
    ("owner rights", BA, [entry(ALLOW, RC, OW)], ADMIN, WD, (), None, (False, (None,))),
    ("owner rights grant", BA, [entry(ALLOW, RC, OW)], ADMIN, RC, (), None, (True, (1,))),
    ("owner rights that are only passed down", BA, [entry(ALLOW, RC, OW, None, INHERIT_ONLY)], ADMIN, WD, (), None,
     (True, ("owner",))),
    ("owner rights of an audit entry", BA, [entry(AUDIT, RC, OW)], ADMIN, RC, (), None, (False, (None,))),
    ("a generic right", NO, [entry(ALLOW, 0x80000000, BA)], ADMIN, RP, (), None, (True, (1,))),
    ("take ownership", NO, [], token_of(BA, privileges=2), WO, (), None, (True, ("privilege",))),
    ("only passed down", NO, [entry(ALLOW, RP, BA, None, INHERIT_ONLY)], ADMIN, RP, (), None, (False, (None,))),
    ("a type not on the path", NO, [entry(ALLOW, RP, BA, ONE)], ADMIN, RP, (), None, (False, (None,))),
    ("a type on the path", NO, [entry(DENY, RP, BA, ONE), entry(ALLOW, RP, BA, SET)], ADMIN, RP, (OF_CLASS, SET, OTHER),
     None, (True, (2,))),
    ("both holders", NO, [entry(ALLOW, RP, BA), entry(ALLOW, RP, SY)], BOTH, RP, (), None, (True, (1, 2))),
    ("the second holder isn't allowed", NO, [entry(ALLOW, RP, BA)], BOTH, RP, (), None, (False, (None,))),
    ("a deny-only group denies", NO, [entry(DENY, WP, BA), entry(ALLOW, WP, SY)], LESS, WP, (), None, (False, (1,))),
    ("a deny-only group grants nothing", NO, [entry(ALLOW, RP, BA)], LESS, RP, (), None, (False, (None,))),
    ("the object itself", NO, [entry(ALLOW, RP, PS)], token_of(OWN), RP, (), OWN, (True, (1,))),
    ("the object itself without an identifier", NO, [entry(ALLOW, RP, PS)], token_of(PS), RP, (), None, (False, (None,))),
]


def others(check, asked):
    """Who has a right, and whom a denial in front takes it from."""
    one = checked(asked, NO, [entry(DENY, WP, SY), entry(ALLOW, WP, BA), entry(ALLOW, WP, SY), entry(ALLOW, WP, PS)], OWN)
    check(one.others([], WP) == [(BA, 2, (SY,)), (PS, 4, (SY,))], f"others: {one.others([], WP)}")
    owned = checked(asked, NO, [entry(ALLOW, RC, BA)], None)
    check(owned.others([], RC) == [(NO, "owner", ()), (BA, 1, ())], f"others of an owner: {owned.others([], RC)}")
    check(owned.others([], WO) == [(None, "privilege", ())], f"others by privilege: {owned.others([], WO)}")


def by_chance(check, asked, count=300):
    """Lists and tokens by chance: the library's reasons are those that plain_why.py works out."""
    made = random.Random(12)
    sids, bits = (BA, SY, NO, OW, PS, OWN), (RP, WP, RC, WD, WO)
    for number in range(count):
        entries = [entry(made.choice((ALLOW, ALLOW, DENY)), sum(made.sample(bits, made.randint(1, 3))), made.choice(sids),
                         made.choice((None, None, SET, ONE)), made.choice((0, 0, 0, INHERIT_ONLY)))
                   for _ in range(made.randint(0, 7))]
        owner, own = made.choice((BA, SY, OWN)), made.choice((None, OWN))
        parts = [tuple(made.sample((BA, SY, OWN), made.randint(0, 2))) for _ in range(3)]
        token = token_of(made.choice((BA, SY, OWN)), *parts, made.choice((0, 2)))
        plain = plain_why.Checked(entries, owner, own)
        one = checked(asked, owner, entries, own)
        for path in ([], [OF_CLASS, SET, OTHER], [OF_CLASS, ONE]):
            for bit in bits:
                found, wanted = one.of_token(token, path, bit), plain.of_token(plain_why.token_of(token), path, bit)
                check((found.granted, found.by) == (wanted.granted, wanted.by),
                      f"list {number}, {path}, {bit:x}: {found}, expected {wanted}")


class Types:
    """A schema of a few names, for what is dangerous."""

    def reads_by_control(self, name):
        return name == "secret"

    def right_guid(self, name, kinds):
        return {"Reset": [RESET], "Join": [SELF_MEMBERSHIP], "Write-SPN": [VALIDATED_SPN]}.get(name, [ONE])


# Rights, and the words of the ranks that they are of: by themselves, and some only together.
DANGERS = [
    ([("object", "", "WD"), ("object", "", "WP"), ("object", "", "WO")], ["list", "take"]),
    ([("attribute", "Member", "WP"), ("attribute", "member", "RP"), ("validated", "Join", "SW")],
     ["members", "members"]),
    ([("attribute", "ServicePrincipalName", "WP"), ("attribute", "scriptPath", "WP"), ("attribute", "cn", "WP"),
      ("validated", "Write-SPN", "SW")], ["scripts", "scripts", "scripts"]),
    ([("right", "Reset", "CR"), ("right", "User-Force-Change-Password", "CR"), ("set", "Reset", "WP")], ["reset"]),
    ([("attribute", "secret", "CR")], []),
    ([("attribute", "secret", "RP"), ("attribute", "open", "CR"), ("attribute", "open", "RP")], []),
    ([("attribute", "secret", "CR"), ("attribute", "secret", "RP")], ["confidential"]),
]


def dangers(check):
    """What is dangerous, by the GUIDs of rights and not by what they are called; and of a change only what is new."""
    for rights, wanted in DANGERS:
        found = list(dangerous(rights, Types()).values())
        check(found == wanted, f"dangerous {rights}: {found}, expected {wanted}")
    before, after = frozenset([("attribute", "secret", "CR")]), frozenset(DANGERS[-1][0])
    check(Dangers(Types(), set()).ranks(1, (before, after)) == [{RANK["confidential"]}, set()], "a read that came")
    join = frozenset([("validated", "Join", "SW")])
    check(Dangers(Types(), {1}).ranks(1, (join, frozenset())) == [set(), {RANK["members"]}], "members that went")
    check(Dangers(Types(), {2}).ranks(1, (join, frozenset())) == [set(), {RANK["groups"]}], "groups that went")


def pictures(check):
    """Texts of pictures have room, whatever their letters are."""
    for name in (b"a" * 99, "\u4e2d".encode() * 50, b"\xff" * 50, b""):
        check(width(fitting(name, 100, 13), 13) <= 100, f"too wide: {fitting(name, 100, 13)}")
    check(fitting(b"CN=ann", 100, 13) == "CN=ann", "a short name is cut")
    rights = {("object", "", "WP"), ("attribute", "b", "WP"), ("attribute", "a", "WP"), ("right", "Reset", "CR")}
    told = [short(*phrase) for phrase in phrases(rights)]
    check(told == ["WP object, a, b", "CR Reset"], f"phrases: {told}")


def reasons(check, calls):
    """What decides, by the proved library."""
    asked = deciding.Deciding(calls)
    for about, owner, entries, token, bit, path, own, wanted in CASES:
        found = tried(asked, owner, entries, token, bit, path, own)
        check(found == wanted, f"{about}: {found}, expected {wanted}")
    others(check, asked)
    by_chance(check, asked)


def run(check):
    dangers(check)
    pictures(check)
    check(Token(OWN).answers_to(OWN) != Token(OWN).answers_to(BA), "an own identifier counts for nothing")
    check(Token(OWN).answers_to(SY) == Token(OWN).answers_to(None), "an identifier that nobody holds counts")
    check(text("<b>\u202e&\x07") == "&lt;b&gt;\\E2\\80\\AE&amp;\\07", f"text: {text('<b>')}")
    check(tag("p", "x", title='"<') == '<p title="&quot;&lt;">x</p>', "a mark isn't escaped")
