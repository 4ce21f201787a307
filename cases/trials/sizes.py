"""Sizes and counts that aren't there, or are just above a limit."""

from . import journal, program
from .inputs import access_input, acl, question, rows_of
from .starts import BOB, ROOT, TOKEN

ALL = 2**64 - 1


def u64(number):
    return number.to_bytes(8, "big")


def frame(kind, body, connection=0, length=None):
    size = len(body) if length is None else length
    return bytes([kind]) + connection.to_bytes(2, "big") + size.to_bytes(4, "big") + body


def questions(judge):
    """Lists whose entries or counts aren't there."""
    token, owner, _, want = question()
    whole = bytes.fromhex("00001400ff010f00" "010100000000000100000000")
    lists = {
        "as it should be": (acl(whole), 0),
        "an entry of size 0": (acl(whole)[:10] + b"\0\0" + acl(whole)[12:], 1),
        "an entry of size 3": (acl(whole)[:10] + b"\3\0" + acl(whole)[12:], 1),
        "an entry of size 65,535": (acl(whole)[:10] + b"\xff\xff" + acl(whole)[12:], 1),
        "65,535 entries, one there": (acl(whole, count=65535), 1),
        "a list of size 65,535": (acl(whole, size=65535), 1),
        "a list of size 7": (acl(whole, size=7), 1),
    }
    for what, (dacl, expected) in lists.items():
        judge.want(what, judge.run("access", given=access_input(token, owner, dacl, want))[0], expected)
    long = (262_145).to_bytes(4, "big")
    judge.want("a token of 262,145", judge.run("access", given=long + 300_000 * b"\0")[0], 1)
    judge.want("a token of 2^32 - 1", judge.run("access", given=b"\xff\xff\xff\xff" + token)[0], 1)
    groups = token[:-4] + b"\xff\xff"
    none = access_input(groups, owner, acl(whole), want)
    judge.want("65,535 groups, none there", judge.run("access", given=none)[0], 1)


def frames(judge):
    """Headers that claim too much: nothing of them is answered, and they cost no memory."""
    token = program.frames_of([TOKEN])[0]
    heads = {
        "a length of 1,048,577": frame(2, 1_048_577 * b"\0"),
        "a length of 2^32 - 1": frame(2, b"\0", length=2**32 - 1),
        "connection 1,024": frame(4, b"", connection=1024),
        "kind 0": frame(0, b""),
        "kind 5": frame(5, b""),
        "no steps": frame(3, bytes(4)),
        "1,000,001 steps": frame(3, (1_000_001).to_bytes(4, "big")),
        "steps of 5 bytes": frame(3, bytes(4) + b"\1"),
        "a run of 1 byte": frame(4, b"\1"),
    }
    for what, head in heads.items():
        judge.want(what, judge.run("serve", "S", given=token + head + token), (1, bytes.fromhex("81000100000000")))


def messages(judge):
    """Messages with lengths that aren't there, filters that are too deep: the connection goes on behind a notice."""
    from adsd_tools.forms import ber

    def search(depth):
        item = ber.octets(b"cn", 0x87)
        for _ in range(depth - 1):
            item = ber.element(0xA2, item)
        none = ber.number(0, ber.ENUMERATED)
        asked = ber.sequence(
            ber.octets(BOB.encode()), none, none, ber.number(0), ber.number(0), ber.truth(False), item,
            ber.sequence(ber.octets(b"1.1")), tag=0x63)
        return ber.sequence(ber.number(1), asked)

    bodies = {
        "a length of 2^32 - 1": bytes.fromhex("3084ffffffff020101"),
        "a length of 127 bytes": b"\x30\xff" + 127 * b"\xff",
        "an endless length": bytes.fromhex("3080020101"),
        "an inner length past the end": bytes.fromhex("300702017f4a0443"),
        "nothing": b"",
        "a filter of 65 levels": search(65),
        "a filter of 100,000 levels": search(100_000),
    }
    steps = program.frames_of(["steps 1"])[0]
    for what, body in bodies.items():
        status, said = judge.run("serve", "S", given=frame(2, body) + steps)
        noticed = said[:1] == b"\x82" and b"1.3.6.1.4.1.1466.20036" in said and said.endswith(bytes(8))
        judge.want(what, (status, noticed), (0, True))
    status, said = judge.run("serve", "S", given=program.frames_of([TOKEN])[0] + frame(2, search(64), connection=1))
    judge.want("a filter of 64 levels", (status, b"1466.20036" in said, len(said) > 14), (0, False, True))


def bad_row(kind, number):
    """The cause where this row is no row of a directory."""
    return f"row {kind} {number}"


def stores(judge):
    """Slots and rows with sizes and numbers that aren't there."""
    first, second = judge.base
    broken = (3, b"store broken\n")
    length = first[:15] + u64(ALL) + first[23:]
    judge.want("a record of 2^64 - 1", judge.run("check", "S", slots=(length, second)), broken)
    count = first[:23] + u64(ALL) + first[31:]
    judge.want("2^64 - 1 rows", judge.run("check", "S", slots=(count, second)), broken)
    row = first[:41] + u64(ALL) + first[49:]
    judge.want("a row of 2^64 - 1", judge.run("check", "S", slots=(row, second)), broken)
    bob = journal.rows(judge.base)[1, 8]
    changes = {
        "a pending parent that isn't live": ({(2, 0): u64(1) + bytes.fromhex("0000006300000000")}, "unsound 99"),
        "a pending parent twice": ({(2, 0): u64(2) + 2 * bytes.fromhex("0000000300000000")}, "unsound 3"),
        "2^64 - 1 pending parents": ({(2, 0): u64(ALL)}, bad_row(2, 0)),
        "no pending list": ({(2, 0): None}, bad_row(2, 0)),
        "an object of number 2^32 - 1": ({(1, 2**32 - 1): bob}, bad_row(1, 4294967295)),
        "a name of 2^64 - 1 bytes": ({(1, 8): bob[:8] + u64(ALL) + bob[16:]}, bad_row(1, 8)),
        "2^64 - 1 attributes": ({(1, 8): bob[:19] + u64(ALL) + bob[27:]}, bad_row(1, 8)),
        "a parent that isn't there": ({(1, 8): (77).to_bytes(4, "big") + bob[4:]}, "unsound 8"),
        "a parent that is itself": ({(1, 8): (8).to_bytes(4, "big") + bob[4:]}, "unsound 8"),
        "a class of 2^32 - 1": ({(1, 8): bob[:4] + b"\xff\xff\xff\xff" + bob[8:]}, "unsound 8"),
        "no root": ({(1, 1): None}, "unsound 0"),
        "a record of the schema of 2^64 - 1 lines": ({(4, 0): b"\0" + u64(ALL)}, bad_row(4, 0)),
        "a row of kind 9": ({(9, 0): b""}, bad_row(9, 0)),
    }
    for what, (changed, cause) in changes.items():
        said = judge.run("check", "S", slots=rows_of(judge, changed))
        judge.want(what, said, (3, f"store {cause}\n".encode()))


def texts(judge):
    """LDIF with values at their limit and past it."""
    with open(program.BASE, "rb") as file:
        base = file.read().rstrip(b"\n") + b"\n"
    at = base.count(b"\n") + 4
    for size, status in ((1_048_576, 0), (1_048_577, 1)):
        more = f"\ndn: CN=long,OU=staff,{ROOT}\nobjectClass: user\ndescription: {size * 'x'}\n".encode()
        expected = (0, b"objects 14\n") if status == 0 else (1, f"line {at} too long\n".encode())
        judge.store.put((None, None))
        judge.want(f"a value of {size}", judge.store.run("load", "S", given=base + more), expected)
    for size, cause in ((1024, b"objects 14\n"), (1025, f"line {at - 2} dn\n".encode())):
        more = f"\ndn: CN={size * 'x'},OU=staff,{ROOT}\nobjectClass: user\n".encode()
        judge.store.put((None, None))
        judge.want(f"a name of {size}", judge.store.run("load", "S", given=base + more)[1], cause)
    if not judge.short:
        judge.store.put((None, None))
        large = base + (67_108_865 - len(base)) * b"\n"
        judge.want("a text of 64 MiB and 1", judge.store.run("load", "S", given=large), (1, b"line 0 too long\n"))
