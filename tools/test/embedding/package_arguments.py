"""Each argument of each call of the Python package: what doesn't fit is a TypeError or a ValueError that begins with
the argument's name, before the library or the program is asked; what fits in another form is the same question."""

import array
import inspect
import uuid

import adsd
from adsd import Descriptor, Store, Token, _library, access, store

USER, GROUP = "S-1-5-21-1-2-3-1001", "S-1-5-11"
SID, CLASS = adsd.sid_bytes(USER), "bf967aba-0de6-11d0-a285-00aa003049e2"
GUID = uuid.UUID(CLASS).bytes_le
TEXT = f"O:BAG:BAD:(OA;;WP;{CLASS};;AU)(A;;RP;;;AU)"
SD, ANN = Descriptor.from_sddl(TEXT), Token(USER, groups=[GROUP])
# What only looks at what is given, and asks nothing of the rules.
READS = {"adsd_sid_from_text", "adsd_sid_to_text", "adsd_guid_from_text", "adsd_normal_from_sd"}

HALF, ENDS = "x\udc80", "x\0"
KINDS = [None, True, 5, 1.5, object()]
NUMBERS = [None, True, False, "1", b"1", 1.0, [1], -1, 1 << 64]
MASKS = [*NUMBERS, 1 << 32, (1 << 32) + 0x10, 0x1FFFFFFFF]
SIDS = [True, 5, [USER], uuid.UUID(CLASS), "", "S-1-5", USER + " ", USER + "\0", HALF, b"", SID[:-1], SID + b"\0",
        SID + SID, bytes(12),
        bytearray(SID[:-4]), memoryview(SID)[1:], array.array("B", SID), b"\1\x10" + SID[2:] + bytes(48)]
GUIDS = [*KINDS, "", CLASS[:-1], "{" + CLASS + "}", HALF, b"", GUID[:-1], GUID + b"\0", GUID + GUID, bytearray(8),
         [CLASS], SD]
# No row, no order, a piece that isn't one, pieces whose bytes only together are GUIDs, and more than there can be.
PATHS = [*KINDS, CLASS, GUID, bytearray(GUID), {CLASS}, frozenset([CLASS]), {CLASS: 1}, [GUID[:8], GUID[8:]],
         [GUID + GUID], [b"", GUID],
         [GUID, b""], [[CLASS]], [(CLASS, CLASS)], [None], [5], [CLASS] * 4]
NODES = [*KINDS, CLASS, GUID, {(0, CLASS)}, {0: CLASS}, [0, CLASS], [CLASS], ["ab"], [(0,)], [(0, CLASS, 1)],
         [(0, GUID[:8])],
         [(0, GUID + GUID)], [(None, CLASS)], [(True, CLASS)], [(0.0, CLASS)], [(-1, CLASS)], [("0", CLASS)],
         [(1 << 32, CLASS)],
         [(0, CLASS), ((1 << 32) + 1, CLASS)], [(0, CLASS), (-0xFFFFFFFF, CLASS)], [[(0, CLASS), (1, CLASS)]]]
# (these the library judges)
TREES = [[], [(1, CLASS)], [(0, CLASS), (0, CLASS)], [(0, CLASS), (2, CLASS)], [(0, CLASS), (256, CLASS)],
         [(0, CLASS), (257, CLASS)]]
GROUPS = [*KINDS, GROUP, SID, {GROUP: 1}, [None], [SID[:8]], [SID + SID], [[GROUP]], [""], [b""], [GROUP] * 1025]
PRIVILEGES = [*KINDS, "security", b"security", ["root"], [None], [1], [["security"]], {"security": 1}]
DESCRIPTORS = [*KINDS, TEXT, SD.to_bytes(), ANN]
TOKENS = [*KINDS[1:], USER, SID, ANN.to_bytes(), SD, "", b"", [], 0]
TEXTS = [*KINDS, b"x", [TEXT], HALF]
NAMES = [*KINDS, "cn", b"cn", {"cn": 1}, [b"cn"], [None], [HALF]]
FILTERS = [*TEXTS, "", "cn=x", "(cn=x", "(cn=x))", "(cn=\\0)", "(!" * 100_000]
CHANGES = [*KINDS, "add", b"add", {"add": 1}, {("add", "cn", (b"x",))}, [("add", "cn")], [("add", "cn", [b"x"], 1)],
           ["add"], [5],
           [("put", "cn", [b"x"])], [(0, "cn", [b"x"])], [("add", b"cn", [b"x"])], [("add", HALF, [b"x"])],
           [("add", "cn", b"x")],
           [("add", "cn", "x")], [("add", "cn", ["x"])], [("add", "cn", None)], [("add", "cn", [None])],
           [("add", "cn", [5])]]
PLACES = [*KINDS, b"x", [TEXT], "", ENDS]

CHECKED = {"sd": (SD, DESCRIPTORS + [Descriptor.from_sddl("O:BA")]), "token": (ANN, [None, *TOKENS]),
           "desired": (0x30, MASKS),
           "own": (USER, SIDS)}
ASKED = {"token": (ANN, TOKENS), "sd_flags": (4, [*NUMBERS, 1 << 31])}
STORE = Store("S", "adsd")
# Each call, and for each argument what fits and what doesn't.
CALLS = {
    "map_rights": (adsd.map_rights, {"mask": (0x10, MASKS)}),
    "check": (adsd.check, {**CHECKED, "path": ([CLASS], PATHS)}),
    "explain": (adsd.explain, {**CHECKED, "path": ([CLASS], PATHS)}),
    "check_tree": (adsd.check_tree, {**CHECKED, "nodes": ([(0, CLASS)], NODES)}),
    "inherit": (adsd.inherit, {"parent": (SD, DESCRIPTORS), "own": (SD, DESCRIPTORS), "object_class": (CLASS, GUIDS)}),
    "sid_bytes": (adsd.sid_bytes, {"sid": (USER, [None, *SIDS])}),
    "sid_text": (adsd.sid_text, {"sid": (SID, [*KINDS, USER, b"", SID[:-1], SID + SID])}),
    "guid_bytes": (adsd.guid_bytes, {"guid": (CLASS, GUIDS)}),
    "guid_text": (adsd.guid_text, {"guid": (GUID, [*KINDS, CLASS, b"", GUID[:-1], GUID + GUID])}),
    "Descriptor": (Descriptor, {"data": (SD.to_bytes(), [*KINDS, TEXT, [1, 0], b"", bytes(20), SD.to_bytes()[:-1],
                                                         SD])}),
    "Descriptor.from_sddl": (Descriptor.from_sddl, {"text": ("O:DA", [*TEXTS, "O:XX", b"O:DA"]),
                                                    "domain": ("S-1-5-21-1-2-3", SIDS)}),
    "Token": (Token, {"user": (USER, [None, *SIDS]), "groups": ([GROUP], GROUPS), "deny_only": ([GROUP], GROUPS),
                      "restricting": ([GROUP], GROUPS), "privileges": (["restore"], PRIVILEGES),
                      "owner": (USER, [*SIDS, "S-1-5-32-544"]),
                      "primary": (USER, SIDS)}),
    "Store": (Store, {"path": ("S", PLACES), "program": ("adsd", [*KINDS[1:], b"adsd", "", ENDS, HALF])}),
    "Store.search": (STORE.search, {**ASKED, "base": ("", TEXTS), "scope": ("sub", [*KINDS, "all", b"sub", ["sub"]]),
                                    "filter": ("(cn=x)", FILTERS), "attributes": (["cn"], NAMES),
                                    "size": (0, [*NUMBERS, 1 << 31])}),
    "Store.modify": (STORE.modify, {**ASKED, "dn": ("DC=x", TEXTS), "changes": ([("add", "cn", [b"x"])], CHANGES)}),
    "Store.steps": (STORE.steps, {"count": (1, [*NUMBERS, 0, 1_000_001])}),
    "Store.list": (STORE.list, {"dn": ("DC=x", [*TEXTS, ENDS])}),
    "Store.effective": (STORE.effective, {"token": (ANN, [None, *TOKENS]), "dn": ("DC=x", [*TEXTS, ENDS])}),
}
# Calls without an argument, and what callers get and don't make.
PLAIN = {"Store.run", "Descriptor.to_sddl", "Descriptor.to_bytes", "Descriptor.normal", "Descriptor.explicit",
         "Token.to_bytes"}
ANSWERS = {"AdsdError", "Entry", "Reason", "Result"}


class Asked(Exception):
    """The library or the program was asked."""


class Ears:
    """Notes what is asked of the library and of the program; the program isn't run."""

    def __init__(self):
        self.heard, self.real = [], _library.call

    def call(self, name):
        if name not in READS:
            self.heard.append(name)
        return self.real(name)

    def run(self, words, **_):
        self.heard.append(words[1])
        raise Asked(words[1])

    def __enter__(self):
        access.call = _library.call = self.call
        self.kept, store.subprocess.run = store.subprocess.run, self.run
        return self

    def __exit__(self, *_):
        access.call = _library.call = self.real
        store.subprocess.run = self.kept


def told(value):
    text = repr(value)
    return text if len(text) < 80 else text[:80] + ".."


def refused(name, ask, given, argument, value, reads=()):
    """What is wrong where this value of an argument isn't refused."""
    where = f"{name} {argument}={told(value)}"
    with Ears() as ears:
        try:
            answer = ask(**{**given, argument: value})
        except (TypeError, ValueError) as fault:
            heard = [one for one in ears.heard if one not in reads]
            said = str(fault).startswith((f"{argument}:", f"{argument}["))
            before = [f"{where}: {heard} was asked before"] if heard else []
            return ([] if said else [f"{where}: {fault!r} doesn't name it"]) + before
        except Exception as fault:
            return [f"{where}: {fault!r}"]
    return [f"{where}: {answer!r}"]


# Of these the library reads the bytes or the text: it is asked, and refuses.
READERS = {"Descriptor": ("adsd_sd_to_sddl",), "Descriptor.from_sddl": ("adsd_sd_from_sddl",),
           "guid_text": ("adsd_guid_to_text",)}


def bad():
    wrong = []
    for name, (ask, arguments) in CALLS.items():
        given = {argument: good for argument, (good, _) in arguments.items()}
        for argument, (_, values) in arguments.items():
            for value in values:
                wrong += refused(name, ask, given, argument, value, READERS.get(name, ()))
    given = {argument: good for argument, (good, _) in CALLS["check_tree"][1].items()}
    for value in TREES:
        wrong += refused("check_tree", adsd.check_tree, given, "nodes", value, ("adsd_check_tree",))
    return wrong


def same(what, given, wanted):
    return [] if given == wanted else [f"{what}: {given!r}, expected {wanted!r}"]


def good():
    """Other forms of the same question, and numbers at their ends."""
    guid, wrong = uuid.UUID(CLASS), []
    for path in ([CLASS], (guid,), [GUID], [bytearray(GUID)], [memoryview(GUID)], (one for one in [GUID])):
        wrong += same(f"a path as {path!r}", adsd.check(SD, ANN, 0x30, path), 0x30)
    for one in ([CLASS], (one for one in [CLASS])):
        told = {right: reason.granted for right, reason in adsd.explain(SD, ANN, 0x30, one).items()}
        wrong += same("explain", told, {0x10: True, 0x20: True})
    wrong += same("no path", adsd.check(SD, ANN, 0x30), 0x10) + same("no right", adsd.check(SD, ANN, 0), 0)
    wrong += same("all rights", adsd.check(SD, ANN, 0xFFFFFFFF), 0x10)
    for sid in (USER, SID, bytearray(SID), memoryview(SID)):
        wrong += same("a SID", (adsd.sid_bytes(sid), Token(sid, (one for one in [GROUP])).to_bytes()),
                      (SID, ANN.to_bytes()))
    many = [f"S-1-5-{number}" for number in range(21, 21 + 1024)]
    wrong += same("1,024 groups", len(Token(USER, many, restricting=set(many)).groups), 1024)
    wrong += same("an owner of the groups", Token(USER, [GROUP], owner=GROUP).owner, adsd.sid_bytes(GROUP))
    wrong += same("privileges", Token(USER, privileges={"security", "restore"}).privileges, 5)
    deep = [(level, CLASS) for level in range(300)]
    wrong += same("300 levels", adsd.check_tree(SD, ANN, 0x10, deep), [0x10] * 300)
    wrong += same("a node as a list", adsd.check_tree(SD, ANN, 0x20, [[0, GUID]]), [0x20])
    wrong += same("bytes", [Descriptor(kind(SD.to_bytes())) for kind in (bytearray, memoryview)], [SD, SD])
    views = [[("replace", "cn", [value])] for value in (b"abcd", bytearray(b"abcd"),
                                                        memoryview(array.array("I", b"abcd")))]
    return wrong + same("values", len({message(change) for change in views}), 1) + steady()


def message(changes):
    """What the program is given for a change."""
    given = []

    class Silent(Store):
        def _run(self, words, data=b""):
            given.append(data)
            return b""

    try:
        Silent("S").modify(None, "DC=x", changes)
    except store.StoreError:
        pass
    return given[0]


def steady():
    """A token stays what it was when it was made."""
    for name in ("user", "owner", "groups", "privileges"):
        try:
            setattr(ANN, name, getattr(ANN, name))
        except AttributeError:
            continue
        return [f"a token's {name} changes"]
    return []


def whole():
    """Each argument of each public call stands above."""
    names = {name for name in adsd.__all__ if name not in ANSWERS}
    for kind in (Descriptor, Token, Store):
        public = [name for name in vars(kind) if not name.startswith("_") and callable(getattr(kind, name))]
        names |= {f"{kind.__name__}.{name}" for name in public}
    wrong = same("calls", sorted(names), sorted({*CALLS, *PLAIN}))
    for name, (ask, arguments) in CALLS.items():
        wrong += same(f"the arguments of {name}", sorted(arguments), sorted(inspect.signature(ask).parameters))
    return wrong


def faults():
    return bad() + good() + whole()
