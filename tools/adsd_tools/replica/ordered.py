"""The log in etcd: entries by number, each put where none stood, and what the replicas tell of themselves.

Keys, below /adsd/NAME/: `id` (who the log is), `release` (of which program), `head` (the number and the id of the
last entry), `first` (of the first that is kept), `entry/` and a number in 16 digits, and `skip/` and one (the ids of an
entry that an operator has all pass over, and of the one before it); the rest is in roster.py. An entry is put with a
new head in one transaction, which fails where the head isn't the one that was known: so the numbers have no gap, none
is given twice, and each entry names the one before it."""

import os
import re
from dataclasses import dataclass
from typing import Tuple

from .entries import Head, beginning
from .etcd import PATIENCE, Away, decoded, encoded
from .roster import Roster, absent, put_of, range_of, value_of
from .seal import PLAIN

# So many entries are asked for at once, and of so many transactions, of which each has 1.5 MB at most.
MANY, PARTS = 128, 8
# So many entries are removed at once.
PIECE = 500
# The keys that say what a log is, and what each of them looks like.
FORMS = {b"id": rb"[0-9a-f]{32}", b"release": rb"(sources|program) [0-9a-f]{64}", b"first": rb"[0-9]{1,16}",
         b"head": rb"([0-9]{1,16}) ([0-9a-f]{64})"}


class Other(Exception):
    """The log isn't the one that the replica followed, or lacks what it needs of it."""


class Parted(Other):
    """The log has other entries than the replica has taken. Which of the two is right an operator has to say."""

    def __init__(self, found):
        super().__init__(f"{found}: the log was set back, or something else wrote to it, and this replica no longer "
                         "answers; where the log is right, put a copy of a replica that follows it in the place of this "
                         "store; where this store is right, begin a new log with it: docs/replicas.md, Parted")


class Unformed(Away):
    """A key that says what the log is was written by hand, and isn't of its form: the log answers nothing until it is
    put back."""

    def __init__(self, name, key):
        super().__init__(f"the key {key.decode()} of log {name} is malformed: something else wrote it; "
                         "adsd-replica repair STORE puts it back: docs/replicas.md, Keys that aren't of their form")


@dataclass(frozen=True)
class Part:
    """A part of the log: its head, the number of its first entry, entries as (number, bytes), and etcd's revision."""

    head: Head
    first: int
    found: Tuple[Tuple[int, bytes], ...]
    revision: int


def line_of(head):
    """What stands in the log for its head."""
    return b"%d " % head.number + head.id.hex().encode()


def head_of(value):
    """The head that a value of its form tells."""
    number, own = value.split(b" ")
    return Head(int(number), bytes.fromhex(own.decode()))


def is_formed(key, value):
    """Whether a key has a value of its form."""
    return value is not None and re.fullmatch(FORMS[key], value) is not None


class Ordered(Roster):
    """The log of one name. Where a release is given, it is that of a replica's program, and has to be the log's. By
    `keys` entries are signed and sealed."""

    def __init__(self, etcd, name, own=None, release=None, keys=PLAIN):
        self.etcd, self.name, self.own, self.release, self.keys = etcd, name, own, release, keys
        self.place = b"/adsd/" + name.encode() + b"/"

    def other(self):
        """The same log, by a connection of its own."""
        return Ordered(self.etcd.other(), self.name, self.own, self.release, self.keys)

    def key(self, name):
        return self.place + name

    def entry(self, number):
        return self.key(b"entry/%016d" % number)

    def number(self, key):
        """The number of an entry's key; None for a key that somebody else put among them."""
        found = re.fullmatch(rb"entry/([0-9]{16})", decoded(key)[len(self.place) :])
        return int(found[1]) if found else None

    def txn(self, compare, success, failure=(), patience=PATIENCE):
        asked = {"compare": compare, "success": list(success), "failure": list(failure)}
        answer = self.etcd.call("kv/txn", asked, patience)
        return answer.get("succeeded", False), answer.get("responses", []), int(answer["header"]["revision"])

    def is_value(self, key, value):
        return {"key": encoded(key), "target": "VALUE", "result": "EQUAL", "value": encoded(value)}

    def is_own(self):
        """What has to be so of whatever is asked: that it is this log, and of this release."""
        of_release = [self.is_value(self.key(b"release"), self.release)] if self.release is not None else []
        return [self.is_value(self.key(b"id"), self.own), *of_release]

    def other_log(self):
        """Why the log isn't this one."""
        _, answers, _ = self.txn([], [range_of(self.key(b"id")), range_of(self.key(b"release"))])
        own, release = map(value_of, answers)
        if self.formed(b"id", own) != self.own:
            return Other(f"etcd has no log {self.name} of the id {self.own.decode()}")
        return self.other_release(self.formed(b"release", release))

    def other_release(self, release):
        if release is None:
            return Other(f"log {self.name} is of no release: it was begun by an adsd-replica of before; how to begin "
                         "it anew: docs/replicas.md, Logs of before")
        mine = (self.release or b"none").decode()
        return Other(f"log {self.name} is of the release {release.decode('ascii', 'replace')}, and the program here of "
                     f"{mine}: two releases may answer one entry differently; run the log's release here, or take the "
                     "log to this one by adsd-replica upgrade: docs/replicas-upgrade.md")

    def formed(self, key, value):
        """The value of a key that says what the log is; Unformed where it isn't of its form. (Of an id or a release
        that isn't there others tell.)"""
        if is_formed(key, value) or (value is None and key in (b"id", b"release")):
            return value
        raise Unformed(self.name, key)

    # ---- beginning

    def begin(self, own):
        """Begins the log with this id; whether there was none."""
        self.own = own
        none = absent(self.key(b"id"))
        puts = [put_of(self.key(b"id"), own), put_of(self.key(b"head"), line_of(beginning(own))),
                put_of(self.key(b"first"), b"1"), put_of(self.key(b"release"), self.release)]
        done, answers, _ = self.txn([none], puts, [range_of(self.key(b"id"))])
        return done or value_of(answers[0]) == own

    def upgrade(self, release):
        """Makes the log one of another release, where each replica has told to be at its head, and nothing was put or
        told meanwhile; else the head and who isn't there. What stands before is removed: the new release takes none of
        it, so that nobody takes a part of it by one release and the rest by the other."""
        found, revision = self.replicas()
        head = self.read(0, 0).head
        behind = {name: number for name, number in found.items() if number != head.number}
        if behind:
            return head, behind
        is_head = self.is_value(self.key(b"head"), line_of(head))
        puts = [put_of(self.key(b"release"), release), put_of(self.key(b"first"), b"%d" % (head.number + 1))]
        done, _, _ = self.txn([*self.is_own(), is_head, self.none_told_since(revision)], puts)
        while done and self.sweep():
            pass
        return head, None if done else {}

    def find(self):
        """The id of the log of this name; None where there is none."""
        answer = self.etcd.call("kv/range", {"key": encoded(self.key(b"id"))})
        return self.formed(b"id", value_of({"response_range": answer}))

    def its_release(self):
        """The release that the log is of; Other where it is one of before."""
        answer = self.etcd.call("kv/range", {"key": encoded(self.key(b"release"))})
        found = self.formed(b"release", value_of({"response_range": answer}))
        if found is None:
            raise self.other_release(None)
        return found

    # ---- entries

    def put(self, head, data, then, more=((), ())):
        """Puts entries after the head, which is another one then: whether that was the head, and the log's head; where
        it wasn't, also the entry that stands after the head that was told, if one does. `more` is what else has to be
        so, and what else is put."""
        puts = [put_of(self.entry(head.number + at), one) for at, one in enumerate(data, 1)]
        puts += [put_of(self.key(b"head"), line_of(then)), *more[1]]
        looks = [range_of(self.key(b"id")), range_of(self.key(b"head")), range_of(self.entry(head.number + 1)),
                 range_of(self.key(b"release"))]
        is_head = self.is_value(self.key(b"head"), line_of(head))
        done, answers, _ = self.txn([*self.is_own(), is_head, *more[0]], puts, looks)
        if done:
            return True, then, None
        own, now, behind, release = map(value_of, answers)
        if own != self.own or (self.release is not None and release != self.release):
            raise self.other_log()
        return False, head_of(self.formed(b"head", now)), behind

    def read(self, number, many=MANY, patience=PATIENCE):
        """The log from an entry on. It is as new as the question."""
        looks = [range_of(self.key(b"head")), range_of(self.key(b"first"))]
        last = encoded(self.entry(number + many))
        looks += [range_of(self.entry(number), range_end=last, sort_order="ASCEND", sort_target="KEY")] if many else []
        done, answers, revision = self.txn(self.is_own(), looks, patience=patience)
        if not done:
            raise self.other_log()
        kept = answers[2]["response_range"].get("kvs", ()) if many else ()
        numbered = ((self.number(one["key"]), decoded(one.get("value"))) for one in kept)
        found = tuple((place, data) for place, data in numbered if place is not None)
        head, first = self.formed(b"head", value_of(answers[0])), self.formed(b"first", value_of(answers[1]))
        return Part(head_of(head), int(first), found, revision)

    def some(self, number, patience=PATIENCE):
        """The log from an entry on, as far as so many transactions put it, and one entry more: what one put has 1.5 MB
        at most, so that is how much comes, however large the entries are. (Others may be put between the two questions:
        the one more names the last of those that were counted.)"""
        asked = {"key": encoded(self.entry(number)), "range_end": encoded(self.entry(number + MANY)),
                 "keys_only": True, "sort_order": "ASCEND", "sort_target": "KEY"}
        many, parts = 1, set()
        for one in self.etcd.call("kv/range", asked, patience).get("kvs", ()):
            parts.add(one["mod_revision"])
            if len(parts) > PARTS:
                break
            place = self.number(one["key"])
            many = max(many, place - number + 1) if place is not None else many
        return self.read(number, many + 1, patience)

    def head(self):
        """The last entry's number and id, as of now."""
        return self.read(0, 0).head

    def head_at(self, answer):
        """The head that is told."""
        return head_of(self.formed(b"head", value_of(answer)))

    def head_line(self):
        """The same, as it stands there."""
        return line_of(self.head())

    def watch(self, revision):
        """What tells from a revision on of entries, the head, the id and the release: of all keys from the first to the
        last of these, and so of the keeper too."""
        asked = {"key": encoded(self.key(b"entry/")), "range_end": encoded(self.key(b"release") + b"\0")}
        asked.update(start_revision=str(revision), filters=["NODELETE"], fragment=True)
        return self.etcd.stream({"create_request": asked}, PATIENCE)

    def news(self, events):
        """What was put, of what the watch tells at once: entries by their numbers, and the head; Other where the log
        isn't this one any more."""
        found, head = [], None
        for one in events:
            name, value = decoded(one["key"])[len(self.place) :], decoded(one.get("value"))
            number = self.number(one["key"])
            if number is not None:
                found.append((number, value))
            elif name == b"head":
                head = head_of(self.formed(name, value))
            elif name == b"id" and self.formed(name, value) != self.own:
                raise Other(f"log {self.name} was begun anew: its id is {value.decode('ascii', 'replace')}")
            elif name == b"release" and self.formed(name, value) != self.release:
                raise self.other_release(value)
        return found, head

    # ---- the log's length

    def wants(self, number, first):
        """Other where an entry that is wanted isn't kept any more."""
        if first > number:
            raise Other(f"the log begins at {first}, and entry {number} is wanted: take a new copy")

    def compact(self, first, revision):
        """Lets the log begin at a later entry, where no replica has said anything since a revision; whether it does.
        What stands before is removed by `sweep`."""
        asked = [*self.is_own(), self.none_told_since(revision)]
        done, _, _ = self.txn(asked, [put_of(self.key(b"first"), b"%d" % first)])
        return done

    def sweep(self, first=None):
        """Removes some of the entries below the first that is kept, and has etcd forget them; whether there were as
        many as are removed at once."""
        first = self.read(0, 0).first if first is None else first
        below = {"key": encoded(self.entry(0)), "range_end": encoded(self.entry(first))}
        found = self.etcd.call("kv/range", {**below, "keys_only": True, "limit": str(PIECE), "sort_order": "ASCEND",
                                            "sort_target": "KEY"})
        kept = found.get("kvs", ())
        if kept:
            end = encoded(decoded(kept[-1]["key"]) + b"\0")
            gone = self.etcd.call("kv/deleterange", {"key": kept[0]["key"], "range_end": end})
            self.forgets(int(gone["header"]["revision"]))
        return len(kept) == PIECE

    # ---- what is read where the head or others can't be

    def keys_of_form(self):
        """What stands for the keys that say what the log is."""
        _, answers, _ = self.txn([], [range_of(self.key(key)) for key in FORMS])
        return dict(zip(FORMS, map(value_of, answers)))

    def raw(self, number, many):
        """So many entries from one on, by number and bytes, whatever the head is."""
        asked = {"key": encoded(self.entry(number)), "range_end": encoded(self.entry(number + many)),
                 "sort_order": "ASCEND", "sort_target": "KEY"}
        found = [(self.number(one["key"]), one) for one in self.etcd.call("kv/range", asked).get("kvs", ())]
        return [(place, decoded(one.get("value"))) for place, one in found if place is not None]

    def lowest(self):
        """The number of the first entry that stands there; None where none does."""
        asked = {"key": encoded(self.entry(0)), "range_end": encoded(self.entry(10**16 - 1)), "keys_only": True,
                 "limit": "20", "sort_order": "ASCEND", "sort_target": "KEY"}
        found = [self.number(one["key"]) for one in self.etcd.call("kv/range", asked).get("kvs", ())]
        return min((place for place in found if place is not None), default=None)

    # ---- entries that are passed over

    def skip(self, number, own, before):
        """Has all replicas pass over an entry that none of them takes, by its id and that of the one before."""
        self.txn(self.is_own(), [put_of(self.key(b"skip/%016d" % number), f"{own.hex()} {before.hex()}".encode())])

    def is_skipped(self, number, own, before):
        """Whether an operator has said that an entry is passed over."""
        answer = self.etcd.call("kv/range", {"key": encoded(self.key(b"skip/%016d" % number))})
        return value_of({"response_range": answer}) == f"{own.hex()} {before.hex()}".encode()

    # ---- named requests

    def is_new(self, request, told, lease):
        """What has to be so, and what is put besides, where a request is made only once: which entry it is, and what
        was asked."""
        key = self.key(b"request/" + request.hex().encode())
        return [absent(key)], [put_of(key, b"%d %s" % (told[0], told[1]), lease=lease)]

    def entry_of(self, request):
        """The number of the entry that a named request was, and what was asked; None where it was none."""
        answer = self.etcd.call("kv/range", {"key": encoded(self.key(b"request/" + request.hex().encode()))})
        found = re.fullmatch(rb"([0-9]{1,16}) ([0-9a-f]+)", value_of({"response_range": answer}) or b"")
        return (int(found[1]), found[2]) if found else None


def new_id():
    return os.urandom(16).hex().encode()
