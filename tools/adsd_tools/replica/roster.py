"""What replicas tell of themselves in etcd, below /adsd/NAME/:

- `replica/` and a name: how far it is; `told/` and one: when it said so, in seconds since 1970.
- `state/` and a name: its running hash (digests.py), and at which entry; `sum/` and `listed/` and one: the last sum of
  its rows, and of what its program lists.
- `alive/` and a name: which process runs it, under a lease; `keeper`: who puts steps and runs, under one.
- `request/` and the number of a named request: which entry it was, under a lease.
- `claim`: who alone puts the next entry, under a lease (claiming.py).
- `compare/`: which entry the stores are compared at, and the sums of their rows.

All of it may have been written by hand: what isn't of its form is passed over."""

import json
import re
import time

from .etcd import Denied, decoded, encoded, whole


# What is told of a replica's rows: the number and the id of an entry, and a hash.
TOLD = re.compile(rb"([0-9]{1,16}) ([0-9a-f]{64} [0-9a-f]{64})")


def last_of(number, value):
    return f"{number} {value}".encode()


def put_of(key, value, **more):
    return {"request_put": {"key": encoded(key), "value": encoded(value), **more}}


def range_of(key, **more):
    return {"request_range": {"key": encoded(key), **more}}


def value_of(answer):
    """The value of the one key that was asked for; None where it has none."""
    found = answer["response_range"].get("kvs")
    return decoded(found[0].get("value")) if found else None


def absent(key):
    """That a key isn't there."""
    return {"key": encoded(key), "target": "CREATE", "result": "EQUAL", "create_revision": "0"}


def gone(key):
    """That a key is removed."""
    return {"request_delete_range": {"key": encoded(key)}}


def is_leased(found):
    """Whether a key that was found goes when a lease of etcd ends."""
    return found.get("lease", "0") != "0"


class Roster:
    """The part of a log that is about its replicas."""

    def values(self, prefix, leased=False):
        """What stands behind a prefix, by the rest of the key, and etcd's revision; what is under a lease alone, where
        that is wanted: what somebody wrote by hand would stand there for ever."""
        answer = self.etcd.call("kv/range", whole(self.key(prefix)))
        at, found = len(self.key(prefix)), [one for one in answer.get("kvs", ()) if not leased or is_leased(one)]
        return {decoded(one["key"])[at:]: decoded(one.get("value")) for one in found}, int(answer["header"]["revision"])

    def held(self, key):
        """The value of a key that is under a lease, None where there is none; and that nobody has written it since."""
        found = self.etcd.call("kv/range", {"key": encoded(key)}).get("kvs")
        if not found:
            return None, absent(key)
        (one,) = found
        same = {"key": encoded(key), "target": "MOD", "result": "EQUAL", "mod_revision": one["mod_revision"]}
        return (decoded(one.get("value")) if is_leased(one) else None), same

    def register(self, name, number, state=None):
        """Says how far a replica is, and what its running hash is there, where it is known. Other where the log is kept
        from a later entry on only."""
        while True:
            first = self.read(0, 0).first
            self.wants(number + 1, first)
            kept = self.is_value(self.key(b"first"), b"%d" % first)
            told = put_of(self.key(b"told/" + name), b"%d" % time.time())
            puts = [put_of(self.key(b"replica/" + name), b"%d" % number), told]
            puts += [put_of(self.key(b"state/" + name), last_of(number, state))] if state else []
            if self.txn([*self.is_own(), kept], puts)[0]:
                return

    def forget(self, name):
        """Whether there was a replica of this name, which is told of no longer."""
        answer = self.etcd.call("kv/deleterange", {"key": encoded(self.key(b"replica/" + name))})
        for kind in (b"told/", b"alive/", b"state/", b"sum/", b"listed/"):
            self.etcd.call("kv/deleterange", {"key": encoded(self.key(kind + name))})
        return answer.get("deleted", "0") != "0"

    def replicas(self):
        """How far each replica has told to be, by name, and etcd's revision."""
        found, revision = self.values(b"replica/")
        return {name: int(value) for name, value in found.items() if value.isdigit()}, revision

    def told(self):
        """When each replica has told something last, by its own clock."""
        return {name: int(value) for name, value in self.values(b"told/")[0].items() if value.isdigit()}

    def none_told_since(self, revision):
        """That no replica has told anything since a revision."""
        return {**whole(self.key(b"replica/")), "target": "MOD", "result": "LESS", "mod_revision": str(revision + 1)}

    # ---- leases

    def lease(self, seconds):
        """A lease of etcd."""
        return self.etcd.call("lease/grant", {"TTL": str(seconds)})["ID"]

    def renew(self, lease):
        """Whether a lease is renewed."""
        return int(self.etcd.call("lease/keepalive", {"ID": lease}).get("result", {}).get("TTL", 0)) > 0

    def revoke(self, lease):
        self.etcd.call("lease/revoke", {"ID": lease})

    def keep(self, name, lease):
        """Whether this replica is the keeper from now on, as long as its lease lasts."""
        key = self.key(b"keeper")
        other, same = self.held(key)
        return other is None and self.txn([*self.is_own(), same], [put_of(key, name, lease=lease)])[0]

    def keeper(self):
        """The name of the keeper, or None."""
        return self.held(self.key(b"keeper"))[0]

    # ---- the claim to the next place

    def claim(self, own, lease):
        """Claims the place behind the head; the head, or None where another one has a claim."""
        key, head = self.key(b"claim"), range_of(self.key(b"head"))
        done, answers, _ = self.txn([*self.is_own(), absent(key)], [put_of(key, own, lease=lease), head])
        return self.head_at(answers[1]) if done else None

    def claimed(self):
        """Who claims it; None where nobody does."""
        answer = self.etcd.call("kv/range", {"key": encoded(self.key(b"claim"))})
        return value_of({"response_range": answer})

    def unclaim(self, value):
        """Ends a claim."""
        key = self.key(b"claim")
        self.txn([self.is_value(key, value)], [gone(key)])

    # ---- who runs

    def appear(self, name, told, lease):
        """Says that a replica runs, in which process. Nothing, or what runs under its name: another store's."""
        key = self.key(b"alive/" + name)
        now, same = self.held(key)
        if now is not None and text_of(now).get("id") not in (None, told["id"]):
            return text_of(now)
        done, _, _ = self.txn([same], [put_of(key, json.dumps(told).encode(), lease=lease)])
        return None if done else {"id": "", "host": "another process"}

    def alive(self):
        """Which replicas run, by name, with what each tells of itself."""
        return {name: text_of(value) for name, value in self.values(b"alive/", leased=True)[0].items()}

    # ---- stores that are compared

    def ask_sums(self, mark, head):
        """Asks all replicas for the sum of their rows at the log's head; whether it is the head still."""
        done, _, _ = self.txn([self.is_value(self.key(b"head"), head)], [put_of(self.key(b"compare/" + mark), head)])
        return done

    def asked_sums(self):
        """The marks of what is asked, each with the number of an entry, and which sums were told: (mark, name)."""
        asked, told = {}, {}
        for key, value in self.values(b"compare/")[0].items():
            mark, sign, name = key.partition(b"/")
            if sign:
                told[mark, name] = value
            elif value.split(b" ")[0].isdigit():
                asked[mark] = int(value.split(b" ")[0])
        return asked, told

    def tell_sum(self, mark, name, value):
        self.txn([], [put_of(self.key(b"compare/" + mark + b"/" + name), value)])

    def tell_last(self, kind, name, number, value):
        """Leaves for the other replicas what is so after an entry."""
        self.txn([], [put_of(self.key(kind + name), last_of(number, value))])

    def last(self, kind):
        """What replicas have told last, by name, of their running hashes (`state/`), of the sums of their rows (`sum/`)
        and of what their programs list (`listed/`): the number of an entry, and its id with what it was then."""
        found = {name: TOLD.fullmatch(value) for name, value in self.values(kind)[0].items()}
        return {name: (int(one[1]), one[2].decode()) for name, one in found.items() if one}

    def anew(self, name):
        """A replica of this name begins with a new store: what the one before told of its rows counts no more."""
        for kind in (b"state/", b"sum/", b"listed/"):
            self.etcd.call("kv/deleterange", {"key": encoded(self.key(kind + name))})

    def forget_sums(self, mark):
        self.etcd.call("kv/deleterange", whole(self.key(b"compare/" + mark)))

    # ---- room

    def forgets(self, revision):
        """Has etcd forget what it had before a revision."""
        try:
            self.etcd.call("kv/compaction", {"revision": str(revision)})
        except Denied:
            pass  # Another one did so before.


def text_of(value):
    """What a replica tells of itself; nothing where it isn't of this form."""
    try:
        found = json.loads(value)
    except ValueError:
        return {}
    return found if isinstance(found, dict) else {}
