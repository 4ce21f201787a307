"""What replicas do about changes before they come into the log, and what they tell of themselves."""

import json
import os
import random
import re
import shutil
import subprocess
import threading
import urllib.request

from ldap_client import PROGRAM
from adsd_tools.ask import answers, requests
from adsd_tools.forms import ber
from adsd_tools.ask.requests import Line
from adsd_tools.ldap import words
from adsd_tools.ldap.program import DROP, HEADER, MESSAGE, TOKEN
from adsd_tools.replica import entries, naming
from adsd_tools.replica.ordered import FORMS, line_of, put_of
from replica_cases import DONE, READ, WRITE, has, same, shown, written
from replica_checks import all_entries
from replica_world import LOW, MANY, ROOT, SECONDS

TOKENS = {"admin": "user=BA privileges=security", "low": LOW}
ATTRIBUTES = ("description", "telephoneNumber", "cn", "objectClass", "member", "nothing", "sAMAccountName", "name")
NAMES = (MANY, f"CN=one,{MANY}", f"CN=two,{MANY}", f"CN=three,{MANY}", ROOT, f"CN=no,{MANY}", f"CN=x,CN=no,{MANY}",
         "no name")
LINE = re.compile(r'(# (HELP|TYPE) adsd_replica_[a-z_]+ .+|adsd_replica_[a-z_]+(\{[a-z]+="[^"]*"(,[a-z]+="[^"]*")*\})? '
                  r"[0-9.e+-]+)")


class Plain:
    """One `adsd serve` over a copy of the store that all begin with, asked without a replica."""

    def __init__(self, world):
        path = os.path.join(world.place, "alone")
        for slot in ("", ".b"):
            shutil.copyfile(world.base + slot, path + slot)
        pipe = subprocess.PIPE
        self.running, self.number = subprocess.Popen([PROGRAM, "serve", path], stdin=pipe, stdout=pipe), 0

    def frame(self, kind, body):
        self.running.stdin.write(requests.frame(kind, 0, body))
        self.running.stdin.flush()
        head = self.running.stdout.read(HEADER)
        return self.running.stdout.read(int.from_bytes(head[3:], "big"))

    def ask(self, who, text):
        """What the program says to a line of somebody."""
        self.frame(TOKEN, words.reader(TOKENS[who]))
        operation, controls = requests.operation(Line(text))
        self.number += 1
        behind = [ber.sequence(*controls, tag=0xA0)] if controls else []
        reply = self.frame(MESSAGE, ber.sequence(ber.number(self.number), operation, *behind))
        return "\n".join(answers.message_lines(reply)).strip()

    def end(self):
        self.running.stdin.close()
        self.running.wait()


def drawn(draw):
    """A line of some change."""
    name, kind = draw.choice(NAMES), draw.choice(("add", "delete", "rename", "modify", "modify", "modify"))
    value = draw.choice(("1", "2", "''", "'a b'", f"'{MANY}'"))
    if kind == "delete":
        return f"delete dn='{name}'" + draw.choice(("", " tree=yes"))
    if kind == "rename":
        front = draw.choice(("CN=one", "CN=three", "OU=one", "no name"))
        return f"rename dn='{name}' rdn='{front}'" + draw.choice(("", "", f" superior='{draw.choice(NAMES)}'"))
    if kind == "add":
        given = [f"{draw.choice(ATTRIBUTES)}={value}" for _ in range(draw.randrange(3))]
        return f"add dn='{name}' objectClass={draw.choice(('user', 'user', 'group', 'no'))} " + " ".join(given)
    acts = [f"{draw.choice(('add', 'delete', 'replace'))}:{draw.choice(ATTRIBUTES)}={draw.choice((value, value, ''))}"
            for _ in range(draw.randrange(1, 4))]
    return f"modify dn='{name}' " + " ".join(acts)


def judged(world):
    """Changes that the directory refuses are answered as the program alone answers them, and most of them without an
    entry; those that it takes have one each."""
    plain, draw, wrong, done = Plain(world), random.Random(7), [], 0
    ones = {"admin": world.replicas[0].client(), "low": world.replicas[1].client("low", "l0w")}
    lines = [("low", f"modify dn='{MANY}' sd=dacl replace:nTSecurityDescriptor='sddl:D:(A;;GA;;;WD)'"),
             ("low", f"add dn='CN=mine,{MANY}' objectClass=user"),
             ("low", f"modify dn='{MANY}' replace:member='{ROOT}'"),
             ("low", f"modify dn='{MANY}' replace:description={'x' * 20_000}")]
    for who, line in lines + [(draw.choice(("admin", "admin", "low")), drawn(draw)) for _ in range(120)]:
        try:
            wanted = plain.ask(who, line)
        except Exception:
            continue  # (no line of adsd-ask)
        given = ones[who].ask(line)
        done += given.split(":")[1].strip().startswith("0 ")
        wrong += [f"{who}: {line[:200]}: {one}" for one in same(given, wanted)]
    plain.end()
    put = [one for one in all_entries(world) if one.frames[-1][0] == MESSAGE]
    large = [one for one in put if len(one.frames[-1][1]) > 10_000]
    wrong += same(large, [])
    return wrong + ([] if done <= len(put) <= done + 40 else [f"{done} changes, {len(put)} entries"])


def bounded(world):
    """A user that changes too many bytes is refused with 51, and others aren't."""
    wrong, (a, b) = [], world.replicas
    admin, other, said = a.client(), a.client("second", "sec0nd"), ""
    for _ in range(20):
        said = written(admin, MANY, 900_000 * "x") if not said.startswith("# modify: 51") else said
    wrong += has(said, "# modify: 51") + has(said, "nothing was changed")
    world.wait("another user's change", lambda: other.ask(WRITE + "other") == DONE)
    return wrong + same(b.client().ask(READ), shown("other"))


def control(name, critical=True):
    return ber.sequence(ber.octets(naming.CONTROL), ber.truth(critical), ber.octets(name))


def named(world):
    """A request that has a name is made once, wherever and however often it is asked, and is answered as before."""
    (a, b), wrong = world.replicas[:2], []

    def ask(client, name, line, *, critical=True):
        operation, controls = requests.operation(Line(line))
        return client.reply(client.send(operation, *controls, control(name, critical)))

    one, other, low = a.client(), b.client(), b.client("low", "l0w")
    line = f"add dn='CN=named,{MANY}' objectClass=user sAMAccountName=named"
    for at, client in enumerate((one, other, one, b.client())):
        wrong += same(ask(client, b"first", line, critical=at % 2 > 0), "# add: 0 success")
    wrong += has(ask(other, b"second", line), "# add: 68")
    wrong += has(ask(other, b"first", WRITE + "1"), "another request had this name; nothing was changed")
    wrong += has(ask(low, b"first", WRITE + "1"), "# modify: 50")
    wrong += has(ask(one, b"", WRITE + "1"), "# modify: 2")
    said, ready = [], threading.Barrier(6)

    def at_once(replica):
        client = replica.client()
        ready.wait()
        said.append(ask(client, b"third", f"modify dn='CN=named,{MANY}' add:description=third"))

    running = [threading.Thread(target=at_once, args=(world.replicas[at % 2],)) for at in range(6)]
    for thread in running:
        thread.start()
    for thread in running:
        thread.join()
    wrong += same(said, [DONE] * 6)
    a.kill()
    world.serves(a)
    wrong += same(ask(a.client(), b"first", line), "# add: 0 success")
    found = [entry.request for entry in all_entries(world) if entries.is_named(entry.request)]
    return wrong + same(len(found), len(set(found)))


def metrics(replica):
    """What a replica tells Prometheus, by the name of a metric."""
    port = re.findall(r"metrics on http://127\.0\.0\.1:(\d+)/metrics", replica.said())[-1]
    call = ["curl", "-s", f"http://127.0.0.1:{port}/metrics"]
    if replica.link:
        call = ["nsenter", "-t", str(replica.running.pid), "-n", *call]
        said = subprocess.run(call, stdout=subprocess.PIPE, text=True).stdout
    else:
        with urllib.request.urlopen(call[-1], timeout=SECONDS) as answer:
            said = answer.read().decode()
    other = [line for line in said.splitlines() if not LINE.fullmatch(line)]
    return said, dict(line.rsplit(" ", 1) for line in said.splitlines() if line[:1] != "#"), other


def stated(world):
    """What is told of the log and the replicas: by status, health, metrics and compare."""
    (a, b), etcd, wrong = world.replicas, world.etcd_words(), []
    wrong += same(a.client().ask(WRITE + "stated"), DONE)
    world.wait("all is well", lambda: world.command("health", *etcd, good=False)[0] == 0)
    found = json.loads(world.command("status", "--json", *etcd))
    wrong += same([(one["name"], one["runs"]) for one in found["replicas"]], [("a", True), ("b", True)])
    wrong += same({one["quota"] > one["bytes"] > 0 for one in found["etcd"]["members"]}, {True})
    if shutil.which("curl") or not a.link:
        said, values, other = metrics(a)
        wrong += same(other[:3], []) + same(int(values["adsd_replica_entry"]) > 0, True)
        wrong += has(said, 'adsd_replica_info{log="adsd",name="a"')
    world.wait("all are alike", lambda: "2 replicas, all alike" in world.command("compare", *etcd, good=False)[1])
    b.kill()
    world.wait("b is away", lambda: is_told(world.command("health", *etcd, good=False), "replica b doesn't run"))
    return wrong + twice(world, b)


def is_told(said, line):
    """Whether health says that something has to be looked at, and what."""
    return said[0] in (1, 3) and line in said[1]


def twice(world, b):
    """A copy of a replica's files isn't served under its name beside it: the second one ends. (Where the first one gets
    no time it loses the name to the second one, and ends instead.)"""
    other = world.add("other")
    for end in ("", ".b", ".position"):
        shutil.copyfile(b.store + end, other.store + end)
    world.serves(b)
    other.begin()
    world.wait("one of two ends", lambda: not (b.is_running() and other.is_running()))
    ended = b if other.is_running() else other
    other.kill()
    del world.by_name["other"]
    other.unlink()
    world.serves(b)
    return same(ended.running.returncode if ended is other else 6, 6) + has(ended.said(), "replica b runs already")


def hand(world, key, value):
    log = world.log()
    log.etcd.call("kv/put", put_of(log.key(key), value)["request_put"])


def put_by_hand(world, data_of):
    """An entry as somebody writes it who reaches etcd, of what stands before it: with a head that names it; its
    number."""
    log = world.log()
    while True:
        head = log.head()
        data = data_of(head)
        then = entries.Head(head.number + 1, entries.id_of(data))
        puts = [put_of(log.entry(then.number), data), put_of(log.key(b"head"), line_of(then))]
        if log.txn([log.is_value(log.key(b"head"), line_of(head))], puts)[0]:
            return then.number


def hostile(world):
    """Keys and values that somebody wrote into etcd keep no replica from its start: what is no entry is passed over by
    an operator's word, and nothing else is."""
    (a, b), etcd, wrong = world.replicas, world.etcd_words(), []
    for key in (b"entry/x", b"entry/0000000000000001x", b"replica/x", b"told/x", b"alive/x", b"compare/x/y",
                b"request/x", b"skip/0000000000000001", b"state/x", b"state/a", b"keeper", b"zzz"):
        hand(world, key, b"\xff\x00")
    for one in world.replicas:
        one.kill()
    for one in world.replicas:
        world.serves(one)
    wrong += same(a.client().ask(WRITE + "beside"), DONE) + has(world.command("status", *etcd), "replica a at ")
    world.command("forget", "x", *etcd, good=False)
    wrong += has(world.command("skip", "1", a.store, *etcd, good=False)[1], "nothing is passed over")
    bad = entries.of_message(b"\x09no token", DROP)
    for of_head in (lambda head: b"no entry", lambda head: entries.chained(head, [bad])[0][0]):
        b.kill()  # (it has others to take before it)
        wrong += same([a.client().ask(WRITE + f"before{at}") for at in range(3)], [DONE] * 3)
        number = put_by_hand(world, of_head)
        for one in (a, b, a):
            if not one.is_running():
                open(one.log, "w").close()
                one.begin()
            wrong += same(one.running.wait(timeout=SECONDS), 6) + has(one.said(), f"adsd-replica skip {number}")
        wrong += has(world.command("skip", str(number), b.store, *etcd), "passed over from now on")
        for one in world.replicas:
            world.serves(one)
        wrong += same(b.client().ask(WRITE + f"after{number}"), DONE)
        wrong += same(a.client().ask(READ), shown(f"after{number}"))
    world.wait("all are alike", lambda: "2 replicas, all alike" in world.command("compare", *etcd, good=False)[1])
    return wrong


def mangled(world):
    """Somebody writes over the keys that say what the log is: no replica ends, and none is kept from its start; health
    and repair name each, and a change that was asked meanwhile is made once all are put back."""
    (a, b), etcd, wrong, log = world.replicas, world.etcd_words(), [], world.log()
    mended = "repair", a.store, *etcd
    for key in FORMS:
        log.etcd.call("kv/put", put_of(log.key(key), b"\xff\x00")["request_put"])
        status, said = world.command("health", *etcd, good=False)
        wrong += same(status, 3) + has(said, f"the key {key.decode()} of log adsd is malformed")
        world.wait("it is put back", lambda: f"the key {key.decode()} of" in world.command(*mended, good=False)[1])
    wrong += has(world.command(*mended), "nothing was changed")
    b.kill()
    open(b.log, "w").close()
    one, said = a.client(), []
    for key in FORMS:
        log.etcd.call("kv/put", put_of(log.key(key), b"")["request_put"])
    b.begin()
    world.wait("b begins", lambda: "clients are told what the store has" in b.said())
    asked = threading.Thread(target=lambda: said.append(one.ask(WRITE + "mangled")))
    asked.start()
    wrong += same(world.command(*mended).count(" again"), len(FORMS))
    asked.join()
    world.serves(b)
    wrong += same([a.is_running(), b.is_running(), said], [True, True, [DONE]])
    world.wait("b has it", lambda: b.client().ask(READ) == shown("mangled"))
    return wrong


def asked(world):
    """All of these in one world."""
    return judged(world) + stated(world) + hostile(world) + mangled(world) + bounded(world)

