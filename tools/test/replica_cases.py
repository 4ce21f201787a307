"""What replicas do besides bearing faults: their commands, what their clients are told, and the log's length."""

import base64
import os
import shutil
import subprocess
import tempfile
import threading
import time

import ldap_store
from ldap_client import PROGRAM, TOP
from adsd_tools.forms import ber
from adsd_tools.ldap.program import MESSAGE, STEPS
from replica_checks import all_entries, differences, replayed
from replica_faults import begun, ended
from replica_world import IMPATIENT, MANY, ROOT, SECONDS, World, is_apart

DONE, ACCOUNTS = "# modify: 0 success", 50
WRITE = f"modify dn='{MANY}' replace:description="
READ = f"search base='{MANY}' attrs=description"


def same(given, wanted):
    return [] if given == wanted else [f"{given!r}, expected {wanted!r}"]


def has(given, wanted):
    return [] if wanted in given else [f"{given!r}, expected {wanted!r} in it"]


def shown(value):
    return f"dn: {MANY}\ndescription: {value}\n\n# search: 0 success"


def written(client, dn, value):
    """What is answered to a large value. (A line of adsd-ask would be read letter by letter.)"""
    item = ber.sequence(ber.number(2, ber.ENUMERATED), ber.attribute("description", [value.encode()]))
    return client.reply(client.send(ber.sequence(ber.octets(dn.encode()), ber.sequence(item), tag=0x66)))


def resting(world):
    """The log's head, once the keeper has put steps for the last change, and the program's answer to them is that
    nothing is pending any more."""

    def rests():
        found = all_entries(world)
        if not found or found[-1].frames[-1][0] != STEPS:
            return None
        pending = int.from_bytes(replayed(world, found, "rests")[1][-1][4:], "big")
        return found[-1].number if not pending and world.head() == len(found) else None

    return world.wait("the log rests", rests)


def changes_behind(world, head):
    """How many entries behind a head are changes. (Whoever keeps the directory from now on puts steps anyway.)"""
    return sum(entry.frames[-1][0] == MESSAGE for entry in all_entries(world)[head:])


def alike(world, one, other):
    """Waits until two stores hold the same rows: one may have taken steps that the other one takes next."""
    words = "compare", one.store, other.store
    world.wait(f"{one.name} and {other.name} are alike", lambda: " 0 differ" in world.command(*words, good=False)[1])


def commands(world):
    """begin, copy, status, compare and forget, and what they refuse."""
    (a, b, c), words, wrong = world.replicas, world.etcd_words(), []

    def refused(told, *call):
        status, said = world.command(*call, good=False)
        return same(status, 1) + has(said, told)

    wrong += refused("is replica a of log adsd already", "begin", a.store, "--name", "x", *words)
    other = os.path.join(world.place, "other")
    for slot in ("", ".b"):
        shutil.copyfile(world.base + slot, other + slot)
    wrong += refused("etcd has a log adsd already", "begin", other, "--name", "x", *words)
    wrong += same(os.path.exists(other + ".position"), False)
    wrong += refused("exists", "copy", a.store, b.store, "--name", "b", *words)
    wrong += refused("has no .position", "copy", other, other + "2", "--name", "x", *words)
    wrong += refused("has no .position", "position", other)
    wrong += has(world.command("position", a.store), f"replica a of log adsd ({world.log().own.decode()}) at entry ")
    wrong += refused("has no replica x", "forget", "x", *words)
    wrong += refused("etcd has no log x", "status", "--log", "x", *words)
    wrong += refused("etcd doesn't answer", "status", "--etcd", "http://127.0.0.1:1")
    client = a.client()
    wrong += same(client.ask(WRITE + "1"), DONE)
    world.wait("level", world.is_level)
    alike(world, a, b)
    wrong += same(world.command("compare", a.store, other, good=False)[0], 1)
    world.wait("all are told of", lambda: world.command("status", *words).count(", 0 behind") == 3)
    c.kill()
    world.command("forget", "c", *words)
    wrong += same("replica c" in world.command("status", *words), False)
    status, said = world.command("status", "--etcd", "http://10.1.1.1:2379", good=False)
    return wrong + same(status, 2) + has(said, "isn't a loopback address")


def clients(world):
    """Any replica takes a change, and the next read there, or a linear one elsewhere, shows it. What is no change
    doesn't reach the log."""
    wrong, ones = [], [one.client() for one in world.replicas]
    for at in range(12):
        wrong += same(ones[at % 3].ask(WRITE + str(at)), DONE)
        wrong += same(ones[(at + 1) % 3].ask(READ), shown(at))
    wrong += same(ones[0].ask(f"compare dn='{MANY}' attr=description value=11"), "# compare: 6 compare true")
    wrong += has(ones[1].ask(f"modify dn='CN=no,{MANY}' replace:description=1"), "# modify: 32")
    large = 1_048_000 * "x"
    wrong += same(written(ones[2], MANY, large), DONE) + has(ones[1].ask(READ), large)
    head, nobody = resting(world), world.replicas[0].client(None)
    wrong += has(nobody.ask(READ), "# search: 32")
    nobody.socket.sendall(bytes.fromhex("3003020100"))
    wrong += same(nobody.notice(), 2)
    for one in ones:
        one.send_line("unbind")
    time.sleep(1)
    return wrong + same(changes_behind(world, head), 0)


def away(world):
    """A replica that doesn't reach etcd: what it may still say, and for how long. Then all is as before."""
    a, b = world.by_name["a"], world.by_name["b"]
    one, other, wrong = a.client(), b.client(), []
    wrong += same(other.ask(WRITE + "before"), DONE)
    wrong += same(other.ask(READ), shown("before"))
    world.wait("a has it too", lambda: one.ask(READ) == shown("before"))
    for member in world.members:
        member.cut()
    time.sleep(0.2)
    wrong += same(one.ask(READ), shown("before"))
    wrong += has(other.ask(READ), "# search: 52, the log doesn't tell how far it goes")
    wrong += has(one.ask(WRITE + "away"), "# modify: 52, the log doesn't answer; ")
    told = "# search: 51, what this replica has is "
    world.wait("what a has is too old", lambda: one.ask(READ).startswith(told))
    for member in world.members:
        member.join()
    world.wait("changes go on", lambda: other.ask(WRITE + "behind") == DONE)
    wrong += same(other.ask(READ), shown("behind"))
    world.wait("a reads it too", lambda: one.ask(READ) == shown("behind"))
    return wrong


def logins(world):
    """Of those who take one login at once, at different replicas, one gets it."""
    wrong, ones = [], [one.client() for one in world.replicas]
    for at in range(8):
        answers, ready = [], threading.Barrier(3)

        def add(number):
            ready.wait()
            line = f"add dn='CN=l{at}-{number},{MANY}' objectClass=user sAMAccountName=login{at}"
            answers.append(ones[number].ask(line))

        running = [threading.Thread(target=add, args=(number,)) for number in range(3)]
        for one in running:
            one.start()
        for one in running:
            one.join()
        wrong += same(sorted(one[:8] for one in answers), ["# add: 0", "# add: 6", "# add: 6"])
    return wrong


def accounts(world):
    """Fifty clients create accounts at once, at different replicas, each with a login of its own: each is created, and
    none is told that others change the directory too often."""
    answers, ready = [], threading.Barrier(ACCOUNTS)

    def add(number):
        client = world.replicas[number % 3].client()
        ready.wait(SECONDS)
        for at in range(3):
            line = f"add dn='CN=a{at}-{number},{MANY}' objectClass=user sAMAccountName=account{at}-{number}"
            answers.append(client.ask(line))

    running = [threading.Thread(target=add, args=(number,)) for number in range(ACCOUNTS)]
    for one in running:
        one.start()
    for one in running:
        one.join()
    return same((len(answers), set(answers)), (3 * ACCOUNTS, {"# add: 0 success"})) + differences(world)


def passwords(world):
    """A password that is changed at one replica counts at the others; a bind by the store's changes nothing."""
    a, b = world.by_name["a"], world.by_name["b"]
    wrong, one, new = [], a.client(), base64.b64encode('"second"'.encode("utf-16-le")).decode()
    wrong += same(one.ask(f"modify dn='CN=Ann Lee,{ldap_store.UNIT}' replace:unicodePwd=base64:{new}"), DONE)
    head = world.head()
    far = b.client(None)
    wrong += same(far.bind("ann", "second"), "# bind: 0 success")
    wrong += has(far.bind("ann", "first"), "# bind: 49")
    far.ask(READ)
    time.sleep(1)
    return wrong + same(changes_behind(world, head), 0)


def another(world):
    """A new replica takes a copy of one that runs, under changes, comes to the log's end, and serves."""
    notes, workers = begun(world, 3, 1)
    time.sleep(1)
    new = world.add("d", "--reads", "linear")
    try:
        world.command("copy", world.replicas[1].store, new.store, "--name", "d", *world.etcd_words())
        new.begin()
        world.serves(new)
        world.replicas.append(new)
        time.sleep(2)
    finally:
        ended(workers)
    return differences(world, notes)


def compacted(world):
    """The log keeps what a replica still wants, and removes it once that one is forgotten, which has to take a new copy
    then."""
    (a, b, c), wrong = world.replicas, []
    c.kill()
    at, client = c.position(), a.client()
    for number in range(300):
        wrong += same(client.ask(WRITE + str(number)), DONE)
    time.sleep(5)
    wrong += same(world.log().read(0, 0).first <= at + 1, True)
    world.command("forget", "c", *world.etcd_words())
    world.wait("the log is cut", lambda: world.log().read(0, 0).first > at + 100)
    c.begin()
    wrong += same(c.running.wait(timeout=SECONDS), 6) + has(c.said(), "take a new copy")
    for end in ("", ".b", ".position"):
        os.remove(c.store + end)
    world.command("copy", b.store, c.store, "--name", "c", *world.etcd_words())
    c.begin()
    world.serves(c)
    world.wait("level", world.is_level)
    wrong += same(c.client().ask(READ), shown("299"))
    for one in (b, c):
        alike(world, a, one)
    return wrong


def keepers(world):
    """Whoever keeps the directory is killed: another one passes lists down, by entries that all take."""
    wrong = []
    for at in range(2):
        name = world.wait("there is a keeper", lambda: (world.log().keeper() or b"").decode())
        world.by_name[name].kill()
        left = next(one for one in world.replicas if one.name != name).client()
        line = f"D:(A;CI;GA;;;SY)(A;CI;GA;;;BA)(A;CI;RPLCLORC;;;WD)(A;CI;RP;;;S-1-5-21-1-2-3-{at + 1})"
        wrong += same(left.ask(f"modify dn='{ROOT}' sd=dacl replace:nTSecurityDescriptor='sddl:{line}'"), DONE)
        look = f"search base='CN=bob,OU=staff,{ROOT}' sd=dacl attrs=nTSecurityDescriptor"
        world.wait("it is passed down", lambda: f"1-2-3-{at + 1})" in left.ask(look))
        world.serves(world.by_name[name])
    return wrong + differences(world)


def certificates(place):
    """A certificate of an authority of its own for 127.0.0.1, and one for clients; None where openssl isn't there."""
    if not shutil.which("openssl"):
        return None
    def made(*words):
        subprocess.run(["openssl", *words], cwd=place, check=True, capture_output=True)

    new = "req", "-newkey", "rsa:2048", "-nodes"
    made(*new, "-x509", "-days", "2", "-subj", "/CN=ca", "-keyout", "ca.key", "-out", "ca.pem")
    for name, use in (("server", "serverAuth"), ("client", "clientAuth")):
        with open(os.path.join(place, name + ".ext"), "w", encoding="ascii") as file:
            file.write(f"subjectAltName=IP:127.0.0.1,IP:10.77.0.1\nextendedKeyUsage=clientAuth,{use}\n")
        made(*new, "-subj", f"/CN={name}", "-keyout", name + ".key", "-out", name + ".csr")
        made("x509", "-req", "-days", "2", "-in", name + ".csr", "-CA", "ca.pem", "-CAkey", "ca.key", "-CAcreateserial",
             "-extfile", name + ".ext", "-out", name + ".pem")
    return place


class Secured(World):
    """A world whose etcd speaks TLS, and knows its clients by certificates."""

    def make_stores(self, more):
        (member,) = self.members
        path = certificates(self.place)
        member.kill()
        shutil.rmtree(os.path.join(self.place, member.name + ".data"))
        member.client = member.client.replace("http:", "https:")
        files = [os.path.join(path, one) for one in ("server.pem", "server.key", "ca.pem")]
        begin, own = member.start, ["--cert-file", files[0], "--key-file", files[1], "--trusted-ca-file", files[2]]
        member.start = lambda words: begin([*words, *own, "--client-cert-auth"])
        member.begin()
        words = "status", *self.etcd_words()
        self.wait("etcd takes calls", lambda: self.command(*words, good=False)[1].find("no log") > 0)
        super().make_stores(more)

    def etcd_words(self):
        own = [os.path.join(self.place, one) for one in ("ca.pem", "client.pem", "client.key")]
        return ["--etcd", self.members[0].client, "--etcd-ca", own[0], "--etcd-cert", own[1], "--etcd-key", own[2]]


def secured(world):
    """By TLS all goes as it does else; without a certificate, or another authority, nothing does."""
    wrong, client = [], world.replicas[0].client()
    wrong += same(client.ask(WRITE + "sealed"), DONE)
    other = world.replicas[1].client()
    wrong += same(other.ask(READ), shown("sealed"))
    url = world.members[0].client
    for words in ((), ("--etcd-ca", os.path.join(world.place, "ca.pem"))):
        wrong += has(world.command("status", "--etcd", url, *words, good=False)[1], "etcd doesn't answer")
    return wrong


LINEAR = ("--reads", "linear")
PAGE = os.path.join(TOP, "docs/replicas.md")
UNTIL = """for p in 11389 21389 31389; do for i in $(seq 1800); do
(exec 3<>/dev/tcp/127.0.0.1/$p) 2>/dev/null && break; sleep 0.1; done; done
"""


def page():
    """The commands of docs/replicas.md, typed as they stand there."""
    with open(PAGE, encoding="utf-8") as file:
        lines = [line[6:] for line in file.read().replace("\\\n      ", "").split("\n") if line.startswith("    $ ")]
    place = tempfile.mkdtemp()
    lines = [line.replace("/tmp/r", os.path.join(place, "r")).replace("./adsd ", f"'{PROGRAM}' ") for line in lines]
    last = next(at for at, line in enumerate(lines) if "adsd-replica serve" in line)
    script = "\n".join([*lines[: last + 1], UNTIL, *lines[last + 1 :], "kill $(jobs -p); wait"])
    done = subprocess.run(["bash", "-c", script], cwd=TOP, stdout=subprocess.PIPE, stderr=subprocess.STDOUT, text=True,
                          env={**os.environ, "ADSD": PROGRAM}, stdin=subprocess.DEVNULL, timeout=2 * SECONDS)
    shutil.rmtree(place)
    wrong = has(done.stdout, "description: on three machines") + has(done.stdout, "log adsd from 1 to ")
    wrong += same(done.stdout.count("is asked without a user or a certificate"), 4)
    wrong += same(sum(done.stdout.count(f"replica {name} at ") for name in "abc"), 3)
    return [f"{one}; all that was said: {done.stdout[-1500:]}" for one in wrong]



def in_world(case, kind=World, **how):
    def run():
        with kind(**how) as world:
            world.begin()
            return case(world)

    return run


def with_local(case):
    """A world of two replicas, of which a answers reads at once."""

    def run():
        with World(members=3, replicas=("a", "b"), patience=IMPATIENT) as world:
            world.by_name["a"].words = ("--reads", "local", "--max-age", "30")
            world.begin()
            return case(world)

    return run


def of_store(case, *words):
    """A world over the directory of ldap_store, with Active Directory's attributes."""

    def run():
        with World(members=1, words=(*LINEAR, *words), more="# \n" + ldap_store.text()) as world:
            world.begin()
            return case(world)

    return run


CASES = {"commands": in_world(commands, members=1), "clients": in_world(clients), "away": with_local(away),
         "logins": of_store(logins), "accounts": of_store(accounts),
         "passwords": of_store(passwords, "--store-passwords", "--no-ad-rules"),
         "another": in_world(another, members=1),
         "compacted": in_world(compacted, members=1, words=(*LINEAR, "--keep", "0")), "keepers": in_world(keepers)}
if is_apart() and shutil.which("ldapmodify"):
    CASES["page"] = page
if shutil.which("openssl"):
    CASES["secured"] = in_world(secured, members=1, replicas=("a", "b"), kind=Secured)
