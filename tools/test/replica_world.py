"""What tools/test/replicas tries: members of etcd and replicas in processes of their own, and what may befall them.

Where a network and mounts can be made (root, `unshare`, `ip`), each process has a network of its own that can be cut
off, and each store a small disk that can be filled; else all are on the loopback address, a process that is stopped
stands for one that is cut off, and a limit of the size of files for a full disk."""

import json
import os
import resource
import shutil
import signal
import socket
import subprocess
import sys
import tempfile
import time
import urllib.request

from ldap_client import PROGRAM, TOP, Client

COMMAND = os.path.join(TOP, "tools", "adsd-replica")
ETCD = shutil.which("etcd")
LOW, SECOND = "user=S-1-5-21-1-2-3-1001 groups=AU,WD", "user=S-1-5-21-1-2-3-1099 groups=BA,AU,WD privileges=security"
NAMES = ("admin password=adm1n user=BA privileges=security\n'' user=AN groups=WD\n"
         f"low password=l0w {LOW}\nsecond password=sec0nd {SECOND}\n")
ROOT = "DC=corp,DC=example"
MANY = f"OU=many,{ROOT}"
# So long something is waited for, in seconds: ten times as long as it takes on a machine that has nothing else to do.
SECONDS = 150
# So long a change and a linear read wait for the log, where nothing of it is away; where something is; and so long a
# client waits for an answer, in seconds.
PATIENT, IMPATIENT, ANSWER = 60, 10, 150
APART = "ADSD_TEST_APART"
# The scripts are run by the Python that runs this, and not by one that has to be found first.
os.environ["PATH"] = f"{os.path.dirname(sys.executable)}:{os.environ['PATH']}"
DISK = "24m"
# What a command says where etcd doesn't answer; how often a replica may end before it serves; what refuses a store.
AWAY, ENDS, REFUSED = "etcd doesn't answer", 10, (3, 6)


class Late(AssertionError):
    """What was waited for, and didn't come in time."""


def goes_apart():
    """Runs this script again in a network and with mounts of its own, where that can be had."""
    if APART in os.environ:
        if is_apart():
            called("ip", "link", "set", "lo", "up")
        return
    can = all(map(shutil.which, ("unshare", "ip", "nsenter")))
    tried = ["unshare", "-n", "-m", "ip", "link", "set", "lo", "up"]
    can = can and subprocess.run(tried, capture_output=True).returncode == 0
    os.environ[APART] = "1" if can else "0"
    if can:
        os.execvp("unshare", ["unshare", "-n", "-m", sys.executable, *sys.argv])


def is_apart():
    return os.environ.get(APART) == "1"


def called(*words):
    subprocess.run(words, check=True, stdout=subprocess.DEVNULL, stderr=subprocess.PIPE)


def free_port():
    with socket.create_server(("127.0.0.1", 0)) as free:
        return free.getsockname()[1]


class Host:
    """A process with an address of its own. It can be killed, stopped, cut off, and started again."""

    count = 0

    def __init__(self, world, at, name):
        self.world, self.at, self.name, self.running, self.link = world, at, name, None, None
        self.address = f"10.77.0.{at}" if is_apart() else "127.0.0.1"
        self.log, self.is_stopped, self.adsd = os.path.join(world.place, f"{name}.log"), False, PROGRAM

    def start(self, words):
        own = {**os.environ, "ADSD": self.adsd}
        with open(self.log, "ab") as log:
            if is_apart():
                waits = ["unshare", "-n", "sh", "-c", 'read go; exec "$@"', "sh", *words]
                self.running = subprocess.Popen(waits, stdin=subprocess.PIPE, stdout=log, stderr=log, env=own)
                self.linked()
                self.running.stdin.write(b"go\n")
                self.running.stdin.close()
            else:
                self.running = subprocess.Popen(words, stdin=subprocess.DEVNULL, stdout=log, stderr=log, env=own)
        self.is_stopped = False

    def linked(self):
        """Gives the process's network an address, once it is there."""
        pid, own = str(self.running.pid), os.readlink("/proc/self/ns/net")
        while os.readlink(f"/proc/{pid}/ns/net") == own:
            time.sleep(0.005)
        # (the same address as before, since others keep it for a while)
        own = f"02:00:00:00:00:{self.at:02x}"
        self.unlink()
        Host.count += 1
        self.link = f"v{Host.count}"
        called("ip", "link", "add", self.link, "type", "veth", "peer", "name", "eth0", "address", own, "netns", pid)
        called("ip", "link", "set", self.link, "master", "br0", "up")
        inside = "ip link set lo up; ip addr add %s/24 dev eth0; ip link set eth0 up" % self.address
        called("nsenter", "-t", pid, "-n", "sh", "-c", inside)

    def unlink(self):
        """Takes away the link that it had. The system keeps a network for a while after its last process has ended, and
        two of one address would get each other's connections."""
        if self.link is not None:
            subprocess.run(["ip", "link", "del", self.link], stderr=subprocess.DEVNULL)
            self.link = None

    def is_running(self):
        return self.running is not None and self.running.poll() is None

    def signal(self, number):
        if self.is_running():
            self.running.send_signal(number)

    def kill(self):
        """kill -9, and waits until it is gone."""
        if self.running is not None:
            self.signal(signal.SIGKILL)
            self.running.wait()

    def stop(self):
        self.signal(signal.SIGSTOP)
        self.is_stopped = True

    def go_on(self):
        self.signal(signal.SIGCONT)
        self.is_stopped = False

    def cut(self):
        """Cuts it off from all others."""
        if is_apart():
            subprocess.run(["ip", "link", "set", self.link, "down"], stderr=subprocess.DEVNULL)
        else:
            self.stop()

    def join(self):
        if is_apart():
            subprocess.run(["ip", "link", "set", self.link, "up"], stderr=subprocess.DEVNULL)
        else:
            self.go_on()


class Member(Host):
    """A member of etcd."""

    def __init__(self, world, at):
        super().__init__(world, at, f"etcd{at}")
        ports = (2379, 2380) if is_apart() else (free_port(), free_port())
        self.client, self.peer = (f"http://{self.address}:{port}" for port in ports)

    def begin(self):
        cluster = ",".join(f"{one.name}={one.peer}" for one in self.world.members)
        self.start([ETCD, "--name", self.name, "--data-dir", os.path.join(self.world.place, self.name + ".data"),
                    "--listen-client-urls", self.client, "--advertise-client-urls", self.client,
                    "--listen-peer-urls", self.peer, "--initial-advertise-peer-urls", self.peer,
                    "--initial-cluster", cluster, "--initial-cluster-state", "new", "--log-level", "error"])

    def status(self):
        """What it tells of itself; nothing where it doesn't answer."""
        try:
            asked = urllib.request.Request(f"{self.client}/v3/maintenance/status", b"{}")
            with urllib.request.urlopen(asked, timeout=2) as said:
                return json.load(said)
        except (OSError, ValueError):
            return {}


class Replica(Host):
    """A replica, with a store in a folder of its own."""

    def __init__(self, world, at, name, *words):
        super().__init__(world, 20 + at, name)
        self.words, self.folder = words, os.path.join(world.place, "of-" + name)
        os.mkdir(self.folder)
        if is_apart():
            called("mount", "-t", "tmpfs", "-o", f"size={DISK}", "none", self.folder)
        self.store, self.port = os.path.join(self.folder, "S"), 1389 if is_apart() else free_port()

    def begin(self):
        more = ["--any-address"] if is_apart() else []
        listens = "--listen", f"{self.address}:{self.port}"
        words = *listens, *self.world.etcd_words(), *more, "--unbound", "1000", "--keep", str(10**9)
        words = *words, "--patience", str(self.world.patience)
        self.start([COMMAND, "serve", self.store, "--names", self.world.names, *words, *self.words])

    def program(self):
        """The number of the process of its program; None where there is none."""
        try:
            with open(f"/proc/{self.running.pid}/task/{self.running.pid}/children", encoding="ascii") as file:
                return int(file.read().split()[0])
        except (OSError, IndexError):
            return None

    def fill(self):
        """Fills its disk."""
        if is_apart():
            with open(os.path.join(self.folder, "filler"), "wb", buffering=0) as file:
                try:
                    while True:
                        file.write(bytes(65536))
                except OSError:
                    return
        pid, size = self.program(), max(os.path.getsize(self.store), os.path.getsize(self.store + ".b"))
        if pid:
            resource.prlimit(pid, resource.RLIMIT_FSIZE, (size + 1000, size + 1000))

    def empty(self):
        filler = os.path.join(self.folder, "filler")
        if os.path.exists(filler):
            os.remove(filler)

    def position(self):
        """The number of the entry at which it stands."""
        return positions().Positions(self.store).read().entry

    def client(self, name="admin", password="adm1n"):
        try:
            made = Far(self.address, self.port)
        except ConnectionRefusedError as why:
            state = "runs" if self.is_running() else "has ended"
            told = f"replica {self.name} {state} and refuses a connection; its log ends so: {self.said()[-2000:]}"
            raise ConnectionRefusedError(told) from why
        if name and made.bind(name, password) != "# bind: 0 success":
            made.close()
            raise ConnectionError("not bound")
        return made

    def said(self):
        with open(self.log, encoding="utf-8", errors="replace") as file:
            return file.read()


def positions():
    from adsd_tools.replica import position

    return position


class Far(Client):
    """A client of any address."""

    def __init__(self, host, port):
        self.number = 0
        self.socket = socket.create_connection((host, port), timeout=15)
        self.socket.settimeout(ANSWER)
        # A server whose network is gone, or cut off, is noticed by the system.
        self.socket.setsockopt(socket.SOL_SOCKET, socket.SO_KEEPALIVE, 1)
        for option, value in ((socket.TCP_KEEPIDLE, 2), (socket.TCP_KEEPINTVL, 1), (socket.TCP_KEEPCNT, 3)):
            self.socket.setsockopt(socket.IPPROTO_TCP, option, value)
        self.socket.setsockopt(socket.IPPROTO_TCP, socket.TCP_USER_TIMEOUT, 15000)


class World:
    """Some members of etcd, and some replicas of one store."""

    def __init__(self, members=3, replicas=("a", "b", "c"), words=("--reads", "linear"), more="", patience=PATIENT):
        self.place, self.patience = tempfile.mkdtemp(prefix="replicas-"), patience
        if is_apart():
            called("sh", "-c", "ip link show br0 2>/dev/null || { ip link add br0 type bridge; "
                   "ip addr add 10.77.0.254/24 dev br0; ip link set br0 up; }")
            called("mount", "-t", "tmpfs", "none", self.place)
        self.names = os.path.join(self.place, "names")
        with open(os.open(self.names, os.O_WRONLY | os.O_CREAT, 0o600), "w", encoding="utf-8") as file:
            file.write(NAMES)
        self.members = [Member(self, at) for at in range(1, members + 1)]
        self.replicas = [Replica(self, at, name, *words) for at, name in enumerate(replicas, 1)]
        self.by_name = {one.name: one for one in self.replicas}
        try:
            for one in self.members:
                one.begin()
            self.wait("a leader of etcd", self.leader)
            self.make_stores(more)
        except BaseException:
            self.__exit__()
            raise

    def __enter__(self):
        return self

    def __exit__(self, *_):
        for one in (*self.by_name.values(), *self.members):
            one.kill()
            one.unlink()
        time.sleep(0.1)
        if is_apart():
            for one in self.by_name.values():
                subprocess.run(["umount", "-l", one.folder], stderr=subprocess.DEVNULL)
            subprocess.run(["umount", "-l", self.place], stderr=subprocess.DEVNULL)
        shutil.rmtree(self.place, ignore_errors=True)

    def etcd_words(self):
        return ["--etcd", ",".join(one.client for one in self.members), "--etcd-clear"]

    def command(self, *words, good=True, adsd=PROGRAM):
        done = subprocess.run([COMMAND, *words], stdout=subprocess.PIPE, stderr=subprocess.STDOUT,
                              env={**os.environ, "ADSD": adsd}, text=True, timeout=2 * SECONDS)
        if good and done.returncode:
            kind = Late if AWAY in done.stdout else AssertionError
            raise kind(f"adsd-replica {' '.join(words)} ended with {done.returncode}: {done.stdout}")
        return done.stdout if good else (done.returncode, done.stdout)

    def add(self, name, *words):
        """A further replica, without a store."""
        made = self.by_name[name] = Replica(self, len(self.by_name) + 1, name, *words)
        return made

    def make_stores(self, more):
        """The first store with some units, and copies of it."""
        with open(os.path.join(TOP, "examples/base.ldif"), encoding="utf-8") as file:
            text = file.read()
        # (what is given begins with a line that isn't one of a record where it is a directory of its own)
        text = more if more.startswith("#") else text + more
        text += "" if f"dn: {MANY}\n" in text else f"\ndn: {MANY}\nobjectClass: organizationalUnit\n"
        first = self.replicas[0]
        subprocess.run([PROGRAM, "load", first.store], input=text.encode(), stdout=subprocess.DEVNULL, check=True)
        self.base = os.path.join(self.place, "base")
        for slot in ("", ".b"):
            shutil.copyfile(first.store + slot, self.base + slot)
        self.command("begin", first.store, "--name", first.name, *self.etcd_words())
        for one in self.replicas[1:]:
            self.command("copy", first.store, one.store, "--name", one.name, *self.etcd_words())

    def wait(self, what, asked, seconds=SECONDS):
        """What some question is answered by, once that is true; Late where it isn't in time. Where a replica has ended
        since its store isn't the log's, no want of time did that."""
        end = time.monotonic() + seconds
        while time.monotonic() < end:
            found = asked()
            if found:
                return found
            time.sleep(0.05)
        ended = [one for one in self.by_name.values() if one.running is not None and one.running.poll() in REFUSED]
        told = "".join(f"; {one.name} ended with {one.running.returncode}: {one.said()[-500:]}" for one in ended)
        raise (AssertionError if ended else Late)(f"{what}: not within {seconds} seconds{told}")

    def leader(self):
        """The member that leads; None where there is none."""
        for one in self.members:
            said = one.status() if one.is_running() and not one.is_stopped else {}
            if said.get("leader") and said["leader"] == said["header"]["member_id"]:
                return one
        return None

    def begin(self):
        for one in self.replicas:
            one.begin()
        for one in self.replicas:
            self.serves(one)

    def serves(self, replica):
        """Waits until a replica takes clients. One that ends is started again so often, as a supervisor does."""
        ends = []

        def asked():
            if not replica.is_running():
                if len(ends) > ENDS:
                    raise AssertionError(f"replica {replica.name} ends each time")
                ends.append(replica.begin())
            try:
                replica.client().close()
                return True
            except Exception:
                return False

        try:
            self.wait(f"replica {replica.name} serves", asked)
        except AssertionError as why:
            raise type(why)(f"{why}; its log ends so: {replica.said()[-2000:]}") from None

    def log(self, user=None):
        """The log, as the replicas see it."""
        from adsd_tools.replica.ordered import Ordered
        from replica_patient import Patient

        made = Ordered(Patient([one.client for one in self.members], user=user), "adsd")
        made.own = made.find()
        return made

    def head(self):
        """The number of the log's last entry."""
        return self.log().head().number

    def is_level(self):
        """Whether each replica stands where the log ends."""
        try:
            head = self.head()
            return all(one.position() == head for one in self.replicas)
        except Exception:
            return False
