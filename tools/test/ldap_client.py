"""What tools/test/ldap asks with: a small LDAP client by the elements of adsd-ask, and a bridge over its own store."""

import os
import re
import shutil
import signal
import socket
import subprocess
import sys
import tempfile
import threading
import time

TOP = os.path.dirname(os.path.dirname(os.path.dirname(os.path.abspath(__file__))))
COMMAND = os.path.join(TOP, "tools", "adsd-ldap")
SECONDS = 300

sys.dont_write_bytecode = True
sys.path.insert(0, os.path.join(TOP, "tools"))

import chosen  # noqa: E402

PROGRAM = os.environ["ADSD"] = chosen.program()

from adsd_tools.ask import answers, requests  # noqa: E402
from adsd_tools.forms import ber  # noqa: E402
from adsd_tools.ask.requests import Line  # noqa: E402

REFUSED = "# bind: 49, 80090308: LdapErr: DSID-0C090400, comment: AcceptSecurityContext error, data 52e, v1db1"
STAFF = "OU=staff,DC=corp,DC=example"
ANN, BOB = f"CN=ann,{STAFF}", f"CN=bob,{STAFF}"
NAMES = f"""# for tests
'{ANN}' also=ann,CORP\\ann password='her secret' user=S-1-5-21-1-2-3-1001 primary=S-1-5-21-1-2-3-513 groups=AU,WD
admin password=adm1n user=BA privileges=security
"""


class Closed(Exception):
    """The server has closed the connection."""


class Client:
    """One client. What it asks is a line of adsd-ask, and what it gets is given as `adsd-ask replies` prints it."""

    def __init__(self, port, receives=None):
        self.socket = socket.socket()
        self.socket.settimeout(SECONDS)
        if receives:
            self.socket.setsockopt(socket.SOL_SOCKET, socket.SO_RCVBUF, receives)
        self.socket.connect(("127.0.0.1", port))
        self.number = 0

    def send(self, operation, *controls):
        self.number += 1
        behind = [ber.sequence(*controls, tag=0xA0)] if controls else []
        self.socket.sendall(ber.sequence(ber.number(self.number), operation, *behind))
        return self.number

    def send_line(self, text):
        line = Line(text)
        operation, controls = requests.operation(line)
        return self.send(operation, *controls)

    def taken(self, count):
        data = b""
        while len(data) < count:
            more = self.socket.recv(min(count - len(data), 65536))
            if not more:
                raise Closed
            data += more
        return data

    def message(self):
        """The next message's bytes, its number and its operation."""
        data = self.taken(2)
        size = data[1]
        if size & 0x80:
            data += self.taken(size & 0x7F)
            size = int.from_bytes(data[2:], "big")
        data += self.taken(size)
        (_, number), (tag, _) = ber.parts(ber.parts(data)[0][1])[:2]
        return data, int.from_bytes(number, "big"), tag

    def reply(self, number):
        """The lines of the reply to a request, whose messages must have its number."""
        data, tag = b"", 0x64
        while tag == 0x64:
            more, given, tag = self.message()
            if given != number:
                raise AssertionError(f"the number {given} in the place of {number}: {answers.message_lines(more)}")
            data += more
        return "\n".join(answers.message_lines(data)).strip()

    def ask(self, text):
        return self.reply(self.send_line(text))

    def bind(self, name, password, version=3):
        held = ber.number(version), ber.octets(name.encode()), ber.octets(password.encode(), 0x80)
        return self.reply(self.send(ber.sequence(*held, tag=0x60)))

    def extended(self, name):
        return self.send(ber.sequence(ber.octets(name, 0x80), tag=0x77))

    def notice(self):
        """The code of the Notice of Disconnection, which must be the last that comes."""
        data, number, tag = self.message()
        if (number, tag) != (0, 0x78):
            raise AssertionError(f"{answers.message_lines(data)} in the place of a notice")
        try:
            raise AssertionError(f"{self.taken(1)!r} behind the notice")
        except (Closed, ConnectionError):
            return ber.parts(ber.parts(ber.parts(data)[0][1])[1][1])[0][1][0]

    def close(self):
        self.socket.close()

    def vanish(self):
        """Closes it as a client does that dies: what the server sends from now on is refused."""
        self.socket.setsockopt(socket.SOL_SOCKET, socket.SO_LINGER, b"\1\0\0\0\0\0\0\0")
        self.socket.close()


class Bridge:
    """A bridge over a store of examples/base.ldif, in a folder of its own."""

    def __init__(self, *words, names=NAMES, store=None):
        self.place = tempfile.mkdtemp()
        self.names, self.store = os.path.join(self.place, "names"), store or os.path.join(self.place, "corp")
        self.write(names)
        if store is None:
            with open(os.path.join(TOP, "examples/base.ldif"), "rb") as source:
                subprocess.run([PROGRAM, "load", self.store], stdin=source, stdout=subprocess.DEVNULL, check=True)
        called = [COMMAND, "serve", self.store, "--names", self.names, "--listen", "127.0.0.1:0", *words]
        self.running = subprocess.Popen(called, stderr=subprocess.PIPE, env={**os.environ, "ADSD": PROGRAM})
        self.said, self.news = [], threading.Condition()
        threading.Thread(target=self.listen, daemon=True).start()
        found = self.wait_for(r"serving .* on ldap://127\.0\.0\.1:(\d+)")
        self.port = int(found[1]) if found else None

    def __enter__(self):
        return self

    def __exit__(self, *_):
        if self.running.poll() is None:
            self.running.kill()
            self.running.wait()
        shutil.rmtree(self.place)

    def write(self, names):
        with open(os.open(self.names, os.O_WRONLY | os.O_CREAT | os.O_TRUNC, 0o600), "w", encoding="utf-8") as file:
            file.write(names)

    def listen(self):
        for line in self.running.stderr:
            with self.news:
                self.said.append(line.decode().rstrip("\n"))
                self.news.notify_all()
        with self.news:
            self.said.append(None)
            self.news.notify_all()

    def wait_for(self, pattern):
        """The match of the first line that fits; None where it ends without one."""
        end = time.monotonic() + SECONDS
        with self.news:
            while True:
                for line in self.said:
                    if line is None or re.search(pattern, line):
                        return line and re.search(pattern, line)
                if not self.news.wait(end - time.monotonic()):
                    raise AssertionError(f"nothing like {pattern} is said: {self.said}")

    def lines(self):
        return [line for line in self.said if line is not None]

    def client(self, name=None, password=None, receives=None):
        """A client, which is bound where a name is given."""
        made = Client(self.port, receives)
        if name and made.bind(name, password) != "# bind: 0 success":
            raise AssertionError(f"{name} isn't bound")
        return made

    def program(self):
        """The number of the process of the program."""
        with open(f"/proc/{self.running.pid}/task/{self.running.pid}/children", encoding="ascii") as file:
            return int(file.read().split()[0])

    def clock(self):
        """Seconds, without those in which the bridge, its program or this thread waited for a processor that others had,
        as far as the system tells them. So a bound of time holds also where the machine has much else to do."""
        waited, now = 0, time.monotonic()
        for name in (f"{self.running.pid}/schedstat", f"{self.program()}/schedstat", "thread-self/schedstat"):
            try:
                with open(f"/proc/{name}", encoding="ascii") as file:
                    waited += int(file.read().split()[1])
            except (OSError, IndexError):
                pass
        return now - waited / 1e9

    def end(self, number=signal.SIGTERM):
        """Stops it; its status, and the last line that it says."""
        if number:
            self.running.send_signal(number)
        status = self.running.wait(timeout=SECONDS)
        self.wait_for(r"\A\Z")
        return status, self.lines()[-1]

    def check(self):
        done = subprocess.run([PROGRAM, "check", self.store], stdout=subprocess.PIPE)
        return done.stdout.decode().split("\n")[:3]
