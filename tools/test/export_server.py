"""What tools/test/export asks: a domain of Samba, its server in a network of its own, and a proxy that cuts."""

import os
import subprocess
import sys
import time

PASSWORD = "Passw0rd-x1"
SYSTEM, START_SECONDS = "/usr/bin/python3", 1800
# Samba's databases aren't synced: they are thrown away.
SURROUNDINGS = {**os.environ, "TDB_NO_FSYNC": "1", "PATH": "/usr/bin:/usr/sbin:" + os.environ["PATH"]}
# Makes the user bob, so many users and a group of them, or nothing; prints how many objects there are.
BY_SAMBA = """
import sys
from samba.auth import system_session
from samba.param import LoadParm
from samba.samdb import SamDB

settings = LoadParm()
settings.load_default()
database = SamDB(sys.argv[1], session_info=system_session(), lp=settings)
domain, count = str(database.domain_dn()), int(sys.argv[3])
if sys.argv[2] == "bob":
    database.newuser("bob", "Passw0rd-x1")
elif sys.argv[2] == "users":
    names = [f"CN=many-{number},CN=Users,{domain}" for number in range(count)]
    database.transaction_start()
    for number, name in enumerate(names):
        database.add({"dn": name, "objectClass": "user", "sAMAccountName": f"many-{number}"})
    database.add({"dn": f"CN=all,CN=Users,{domain}", "objectClass": "group", "sAMAccountName": "all", "member": names})
    database.transaction_commit()
print(len(database.search(expression="(objectClass=*)", attrs=["1.1"], controls=["search_options:1:2"])))
"""


# Takes connections in turn, and hands each on to a port; cuts one as soon as so many bytes came back through all.
CUTTER = """
import select, socket, struct, sys

given = socket.create_server(("127.0.0.1", 0))
print(given.getsockname()[1], flush=True)
cuts, came = [int(word) for word in sys.argv[1:]], 0
while True:
    client = given.accept()[0]
    server = socket.create_connection(("127.0.0.1", 636))
    while True:
        data = b""
        for one in select.select([client, server], [], [])[0]:
            data = one.recv(65536)
            if not data:
                break
            (server if one is client else client).sendall(data)
            came += len(data) if one is server else 0
        if not data or (cuts and came >= cuts[0]):
            break
    if data:
        cuts.pop(0)
        print("cut", flush=True)
        client.setsockopt(socket.SOL_SOCKET, socket.SO_LINGER, struct.pack("ii", 1, 0))
    client.close()
    server.close()
"""
# Listens, and speaks no LDAP.
OTHER = """
import socket

given = socket.create_server(("127.0.0.1", 0))
print(given.getsockname()[1], flush=True)
while True:
    client = given.accept()[0]
    if client.recv(4096):
        client.sendall(b"HTTP/1.0 400 Bad Request\\r\\n\\r\\n")
    client.close()
"""


def call(words, **more):
    done = subprocess.run(words, stdout=subprocess.PIPE, stderr=subprocess.STDOUT, env=SURROUNDINGS, **more)
    if done.returncode != 0:
        sys.exit(f"{' '.join(words[:4])} ended with {done.returncode}: {done.stdout.decode('utf-8', 'replace')[-500:]}")
    return done.stdout.decode()


def by_samba(folder, what, count=0):
    """Has something made in a domain; how many objects it has then."""
    said = call([SYSTEM, "-c", BY_SAMBA, os.path.join(folder, "private/sam.ldb"), what, str(count)])
    return int(said.split()[-1])


def made_domain(folder):
    """Makes a domain with a user bob in a new folder. (Where the file system has no lists of its own, the provision
    ends with a fault in its last step, behind the directory.)"""
    os.mkdir(folder)
    words = ["samba-tool", "domain", "provision", "--realm=corp.example", "--domain=CORP", f"--adminpass={PASSWORD}",
             "--server-role=dc", "--dns-backend=NONE", "--host-name=dc1", "--host-ip=127.0.0.1",
             f"--targetdir={folder}"]
    done = subprocess.run(words, stdout=subprocess.PIPE, stderr=subprocess.STDOUT, env=SURROUNDINGS)
    if not os.path.exists(os.path.join(folder, "private/sam.ldb")):
        sys.exit(f"no domain: {done.stdout.decode('utf-8', 'replace')[-500:]}")
    by_samba(folder, "bob")


def certificates(place):
    """Makes an authority and the certificate of 127.0.0.1 and localhost in a folder."""
    def openssl(*words):
        call(["openssl", *words], cwd=place)

    openssl("req", "-x509", "-newkey", "rsa:2048", "-nodes", "-keyout", "ca.key", "-out", "ca.pem", "-days", "2",
            "-subj", "/CN=test authority")
    openssl("req", "-newkey", "rsa:2048", "-nodes", "-keyout", "key.pem", "-out", "asked.pem", "-subj", "/CN=dc1")
    with open(os.path.join(place, "names"), "w", encoding="ascii") as opened:
        opened.write("subjectAltName=IP:127.0.0.1\n")
    openssl("x509", "-req", "-in", "asked.pem", "-CA", "ca.pem", "-CAkey", "ca.key", "-CAcreateserial", "-out",
            "cert.pem", "-days", "2", "-extfile", "names")
    os.chmod(os.path.join(place, "key.pem"), 0o600)


class Server:
    """Samba's server over a domain, with LDAP alone, in a network that has a loopback of its own."""

    def __init__(self, folder, place):
        self.folder, self.place, self.child, self.others = folder, place, None, []

    def __enter__(self):
        certificates(self.place)
        os.makedirs(os.path.join(self.folder, "cache"), exist_ok=True)
        settings = {"server services": "ldap", "dcerpc endpoint servers": "", "interfaces": "127.0.0.1/8 127.0.0.3/8",
                    "bind interfaces only": "yes", "tls certfile": f"{self.place}/cert.pem",
                    "tls keyfile": f"{self.place}/key.pem", "tls cafile": f"{self.place}/ca.pem",
                    "pid directory": self.folder, "ncalrpc dir": f"{self.folder}/ncalrpc",
                    "log file": f"{self.folder}/log"}
        words = ["samba", "-i", "-M", "single", "--debug-stdout", "-s", os.path.join(self.folder, "etc/smb.conf"),
                 *(f"--option={name}={value}" for name, value in settings.items())]
        with open(os.path.join(self.place, "server.log"), "wb") as log:
            self.child = subprocess.Popen(
                ["unshare", "-n", "sh", "-c", "ip link set lo up; ip addr add 127.0.0.3/8 dev lo; exec \"$@\"", "sh",
                 *words], stdin=subprocess.PIPE, stdout=log, stderr=log, env=SURROUNDINGS)
        self.wait()
        return self

    def __exit__(self, *_):
        for child in (*self.others, self.child):
            child.terminate()
            child.wait()

    def inside(self, *words):
        """The words of a command in the server's network."""
        return ["nsenter", "-t", str(self.child.pid), "-n", *words]

    def wait(self):
        end = time.monotonic() + START_SECONDS
        while time.monotonic() < end and self.child.poll() is None:
            if subprocess.run(self.inside("bash", "-c", "exec 3<>/dev/tcp/127.0.0.1/636"),
                              stderr=subprocess.DEVNULL).returncode == 0:
                return
            time.sleep(0.3)
        with open(os.path.join(self.place, "server.log"), "rb") as log:
            sys.exit(f"no server: {log.read()[-500:].decode('utf-8', 'replace')}")

    def script(self, text, *words):
        """A script of Python that goes on in the server's network, and the first line that it prints."""
        child = subprocess.Popen(self.inside(SYSTEM, "-c", text, *words), stdout=subprocess.PIPE, text=True)
        self.others.append(child)
        return child, child.stdout.readline().strip()

    def listening(self):
        """The port of a server that speaks no LDAP."""
        return int(self.script(OTHER)[1])

    def cutter(self, *after):
        """A proxy that cuts after so many bytes: it, and its port."""
        child, port = self.script(CUTTER, *map(str, after))
        return child, int(port)

    def cuts(self, cutter):
        """How often a proxy cut, after it was ended."""
        cutter.terminate()
        return cutter.stdout.read().count("cut")
