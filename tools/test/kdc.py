"""A key distribution center of MIT on loopback, for tests: two realms that trust each other one way, in a folder of its
own. No file of the system is read or written."""

import os
import shutil
import socket
import subprocess
import sys
import time

REALM, OTHER, PASSWORD = "CORP.EXAMPLE", "OTHER.EXAMPLE", "Passw0rd-k1"
NEEDED = ("krb5kdc", "kdb5_util", "kadmin.local", "kinit", "kvno")
# How far clocks may differ, in seconds: little, so that a test waits for a ticket's end; a busy machine keeps it.
SKEW, SECONDS = 20, 300
PLACES = "/usr/local/sbin", "/usr/sbin", "/sbin"
SETTINGS = """[libdefaults]
default_realm = {realm}
dns_lookup_kdc = false
dns_lookup_realm = false
dns_canonicalize_hostname = false
rdns = false
clockskew = {skew}
udp_preference_limit = 1
default_ccache_name = FILE:{place}/nobody
[realms]
{realm} = {{
 kdc = 127.0.0.1:{port}
}}
{other} = {{
 kdc = 127.0.0.1:{port}
}}
[domain_realm]
localhost = {realm}
.corp.example = {realm}
corp.example = {realm}
[capaths]
{other} = {{
 {realm} = .
}}
"""
OF_KDC = """[kdcdefaults]
kdc_listen = 127.0.0.1:{port}
kdc_tcp_listen = 127.0.0.1:{port}
[realms]
{realm} = {{
 database_name = {place}/own
 key_stash_file = {place}/own.stash
 acl_file = {place}/none
 max_life = 10h
}}
{other} = {{
 database_name = {place}/other
 key_stash_file = {place}/other.stash
 acl_file = {place}/none
 max_life = 10h
}}
[logging]
kdc = FILE:{place}/kdc.log
admin_server = FILE:{place}/kadmin.log
default = FILE:{place}/krb5.log
"""


def missing():
    """The commands that aren't there."""
    return [one for one in NEEDED if found(one) is None]


def found(name):
    return shutil.which(name, path=os.pathsep.join([os.environ["PATH"], *PLACES]))


def system_python():
    """The interpreter that has python3-gssapi; None where none has it."""
    for one in (sys.executable, "/usr/bin/python3"):
        if os.path.exists(one) and not subprocess.run([one, "-c", "import gssapi"], stderr=subprocess.DEVNULL).returncode:
            return one
    return None


def free_port():
    with socket.create_server(("127.0.0.1", 0)) as one:
        return one.getsockname()[1]


class Kdc:
    """One, with its principals; it runs until the end."""

    def __init__(self, place, port=None):
        self.place, self.port = place, port or free_port()
        told = {"realm": REALM, "other": OTHER, "place": place, "port": self.port, "skew": SKEW}
        for name, text in (("krb5.conf", SETTINGS), ("kdc.conf", OF_KDC)):
            with open(os.path.join(place, name), "w", encoding="ascii") as file:
                file.write(text.format(**told))
        self.words = {"KRB5_CONFIG": os.path.join(place, "krb5.conf"), "KRB5_KDC_PROFILE": os.path.join(place, "kdc.conf"),
                      "KRB5RCACHEDIR": place, "KRB5CCNAME": f"FILE:{place}/nobody",
                      "KRB5_TRACE": os.path.join(place, "trace")}
        for realm in (REALM, OTHER):
            self.called([found("kdb5_util"), "-r", realm, "create", "-s", "-P", "master"])
        self.keys = {}
        self.running = None

    def called(self, words, given="", **more):
        done = subprocess.run(words, input=given.encode(), stdout=subprocess.PIPE, stderr=subprocess.STDOUT,
                              env={**os.environ, **self.words, **more}, timeout=SECONDS)
        if done.returncode:
            raise RuntimeError(f"{words}: {done.returncode} {done.stdout.decode('utf-8', 'replace')}")
        return done.stdout.decode("utf-8", "replace")

    def admin(self, realm, *lines):
        """Has kadmin.local do some lines."""
        said = self.called([found("kadmin.local"), "-r", realm], "".join(f"{line}\n" for line in lines))
        return said

    def start(self):
        words = [found("krb5kdc"), "-n", "-r", REALM, "-r", OTHER]
        self.running = subprocess.Popen(words, env={**os.environ, **self.words}, stdout=subprocess.DEVNULL,
                                        stderr=subprocess.DEVNULL)
        end = time.monotonic() + SECONDS
        while time.monotonic() < end:
            try:
                socket.create_connection(("127.0.0.1", self.port), 1).close()
                return self
            except OSError:
                if self.running.poll() is not None:
                    raise RuntimeError("krb5kdc ended") from None
                time.sleep(0.05)
        raise RuntimeError("krb5kdc doesn't listen")

    def keytab(self, name, *principals):
        """A keytab with the keys of some principals, which are made."""
        path = os.path.join(self.place, name)
        self.admin(REALM, *(f"addprinc -randkey {one}" for one in principals),
                   *(f"ktadd -k {path} {one}" for one in principals))
        return path

    def ticket(self, principal, *words):
        """The settings by which a client has a ticket of somebody, whose password is the usual one."""
        self.keys[principal] = cache = f"FILE:{self.place}/cache{len(self.keys)}"
        self.called([found("kinit"), *words, principal], PASSWORD + "\n", KRB5CCNAME=cache)
        return {**self.words, "KRB5CCNAME": cache}

    def stop(self):
        if self.running is not None:
            self.running.kill()
            self.running.wait()
