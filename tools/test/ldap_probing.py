"""Asks the probes of ldap_probes of one server, by python-ldap, and prints a list of answers in JSON. It is called with a
URL and the secret of the accounts, in whatever network the server is."""

import json
import os
import sys

sys.dont_write_bytecode = True
sys.path.insert(0, os.path.dirname(os.path.abspath(__file__)))

import ldap
import ldap.sasl
from ldap.controls import LDAPControl
from ldap.extop import ExtendedRequest
from ldap_probes import ANN, ROOT, all_of

SECONDS = 20
ADMIN = "Administrator"
# What is shown of a name at most, and how many names.
FEW = 4


def connected(url):
    made = ldap.initialize(url)
    made.set_option(ldap.OPT_X_TLS_REQUIRE_CERT, ldap.OPT_X_TLS_NEVER)
    made.set_option(ldap.OPT_X_TLS_NEWCTX, 0)
    made.set_option(ldap.OPT_REFERRALS, 0)
    made.set_option(ldap.OPT_NETWORK_TIMEOUT, SECONDS)
    made.timeout = SECONDS
    return made


class Server:
    """One server."""

    def __init__(self, url, secret):
        self.url, self.secret = url, secret
        self.begin()
        held = self.admin.search_s(ANN, ldap.SCOPE_BASE, "(objectClass=*)", ["objectGUID"])[0][1]["objectGUID"][0]
        parts = [held[3::-1], held[5:3:-1], held[7:5:-1], held[8:10], held[10:]]
        self.known = {"{dashed}": "-".join(one.hex() for one in parts), "{bytes}": "".join(f"\\{one:02x}" for one in held)}

    def begin(self):
        """Binds anew, as Administrator."""
        self.admin = self.connected()
        self.admin.simple_bind_s(f"CN={ADMIN},CN=Users,{ROOT}", self.secret)

    def connected(self):
        return connected(self.url)

    def filled(self, text):
        for word, value in self.known.items():
            text = text.replace(word, value)
        return text


def controls_of(told):
    return [LDAPControl(name, critical, encodedControlValue=None if value is None else bytes.fromhex(value))
            for name, critical, value in told]


def short(name):
    """The first value of a name, and whatever stands before the name."""
    ahead = f"{name[: name.index('>')]}>.. " if name.startswith("<") else ""
    name = name.rpartition(";")[2]
    return (ahead and "extended ") + name.partition(",")[0].partition("=")[2]


def shown(found, how, names):
    """What is told of entries."""
    entries = [(name, held) for name, held in found if name is not None]
    if how == "names":
        called = sorted(short(name) for name, _ in entries)
        return ", ".join(called) if 0 < len(called) <= FEW + 1 else f"{len(called)} entries" if called else "nothing"
    if not entries:
        return "nothing"
    held = {key.lower(): values for key, values in entries[0][1].items()}
    if how == "has":
        return "there" if held and any(held.values()) else "not there"
    if how == "contexts":
        return ", ".join(sorted(short(one.decode()) for values in held.values() for one in values)) or "not there"
    return "; ".join(f"{key}: {', '.join(sorted(one.decode('utf-8', 'replace') for one in values))}"
                     for key, values in sorted(held.items())) or "not there"


def searched(server, base, scope, text, names, how, told=()):
    scopes = {"base": ldap.SCOPE_BASE, "one": ldap.SCOPE_ONELEVEL, "sub": ldap.SCOPE_SUBTREE}
    number = server.admin.search_ext(server.filled(base), scopes[scope], server.filled(text), names, serverctrls=controls_of(told))
    _, found, _, _ = server.admin.result3(number, 1, SECONDS)
    return shown(found, how, names)


def added(server, name, held):
    server.admin.add_s(name, [(key, [one.encode() for one in values]) for key, values in held.items()])


def modified(server, name, items, told):
    made = [(act, key, values and [one.encode() for one in values]) for act, key, values in items]
    server.admin.modify_ext_s(name, made, serverctrls=controls_of(told))


def renamed(server, name, new, above):
    server.admin.rename_s(name, new, above, delold=1)


def deleted(server, name, told):
    server.admin.delete_ext_s(name, serverctrls=controls_of(told))


def compared(server, name, key, value):
    return "true" if server.admin.compare_s(name, key, value.encode()) else "false"


def bound(server, name, password):
    one = server.connected()
    number = one.simple_bind(name, server.secret if password == "Passw0rd-x1" else password)
    one.result(number, 1, SECONDS)
    return "0"


def by_sasl(server, mechanism):
    one = server.connected()
    one.sasl_bind_s("", mechanism, b"" if mechanism != "PLAIN" else b"\0ann\0x")


def unbound(server, call, *words):
    one = server.connected()
    if call == "search":
        scopes = {"base": ldap.SCOPE_BASE, "sub": ldap.SCOPE_SUBTREE}
        return shown(one.search_ext_s(words[0], scopes[words[1]], "(objectClass=*)", ["1.1"]), "names", ())
    if call == "whoami":
        return one.whoami_s() or "nobody"
    if call == "modify":
        return one.modify_s(words[0], [(ldap.MOD_REPLACE, "description", [b"x"])]) and None
    return one.delete_s(words[0]) and None if call == "delete" else str(one.compare_s(words[0], "cn", b"ann")).lower()


def extended(server, name, value=None):
    made = ExtendedRequest(name, None if value is None else bytes.fromhex(value))
    server.admin.extop_result(server.admin.extop(made))


CALLS = {"search": searched, "add": added, "modify": modified, "rename": renamed, "delete": deleted, "compare": compared,
         "bind": bound, "sasl": by_sasl, "unbound": unbound, "extended": extended}


def answer(server, probe):
    try:
        return CALLS[probe.call](server, *probe.words) or "0"
    except ldap.LDAPError as fault:
        told = fault.args[0] if fault.args and isinstance(fault.args[0], dict) else {}
        code = told.get("result")
        if code is None or code < 0:
            server.begin()
            return "no answer"
        return str(code)


def main(url, secret):
    server = Server(url, secret)
    print(json.dumps([answer(server, one) for one in all_of()]))


if __name__ == "__main__":
    main(*sys.argv[1:])
