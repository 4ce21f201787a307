"""What tools/test/ldap-gssapi tries by programs that others wrote. They look up names, ask the usual ports, and some of
them make settings of their own, so they run in a network, and with files of names, of their own: the machine's stay as
they are."""

import os
import shutil
import subprocess
import sys
import tempfile

sys.dont_write_bytecode = True

import ldap_tickets
from ldap_client import SECONDS, TOP
from ldap_store import UNIT

HOST, DOMAIN = "dc1.corp.example", "corp.example"
URL = f"ldap://{HOST}"
# Whoever administers, whose line gives it another token than its groups would.
CHIEF = f"CN=chief,{UNIT}"
MORE = (f"{ldap_tickets.MORE}\ndn: {CHIEF}\nobjectClass: user\nobjectSid: S-1-5-21-1-2-3-2310\nsAMAccountName: chief\n"
        "userAccountControl: 512\n")
NAMES = f"{ldap_tickets.NAMES}'{CHIEF}' password=unused user=BA groups=AU,WD privileges=security\n"
OF_SAMBA = """[global]
realm = CORP.EXAMPLE
workgroup = CORP
security = ads
create krb5 conf = no
interfaces = lo
bind interfaces only = yes
"""
FOLDERS = ("private dir", "lock directory", "state directory", "cache directory", "pid directory")
FILTER, BASE = "(sAMAccountName=ann)", "DC=corp,DC=example"
NAMED = "import sys, ldap, ldap.sasl; c = ldap.initialize(sys.argv[1]); c.sasl_interactive_bind_s('', ldap.sasl.gssapi(''))"
OF_LDAP3 = ("import sys, ldap3; c = ldap3.Connection(ldap3.Server(sys.argv[1]), authentication=ldap3.SASL, "
            "sasl_mechanism=ldap3.KERBEROS, sasl_credentials=(sys.argv[2],)); c.bind()")
WHO = "u:CORP\\ann"


def by_openldap():
    """OpenLDAP's clients, with each mechanism and layer, and within TLS."""
    for mechanism in ("GSSAPI", "GSS-SPNEGO"):
        for more in ([], ["-O", "maxssf=0"], ["-O", "maxssf=1,minssf=1"]):
            yield "ann", ["ldapwhoami", "-Q", "-Y", mechanism, *more, "-H", URL], WHO
    yield "ann", ["ldapwhoami", "-Q", "-ZZ", "-Y", "GSSAPI", "-O", "maxssf=0", "-H", URL], WHO
    yield "ann", ["ldapwhoami", "-Q", "-ZZ", "-Y", "GSS-SPNEGO", "-O", "maxssf=0", "-H", URL], WHO
    yield "ann", ["ldapsearch", "-Q", "-Y", "GSSAPI", "-LLL", "-H", URL, "-b", BASE, FILTER, "cn"], "cn: Ann Lee\n"
    yield "chief", ["ldapsearch", "-Q", "-Y", "GSSAPI", "-LLL", "-H", URL, "-b", BASE, "-E", "pr=2/noprompt", "cn"], (
        "cn: chief\n")


def by_others(place, cache):
    """Samba's, adcli, curl, python-ldap and ldap3."""
    samba, adcli = f"--configfile={place}/smb.conf", ["-D", DOMAIN, "-S", HOST, f"--login-ccache={cache}"]
    yield "ann", ["net", "ads", "search", "-k", "-S", HOST, "-s", f"{place}/smb.conf", FILTER, "cn"], "cn: Ann Lee\n"
    yield "ann", ["net", "ads", "info", "-S", HOST, "-s", f"{place}/smb.conf"], f"LDAP server name: {HOST}\n"
    yield "ann", ["net", "ads", "lookup", "-S", HOST, "-s", f"{place}/smb.conf"], "Pre-Win2k Domain: CORP\n"
    yield "chief", ["ldbsearch", "-H", URL, f"--use-krb5-ccache={cache}", samba, "-b", BASE, FILTER, "cn"], "cn: Ann Lee\n"
    yield "chief", ["samba-tool", "user", "list", "-H", URL, f"--use-krb5-ccache={cache}", samba], "ann\n"
    yield "ann", ["adcli", "info", f"--domain-controller={HOST}", DOMAIN], "domain-short = CORP\n"
    yield "chief", ["adcli", "create-group", *adcli, "-O", f"OU=groups,{BASE}", "made"], ""
    yield "chief", ["adcli", "add-member", *adcli, "made", "ann"], ""
    yield "chief", ["adcli", "delete-group", *adcli, "made"], ""
    yield "ann", ["curl", "-s", "--negotiate", "-u", ":", f"{URL}/CN=Ann%20Lee,{UNIT}?cn?base"], "cn: Ann Lee\n"
    yield "ann", [sys.executable, "-c", f"{NAMED}; print(c.whoami_s())", URL], WHO
    yield "ann", [sys.executable, "-c", f"{OF_LDAP3}; print(c.extend.standard.who_am_i())", URL, HOST], WHO


def called(words, settings):
    done = subprocess.run(words, stdin=subprocess.DEVNULL, stdout=subprocess.PIPE, stderr=subprocess.STDOUT,
                          timeout=SECONDS, env={**os.environ, **settings})
    return done.returncode, done.stdout.decode("utf-8", "replace")


def tried(place):
    """What differs, what is told, and what is left out."""
    with open(os.path.join(place, "smb.conf"), "w", encoding="ascii") as file:
        file.write(OF_SAMBA + "".join(f"{one} = {place}\n" for one in FOLDERS))
    words, wrong, told, missing = ldap_tickets.certificate(f"{place}/pem") or [], [], 0, set()
    with ldap_tickets.World(place, *words, "--listen", "127.0.0.1:389", more=MORE, names=NAMES, more_of=("chief",)) as world:
        cache = world.tickets["chief"]["KRB5CCNAME"].partition(":")[2]
        for who, call, wanted in (*by_openldap(), *by_others(place, cache)):
            if shutil.which(call[0]) is None or ("-ZZ" in call and not words):
                missing.add(call[0])
                continue
            told += 1
            settings = {**world.tickets[who], "LDAPRC": "none", "LDAPTLS_REQCERT": "never"}
            status, said = called(call, settings)
            if "No module named" in said:
                missing.add(call[2].split("import sys, ")[1].split(";")[0].split(",")[0])
            elif status or wanted not in said:
                wrong.append(f"{' '.join(call)}: {status} {said[-800:]}")
        wrong += [line for line in world.bridge.lines() if "by a fault" in line]
    left = f"; isn't installed: {', '.join(sorted(missing))}" if missing else ""
    return wrong, f"{told} calls of programs that others wrote{left}"


def alone():
    """Within the namespaces: names, and the network of the machine itself."""
    with tempfile.TemporaryDirectory() as place:
        os.chmod(place, 0o755)
        for name, text in (("hosts", f"127.0.0.1 {HOST} {DOMAIN} localhost\n"),
                           ("resolv.conf", "nameserver 127.0.0.1\noptions timeout:1 attempts:1\n")):
            with open(os.path.join(place, name), "w", encoding="ascii") as file:
                file.write(text)
            subprocess.run(["mount", "--bind", os.path.join(place, name), f"/etc/{name}"], check=True)
        subprocess.run(["hostname", HOST], check=True)
        subprocess.run(["ip", "link", "set", "lo", "up"], check=True)
        wrong, told = tried(place)
    for line in wrong:
        print(f"DIFFERS {line}")
    print(told)
    return 1 if wrong else 0


def by_programs():
    """What is told of the programs, and whether all is as it has to be."""
    apart = ["unshare", "--net", "--mount", "--uts", "--propagation", "private"]
    apart += [] if os.geteuid() == 0 else ["--map-root-user"]
    lacking = [one for one in ("unshare", "ip", "mount", "hostname", "ldapwhoami") if shutil.which(one) is None]
    if lacking or subprocess.run([*apart, "true"], stderr=subprocess.DEVNULL).returncode:
        why = f"{', '.join(lacking)} isn't installed" if lacking else "no network of its own may be made"
        return f"programs that others wrote are left out: {why}", True
    plugin = "/usr/lib/*/sasl2/libgssapiv2.so"
    done = subprocess.run([*apart, sys.executable, __file__], stdout=subprocess.PIPE, cwd=TOP)
    said = done.stdout.decode("utf-8", "replace").rstrip("\n")
    if "No worthy mechs found" in said:
        return f"libsasl2-modules-gssapi-mit isn't installed ({plugin})", True
    return said, done.returncode == 0


if __name__ == "__main__":
    sys.exit(alone())
