"""What tools/test/ldap-clients tries with clients in other languages, each where it is installed: a script of
tools/test/ldap-with asks the bridge and prints what it found. And the searches that sssd's provider for Active
Directory sends, as it logs them."""

import os
import shutil
import subprocess
import tempfile
from urllib.parse import quote

from ldap_client import SECONDS, TOP
from ldap_face import asked
from ldap_store import GROUPS, ROOT, UNIT, sid
from ldap_who import ANN, NAMES, Made, certificate

FOLDER = os.path.join(TOP, "tools/test/ldap-with")
PYTHON, GO = "/usr/bin/python3", {"GO111MODULE": "off", "GOPATH": "/usr/share/gocode"}
JAVA = ":".join(f"/usr/share/java/{one}.jar" for one in ("apache-directory-api-all", "commons-codec", "slf4j-api",
                                                         "commons-collections4", "commons-lang3", "slf4j-nop"))
NOT_THERE = ("package org.apache.directory", "No module named", "cannot find package", "Can't locate",
             "cannot load such file", "undefined function", "build cache is required")
# What is called, with the place of the script's further words; and what it has to print.
CLIENTS = {
    "JNDI": (["java", "Jndi.java"], ["root " + ROOT, "cn 1.3.6.1.4.1.1466.115.121.1.15", "user top", "paged true",
                                     "found Ann Lee", "description by JNDI", "refused true"]),
    "Apache Directory's parsers": (["java", "-cp", JAVA, "Studio.java"], [
        f"{kind} true" for kind in ("attributeTypes", "objectClasses", "matchingRules", "ldapSyntaxes")]),
    "Go's ldap": (["go", "run", "with.go"], ["paged true", "found Ann Lee", "compare true", "who true",
                                             "refused true"]),
    "Net::LDAP": (["perl", "with.pl"], ["schema cn user", "paged 1", "view 3 2", "found Ann Lee", "refused 49"]),
    "net-ldap": (["ruby", "with.rb"], ["paged true", "found Ann Lee", "chain true", "refused true"]),
    "php-ldap": (["php", "with.php"], ["paged 1", "found Ann Lee", "compare 1", "who 1", "refused 49"]),
    "python-ldap": ([PYTHON, "with_ldap.py"], ["paged True", "schema True ('user',)", "view 3 [2]", "found Ann Lee",
                                               "compare True", "who True", "refused"])}
LDAPVI = ["ldapvi", "--out", "-D", "admin", "-w", "adm1n", "-b", ROOT]
SHELL = "ls\ncat CN=staff,OU=groups\nexit\n"
SSSD = [
    ("search base='' attrs='*,altServer,namingContexts,supportedControl,supportedExtension,supportedFeatures,"
     "supportedLDAPVersion,supportedSASLMechanisms,domainControllerFunctionality,defaultNamingContext,"
     "highestCommittedUSN'", [""]),
    (f"search base={ROOT} scope=sub filter='(&(sAMAccountName=ann)(objectclass=user)(objectSID=*))' "
     "attrs=objectClass,sAMAccountName,unixUserPassword,uidNumber,gidNumber,gecos,unixHomeDirectory,loginShell,"
     "userPrincipalName,name,memberOf,objectGUID,objectSID,primaryGroupID,whenChanged,uSNChanged,accountExpires,"
     "userAccountControl,userCertificate;binary,mail", [ANN]),
    (f"search base={ROOT} scope=sub filter='(&(|(userPrincipalName=ann.lee@corp.example)(mail=ann.lee@corp.example))"
     "(objectclass=user)(objectSID=*))' attrs=objectSID", [ANN]),
    (f"search base='{ANN}' filter='(objectClass=*)' attrs=tokenGroups", [ANN]),
    (f"search base={ROOT} scope=sub filter='(&(objectSID=S-1-5-21-1-2-3-2101)(objectclass=group))' "
     "attrs=objectClass,sAMAccountName,member,objectSID,groupType,whenChanged,uSNChanged", [f"CN=staff,{GROUPS}"]),
    (f"search base={ROOT} scope=sub filter='(&(member={ANN})(objectclass=group)(name=*))' attrs=groupType",
     [f"CN=staff,{GROUPS}", f"CN=mail,{GROUPS}"]),
    (f"search base='{UNIT}' scope=sub filter='(&(objectclass=user)(sAMAccountName=*)(objectSID=*)(uSNChanged>=1)"
     "(!(uSNChanged=1)))' attrs=cn", [])]


def called(words, bridge, port):
    """The status of a client, and what it said."""
    url = f"127.0.0.1:{port}" if words[0] == "ruby" else f"ldap://127.0.0.1:{port}"
    done = subprocess.run([*words, url, "admin", "adm1n", ROOT, "ann"], cwd=FOLDER, stdin=subprocess.DEVNULL,
                          stdout=subprocess.PIPE, stderr=subprocess.STDOUT, timeout=2 * SECONDS,
                          env={**os.environ, **GO, "LDAPNOINIT": "1"})
    return done.returncode, done.stdout.decode("utf-8", "replace")


def by_openldap():
    """What differs by OpenLDAP's clients over TLS and at a Unix socket, and what is told."""
    if shutil.which("ldapwhoami") is None:
        return [], []
    with tempfile.TemporaryDirectory() as place:
        words = certificate(os.path.join(place, "pem")) or []
        end = os.path.join(place, "socket")
        line = f"'{ANN}' uid={os.geteuid()}\n"
        ldaps = ["--ldaps", "127.0.0.1:0"] if words else []
        with Made("--socket", end, *words, *ldaps, names=NAMES + line) as bridge:
            asked_for = [(["-Y", "EXTERNAL", "-Q", "-H", f"ldapi://{quote(end, safe='')}"], "u:CORP\\ann")]
            if words:
                port = bridge.wait_for(r"ldaps://127\.0\.0\.1:(\d+)")[1]
                bound = ["-x", "-D", "admin", "-w", "adm1n"]
                asked_for += [([*bound, "-ZZ", "-H", f"ldap://127.0.0.1:{bridge.port}"], "u:admin"),
                              ([*bound, "-H", f"ldaps://127.0.0.1:{port}"], "u:admin")]
            wrong = []
            for more, wanted in asked_for:
                settings = {**os.environ, "LDAPRC": "none", "LDAPTLS_CACERT": os.path.join(place, "pem")}
                done = subprocess.run(["ldapwhoami", *more], stdout=subprocess.PIPE, stderr=subprocess.STDOUT,
                                      timeout=SECONDS, env=settings)
                if done.stdout.decode().strip() != wanted:
                    wrong.append(f"ldapwhoami {' '.join(more)}: {done.stdout.decode()}")
    return ["ldapi" + (", StartTLS and LDAPS" if words else "")], wrong


def by_shells(port):
    """What differs by ldapvi and shelldap, and which of both are tried."""
    wrong, told = [], []
    if shutil.which("ldapvi"):
        done = subprocess.run([*LDAPVI, "-h", f"ldap://127.0.0.1:{port}", "(sAMAccountName=ann)", "cn"],
                              stdin=subprocess.DEVNULL, stdout=subprocess.PIPE, timeout=SECONDS)
        told.append("ldapvi")
        if f"dn: {ANN}\ncn: Ann Lee\n" not in done.stdout.decode():
            wrong.append(f"ldapvi: {done.stdout.decode()}")
    if shutil.which("shelldap"):
        said = by_shelldap(port)
        told.append("shelldap")
        wrong += [f"shelldap: {said}"] if f"member: {ANN}" not in said else []
    return told, wrong


def by_shelldap(port):
    """What shelldap says, by a file of settings of its own."""
    with tempfile.NamedTemporaryFile("w", suffix=".rc") as file:
        file.write(f"server: 127.0.0.1:{port}\nbinddn: admin\nbindpass: adm1n\nbasedn: {ROOT}\n")
        file.flush()
        done = subprocess.run(["shelldap", "--configfile", file.name], input=SHELL.encode(), stdout=subprocess.PIPE,
                              stderr=subprocess.STDOUT, timeout=SECONDS)
    return done.stdout.decode("utf-8", "replace")


def by_sssd(bridge):
    """What differs for the searches of sssd."""
    client, wrong = bridge.client("admin", "adm1n"), []
    for line, wanted in SSSD:
        found, code, _ = asked(client, line)
        if ([name for name, _ in found], code) != (wanted, 0):
            wrong.append(f"sssd: {line}: {code} {found}")
    held = asked(client, SSSD[3][0])[0][0][1]
    if sid(2101) not in held.get("tokenGroups", ()):
        wrong.append(f"sssd: {held}")
    return wrong


def tried():
    """What is told, and what differs."""
    told, wrong = [], []
    with Made(names=NAMES) as bridge:
        for name, (words, wanted) in CLIENTS.items():
            if shutil.which(words[0]) is None:
                continue
            status, said = called(words, bridge, bridge.port)
            if any(one in said for one in NOT_THERE):
                continue
            told.append(name)
            if status or said.strip().split("\n") != wanted:
                wrong.append(f"{name}: {status} {said}")
        shells, differ = by_shells(bridge.port)
        secured, others = by_openldap()
        shells, wrong = shells + secured, wrong + differ + others + by_sssd(bridge)
        faults = [line for line in bridge.lines() if "by a fault" in line]
    return ", ".join([*told, *shells, f"{len(SSSD)} searches of sssd"]), wrong + faults
