"""A store whose names and texts are made to mislead, and a program that prints them: test/shown tries the companions
with both. The stub prints the answers of the program, and has the names in them as the test asks: written as a name's
text is, or raw, as they would forge lines."""

import base64
import json
import os
import stat
import subprocess
import sys

from spelling import spelled

TOP = os.path.dirname(os.path.dirname(os.path.dirname(os.path.abspath(__file__))))
WORKED = os.path.join(TOP, "cases/runs/who-worked/0.in")
STAFF = "OU=staff,DC=corp,DC=example"
BOB, DOMAIN = "S-1-5-21-1-2-3-1002", "S-1-5-21-1-2-3"
CONFLICT = "bob\nCNF:6b2e5c1e-0df1-43aa-9a79-240f1e5355c5"
DELETED = "ann\nDEL:7c2e5c1e-0df1-43aa-9a79-240f1e5355c5"
# A name that, written as it is, is two lines of `who`: one of nobody, and one of bob.
FORGER = f"x\n1 {BOB} CN=bob"
# The first part of a name, and the name of the account. None has a character that a name escapes by itself.
NAMES = [(CONFLICT, "bob2"), (DELETED, "=cmd()"), ("esc\x1b[31mred", "esc\x1b]0;t\x07"),
         ("c1\x9b2Jnel\x85x", "\x9b31m"), ("turned\u202egnp", "\u202egnp"), ("ls\u2028ps\u2029bom\ufeff", "+1"),
         ("vt\x0bff\x0ccr\r\tend", "-2\t3"), ("\u0085 edge \u0085", "@sum"), (FORGER, "forger"),
         ("marks\u061c\u200e\u200f\u2066\u2069", "'q"), ("Zo\u00eb", "Zo\u00eb")]
TARGET = f"CN=target,{STAFF}"
RIGHT = "Evil\x1b[31m\u202e Right"
STUB = f'''#!{sys.executable}
import json, os, subprocess, sys
program, words = os.environ["STUB_PROGRAM"], sys.argv[1:]
if os.environ.get("STUB_SAYS"):
    sys.stderr.write(os.environ["STUB_SAYS"])
    sys.stderr.flush()
if os.environ.get("STUB_ENDS"):
    sys.exit(int(os.environ["STUB_ENDS"]))
answer = os.environ.get("STUB_" + words[0].upper())
if answer is not None:
    sys.stdout.buffer.write(answer.encode("utf-8", "surrogateescape"))
    sys.exit(0)
if words[0] not in ("list", "who", "can", "control", "reach", "diff", "audit"):
    os.execv(program, [program, *words])
done = subprocess.run([program, *words], stdout=subprocess.PIPE)
made = done.stdout
for raw, written in json.loads(os.environ["STUB_NAMES"]):
    old, new = (written, raw) if os.environ.get("STUB_RAW") else (raw, written)
    made = made.replace(old.encode(), new.encode())
sys.stdout.buffer.write(made)
sys.exit(done.returncode)
'''


def stub_at(place):
    """The stub's path."""
    path = os.path.join(place, "stub")
    with open(path, "w", encoding="utf-8") as opened:
        opened.write(STUB)
    os.chmod(path, os.stat(path).st_mode | stat.S_IXUSR)
    return path


def surroundings(program, stub, **more):
    """What a companion is run with that asks the stub."""
    pairs = [(f"CN={name},", f"CN={spelled(name)},") for name, _ in sorted(NAMES, key=lambda pair: -len(pair[0]))]
    return {**os.environ, "ADSD": stub, "STUB_PROGRAM": program, "STUB_NAMES": json.dumps(pairs), **more}


def in_base64(text):
    return base64.b64encode(text.encode()).decode()


def descriptor(program, text):
    """The bytes of a descriptor's text, as the program makes them."""
    done = subprocess.run([program, "sddl"], input=text.encode(), stdout=subprocess.PIPE, check=True)
    return base64.b64encode(bytes.fromhex(done.stdout.split(b"\n")[0].decode())).decode()


def ldif(program):
    """The text of the store: that of cases/runs/who-worked with a right and accounts of such names, each of which may
    delete the target, but bob may not."""
    with open(WORKED, encoding="utf-8") as opened:
        made = opened.read().rstrip("\n") + "\n"
    right = (f"\ndn: CN=Evil\nobjectClass: controlAccessRight\ncn:: {in_base64(RIGHT)}\n"
             "rightsGuid: 11111111-2222-4333-8444-555555555555\nvalidAccesses: 256\n")
    at = made.index("\n\n# ---- objects") if "\n\n# ---- objects" in made else made.index("\n\ndn: DC=corp,DC=example")
    made = made[: at + 1] + right + made[at + 1 :]
    for place, (name, account) in enumerate(NAMES):
        made += (f"\ndn:: {in_base64(f'CN={dn_value(name)},{STAFF}')}\nobjectClass: user\n"
                 f"objectSid: {DOMAIN}-{1200 + place}\nsAMAccountName:: {in_base64(account)}\n")
    allowed = "".join(f"(A;;SD;;;{DOMAIN}-{1200 + place})" for place in range(len(NAMES)))
    evil = "(OA;;CR;11111111-2222-4333-8444-555555555555;;AU)"
    text = f"O:BAG:BAD:{allowed}{evil}(A;;GA;;;BA)"
    return made + (f"\ndn: {TARGET}\nobjectClass: user\nobjectSid: {DOMAIN}-1300\nsAMAccountName: target\n"
                   f"nTSecurityDescriptor:: {descriptor(program, text)}\n")


def dn_value(name):
    """A first part of a name as LDIF has it: blanks at its ends and line ends are spelled by digits."""
    return "".join(f"\\{byte:02X}" if byte < 0x21 or byte > 0x7E else chr(byte) for byte in name.encode())


def loaded(program, path):
    """Makes the store; its path."""
    done = subprocess.run([program, "load", path], input=ldif(program).encode(), stdout=subprocess.PIPE)
    if done.returncode:
        raise AssertionError(f"load: {done.returncode} {done.stdout}")
    return path
