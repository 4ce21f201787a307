"""Tries the Python package: its examples, its codes beside those of adsd.h, its arguments, and a store, where there is a program:
package.py TOP"""

import doctest
import importlib
import os
import re
import subprocess
import sys
import tempfile

import adsd
import package_arguments
from adsd import Descriptor, Store, Token, check, explain
from adsd._library import CODES

MODULES = ("adsd", "adsd.ids", "adsd.tokens", "adsd.descriptors", "adsd.access", "adsd.store")
ANN = Token("S-1-5-21-1-2-3-1001", groups=["S-1-5-11", "S-1-1-0"], primary="S-1-5-21-1-2-3-513")
ADMIN = Token("S-1-5-32-544", privileges=["security"])


def examples():
    failed = 0
    for name in MODULES:
        found = doctest.testmod(importlib.import_module(name))
        failed += found.failed
    return [f"{failed} examples of the package"] if failed else []


def codes(top):
    with open(os.path.join(top, "include/adsd.h"), encoding="utf-8") as file:
        numbers = {int(number) for number in re.findall(r"^#define ADSD_\w+ (\d+)$", file.read(), re.M)}
    return [] if numbers == {0, *CODES} else [f"codes: {sorted(numbers ^ {0, *CODES})}"]


def reasons():
    """Which entry decides, on rows that were worked by hand."""
    rows = [("O:BAG:BAD:(A;;RP;;;AU)", ANN, 0x10, (True, 0)), ("O:BAG:BAD:(D;;RP;;;AU)(A;;RP;;;AU)", ANN, 0x10, (False, 0)),
            ("O:BAG:BAD:(A;;RP;;;BA)", ANN, 0x10, (False, None)), ("O:S-1-5-21-1-2-3-1001G:BAD:", ANN, 0x20000, (True, None)),
            ("O:S-1-5-21-1-2-3-1001G:BAD:(A;;RP;;;OW)", ANN, 0x20000, (False, None)),
            ("O:S-1-5-21-1-2-3-1001G:BAD:(A;;RP;;;OW)(A;;RC;;;AU)", ANN, 0x20000, (True, 1)),
            ("O:BAG:BAD:(A;;RP;;;BA)(A;IO;RP;;;AU)(A;;RP;;;WD)(D;;RP;;;WD)", ANN, 0x10, (True, 2))]
    found = []
    for text, token, right, wanted in rows:
        reason = explain(Descriptor.from_sddl(text), token, right)[right]
        if (reason.granted, reason.entry) != wanted:
            found.append(f"explain {text}: {reason}, expected {wanted}")
    return found


def store(top):
    program = os.environ.get("ADSD") or subprocess.run([f"{top}/tools/which-program"], stdout=subprocess.PIPE, text=True, check=False).stdout.strip()
    if not program:
        return []
    with tempfile.TemporaryDirectory() as place:
        path = os.path.join(place, "S")
        with open(f"{top}/examples/base.ldif", "rb") as text:
            subprocess.run([program, "load", path], stdin=text, stdout=subprocess.DEVNULL, check=True)
        asked, unit = Store(path, program), "OU=staff,DC=corp,DC=example"
        bob = f"CN=bob,{unit}"
        seen, ended = asked.search(ANN, unit, "one", attributes=["cn"])
        denied = asked.modify(ANN, bob, [("replace", "description", [b"x"])])
        made = asked.modify(ADMIN, bob, [("replace", "description", [b"x"])])
        shown, _ = asked.search(ADMIN, bob, filter="(description=x)", attributes=["description"])
        rows = [(ended.code, 0), (bool(seen) and all(entry.dn.endswith(unit) for entry in seen), True), (denied.code, 50), (made.code, 0),
                ([entry.attributes for entry in shown], [{"description": [b"x"]}]), (asked.steps(1)[0] <= 1, True), (len(asked.run()), 2),
                ("owner" in asked.list(bob), True), (bool(asked.effective(ANN, bob)), True)]
        return [f"store, row {at}: {is_so!r}, expected {wanted!r}" for at, (is_so, wanted) in enumerate(rows) if is_so != wanted]


def main(top):
    assert check(Descriptor.from_sddl("O:BAG:BAD:(A;;GA;;;AU)"), ANN, adsd.map_rights(0x10000000)) == 0xF01FF
    faults = examples() + codes(top) + reasons() + store(top) + package_arguments.faults()
    for fault in faults:
        print(f"DIFFERS package: {fault}")
    return 1 if faults else 0


if __name__ == "__main__":
    sys.exit(main(sys.argv[1]))
