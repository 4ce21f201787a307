"""The one command of all companions: its first word names one, or the name does by which it is called."""

import os
import sys
from importlib import import_module
from typing import Callable, List, Optional, cast

from adsd_tools.shown import shown

# What each companion is for, and where its package is called otherwise.
COMPANIONS = {
    "ask": "access checks, requests and answers as text",
    "audit": "a page for auditors, by target",
    "bloodhound": "rights as edges for BloodHound CE",
    "explore": "an explorer of rights, in a browser",
    "export": "exports a domain from a live server",
    "import": "turns an export into LDIF for adsd load",
    "ldap": "an LDAP server over a store",
    "names": "account names behind SIDs",
    "replica": "replicas of a store",
    "report": "an HTML report of what an account may do, and why",
    "whatif": "who gains and who loses rights by a change",
    "who": "who has a right, as a table, CSV or JSON",
}
PACKAGES = {"import": "importing"}
PREFIX = "adsd-"
WRONG_WORDS = 2
ABOUT = """usage: adsd-tools COMPANION [ARGUMENT ..]

Runs a companion of adsd. Each is a command of its own too: adsd-ask is adsd-tools ask. adsd-tools COMPANION --help
shows its arguments and its exit statuses. None of them is proved.

"""


def told() -> str:
    return ABOUT + "".join(f"  {name:12}{what}\n" for name, what in COMPANIONS.items())


def named(path: str) -> Optional[str]:
    """The companion whose name a script has by which it is called, or a link on the way to it; None where none is."""
    for _ in range(40):
        name = os.path.basename(path)
        if name.startswith(PREFIX) and name[len(PREFIX) :] in COMPANIONS:
            return name[len(PREFIX) :]
        if not os.path.islink(path):
            return None
        path = os.path.join(os.path.dirname(path), os.readlink(path))
    return None


def companion(name: str) -> Callable[[List[str]], int]:
    """What runs a companion, of which alone the package is read."""
    made = import_module(f"adsd_tools.{PACKAGES.get(name, name)}.command")
    return cast(Callable[[List[str]], int], made.main)


def main(called: str, words: List[str]) -> int:
    """Runs the companion of a name or of the first word; the status."""
    name = named(called)
    if name is not None:
        return companion(name)(words)
    if words and words[0] in COMPANIONS:
        return companion(words[0])(words[1:])
    if words and words[0] in ("-h", "--help"):
        sys.stdout.write(told())
        return 0
    sys.stderr.write(f"adsd-tools: there is no companion {shown(words[0])}; adsd-tools --help names all\n" if words else told())
    return WRONG_WORDS
