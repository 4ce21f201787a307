"""The audit of the store that is explored, for the first page: begun when it is first asked for, beside all else. Its
findings are those of adsd-audit."""

import os
import threading
from typing import Callable, Optional, Sequence

from adsd_tools.audit.chains import Link, Reach
from adsd_tools.audit.command import audited
from adsd_tools.audit.findings import Finding
from adsd_tools.audit.targets import AREAS
from adsd_tools.audit.told import Names, Told, command
from adsd_tools.control import does

from .private import Slots, unname

MOST_NAMES, MOST_OBJECTS, MOST_LINES, MOST_REACHED = 4, 3, 40, 8


class Auditing:
    """One audit of a copy, which has a name for as long as the program is asked about it."""

    def __init__(self, source: str, folder: str, slots: Slots, fail: Callable[[str], None]) -> None:
        self.source, self.copy, self.slots, self.fail = source, os.path.join(folder, "audit"), slots, fail
        self.line, self.lock = "", threading.Lock()
        self.made: Optional[dict[str, object]] = None
        self.why: Optional[str] = None
        self.begun: Optional[threading.Thread] = None

    def begin(self) -> None:
        with self.lock:
            if self.begun is None:
                self.begun = threading.Thread(target=self.run, daemon=True)
                self.begun.start()

    def told(self) -> dict[str, object]:
        """What there is of it: how far it is, or the findings by target, or why there are none."""
        self.begin()
        if self.why is not None:
            return {"ready": True, "why": self.why}
        return {"ready": False, "far": self.line} if self.made is None else {"ready": True, **self.made}

    def tell(self, line: str) -> None:
        self.line = line

    def run(self) -> None:
        """Asks, and takes the copy's name away again."""
        try:
            self.slots.put(self.copy)
            jobs = max(1, (os.cpu_count() or 2) // 2)
            self.made = page_of(*audited(self.source, self.copy, jobs, self.tell))
        except Exception as fault:  # noqa: BLE001 (whatever it is, the rest of the page stands)
            self.why = "the audit failed"
            self.fail(f"the audit failed: {type(fault).__name__}: {fault}")
        finally:
            unname(self.copy)


def page_of(told: Told, names: Names) -> dict[str, object]:
    """The targets, the worst first, each with its findings."""
    targets: list[dict[str, object]] = []
    whole = sum(not one.look for one in told.findings)
    for area, (title, means) in AREAS.items():
        found = [one for one in told.findings if one.area == area]
        reaches = told.reaches(area)
        if found or reaches:
            accounts = {number for one in found for number in whose(one, names)}
            targets.append({"key": area, "title": title, "means": means, "faults": sum(not one.look for one in found),
                            "looks": sum(one.look for one in found), "accounts": len(accounts),
                            "findings": [finding(one, told, names) for one in found],
                            "control": [reach(one, told, names) for one in reaches[:MOST_REACHED]]})
    return {"targets": targets, "faults": whole, "answers": told.answers}


def reach(one: Reach, told: Told, names: Names) -> dict[str, object]:
    """A target with how many come to control it, and the shortest chain."""
    chain, number = one.chains[0], one.target.number
    return {"object": {"n": number, "name": names.domain.label(number)}, "is": one.target.told,
            "identities": one.identities, "accounts": one.accounts, "length": chain.length,
            "who": {"n": chain.links[0].number, "sid": chain.sid, "name": chain.name},
            "steps": [step(link, not link.to or names.domain.is_a(link.to, "group")) for link in chain.links],
            "ask": command(["control", names.domain.names[number]], told.store)}


def step(link: Link, to_group: bool) -> dict[str, object]:
    """A step of a chain, which leads to a group or not."""
    return {"kind": link.kind, "does": does(link.kind, to_group),
            "from": {"n": link.number, "sid": link.sid or None, "name": link.name},
            "to": {"n": link.to or None, "sid": link.to_sid or None, "name": link.to_name}}


def whose(one: Finding, names: Names) -> list[int]:
    """The accounts that a finding concerns."""
    own = names.domain.number(one.who)
    return [*one.members, *([own] if own is not None and names.domain.is_account(own) else [])]


def finding(one: Finding, told: Told, names: Names) -> dict[str, object]:
    """A finding as the page has it."""
    domain = names.domain
    accounts = [{"sid": domain.sid(number), "name": domain.label(number)} for number in one.members[:MOST_NAMES]]
    objects = [{"n": number, "name": domain.label(number)} for number in one.objects[:MOST_OBJECTS]]
    return {"who": {"sid": one.who, "name": names.who(one)}, "what": one.what[0], "more": one.what[1:],
            "look": one.look, "accounts": accounts, "count": len(one.members), "objects": objects,
            "on": len(one.objects), "entry": one.entry, "at": names.at(one), "notes": one.notes,
            "ask": command(one.ask, told.store), "fix": list(one.fix.lines)[:MOST_LINES], "words": one.fix.words}
