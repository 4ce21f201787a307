"""An audit as JSON and as CSV."""

import csv
import io

from adsd_tools.shown import cell, json_of

from .chains import Reach
from .findings import Finding
from .told import Names, Told, areas_of, chain_command, command, line_of, record, steps_of

HEADS = ("target", "level", "what", "who", "sid", "accounts", "objects", "first object", "entry", "at", "ask", "fix")
# Of how many chains to a target the steps are told.
MOST_CHAINS = 200


def as_json(told: Told, names: Names) -> str:
    """The whole of it; of a store that was made of an incomplete export it says so first."""
    targets = [{"object": names.domain.names[target.number], "area": target.area, "is": target.told,
                "accounts": accounts, "identifiers": sids} for target, accounts, sids in told.reach]
    made: dict[str, object] = {"incomplete": told.incomplete} if told.incomplete else {}
    counts = {area: sum(one.area == area and not one.look for one in told.findings) for area in areas_of(told)}
    made.update(store=told.store, objects=told.objects, answers=told.answers, counts=counts, targets=targets)
    if told.has_control:
        made.update(control=[reach(one, told, names) for one in told.control])
    made.update(findings=[record(one, told, names) for one in told.findings],
                delegated=told.delegated, without_token=told.without)
    return json_of(made, 2) + "\n"


def reach(one: Reach, told: Told, names: Names) -> dict[str, object]:
    """Who comes to control a target."""
    name = names.domain.names[one.target.number]
    chains = [{"sid": chain.sid, "name": chain.name, "length": chain.length, "steps": steps_of(chain.links)}
              for chain in one.chains[:MOST_CHAINS]]
    return {"object": name, "area": one.target.area, "is": one.target.told, "identities": one.identities,
            "accounts": one.accounts, "ask": command(["control", name], told.store), "chains": chains}


def chain_of(one: Finding, told: Told, names: Names) -> list[str]:
    """The chain of a finding on one line, and the command that tells it."""
    links = one.chain or one.onward
    return [line_of(links), chain_command(names.domain, told.store) if links else ""]


def as_csv(told: Told, names: Names) -> str:
    """A row for each finding (RFC 4180). No value is a formula to a table program."""
    text = io.StringIO()
    writer = csv.writer(text)
    chains = told.has_control
    writer.writerow([*HEADS, "chain", "ask chain"] if chains else HEADS)
    for one in told.findings:
        first = names.domain.names[one.objects[0]] if one.objects else ""
        fix = "; ".join(one.fix.lines) if one.fix.lines else one.fix.words
        writer.writerow([cell(value) for value in (
            one.area, "look" if one.look else "fault", "; ".join(one.what), names.who(one), one.who, len(one.members),
            len(one.objects), first, one.entry, names.at(one) or "", command(one.ask, told.store), fix,
            *(chain_of(one, told, names) if chains else []))])
    return text.getvalue()
