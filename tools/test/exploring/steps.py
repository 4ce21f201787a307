"""That each moment of a what-if is what a store is that the program steps through alone, that the frames and the lines
make it so, and that who gains and loses is what a count over all accounts says."""

import os
import struct
import subprocess

from adsd_tools.ask import requests
from adsd_tools.report import program
from adsd_tools.rows import store
from adsd_tools.report.harms import HARMS
from adsd_tools.report.state import State

from . import corp
from .rights import Opened

RESET = f"(OA;;CR;{corp.RESET};;{corp.SUPPORT})"
CASES = {
    "an entry": [{"op": "add", "dn": corp.STAFF, "ace": f"(A;CI;WPWD;;;{corp.CONTRACTORS})"}],
    "an entry by aliases": [{"op": "add", "dn": corp.ROOT, "ace": "(D;CI;RP;;;AU)"}],
    "the object itself": [{"op": "add", "dn": corp.ROOT, "ace": "(A;CI;WPWO;;;PS)"}],
    "one away": [{"op": "remove", "dn": f"CN=Administrator,{corp.USERS}", "old": RESET}],
    "one in the place of another": [{"op": "edit", "dn": f"CN=Administrator,{corp.USERS}", "old": RESET,
                                     "ace": f"(OA;;CR;{corp.RESET};;{corp.HELPDESK})"}],
    "all of one": [{"op": "revoke", "dn": corp.STAFF, "sid": corp.LEADS}],
    "a list": [{"op": "list", "dn": corp.SERVERS, "sddl": "D:P(A;CI;GA;;;BA)(A;CI;RPLC;;;AU)"}],
    "protected": [{"op": "protect", "dn": f"OU=sales,{corp.STAFF}", "on": True}],
    "an owner": [{"op": "owner", "dn": corp.STAFF, "sid": corp.ERIN}],
    "a run": [{"op": "run"}],
    "several": [{"op": "add", "dn": corp.STAFF, "ace": f"(A;CI;GA;;;{corp.LEADS})"}, {"op": "settle"},
                {"op": "add", "dn": f"CN=AdminSDHolder,CN=System,{corp.ROOT}", "ace": f"(A;;WD;;;{corp.HELPDESK})"},
                {"op": "run"}, {"op": "revoke", "dn": corp.ROOT, "sid": "S-1-5-11"}],
}
FAULTS = [
    ({"op": "add", "ace": "(A;CI;WPXD;;;AU)"}, "at character 9: neither a right nor the end of the rights"),
    ({"op": "add", "ace": "(A;;WP;;;AU)(A;;WP;;;AU)"}, "expected one entry, not 2"),
    ({"op": "add", "ace": "(A;ID;WP;;;AU)"}, "an entry with the flag ID is inherited"),
    ({"op": "add", "ace": "(AU;SA;WP;;;AU)"}, "an audit entry belongs in the SACL"),
    ({"op": "add", "ace": "(A;;WP;;;AU)S:"}, "a list begins with D: and has nothing else"),
    ({"op": "list", "sddl": "O:BAD:"}, "a list begins with D: and has nothing else"),
    ({"op": "remove", "old": "(A;;WP;;;S-1-5-11)"}, "the object no longer has this explicit entry"),
    ({"op": "revoke", "sid": "S-1-5-7"}, "the object has no explicit entry for it"),
    ({"op": "owner", "sid": "nobody"}, "the owner isn't a SID"),
    ({"op": "nonsense"}, "unknown kind of change"), ({"op": "add", "ace": 7}, "unknown kind of change"),
]


def changes_of(opened, given):
    made = []
    for one in given:
        rest = {key: value for key, value in one.items() if key != "dn"}
        made.append({**rest, "n": opened.number(one["dn"])} if "dn" in one else rest)
    return made


def stepped(tries, opened, plan, name):
    """Each moment is the store that the program alone has after so many steps."""
    path = tries.path("stepped")
    program.copy_slots(tries.path("corp"), path)
    serving = program.Serving(os.environ["ADSD"], path)
    try:
        for frame in plan.frames:
            serving.answer(frame)
        for step in range(plan.total + 1):
            state, moment = State(path), plan.moment(step)
            there = {number: one.normal for number, one in state.objects.items()}
            same = there == {number: moment.normal(number) for number in there} and moment.queue == state.queue
            tries.check(same and moment.stale == state.stale, f"{name}: step {step} isn't as the program's store")
            serving.answer(requests.frame(3, 0, struct.pack(">I", 1)))
        tries.check(not state.queue, f"{name}: after {plan.total} steps something is pending")
    finally:
        serving.close()
    moments = list(range(plan.total + 1))
    there = {step: plan.moment(step).changed for step in moments}
    for step in (*moments[::-3], *moments[::4]):
        tries.check(plan.moment(step).changed == there[step], f"{name}: step {step} is another one when gone back to")


def lines_of(tries, opened, plan, told, name):
    """The lines for adsd-ask make the frames, and those for `grants` the same messages."""
    words = [os.path.join(corp.TOP, "tools", "adsd-ask"), "frames"]
    done = subprocess.run(words, input="\n".join(told["lines"]).encode(), capture_output=True)
    tries.check(done.stdout == b"".join(plan.frames), f"{name}: adsd-ask makes other frames: {done.stderr}")
    if all(told["grants"]):
        words = [os.environ["ADSD"], "grants", tries.path("corp")]
        done = subprocess.run(words, input="".join(f"{line}\n" for line in told["grants"]).encode(), capture_output=True)
        tries.check(done.stdout == b"".join(plan.frames[1:]), f"{name}: grants makes other frames: {done.stdout[:80]}")


def counted(opened, plan, step):
    """How many objects each account has of each rank before, now and after, each account and object asked alone."""
    answers, accounts = opened.answers, opened.world.accounts
    moments, made = (opened.now, plan.moment(step), plan.last), {}
    for place in range(len(accounts.sids)):
        token, counts = accounts.at(place), {}
        for number in opened.world.objects:
            objects = [answers.object(number, moment) for moment in moments]
            if len({on.normal for on in objects}) == 1:
                continue
            first = answers.asked(objects[0], token)
            has = [{harm for harm in range(len(HARMS))
                    if answers.ranks(on, token, number in opened.explorer.protected) >> harm & 1}
                   | ({len(HARMS)} if answers.asked(on, token) != first else set()) for on in objects]
            for at in range(3):
                for harm in has[at] - (has[0] & has[1] & has[2]):
                    counts.setdefault(harm, [0, 0, 0])[at] += 1
        made[place] = {rank: tuple(row) for rank, row in counts.items() if len(set(row)) > 1}
    return {place: counts for place, counts in made.items() if counts}


def gains(tries, opened, plan, key, name):
    for step in sorted({0, 1, plan.total // 2, plan.total}):
        made, _ = opened.api.sides({"plan": key, "step": step})
        accounts = opened.world.accounts
        found = {place: counts for mask, counts in made.totals() for place in accounts.places_of(mask)}
        tries.check(found == counted(opened, plan, step), f"{name}: who gains at step {step}: {found}")
        told = opened.get("gains", plan=key, step=step)
        tries.check(sum(row["accounts"] for row in told["rows"]) == len(found), f"{name}: gains at step {step}")


def pictured(tries, opened, plan, key, name):
    """The picture's signs are those of the moment."""
    for step in range(plan.total + 1):
        told, moment = opened.get("moment", plan=key, step=step), plan.moment(step)
        for line in told["lines"]:
            wanted = (line["n"] in moment.places, line["n"] in moment.stale, line["n"] in moment.changed)
            tries.check((line["pending"], line["stale"], line["changed"]) == wanted, f"{name}: step {step}, {line}")


def refused(tries, opened):
    """What can't be meant is named, and what the program refuses is told."""
    from adsd_tools.explore.trying import Wrong
    from adsd_tools.explore.views import NotThere
    number = opened.number(corp.STAFF)
    for change, why in FAULTS:
        try:
            opened.post("try", {"changes": [{"n": number, **change}]})
            tries.check(False, f"{change} was tried")
        except Wrong as said:
            tries.check(why in str(said), f"{change}: {said}")
    told = opened.post("try", {"changes": [{"op": "add", "n": number, "ace": "(A;;GA;;;AU)"}], "by": f"{corp.DOMAIN}-1102"})
    tries.check(not told["told"][0]["ok"] and "missing WD" in told["told"][0]["said"], f"bob adds an entry: {told['told']}")
    for words in ({"plan": "nonsense"}, {"plan": told["plan"], "n": "99999"}):
        try:
            opened.get("who", kind="object", name="", code="WD", **{"n": number, **words})
            tries.check(False, f"{words} was answered")
        except NotThere:
            tries.check(True, "")


def still(tries, opened):
    """Where a right is taken from one who has it by another group too, that one is told."""
    number = opened.number(f"CN=Administrator,{corp.USERS}")
    told = opened.post("try", {"changes": [{"op": "remove", "n": number, "old": RESET}]})
    words = {"n": number, "kind": "right", "name": "User-Force-Change-Password", "code": "CR"}
    after = opened.get("who", plan=told["plan"], step=-1, **words)
    names = sorted(one["name"] for group in after["groups"] for one in group["accounts"])
    tries.check(names == ["Administrator", "alice"], f"who still resets the password: {names}")
    first = opened.get("who", **words)
    tries.check(first["count"] == 4, "the store is another one after a what-if")


def large(tries):
    """A directory of 3,000 objects, with a change at its root, by steps and as a whole."""
    path = tries.path("large")
    subprocess.run([os.environ["ADSD"], "sample", path, "270"], stdout=subprocess.DEVNULL, check=True)
    opened = Opened(tries, path)
    try:
        told = opened.post("try", {"changes": [{"op": "add", "n": 1, "ace": "(A;CI;WD;;;AU)"}]})
        plan = opened.explorer.open_plan(told["plan"])
        moment = plan.moment(1000)
        lines = opened.get("moment", plan=told["plan"], step=1000)
        tries.check(moment.step == 1000 and len(lines["lines"]) <= 120 and lines["more"] == 0, f"a large picture: {lines['more']}")
        shown, reached = sum(line["count"] for line in lines["lines"]), len(opened.world.objects) - 3
        tries.check(shown == reached, f"the picture has {shown} objects of {reached}")
        # (AdminSDHolder and the two that are protected take over nothing)
        tries.check(len(plan.last.changed) == reached and not plan.last.stale, "the end of a large what-if")
        row = opened.get("gains", plan=told["plan"], step=1000)["rows"][0]
        tries.check(row["ranks"][0]["key"] == "list" and row["ranks"][0]["counts"][2] == reached, f"gains: {row}")
    finally:
        opened.explorer.close()


def run(tries, long):
    """All of it."""
    opened, before = Opened(tries, tries.path("corp")), bytes_of(tries.path("corp"))
    try:
        for name, given in CASES.items():
            told = opened.post("try", {"changes": changes_of(opened, given)})
            tries.check(all(one["ok"] for one in told["told"]), f"{name}: {told['told']}")
            plan = opened.explorer.open_plan(told["plan"])
            stepped(tries, opened, plan, name)
            lines_of(tries, opened, plan, told, name)
            pictured(tries, opened, plan, told["plan"], name)
            if long or name in ("an entry", "the object itself", "a run", "several"):
                gains(tries, opened, plan, told["plan"], name)
        refused(tries, opened)
        still(tries, opened)
    finally:
        opened.explorer.close()
    large(tries)
    tries.check(bytes_of(tries.path("corp")) == before, "a what-if wrote to the store")
    tries.check(not [name for name in os.listdir(opened.explorer.place)] if os.path.exists(opened.explorer.place) else True,
                "copies are left behind")


def bytes_of(path):
    made = []
    for slot in store.SLOTS:
        with open(path + slot, "rb") as opened:
            made.append(opened.read())
    return made
