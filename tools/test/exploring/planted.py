"""That the first page shows the planted faults of examples/faults that lead to what rules the domain, and none of their
near misses; that who stands there has the right by the program; and that chains of control are those that it tells."""

import csv
import gzip
import json
import os
import subprocess
import time

from adsd_tools import control

from . import corp
from .rights import Opened

FAULTS = os.path.join(corp.TOP, "examples/faults")
# The rows of faults.tsv that the first table is for, those of which nothing may stand there, and those of the second.
SHOWN = ("F01", "F02", "F03", "F05", "F07", "F08", "F09", "F10", "F12", "F15")
HIDDEN = ("N01", "N02", "N03", "N05", "N08", "N09", "N10", "N12")
# How many findings the targets have together; and how long the program may be asked about them.
FOUND, SECONDS = 21, 900
MANY = (("hd.emil", "scripts"), ("theo.lab", "reset"))
# What the program is asked for, by the rank.
RIGHTS = {"owner": "WD", "list": "WD", "take": "WO", "secrets": "CR:DS-Replication-Get-Changes-All",
          "reset": "CR:User-Force-Change-Password", "members": "WP:member"}


def load(path):
    """Makes a store of the domain."""
    with gzip.open(os.path.join(FAULTS, "export.ldif.gz")) as source, open(f"{path}.export", "wb") as made:
        made.write(source.read())
    words = [os.path.join(corp.TOP, "tools/adsd-import"), f"{path}.export", "-o", f"{path}.ldif", "-r", os.devnull]
    subprocess.run(words, stderr=subprocess.DEVNULL, check=True)
    with open(f"{path}.ldif", "rb") as source:
        subprocess.run([os.environ["ADSD"], "load", path], stdin=source, stdout=subprocess.DEVNULL, check=True)


def planted():
    """The object and the holder of each row."""
    with open(os.path.join(FAULTS, "faults.tsv"), encoding="utf-8", newline="") as opened:
        rows = csv.reader(opened, delimiter="\t", quoting=csv.QUOTE_NONE)
        return {row[0]: (row[2], row[3]) for row in rows}


def first_page(tries, opened):
    """The first table has who was planted, and nobody of the near misses."""
    told, of = opened.get("exposed"), {}
    for row in told["rows"]:
        of.setdefault(opened.world.dn(row["n"]), []).extend(one["name"] for one in row["first"])
    for number, (target, holder) in planted().items():
        if number in SHOWN + HIDDEN:
            there = of.get(target, [])
            tries.check((holder in there) == (number in SHOWN), f"{number}, {holder} on {target}: {there}")
    linked = [row["names"] for row in told["rows"] if row["name"] == "Domain Controllers"]
    tries.check(linked == [["gPLink"]], f"the attributes by which the domain controllers' unit is written: {linked}")
    many = [(one["name"], row["key"]) for row in told["many"]["rows"] for one in row["first"]]
    for pair in MANY:
        tries.check(pair in many, f"on many objects: {many}, without {pair}")
    start = opened.get("start")
    ranks = {row["key"]: row["count"] for row in opened.get("principal", sid=start["everybody"]["sid"])["ranks"]}
    tries.check(ranks == {"scripts": 1, "groups": 1, "confidential": 30}, f"what everybody may do: {ranks}")
    return told["rows"]


def as_who(tries, opened, store, rows):
    """Who stands in a row has the right, as `who` says."""
    for row in rows:
        if row["key"] in RIGHTS:
            words = [os.environ["ADSD"], "who", store, RIGHTS[row["key"]], opened.world.dn(row["n"])]
            said = subprocess.run(words, capture_output=True, check=True).stdout.decode().splitlines()
            missing = {one["sid"] for one in row["first"]} - {line.split(" ")[1] for line in said}
            tries.check(not missing, f"{words[3:]}: `who` hasn't {missing}")


def targets(tries, opened, store):
    """The targets that the page leads with have the findings and the counts of adsd-audit, and each planted fault."""
    end = time.monotonic() + SECONDS
    while not (told := opened.get("audited"))["ready"] and time.monotonic() < end:
        time.sleep(0.2)
    words = [os.path.join(corp.TOP, "tools/adsd-audit"), store, "--json"]
    made = json.loads(subprocess.run(words, stdout=subprocess.PIPE, check=True).stdout)
    counts = {one["key"]: one["faults"] for one in told.get("targets", [])}
    wanted = {key: made["counts"][key] for key in counts}
    tries.check(counts == wanted, f"the counts of the targets: {counts}, {told.get('why')}")
    whole = sum(made["counts"].values())
    tries.check(told.get("faults") == whole == FOUND, f"{told.get('faults')} and {whole} findings, not {FOUND}")
    asks = [one["ask"] for area in told.get("targets", []) for one in area["findings"]]
    tries.check(asks == [one["ask"] for one in made["findings"]], f"the findings: {asks}")
    come = {one["object"]["name"]: one["identities"] for area in told.get("targets", []) for one in area["control"]}
    wanted = {one["identities"] for one in made["control"] if one["chains"]}
    tries.check(come and set(come.values()) <= wanted, f"who comes to control the targets: {come}")
    ways = [one for area in told.get("targets", []) for one in area["control"]]
    lead = [one["steps"][-1]["to"]["n"] == one["object"]["n"] and len(one["steps"]) >= one["length"] for one in ways]
    tries.check(all(lead), f"the shortest chains: {ways}")
    tries.check(not os.path.exists(opened.explorer.auditing.copy), "the copy that was audited has its name still")


# Of which objects it is asked who comes to control them; and what somebody comes to first, each with its chain.
CONTROLLED = (corp.ROOT, f"CN=AdminSDHolder,CN=System,{corp.ROOT}", f"CN=adm.anna,OU=Admins,OU=Tier0,{corp.ROOT}")
REACHED = ("CN=hd.dora,OU=Helpdesk," + corp.ROOT, [(corp.ROOT, ["descriptor", "protect", "descriptor"]),
                                                  ("AdminSDHolder", ["descriptor"])])


def waited(opened, what, **words):
    """An answer that comes when the program was asked."""
    end = time.monotonic() + SECONDS
    while not (told := opened.get(what, **words))["ready"] and time.monotonic() < end:
        time.sleep(0.1)
    return told


def said(store, word, name):
    """What the program tells of chains."""
    words = [os.environ["ADSD"], word, store, name]
    return control.read(subprocess.run(words, capture_output=True, check=True).stdout, word == "reach")


def edges(told):
    return {(told.nodes[step.begin].sid, step.kind, told.nodes[step.end].sid) for step in told.steps.values()}


def steps(row):
    return {(step["from"]["sid"] or "", step["kind"], step["to"]["sid"] or "") for step in row["steps"]}


def chains(tries, opened, store):
    """Who comes to control an object is whom the program tells, by steps of its own, each with a right that who begins
    it has by `who`; and what somebody comes to control, the worst target first."""
    for name in CONTROLLED:
        told, made = waited(opened, "chains", n=opened.number(name)), said(store, "control", name)
        lengths = {made.nodes[place].sid: made.lengths[place] for place in made.identities()}
        whole = told["identities"] + told["inside"]
        tries.check(whole == len(lengths), f"{name}: {whole} of {len(lengths)}")
        for row in told["rows"]:
            good = row["length"] == lengths.get(row["who"]["sid"], 0) and steps(row) <= edges(made)
            tries.check(good, f"{name}: {row}")
            asked_again(tries, store, row)
        tries.check(told["rows"] and all(row["steps"] for row in told["rows"]), f"{name}: {told}")
    who, wanted = REACHED
    sid = opened.explorer.views.sid_of(opened.number(who))
    told, made = waited(opened, "reaches", sid=sid), said(store, "reach", sid)
    first = [(row["to"]["name"], [step["kind"] for step in row["steps"]]) for row in told["targets"][:len(wanted)]]
    tries.check(first == wanted, f"{who}: {first}")
    for row in told["targets"] + told["others"]:
        tries.check(steps(row) <= edges(made), f"{who}: {row}")


def asked_again(tries, store, row):
    """The line of each step tells who begins it."""
    for step in row["steps"]:
        line = step.get("ask", "").split(" ", 4)
        if line[:2] == ["adsd", "who"]:
            words = [os.environ["ADSD"], "who", store, line[3], line[4].strip("'")]
            told = subprocess.run(words, capture_output=True).stdout.decode()
            tries.check(f" {step['from']['sid']} " in told, f"{words} hasn't {step['from']}")


def cut(tries, opened, store):
    """A change that takes the helpdesk from AdminSDHolder cuts the chains over it."""
    number = opened.number(CONTROLLED[1])
    entry = next(one for one in opened.get("object", n=number)["entries"] if one["who"]["name"] == "Helpdesk")
    told = opened.post("try", {"changes": [{"op": "remove", "n": number, "old": entry["text"]}]})
    targets = opened.get("cuts", plan=told["plan"])["targets"]
    tries.check({1, number} <= set(targets), f"the targets of a what-if: {targets}")
    made = waited(opened, "cuts", plan=told["plan"], n=number)
    gone = {row["who"]["name"] for row in made["rows"] if row["after"] is None}
    tries.check({"Helpdesk", "hd.dora"} <= gone and made["after"] == made["before"] - len(gone), f"what is cut: {made}")
    tries.check(all(row["cut"] for row in made["rows"]), f"chains that are cut: {made}")


def run(tries):
    """All of it."""
    store = tries.path("planted")
    load(store)
    opened = Opened(tries, store)
    try:
        targets(tries, opened, store)
        as_who(tries, opened, store, first_page(tries, opened))
        chains(tries, opened, store)
        cut(tries, opened, store)
    finally:
        opened.explorer.close()
