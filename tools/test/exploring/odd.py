"""Odd words: what is no number, no name, no identifier and no change is refused as such (400), wherever the page's requests
have one; nothing that somebody sends is a fault of the explorer (500), and no trace of one is told."""

import json
from urllib.parse import quote

from . import corp
from .web import Served

# No numbers: signs, other bases and digits, fractions, spaces, lengths, and what `int` of Python would take.
NUMBERS = ["", "-1", "-0", "+1", "01", "1.0", "1e9", "0x1", "1_000", " 1", "1 ", "1\n", "\u0661", "\u00b2", "\uff11", "nan", "inf",
           "4294967296", "9" * 400, "9" * 5000, "None", "true", "[]", "n", "1,2", "\0", "\ud83d\ude00"]
SIDS = ["", "nobody", "S-1-5", "S-1-5-", "S-1--5-1", "S-1-5-4294967296", "S-1-5-" + "9" * 5000, "S-1-5-\u0661", "\u017f-1-5-18",
        "S-1-5-18 ", "S-2-5-18", "S-1-5" + "-1" * 16, "S-1-281474976710656-1", "S-1-5--1", "S-1-5-1e9", "BA", "\0"]
TEXTS = ["x" * 2001, "x" * 9000]
GOOD = {"n": "1", "sid": "S-1-5-11", "kind": "object", "name": "", "code": "WD"}
# Of each request its words, and which of them are numbers from 0 on.
REQUESTS = {"children": ("n", "after"), "object": ("n", "step"), "who": ("n", "kind", "name", "code", "after", "step"),
            "principal": ("sid", "step"), "can": ("sid", "n", "step"), "exposed": ("step",), "moment": ("plan", "step"),
            "gains": ("plan", "step"), "gained": ("plan", "sid", "step"), "askable": ("n",), "find": ("q",), "whom": ("q",),
            "frames": ("plan", "form"), "start": (), "classes": (), "audited": ()}
CHANGES = [1, None, [], {}, {"op": None}, {"op": []}, {"op": {}}, {"op": "add"}, {"op": "add", "n": True, "ace": "(A;;WD;;;AU)"},
           {"op": "add", "n": 1.0, "ace": "(A;;WD;;;AU)"}, {"op": "add", "n": "1", "ace": "(A;;WD;;;AU)"},
           {"op": "add", "n": -1, "ace": "(A;;WD;;;AU)"}, {"op": "add", "n": 10**400, "ace": "(A;;WD;;;AU)"},
           {"op": "add", "n": 99999, "ace": "(A;;WD;;;AU)"}, {"op": "add", "n": 1, "ace": "\0"}, {"op": "add", "n": 1, "ace": "\ud800"},
           {"op": "add", "n": 1, "ace": "(A;;WD;;;AU)" + "x" * 65_536}, {"op": "add", "n": 1, "ace": "(A;;0x1ffffffff;;;AU)"},
           {"op": "edit", "n": 1, "old": [], "ace": ""}, {"op": "list", "n": 1, "sddl": "(" * 60_000},
           {"op": "protect", "n": 1, "on": 1}, {"op": "protect", "n": 1, "on": "true"}]


def odd_of(word):
    """What is odd for a word, each with a status that it has to have."""
    if word in ("n", "after"):
        return NUMBERS
    if word == "step":
        return [one for one in NUMBERS if one != "-1"] + ["-2"]
    return SIDS if word == "sid" else TEXTS


def asked(served, what, words):
    """The status and what is said, of words that are sent as they are."""
    query = "&".join(f"{key}={quote(value, safe='', errors='surrogatepass')}" for key, value in words.items())
    status, _, said = served.ask(f"{served.path}api/{what}?{query}")
    return status, said


def words(tries, served, plan):
    """Each word of each request, with each that is odd for it."""
    for what, names in REQUESTS.items():
        good = {**{name: GOOD[name] for name in names if name in GOOD}, **({"plan": plan} if "plan" in names else {})}
        status, said = asked(served, what, good)
        tries.check(status == 200, f"{what} {good}: {status} {said[:80]}")
        for name in names:
            for value in odd_of(name):
                status, said = asked(served, what, {**good, name: value})
                tries.check(status == 400 and set(json.loads(said)) == {"error"}, f"{what} {name}={value[:20]!a}: {status} {said[:80]}")
        for query in ("n=1&n=1", "nonsense=1", "=", "n", "n=1&", "&", "%ff=1", "q=%ff", "n=1;n=2", "&".join("a=1" for _ in range(30))):
            status, _, said = served.ask(f"{served.path}api/{what}?{query}")
            tries.check(status == 400, f"{what}?{query[:20]}: {status} {said[:80]}")
        for name in names:
            if name in ("n", "sid"):
                status, said = asked(served, what, {key: value for key, value in good.items() if key != name})
                tries.check(status == 400, f"{what} without {name}: {status} {said[:80]}")
    for name, status in (("n", 404), ("plan", 404)):
        value = "4294967295" if name == "n" else "x"
        found, said = asked(served, "object", {"n": "1", name: value})
        tries.check(found == status, f"object {name}={value}: {found} {said[:80]}")
    for of_class in ("", "nobody", "\u202euser", "\0", "user\n"):
        status, said = asked(served, "askable", {"class": of_class})
        tries.check(status == 404, f"askable class={of_class!a}: {status} {said[:80]}")
    tries.check(asked(served, "askable", {"class": "user", "n": "1"})[0] == 400, "askable of a class and of an object")


def bodies(tries, served):
    """Each change that is none, who makes it, and what is written."""
    for change in CHANGES:
        status, told = served.post("try", {"changes": [change]})
        tries.check(status == 400 and set(told) == {"error"}, f"{str(change)[:60]}: {status} {str(told)[:80]}")
    for text in SIDS:
        for change in ({"op": "owner", "n": 5, "sid": text}, {"op": "revoke", "n": 5, "sid": text}):
            status, told = served.post("try", {"changes": [change]})
            tries.check(status == 400, f"{change['op']} {text[:20]!a}: {status} {str(told)[:80]}")
        status, told = served.post("try", {"changes": [], "by": text})
        tries.check(status == (400 if text else 200), f"by {text[:20]!a}: {status} {str(told)[:80]}")
    for by in (0, False, [], {}, 1.5):
        tries.check(served.post("try", {"changes": [], "by": by})[0] == 400, f"by {by}")
    for changes in (None, {}, "", 1, [[]], [{"op": "run"}] * 65):
        tries.check(served.post("try", {"changes": changes})[0] == 400, f"changes {str(changes)[:40]}")
    for body in ({}, {"plan": 1}, {"plan": None}, {"plan": []}, {"plan": "x", "settle": 1}, {"plan": "x", "settle": "no"}):
        tries.check(served.post("write", body)[0] == 400, f"write {body}")
    status, told = served.post("try", {"changes": [{"op": "owner", "n": 5, "sid": "s-1-0X5-18"}]})
    tries.check(status == 200 and told["told"][0]["text"] == "O:S-1-5-18", f"an identifier as others write it: {status} {told}")


def run(tries):
    """All of it; nothing is told of a fault."""
    served = Served(tries.path("corp"))
    try:
        _, told = served.post("try", {"changes": [{"op": "add", "n": 5, "ace": f"(A;CI;WD;;;{corp.HELPDESK})"}]})
        words(tries, served, told["plan"])
        bodies(tries, served)
        tries.check(served.get("start")[0] == 200, "after all that is odd")
    finally:
        ended = served.end()
        tries.check(ended == (0, ""), f"the end after all that is odd: {ended}")
