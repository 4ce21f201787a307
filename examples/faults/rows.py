"""The rows of faults.tsv: what each asks and expects, with the identifiers and the places that Samba's domain has."""

import re
from collections.abc import Callable

import plan
from samba.dcerpc import security
from samba.samdb import SamDB
from samba.sd_utils import SDUtils

HEAD = "number\twhat\tobject\tholder\tentries\tquestion\tfound\tanswer\n"
ADMINS = f"{plan.DOMAIN}-512"
OBJECT_KINDS = (security.SEC_ACE_TYPE_ACCESS_ALLOWED_OBJECT, security.SEC_ACE_TYPE_ACCESS_DENIED_OBJECT)
Sid = Callable[[SamDB, str], str]


def named(name: str) -> str:
    """The distinguished name of a holder."""
    if name == plan.ANONYMOUS:
        return f"CN=Anonymous Logon,CN=WellKnown Security Principals,CN=Configuration,{plan.BASE}"
    return plan.user(name)


def fields(entry: security.ace) -> tuple[int, int, str, str]:
    """What of an entry stays the same in the copies that children inherit."""
    of_type = ""
    if entry.type in OBJECT_KINDS and entry.object.flags & security.SEC_ACE_OBJECT_TYPE_PRESENT:
        of_type = str(entry.object.type)
    return entry.type, entry.access_mask, of_type, str(entry.trustee)


def place(base: SamDB, target: str, text: str) -> int:
    """The place, from 1, of an entry that has effect on an object, in the list that Samba made."""
    wanted = security.descriptor.from_sddl(f"D:{text}", security.dom_sid(plan.DOMAIN)).dacl.aces[0]
    for at, one in enumerate(SDUtils(base).read_sd_on_dn(target).dacl.aces):
        if fields(one) == fields(wanted) and not one.flags & security.SEC_ACE_FLAG_INHERIT_ONLY:
            return at + 1
    raise SystemExit(f"make: {target} hasn't the entry {text}")


def asked(question: tuple[str, ...], holder: str) -> str:
    """The command of a question."""
    word, *rest = question
    if word == "who":
        return f"./adsd who faults {rest[0]} '{rest[1]}'"
    if word == "can":
        return f"./adsd can faults {holder} {rest[0]} {rest[1]}"
    if word == "token":
        return " ".join(["./adsd token faults", holder, *rest])
    if word == "list":
        return f"./adsd list faults {rest[0]}"
    if word == "effective":
        return (f"echo \"token 0 user={holder} groups='*'\" | tools/adsd-ask frames --store faults - | "
                f"tail -c +8 | ./adsd effective faults {rest[0]}")
    token = "\"token 1 user=Administrator groups='*'\""
    search = f"\"search 1 base={plan.BASE} scope=sub filter='{rest[0]}' attrs={rest[1]}\""
    return (f"printf '%s\\n' {token} {search} | tools/adsd-ask frames --store faults - | ./adsd serve faults | "
            "tools/adsd-ask replies")


def expected(base: SamDB, sid: Sid, row: tuple) -> tuple[str, str]:
    """Whether there is a line, and which; of a near miss the words that no line has, `-` where no line may come."""
    number, _, target, holder, _, entries, (word, *rest) = row
    own = sid(base, holder)
    entries = [re.sub(r"\{([^}]+)\}", lambda found: sid(base, found[1]), one) for one in entries]
    if word in ("list", "effective", "search", "token"):
        answer = f"group {ADMINS}" if word == "token" else rest[-1]
        return ("found" if number[0] == "F" else "not found"), answer
    if number[0] == "N":
        return "not found", "-" if word == "can" else own
    decides = "owner" if entries[0].startswith("O:") else place(base, rest[1] if word == "who" else target, entries[-1])
    return "found", f"{decides} {target}" if word == "can" else f"{decides} {own} {named(holder)}"


def table(base: SamDB, sid: Sid) -> str:
    """The text of faults.tsv."""
    made = HEAD
    for row in plan.ROWS:
        number, what, target, holder, where, entries, question = row
        shown = [re.sub(r"\{([^}]+)\}", lambda found: sid(base, found[1]), one) for one in entries]
        shown = " ".join(shown) + (f" at {where}" if where not in ("", target) else "") if shown else "-"
        cells = [number, what, target, holder, shown, asked(question, holder), *expected(base, sid, row)]
        made += "\t".join(cells) + "\n"
    return made
