"""`list`, `effective`, `grants` and a search of the program by the names of accounts: a name stands for the distinguished name of
its object or for its identifier, and a type's name in an entry for its GUID. What the program says is handed on."""

import shlex
from typing import Optional

from adsd_tools import lines
from adsd_tools.forms.sids import guid_of_text, sid_of_alias, sid_of_text, text_of_guid, text_of_sid
from adsd_tools.rows.accounts import Accounts
from adsd_tools.run import ADSD, run

from . import answers, requests, tokens
from .words import Wrong

# The parts of an entry that name a type, and the part that names who it is for.
TYPES, TRUSTEE, PARTS = (3, 4), 5, 6
ROOT, TOKEN, TAKEN = 1, 1, "# token: taken for connection 1"


class Refused(Exception):
    """The program gave no answer: its status, and what it printed. Why is handed on already."""

    def __init__(self, status: int, printed: bytes) -> None:
        super().__init__(f"status {status}")
        self.status, self.printed = status, printed


def answer(words: list[str], given: bytes = b"") -> bytes:
    done = run([ADSD, *words], given)
    if done.returncode:
        raise Refused(done.returncode, done.stdout)
    return done.stdout


def account(name: str, accounts: Accounts) -> Optional[bytes]:
    """The identifier of an account of the store; None where nothing has the name."""
    try:
        return accounts.sid(name)
    except accounts.Ambiguous as why:
        raise Wrong(str(why)) from None


def object_of(name: str, accounts: Accounts) -> str:
    """The distinguished name that a word means: itself, or that of an account. What is neither the program refuses."""
    sid = None if "=" in name else sid_of_text(name) or account(name, accounts)
    number = None if sid is None else accounts.of_sid.get(sid)
    return name if number is None else accounts.names()[number]


def effective(store: str, name: str, as_name: str, accounts: Accounts) -> bytes:
    """What the account's token, by the store, may do on an object."""
    sid = None if "=" in as_name else account(as_name, accounts)
    told = tokens.read(answer(["token", store, as_name if sid is None else text_of_sid(sid)]))
    return answer(["effective", store, object_of(name, accounts)], told.data())


def search(store: str, text: str, attributes: list[str], as_name: str, base: Optional[str], accounts: Accounts) -> bytes:
    """What the account finds, as LDIF. The program serves the store for that one request, which changes nothing."""
    sid = None if "=" in as_name else account(as_name, accounts)
    told = tokens.read(answer(["token", store, as_name if sid is None else text_of_sid(sid)]))
    names = ",".join(attributes) or "1.1"
    line = " ".join(["search 1", *(f"{key}={shlex.quote(value)}" for key, value in (
        ("base", base or accounts.names()[ROOT]), ("scope", "sub"), ("filter", text), ("attrs", names)))])
    made = requests.frame(TOKEN, 1, told.data()) + b"".join(requests.frames([line], accounts))
    found = [one for one in answers.lines(answer(["serve", store], made)) if one != TAKEN]
    return "".join(f"{one}\n" for one in found).lstrip("\n").encode("utf-8", "backslashreplace")


def trustee(text: str, accounts: Accounts) -> str:
    """An identifier as the program reads it: itself, an alias, or that of an account."""
    if sid_of_text(text) is not None or sid_of_alias(text, None)[0] is not None:
        return text
    sid = account(text, accounts)
    return text if sid is None else text_of_sid(sid)


def type_of(text: str, accounts: Accounts) -> str:
    """The GUID of an attribute, a class or a right by its name."""
    if not text or guid_of_text(text) is not None:
        return text
    wanted = text.casefold()
    for guid, name in accounts.schema.all_types():
        if guid is not None and name.casefold() == wanted:
            return text_of_guid(guid)
    return text


def entry(text: str, accounts: Accounts) -> str:
    """An entry of SDDL with GUIDs and an identifier for the names in it."""
    parts = text[1:-1].split(";")
    if not text.startswith("(") or not text.endswith(")") or len(parts) < PARTS:
        return text
    for at in TYPES:
        parts[at] = type_of(parts[at], accounts)
    parts[TRUSTEE] = trustee(parts[TRUSTEE], accounts)
    return f"({';'.join(parts)})"


def end_of_entry(text: str) -> int:
    """Where the second part of a line ends: an entry at its parenthesis, in which a name may have blanks."""
    end = text.find(")") + 1 if text.startswith("(") else text.find(" ")
    return len(text) if end <= 0 else end


def grant_line(line: str, accounts: Accounts) -> str:
    """A line of grants with what the program reads for each name in it; what is of no form stays."""
    word, _, rest = line.partition(" ")
    end = end_of_entry(rest)
    if word not in ("grant", "deny", "revoke") or rest[end : end + 1] != " ":
        return line
    second = (trustee if word == "revoke" else entry)(rest[:end], accounts)
    return f"{word} {second} {object_of(rest[end + 1 :], accounts)}"


def grant_lines(given: bytes, accounts: Accounts) -> bytes:
    """Lines of grants with what the program reads for each name in them."""
    made = [grant_line(line, accounts) for line in given.decode("utf-8", "surrogateescape").split("\n")]
    return "\n".join(made).encode("utf-8", "surrogateescape")


def grants(store: str, given: bytes, accounts: Accounts) -> bytes:
    """The frames of some lines."""
    return answer(["grants", store], grant_lines(given, accounts))


def listing(store: str, name: str, accounts: Accounts) -> bytes:
    """The descriptor of an object."""
    made = answer(["list", store, object_of(name, accounts)])
    lines.listed(made)
    return made
