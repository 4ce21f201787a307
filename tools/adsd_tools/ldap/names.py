"""The file of names: who may bind, by which password, and with which token."""

import os
import re
import shlex
import stat
from dataclasses import dataclass
from typing import Callable, Optional

from adsd_tools.ask import words
from adsd_tools.ask.requests import TOKEN_WORDS, Line
from adsd_tools.ask.words import Wrong
from adsd_tools.forms import names as dns

from . import passwords

MOST_GROUPS = 1024
# No name of the file is longer; a longer one that a client gives is nobody's.
LONGEST = 8192
# What is compared where nobody has the name, so that it takes as long.
NOBODY = passwords.read(passwords.written("scrypt", passwords.USUAL, bytes(16), bytes(32)))


@dataclass(frozen=True)
class Who:
    """Somebody with a line: the name as it stands there, what tells the password, the bytes of the token, and the
    user of the system who may bind as this one over a Unix socket. Without a token it is the one that the
    directory's groups make, and without what tells the password there is none."""

    name: str
    fits: Optional[Callable]
    token: Optional[bytes]
    uid: Optional[int] = None
    own: bytes = b""

    def object_name(self):
        """The name of the own object, as far as it is known."""
        return self.own or (self.name.encode() if "=" in self.name else b"")


def key_of(name):
    """What two spellings of a name have in common: of a DN its parts, else the text; both without regard to case."""
    if "=" in name:
        try:
            return dns.read(name.encode()).key()
        except dns.NoName:
            pass
    return name.casefold()


def pieces(text):
    """The words of a line: blanks part them but in quotes. A backslash is one, and within a line # is no comment."""
    lexer = shlex.shlex(text, posix=True, punctuation_chars=False)
    lexer.whitespace_split, lexer.commenters, lexer.escape = True, "", ""
    return list(lexer)


def token_of(line):
    """The token of a line's pairs. The program ends at a faulty token, so what it would refuse is refused here."""
    given = {key: line.take(key, "") for key in TOKEN_WORDS}
    user = line.take("user")
    lists = (words.listed(given[key]) for key in ("groups", "deny", "restricting"))
    groups, denied, restricting = ([words.sid(text) for text in texts] for texts in lists)
    if len(groups) + len(denied) > MOST_GROUPS or len(restricting) > MOST_GROUPS:
        raise Wrong(f"a token has at most {MOST_GROUPS} groups, and as many restricting identifiers")
    if given["owner"] and words.sid(given["owner"]) not in [words.sid(user), *groups]:
        raise Wrong("the owner is neither the user nor one of the groups")
    return words.token(user, privileges_of=line.take("privileges", ""), **given)


def one_line(text):
    """Who a line is about, and all names of them. The empty name is whoever hasn't bound, and has no password."""
    line = Line(text, pieces)
    if line.number is not None:
        raise Wrong(f"{line.number} has no key")
    also, password, uid = words.listed(line.take("also", "")), line.take("password", ""), line.take("uid", "")
    if max(map(len, [line.word, *also])) > LONGEST:
        raise Wrong(f"a name has at most {LONGEST} letters")
    if line.word and not password and not uid:
        raise Wrong(f"{line.word!r} has no password")
    if not line.word and (password or also or uid):
        raise Wrong("the empty name is whoever hasn't bound: it has no password, and no other name")
    if uid and not re.fullmatch("[0-9]{1,10}", uid):
        raise Wrong(f"{uid!r} isn't a user number of this system")
    try:
        fits = passwords.read(password) if password else None
    except passwords.Unreadable as why:
        raise Wrong(str(why)) from None
    who = Who(line.word, fits, token_of(line) if has_token(line) else None, int(uid) if uid else None)
    line.ended()
    return who, [line.word, *also]


def has_token(line):
    """Whether a line says what makes the token; of who hasn't bound it has to."""
    return not line.word or any(key in ("user", "privileges", *TOKEN_WORDS) for key, _, _ in line.pairs)


class Names:
    """Who stands in a file of names."""

    def __init__(self, text=""):
        self.known, self.of_uid = {}, {}
        for at, line in enumerate(text.split("\n"), 1):
            if line.strip() and not line.lstrip().startswith("#"):
                try:
                    self.put(*one_line(line))
                except (Wrong, ValueError) as why:
                    raise Wrong(f"line {at}: {why}") from None
        self.anonymous = self.known.get("")

    def put(self, who, spelled):
        for name in spelled:
            if key_of(name) in self.known:
                raise Wrong(f"{name!r} is given twice")
            self.known[key_of(name)] = who
        if who.uid is not None and self.of_uid.setdefault(who.uid, who) is not who:
            raise Wrong(f"uid={who.uid} is given twice")

    def who(self, name):
        return self.known.get(key_of(name)) if 0 < len(name) <= LONGEST else None

    def everybody(self):
        return list({id(who): who for who in self.known.values()}.values())


def why_not(told):
    """Why others may write a file, of which the system tells this; nothing where they may not."""
    if told.st_uid not in (os.geteuid(), 0):
        return "its owner is somebody else"
    return "others than its owner may write it" if stat.S_IMODE(told.st_mode) & 0o022 else ""


def read(file):
    """The names of a file that nobody else may write, and a warning where others may read it."""
    try:
        with open(file, encoding="utf-8") as opened:
            told = os.fstat(opened.fileno())
            if why_not(told):
                raise Wrong(f"{file}: {why_not(told)}, so it says nothing of who may bind")
            others = stat.S_IMODE(told.st_mode) & 0o044
            text = opened.read()
    except UnicodeDecodeError:
        raise Wrong(f"{file}: it isn't UTF-8") from None
    except OSError as fault:
        raise Wrong(f"{file}: {fault.strerror}") from None
    try:
        return Names(text), f"{file} has passwords, and others than its owner may read it" if others else None
    except Wrong as why:
        raise Wrong(f"{file}: {why}") from None


def fits(who, password):
    """Whether it is somebody's password. Takes as long where there is none."""
    known = who.fits if who else None
    good = (known or NOBODY)(password)
    return bool(known and good)
