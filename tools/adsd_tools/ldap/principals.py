"""Whose account a principal of Kerberos is: that which has its name as sAMAccountName or userPrincipalName, in the
realm of the directory alone."""

from dataclasses import dataclass
from typing import Any, Tuple

from . import items, names
from .accounts import Ambiguous
from .gss import Refused

SERVICE = "ldap"


@dataclass(frozen=True)
class Principal:
    """A principal: the parts of its name, and its realm."""

    parts: Tuple[str, ...]
    realm: str

    def __str__(self) -> str:
        return f"{'/'.join(self.parts)}@{self.realm}"


def read(data: bytes) -> Principal:
    """A principal as the library writes it: a backslash before what else would part it."""
    try:
        text = data.decode()
    except UnicodeDecodeError:
        raise Refused("a principal that isn't UTF-8") from None
    parts, realm, letters = [""], None, iter(text)
    for letter in letters:
        if letter == "\\":
            letter = next(letters, "")
            if letter not in ("\\", "/", "@"):
                raise Refused(f"a principal with an odd letter: {text!r}")
        elif letter == "@" and realm is None:
            realm = ""
            continue
        elif letter == "/" and realm is None:
            parts.append("")
            continue
        if not letter.isprintable() or len(text) > names.LONGEST:
            raise Refused("a principal with an odd letter, or a long one")
        if realm is None:
            parts[-1] += letter
        else:
            realm += letter
    if not realm or not all(parts):
        raise Refused(f"{text!r} is no principal of a realm")
    return Principal(tuple(parts), realm)


def check_service(data: bytes, realm: str) -> None:
    """Refused where a ticket was for another service, whose key stands in the same keytab."""
    service = read(data)
    if service.parts[0].casefold() != SERVICE or len(service.parts) < 2 or service.realm != realm:
        raise Refused(f"a ticket of {service}, which isn't a service of this server: {SERVICE}/..@{realm}")


def is_same(one: str, other: str) -> bool:
    return one.casefold() == other.casefold()


async def account_of(accounts: Any, who: Principal, realm: str) -> Any:
    """The account of a principal; None where there is none. Ambiguous where it would be one by one attribute and
    another one by the other."""
    if who.realm != realm:
        raise Refused(f"{who}: its realm isn't {realm}")
    login, whole = "/".join(who.parts), f"{'/'.join(who.parts)}@{who.realm}"
    is_login = len(who.parts) == 1 and not set(login) & set("\\@")
    asked = [("sAMAccountName", login), ("userPrincipalName", whole)] if is_login else [
        ("userPrincipalName", login if "@" in login else whole)]
    found = {}
    for kind, value in asked:
        one = await accounts.one(items.equal(kind.encode(), value.encode()))
        if one and is_same(one.login if kind == "sAMAccountName" else one.principal, value):
            found[one.sid] = one
    if len(found) > 1:
        raise Ambiguous
    return next(iter(found.values()), None)
