"""Access tokens: whom a check is made for."""

from typing import Any, Iterable, Optional

from . import _arguments as arguments
from .ids import SidLike, sid_of

_PRIVILEGES = {"security": 1, "take_ownership": 2, "restore": 4}
# So many groups, and so many restricting identifiers, a token has at most (adsd.h).
_MOST = 1024


def _sids(value: Iterable[SidLike], name: str) -> "tuple[bytes, ...]":
    return tuple(arguments.pieces(value, name, sid_of, _MOST, ordered=False))


def _privilege(value: str, name: str) -> int:
    return arguments.choice(value, name, _PRIVILEGES)


class Token:
    """A user with its groups and privileges. Identifiers are texts or bytes. A token doesn't change.

    >>> Token("S-1-5-21-1-2-3-1001", groups=["S-1-5-11"]).to_bytes()[:2].hex()
    '0200'

    `deny_only` are groups that only deny; where there are `restricting` identifiers, a right has to be granted to them
    too. `privileges` are of `security`, `take_ownership` and `restore`. `owner` and `primary` are those of objects that
    the user makes, and the user itself if not given; the owner is the user or one of `groups`.
    """

    user: bytes
    owner: bytes
    primary: bytes
    groups: "tuple[bytes, ...]"
    deny_only: "tuple[bytes, ...]"
    restricting: "tuple[bytes, ...]"
    privileges: int

    def __init__(self, user: SidLike, groups: Iterable[SidLike] = (), *, deny_only: Iterable[SidLike] = (),
                 restricting: Iterable[SidLike] = (), privileges: Iterable[str] = (), owner: Optional[SidLike] = None,
                 primary: Optional[SidLike] = None) -> None:
        own = self.__dict__
        own["user"] = sid_of(user, "user")
        own["owner"] = self.user if owner is None else sid_of(owner, "owner")
        own["primary"] = self.user if primary is None else sid_of(primary, "primary")
        own["groups"], own["deny_only"] = _sids(groups, "groups"), _sids(deny_only, "deny_only")
        own["restricting"] = _sids(restricting, "restricting")
        own["privileges"] = sum(set(arguments.pieces(privileges, "privileges", _privilege, ordered=False)))
        self._fits()
        marked = [b"\0" + sid for sid in self.groups] + [b"\1" + sid for sid in self.deny_only]
        own["_bytes"] = b"".join([
            bytes([2, self.privileges]), self.user, self.owner, self.primary, len(marked).to_bytes(2, "big"), *marked,
            len(self.restricting).to_bytes(2, "big"), *self.restricting])

    def _fits(self) -> None:
        if len(self.groups) + len(self.deny_only) > _MOST:
            raise ValueError(f"groups: with deny_only there are more than {_MOST}")
        if self.owner not in (self.user, *self.groups):
            raise ValueError("owner: it is neither the user nor one of the groups")

    def __setattr__(self, name: str, value: Any) -> None:
        raise AttributeError(f"{name}: a token doesn't change")

    def to_bytes(self) -> bytes:
        """The token as the library, and a frame for the program, take it."""
        made: bytes = self.__dict__["_bytes"]
        return made
