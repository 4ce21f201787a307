"""The token of the words, completed by what the store gives its user, as the program's command `token` tells it."""

import argparse
from dataclasses import dataclass, field
from typing import Callable, FrozenSet, Iterable, List, Optional, Tuple

from adsd_tools.ask import tokens, words
from adsd_tools.forms.sids import sid_of_alias, sid_of_text, text_of_sid
from adsd_tools.rows.accounts import Accounts

from .html import text

HOW = "the store's, whole, as the program's command <code>token</code> tells it"
UNKNOWN = ("Whether the token has all groups that the store gives its user isn't known: the program is older than its "
           "command <code>token</code>.")
TOO_MANY = ("The store gives the user more groups than a token may have, so that some are missing here: what is refused "
            "may be granted with them.")


@dataclass(frozen=True)
class Token:
    """A token as words gave it: bytes of identifiers, the privileges as a sum, and its holders, each the identifier of its
    user and the bytes of a token that has what it holds."""

    user: bytes
    groups: Tuple[bytes, ...] = ()
    deny: Tuple[bytes, ...] = ()
    restricting: Tuple[bytes, ...] = ()
    privileges: int = 0
    holders: Tuple[Tuple[bytes, bytes], ...] = ()

    def holds(self, sid: bytes) -> bool:
        return sid == self.user or sid in self.groups

    def answers_to(self, own: Optional[bytes]) -> FrozenSet[int]:
        """What of an object's own identifier counts for the token: in which of its parts it stands. Objects for which this
        is the same give it the same rights by one list."""
        parts = (self.user, *self.groups), self.deny, self.restricting
        return frozenset(place for place, part in enumerate(parts) if own is not None and own in part)


def joined(sids: Iterable[bytes]) -> str:
    return ",".join(text_of_sid(sid) for sid in sids)


def token_of(user: bytes, groups: Tuple[bytes, ...] = (), deny: Tuple[bytes, ...] = (), restricting: Tuple[bytes, ...] = (),
             privileges: int = 0) -> Token:
    """A token with its holders: what it holds, and where it is restricted what its restricting identifiers hold."""
    named = ",".join(name for name, bit in words.PRIVILEGES.items() if privileges & bit)
    holders = [(user, words.token(text_of_sid(user), groups=joined(groups), deny=joined(deny), privileges_of=named))]
    if restricting:
        first, *rest = map(text_of_sid, restricting)
        holders.append((restricting[0], words.token(first, groups=",".join(rest), privileges_of=named)))
    return Token(user, groups, deny, restricting, privileges, tuple(holders))


@dataclass
class Whom:
    """The token as words gave it, its bytes, how it was made where the store made it, and what the store gives."""

    token: Token
    data: bytes
    how: str = ""
    told: Optional[tokens.Told] = None
    unknown: List[str] = field(default_factory=list)

    def lacking(self) -> Tuple[List[bytes], List[str]]:
        """The groups that the store gives and the token hasn't, and the privileges."""
        if self.told is None:
            return [], []
        had = {self.token.user, *self.token.groups, *self.token.deny}
        missing = self.told.privileges & ~self.token.privileges
        return ([sid for sid in self.told.groups if sid not in had],
                [name for name, bit in words.PRIVILEGES.items() if missing & bit])

    def notes(self, name: Callable[[bytes], str]) -> List[str]:
        """What the page has to say of the token; `name` tells what an identifier is called."""
        groups, privileges = self.lacking()
        had = [f"groups: {', '.join(text(name(sid)) for sid in groups)}"] if groups else []
        had += [f"privileges: {', '.join(privileges)}"] if privileges else []
        lacks = [f"The store gives this user more than the token has here: {'; '.join(had)}. What is refused may be granted "
                 "with that. A name alone, as --user ann, takes all of it, and --group '*' all groups."] if had else []
        return self.unknown + lacks


def of_store(path: str, copy: str, sid: bytes) -> Tuple[Optional[tokens.Told], List[str]]:
    """What the store gives somebody, or None, and what is to be said where that isn't known."""
    try:
        return tokens.of_store(path, copy, text_of_sid(sid)), []
    except tokens.NoCommand:
        return None, [UNKNOWN]
    except tokens.NoToken as why:
        return None, [TOO_MANY] if str(why).startswith("too many groups") else []


def user_of(name: str, path: str, copy: str, accounts: Accounts) -> bytes:
    """Whose identifier a text names: of the kinds that words take, or as the program reads it (a DN, or a
    userPrincipalName)."""
    try:
        return words.sid(name, accounts)
    except words.Wrong as wrong:
        try:
            return tokens.of_store(path, copy, name).user
        except (tokens.NoToken, tokens.NoCommand) as why:
            raise wrong if str(why) == "no object" or isinstance(why, tokens.NoCommand) else words.Wrong(f"{name}: {why}")


def is_name(asked: argparse.Namespace) -> bool:
    """Whether the words are a name of the store's and nothing else, so that the store says the whole token."""
    given = asked.group or asked.deny_only or asked.restricting or asked.privilege
    return not given and sid_of_text(asked.user) is None and sid_of_alias(asked.user.upper(), None)[0] is None


def of_words(asked: argparse.Namespace, path: str, copy: str, accounts: Accounts) -> Whom:
    """Whom the words mean."""
    user = user_of(asked.user, path, copy, accounts)
    told, unknown = of_store(path, copy, user)
    if is_name(asked) and told is not None:
        return Whom(token_of(user, tuple(told.groups), privileges=told.privileges), told.data(), HOW, told)
    groups = [item for some in asked.group for item in words.listed(some)]
    if told is not None and "*" in groups:
        at = groups.index("*")
        groups = groups[:at] + [text_of_sid(sid) for sid in told.groups] + [one for one in groups[at + 1 :] if one != "*"]
    data = words.token(text_of_sid(user), groups=",".join(groups), deny=",".join(asked.deny_only), accounts=accounts,
                       restricting=",".join(asked.restricting), privileges_of=",".join(asked.privilege))
    held, deny, restricting = (tuple(words.groups_of(",".join(some), user, accounts))
                               for some in (groups, asked.deny_only, asked.restricting))
    token = token_of(user, held, deny, restricting, words.privileges(",".join(asked.privilege)))
    return Whom(token, data, "", told, unknown)
