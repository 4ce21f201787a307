"""What the own program would refuse is found out before it comes into the log, and without changing anything.

The program answers a change by the first check that fails, of a list that docs/profile/changes.md has. It is asked the
same change with something behind that surely fails late in that list: so nothing is ever made of the question, and
another answer than that late one is the answer to the change itself. Where it can't be told the change goes into the
log, which decides.

The late fault is of a Modify the deletion of a value that nothing has (16; where the values of the attribute are no
such texts 19 or 21), of an Add a value that is given twice (20), of a rename without a new parent the object itself as
that (53). Of a deletion the name alone is asked for, by a Modify without items."""

import secrets
from dataclasses import dataclass, replace
from typing import FrozenSet, Optional

from adsd_tools.forms import ber
from adsd_tools.ask.records import TREE_DELETE
from adsd_tools.ldap import messages, operations
from adsd_tools.ldap.changes import name_of
from adsd_tools.ldap.operations import ADD, ADDS, DELETE, DELETES, MODIFY, RENAME, Item, Operation

# Attributes that a further item would have judged otherwise: a password, a descriptor, and those that a validated write
# may write; and of an Add those that aren't kept as values.
APART = {"unicodepwd", "ntsecuritydescriptor", "member", "serviceprincipalname", "dnshostname"}
NOT_KEPT = {"objectclass", "name", *APART}
# The attribute that is written besides where none of a change's own does.
OTHER = b"description"
NO_RIGHT, NO_NAME, NO_OBJECT = 50, 34, 32
LATE = {MODIFY: frozenset((16, 19, 21)), ADD: frozenset((20,)), RENAME: frozenset((53,))}
UNKNOWN = 17


@dataclass(frozen=True)
class Question:
    """What the program is asked: which codes say nothing of the change, or which alone do; and where a missing right
    may be one of the question's own alone, the question about that."""

    data: bytes
    nothing: FrozenSet[int] = frozenset()
    only: Optional[FrozenSet[int]] = None
    own: Optional[bytes] = None

    def tells(self, code):
        return code in self.only if self.only is not None else code not in self.nothing and code != messages.SUCCESS


def of(message):
    """The question about a change; None where there is none."""
    operation = operations.read(message)
    if operation is None:
        return None
    made = {MODIFY: modify, ADD: add, RENAME: rename, DELETE: delete}[operation.kind](message, operation)
    return made if made and len(made.data) <= messages.MOST else None


def absent(name):
    """The deletion of a value that nothing has."""
    return Item(DELETES, name, (b"adsd-" + secrets.token_hex(16).encode(),))


def modify(message, operation):
    if not operation.items:
        return None
    late, own = LATE[MODIFY], None
    names = [item.name for item in operation.items if item.lower not in APART]
    if not names:
        late |= {UNKNOWN}
        own = operations.written(message, Operation(MODIFY, operation.name, (absent(OTHER),)), ())
    asked = replace(operation, items=(*operation.items, absent(names[-1] if names else OTHER)))
    return Question(operations.written(message, asked, message.controls), late, own=own)


def add(message, operation):
    kind = operation.name.partition(b"=")[0].strip().decode("latin-1").lower()
    kept = [at for at, item in enumerate(operation.items) if item.lower not in NOT_KEPT | {kind} and item.values]
    items = list(operation.items)
    if kept:
        last = items[kept[-1]]
        items[kept[-1]] = replace(last, values=(*last.values, last.values[0]))
        late = LATE[ADD]
    else:
        items.append(Item(ADDS, OTHER, (b"x", b"x")))
        late = LATE[ADD] | {UNKNOWN}
    if kind == OTHER.decode() or any(item.act != ADDS for item in items):
        return None
    return Question(operations.written(message, replace(operation, items=tuple(items)), message.controls), late)


def rename(message, operation):
    if operation.superior is not None:
        return None
    asked = replace(operation, superior=operation.name)
    return Question(operations.written(message, asked, message.controls), LATE[RENAME])


def delete(message, operation):
    if len(message.controls) > 1 or any(name_of(one) != TREE_DELETE for one in message.controls):
        return None
    asked = operations.written(message, Operation(MODIFY, operation.name), ())
    return Question(asked, only=frozenset((NO_NAME, NO_OBJECT)))


def answer(message, question, reply, ask_own=None):
    """The answer to the change, where the reply to the question is that; else None. `ask_own` is the reply to what the
    question asks besides."""
    if messages.is_notice(reply):
        return None
    code, text = messages.code_of(reply)
    if not question.tells(code) or (code == NO_RIGHT and question.own and text == messages.code_of(ask_own)[1]):
        return None
    return retagged(reply, messages.RESPONSES[message.operation])


def retagged(reply, tag):
    """A result as the answer to another operation."""
    ((outer, held),) = ber.parts(reply)
    number, (_, body) = ber.parts(held)[:2]
    return ber.element(outer, ber.octets(number[1], number[0]) + ber.octets(body, tag))
