"""Changes and compares (RFC 4511 4.6 to 4.10) as the bridge reads them, so that it may ask the program others in their
place."""

from dataclasses import dataclass, replace
from typing import Optional, Tuple

from adsd_tools.forms import ber

from . import messages

MODIFY, ADD, DELETE, RENAME, COMPARE = 0x66, 0x68, 0x4A, 0x6C, 0x6E
ADDS, DELETES, REPLACES, INCREMENTS = 0, 1, 2, 3


@dataclass(frozen=True)
class Item:
    """What a change does with an attribute: 0 adds values, 1 deletes, 2 replaces, 3 increments. Of an Add it is 0."""

    act: int
    name: bytes
    values: Tuple[bytes, ...]

    @property
    def lower(self):
        return self.name.decode("latin-1").lower()


@dataclass(frozen=True)
class Operation:
    """A change or a compare: its kind, the object's name, its items; and of a rename the new first part, whether
    the old value goes, and the new superior."""

    kind: int
    name: bytes
    items: Tuple[Item, ...] = ()
    front: bytes = b""
    drops: bytes = b""
    superior: Optional[bytes] = None

    def values(self, name):
        """The values of an attribute that an Add gives, by its name in lower case."""
        return next((item.values for item in self.items if item.lower == name), ())


def attribute_of(held, act=ADDS):
    (first, name), (second, values) = ber.parts(held)
    found = ber.parts(values)
    if first != ber.OCTETS or second != ber.SET or any(tag != ber.OCTETS for tag, _ in found):
        raise ValueError
    return Item(act, name, tuple(value for _, value in found))


def item_of(held):
    (tag, act), (other, inner) = ber.parts(held)
    if tag != ber.ENUMERATED or other != ber.SEQUENCE:
        raise ValueError
    return attribute_of(inner, int.from_bytes(act, "big"))


def rename_of(body):
    (_, name), (_, front), (_, drops), *behind = ber.parts(body)
    if len(behind) > 1 or any(tag != 0x80 for tag, _ in behind):
        raise ValueError
    return Operation(RENAME, name, front=front, drops=drops, superior=behind[0][1] if behind else None)


def read(message):
    """The operation of a message; None where it isn't of its form, and the program says then what is wrong."""
    kind, body = message.operation, message.body
    try:
        if kind == DELETE:
            return Operation(kind, body)
        if kind == RENAME:
            return rename_of(body)
        (_, name), (_, held) = ber.parts(body)
        if kind == COMPARE:
            (_, attribute), (_, value) = ber.parts(held)
            return Operation(kind, name, (Item(ADDS, attribute, (value,)),))
        read_one = attribute_of if kind == ADD else item_of
        return Operation(kind, name, tuple(read_one(one) for _, one in ber.parts(held)))
    except (ber.Broken, ValueError):
        return None


def element(operation):
    """The element of an operation."""
    kind, name = operation.kind, ber.octets(operation.name)
    if kind == DELETE:
        return ber.octets(operation.name, kind)
    if kind == RENAME:
        behind = [ber.octets(operation.superior, 0x80)] if operation.superior is not None else []
        drops = ber.octets(operation.drops, ber.BOOLEAN)
        return ber.sequence(name, ber.octets(operation.front), drops, *behind, tag=kind)
    if kind == COMPARE:
        ((item),) = operation.items
        return ber.sequence(name, ber.sequence(ber.octets(item.name), ber.octets(item.values[0])), tag=kind)
    held = [ber.sequence(ber.octets(one.name), ber.sequence(*map(ber.octets, one.values), tag=ber.SET))
            for one in operation.items]
    if kind == MODIFY:
        held = [ber.sequence(ber.number(one.act, ber.ENUMERATED), made) for one, made in zip(operation.items, held)]
    return ber.sequence(name, ber.sequence(*held), tag=kind)


def written(message, operation, controls):
    """The message of an operation, with controls as they came."""
    held = [ber.octets(one, ber.SEQUENCE) for one in controls]
    behind = [ber.sequence(*held, tag=messages.CONTROLS)] if held else []
    return ber.sequence(ber.number(message.number), element(operation), *behind)


async def spelled(operation, speller):
    """An operation in the words that the program reads."""
    name = await speller.name(operation.name)
    superior = operation.superior
    if superior is not None:
        superior = await speller.name(superior)
    items = []
    for item in operation.items:
        named = speller.attribute(item.name)
        items.append(Item(item.act, named, await speller.values(named, item.values)))
    return replace(operation, name=name, items=tuple(items), front=speller.plain(operation.front), superior=superior)
