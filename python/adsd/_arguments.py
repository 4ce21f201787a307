"""What callers give, looked at before anything is asked of it.

ctypes takes a number's low bits and a zero for False, and joined bytes don't tell where one piece ended: so what
doesn't fit would be asked as something else. Here it is a TypeError where it is of another kind, and a ValueError where
it is of that kind and can't be, each with the argument's name.
"""

import collections.abc
from typing import Any, Callable, Dict, List, Optional, Type, TypeVar

T = TypeVar("T")
BYTES = (bytes, bytearray, memoryview)
MASK = 0xFFFFFFFF


def other_kind(value: object, name: str, wanted: str) -> TypeError:
    return TypeError(f"{name}: {wanted} is wanted, and not {type(value).__name__}")


def number(value: int, name: str, most: int, least: int = 0) -> int:
    """A whole number from `least` to `most`; neither a truth nor a fraction is one."""
    if isinstance(value, bool) or not isinstance(value, int):
        raise other_kind(value, name, "a number")
    if not least <= value <= most:
        raise ValueError(f"{name}: {value:#x} isn't from {least} to {most:#x}")
    return int(value)


def mask(value: int, name: str) -> int:
    """A mask of rights, in 32 bits."""
    return number(value, name, MASK)


def octets(value: "bytes | bytearray | memoryview", name: str) -> bytes:
    """Bytes, which nobody changes any more."""
    if not isinstance(value, BYTES):
        raise other_kind(value, name, "bytes")
    return bytes(value)


def text(value: str, name: str) -> bytes:
    """A text's bytes in UTF-8."""
    if not isinstance(value, str):
        raise other_kind(value, name, "a text")
    try:
        return value.encode()
    except UnicodeEncodeError:
        raise ValueError(f"{name}: the text has half of a character") from None


def word(value: str, name: str) -> bytes:
    """A text that is a word of the program's call, where a zero byte can't stand."""
    made = text(value, name)
    if b"\0" in made:
        raise ValueError(f"{name}: the text has a zero byte")
    return made


def kind(value: T, name: str, wanted: Type[T]) -> T:
    if not isinstance(value, wanted):
        raise other_kind(value, name, f"a {wanted.__name__}")
    return value


def pieces(value: Any, name: str, read: Callable[[Any, str], T], most: Optional[int] = None,
           ordered: bool = True) -> List[T]:
    """What each piece of a row of so many at most is read as. A text and bytes are one piece and no row, and what has
    no order is no row where that counts."""
    loose = (collections.abc.Mapping,) if not ordered else (collections.abc.Mapping, collections.abc.Set)
    if isinstance(value, (str, *BYTES, *loose)) or not isinstance(value, collections.abc.Iterable):
        raise other_kind(value, name, "a row of pieces")
    found: List[T] = []
    for one in value:
        if len(found) == most:
            raise ValueError(f"{name}: there are more than {most}")
        found.append(read(one, f"{name}[{len(found)}]"))
    return found


def row(value: Any, name: str, wanted: str, count: int) -> "tuple[Any, ...]":
    """The members of a tuple or a list of so many."""
    if not isinstance(value, (tuple, list)):
        raise other_kind(value, name, wanted)
    if len(value) != count:
        raise ValueError(f"{name}: {wanted} is wanted, and there are {len(value)} members")
    return tuple(value)


def choice(value: str, name: str, choices: "Dict[str, int]") -> int:
    """What a word stands for."""
    if not isinstance(value, str):
        raise other_kind(value, name, "a text")
    found: Optional[int] = choices.get(value)
    if found is None:
        raise ValueError(f"{name}: {value!r} is none of {', '.join(choices)}")
    return found
