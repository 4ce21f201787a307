"""The shared library and its calls."""

import ctypes
import os
from ctypes import POINTER, byref, c_char_p, c_size_t, c_uint8, c_uint32, create_string_buffer
from typing import Any

CODES = {1: "memory ran out", 2: "there is too little room", 3: "the bytes are no descriptor with owner, group and discretionary list",
         4: "the parent's bytes are no descriptor", 5: "the bytes are no token", 6: "the object's own identifier is none",
         7: "a path is none to three GUIDs", 8: "the levels make no tree", 9: "no security identifier", 10: "no GUID",
         11: "a list takes more than 65,535 bytes", 12: "the bytes are the normal bytes of no descriptor",
         13: "the domain's identifier is none", 32: "no part begins here", 33: "the part was there before",
         34: "no identifier and no alias begins here", 35: "an alias of a domain without one", 36: "no type of an entry begins here",
         37: "neither a flag nor the end of the flags", 38: "neither a right nor the end of the rights",
         39: "neither a GUID nor the end of its field", 40: "the ; or ) that has to stand here doesn't"}


class AdsdError(ValueError):
    """A call of the library has no answer: its code (`ADSD_..` in adsd.h), the place of a fault in a text, and the
    argument that it is about, where that is known."""

    def __init__(self, code: int, place: int = 0, argument: str = "") -> None:
        told = CODES.get(code, f"code {code}") + (f", at place {place}" if code >= 32 else "")
        super().__init__(f"{argument}: {told}" if argument else told)
        self.code, self.place, self.argument = code, place, argument


class TypeNode(ctypes.Structure):
    _fields_ = [("level", c_uint32), ("guid", c_uint8 * 16)]


def _opened() -> ctypes.CDLL:
    beside = os.path.join(os.path.dirname(os.path.abspath(__file__)), "libadsd.so.1")
    return ctypes.CDLL(os.environ.get("ADSD_LIBRARY") or (beside if os.path.exists(beside) else "libadsd.so.1"))


_LIBRARY = _opened()
_BYTES, _OUT = [c_char_p, c_size_t], [c_char_p, c_size_t, POINTER(c_size_t)]
_MASK = [c_uint32, POINTER(c_uint32)]
_SHAPES: "dict[str, list[Any]]" = {
    "adsd_granted": _BYTES * 4 + _MASK, "adsd_granted_normal": _BYTES * 4 + _MASK,
    "adsd_check_tree": _BYTES * 3 + [POINTER(TypeNode), c_size_t, c_uint32, POINTER(c_uint32), c_size_t],
    "adsd_normal_from_sd": _BYTES + _OUT, "adsd_sd_from_normal": _BYTES + [c_uint8] + _OUT, "adsd_inherit": _BYTES * 3 + _OUT,
    "adsd_explicit": _BYTES + _OUT, "adsd_sid_from_text": _BYTES + _OUT, "adsd_sid_to_text": _BYTES + _OUT,
    "adsd_guid_from_text": _BYTES + _OUT, "adsd_guid_to_text": _BYTES + _OUT, "adsd_sd_from_sddl": _BYTES * 2 + _OUT,
    "adsd_sd_to_sddl": _BYTES + _OUT}
for _name, _shape in _SHAPES.items():
    _call = getattr(_LIBRARY, _name)
    _call.argtypes, _call.restype = _shape, c_uint32


def call(name: str) -> Any:
    return getattr(_LIBRARY, name)


def given(*parts: bytes) -> "list[Any]":
    """Each as a pointer and a number of bytes."""
    return [one for part in parts for one in (part, len(part))]


def answer(name: str, *arguments: Any, about: str = "") -> bytes:
    """The bytes that a call answers, in a buffer that is large enough at the second try. A fault names what it is
    about."""
    size, room = c_size_t(), 512
    while True:
        out = create_string_buffer(room)
        code = call(name)(*arguments, out, room, byref(size))
        if code == 0:
            return out.raw[: size.value]
        if code != 2:
            raise AdsdError(code, size.value, about)
        room = size.value
