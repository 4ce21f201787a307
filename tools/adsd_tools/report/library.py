"""The proved library: where it is, and its calls over normal bytes.

Every right that the explorer tells, and every list that it says is inherited, is an answer of these calls or of the
program. The package `adsd` (python/adsd) opens the library and names the calls; what is asked very often goes here
straight to the call."""

import os
import subprocess
import sys
from ctypes import byref, c_uint32
from typing import Any, List, Optional, Sequence, Tuple

from adsd_tools.run import TOP

NAME = "libadsd.so.1"
ALL_PARTS = 15
ALLOW_ALL = 0x10000000


class Missing(Exception):
    """There is no library, with why."""


def found(place: str) -> str:
    """The path of the shared library: the one that ADSD_LIBRARY names, the installed one, or that of the release or of
    what was built here, which comes into `place`."""
    given = os.environ.get("ADSD_LIBRARY")
    if given:
        return given
    installed = os.path.join(os.path.dirname(TOP), NAME)
    if os.path.exists(installed):
        return installed
    maker = os.path.join(TOP, "tools", "library")
    if not os.path.exists(maker):
        raise Missing(f"{installed} isn't there; ADSD_LIBRARY may name the proved library")
    done = subprocess.run([maker, place], stdin=subprocess.DEVNULL, capture_output=True, text=True)
    if done.returncode:
        said = (done.stderr or done.stdout).strip().splitlines()
        raise Missing(f"tools/library ended with {done.returncode}: {said[-1] if said else ''}")
    return os.path.join(place, "lib", NAME)


def open_library(place: str) -> None:
    """Makes the package `adsd` ready to be imported, over the library that is found; `place` is a folder of its own."""
    os.makedirs(place, exist_ok=True)
    os.environ["ADSD_LIBRARY"] = found(place)
    sys.path.insert(0, os.path.join(TOP, "python"))
    try:
        import adsd  # noqa: F401
    except (OSError, ImportError) as fault:
        raise Missing(str(fault)) from None


class Calls:
    """The calls over normal bytes. To be made once the library is open."""

    def __init__(self) -> None:
        from adsd import _library
        self.error, self.answer, self.given = _library.AdsdError, _library.answer, _library.given
        self.normal, self.tree, self.node = (_library.call("adsd_granted_normal"), _library.call("adsd_check_tree"),
                                             _library.TypeNode)

    def granted(self, normal: bytes, token: bytes, own: bytes, path: bytes, want: int) -> int:
        """The rights of `want` that a descriptor grants to a token's bytes on a path of GUIDs, joined."""
        mask = c_uint32()
        code = self.normal(normal, len(normal), token, len(token), own, len(own), path, len(path), want, byref(mask))
        if code:
            raise self.error(code)
        return mask.value

    def granted_tree(self, sd: bytes, token: bytes, own: bytes, nodes: Any, want: int) -> List[int]:
        """The rights of `want` at each node of a tree that `nodes` made."""
        masks = (c_uint32 * len(nodes))()
        code = self.tree(sd, len(sd), token, len(token), own, len(own), nodes, len(nodes), want, masks, len(nodes))
        if code:
            raise self.error(code)
        return list(masks)

    def nodes(self, pairs: Sequence[Tuple[int, bytes]]) -> Any:
        """The nodes of pairs of level and GUID, as `granted_tree` takes them."""
        made: Any = (self.node * len(pairs))()
        for one, (level, guid) in zip(made, pairs):
            one.level, one.guid[:] = level, guid
        return made

    def sd(self, normal: bytes) -> bytes:
        """The self-relative bytes of a descriptor in normal bytes."""
        return self.answer("adsd_sd_from_normal", *self.given(normal), ALL_PARTS)

    def normal_of(self, sd: bytes) -> bytes:
        return self.answer("adsd_normal_from_sd", *self.given(sd))

    def inherited(self, parent: bytes, own: bytes, guid: bytes) -> bytes:
        """The self-relative bytes of an object of a class below a parent."""
        return self.answer("adsd_inherit", *self.given(parent, own, guid))

    def explicit(self, sd: bytes) -> bytes:
        return self.answer("adsd_explicit", *self.given(sd))

    def sddl(self, sd: bytes) -> str:
        return self.answer("adsd_sd_to_sddl", *self.given(sd)).decode("ascii")

    def of_sddl(self, text: str, domain: Optional[bytes]) -> bytes:
        """The self-relative bytes of a text; AdsdError with the place where it goes wrong."""
        return self.answer("adsd_sd_from_sddl", *self.given(text.encode("utf-8", "surrogatepass"), domain or b""))
