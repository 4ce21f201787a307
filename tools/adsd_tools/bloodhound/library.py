"""The proved library's answer to one question: what a descriptor grants to a token of one identifier."""

import ctypes
import os
import subprocess
import tempfile
from ctypes import POINTER, byref, c_char_p, c_size_t, c_uint32

from adsd_tools.run import TOP

# Where `make install` puts the program and the shared library, seen from the installed scripts.
PROGRAM, INSTALLED = os.path.join(TOP, "program"), os.path.join(os.path.dirname(TOP), "libadsd.so.1")
MAKES = os.path.join(TOP, "tools", "library")


class Missing(Exception):
    """There is no library, with why."""


def made():
    """The library of the release, or one linked of the archive that was built here, where the repository is there."""
    if not os.path.exists(MAKES):
        raise Missing("no libadsd.so.1: install it (make install), or name it by --library or ADSD_LIBRARY")
    with tempfile.TemporaryDirectory() as place:
        done = subprocess.run([MAKES, place], stdin=subprocess.DEVNULL, capture_output=True, text=True)
        if done.returncode:
            last = done.stderr.removesuffix("\n").rpartition("\n")[2]
            raise Missing(f"no libadsd.so.1: {last or 'tools/library failed'}")
        return ctypes.CDLL(os.path.join(place, "lib/libadsd.so.1"))


def opened(named):
    """The library that is named, else that of ADSD_LIBRARY, else what is installed, else one that is linked for now."""
    named = named or os.environ.get("ADSD_LIBRARY")
    try:
        if named:
            return ctypes.CDLL(named)
        for path in ([INSTALLED] if os.path.exists(PROGRAM) else []) + ["libadsd.so.1"]:
            try:
                return ctypes.CDLL(path)
            except OSError:
                continue
    except OSError as fault:
        raise Missing(str(fault)) from None
    return made()


class Library:
    """Checks by the library, on descriptors in the normal bytes that a store has."""

    def __init__(self, named=None):
        self.call = getattr(opened(named), "adsd_granted_normal", None)
        if self.call is None:
            raise Missing("the library has no adsd_granted_normal")
        self.call.argtypes = [c_char_p, c_size_t] * 4 + [c_uint32, POINTER(c_uint32)]
        self.call.restype = c_uint32
        self.count = 0

    def granted(self, normal, token, path, want):
        """Which rights of a mask a descriptor grants to a token on a path of GUIDs, of an object without an own identifier."""
        mask, guids = c_uint32(), b"".join(path)
        self.count += 1
        code = self.call(normal, len(normal), token, len(token), b"", 0, guids, len(guids), want, byref(mask))
        if code:
            raise Missing(f"the library answers {code} for a descriptor of the store")
        return mask.value


def token_of(sid, groups=()):
    """The token of an identifier, which is user, owner and primary group, with some groups and without privileges."""
    return bytes([2, 0]) + sid * 3 + len(groups).to_bytes(2, "big") + b"".join(b"\0" + group for group in groups) + bytes(2)
