"""The access check, and which entry decides."""

import struct
from ctypes import byref, c_uint32
from dataclasses import dataclass
from typing import Any, Dict, List, Optional, Sequence, Tuple

from . import _arguments as arguments
from ._library import AdsdError, TypeNode, answer, call, given
from .descriptors import Descriptor
from .ids import GuidLike, SidLike, guid_of, sid_if
from .tokens import Token

_ALL = 0x10000000
# As many GUIDs as a path has at most (adsd.h), and what a code of the library is about.
_PATH, _TOO_LONG = 3, 11
_ABOUT = {3: "sd", 5: "token", 6: "own", 7: "path", 8: "nodes", 12: "sd"}
# A descriptor that grants all that can be asked for to a token.
_SYSTEM = Token("S-1-5-18", privileges=["security"])
_OPEN = Descriptor.from_sddl("O:SYG:SYD:(A;;0x0fffffff;;;SY)")


def map_rights(mask: int) -> int:
    """The mask with each generic right replaced by the rights that it stands for in a directory.

    >>> hex(map_rights(0x80000000))
    '0x20094'
    """
    return check(_OPEN, _SYSTEM, arguments.mask(mask, "mask"))


def _told(code: int) -> None:
    if code:
        raise AdsdError(code, argument=_ABOUT.get(code, ""))


def _asked(sd: Descriptor, token: Token, desired: int, own: Optional[SidLike]) -> "Tuple[bytes, bytes, bytes, int]":
    """What each check is given, looked at: the descriptor's bytes and its normal ones are there, the others fit."""
    arguments.kind(sd, "sd", Descriptor)
    arguments.kind(token, "token", Token)
    wanted, owned = arguments.mask(desired, "desired"), sid_if(own, "own")
    try:
        return sd.normal(), token.to_bytes(), owned, wanted
    except AdsdError as fault:
        raise AdsdError(fault.code, argument="sd") from None


def _path_of(path: Sequence[GuidLike]) -> bytes:
    return b"".join(arguments.pieces(path, "path", guid_of, _PATH))


def check(sd: Descriptor, token: Token, desired: int, path: Sequence[GuidLike] = (), own: Optional[SidLike] = None) -> int:
    """The rights of `desired`, after generic mapping, that the descriptor grants to the token.

    The path is none to three GUIDs, from the object's class down: for an attribute the class, its property set where it
    is in one, and itself. `own` is the identifier that the object has of its own: entries for S-1-5-10 are for it.

    >>> sd = Descriptor.from_sddl("O:BAG:BAD:(OA;;WP;bf9679c0-0de6-11d0-a285-00aa003049e2;;AU)")
    >>> ann = Token("S-1-5-21-1-2-3-1001", groups=["S-1-5-11"])
    >>> check(sd, ann, 0x20)
    0
    >>> check(sd, ann, 0x20, path=["bf967aba-0de6-11d0-a285-00aa003049e2", "bf9679c0-0de6-11d0-a285-00aa003049e2"])
    32
    """
    *asked, wanted = _asked(sd, token, desired, own)
    return _granted(asked, _path_of(path), wanted)


def _granted(asked: Sequence[bytes], path: bytes, wanted: int) -> int:
    """What the library grants, of bytes that were looked at."""
    mask = c_uint32()
    _told(call("adsd_granted_normal")(*given(*asked, path), wanted, byref(mask)))
    return mask.value


def _node(value: Any, name: str) -> Tuple[int, bytes]:
    level, guid = arguments.row(value, name, "a level and a GUID", 2)
    return arguments.number(level, f"{name}, level", arguments.MASK), guid_of(guid, f"{name}, GUID")


def check_tree(sd: Descriptor, token: Token, desired: int, nodes: Sequence[Tuple[int, GuidLike]],
               own: Optional[SidLike] = None) -> List[int]:
    """The rights of `desired` that are granted at each node of a tree of object types. A node is its level and its GUID; the
    first one alone has level 0. A leaf has what `check` answers on the GUIDs from the root down to it, and any other
    node what all its children have.

    >>> sd = Descriptor.from_sddl("O:BAG:BAD:(OA;;RP;bf9679c0-0de6-11d0-a285-00aa003049e2;;AU)")
    >>> ann = Token("S-1-5-21-1-2-3-1001", groups=["S-1-5-11"])
    >>> user, member, other = (f"bf967{x}-0de6-11d0-a285-00aa003049e2" for x in ("aba", "9c0", "9c1"))
    >>> check_tree(sd, ann, 0x10, [(0, user), (1, member), (1, other)])
    [0, 16, 0]
    """
    _, caller, owned, wanted = _asked(sd, token, desired, own)
    found = arguments.pieces(nodes, "nodes", _node)
    given_nodes, masks = (TypeNode * max(1, len(found)))(), (c_uint32 * max(1, len(found)))()
    for made, (level, guid) in zip(given_nodes, found):
        made.level, made.guid[:] = level, guid
    count = len(found)
    _told(call("adsd_check_tree")(*given(sd.to_bytes(), caller, owned), given_nodes, count, wanted, masks, count))
    return list(masks[:count])


@dataclass(frozen=True)
class Reason:
    """Why a right is granted or not: by `entry`, the place of an entry of the discretionary list, from 0 on. It is None where
    no entry decides: the right is then had as the owner or by a privilege, or not at all."""

    granted: bool
    entry: Optional[int]


def _entries(sd: Descriptor) -> Tuple[bytes, List[bytes]]:
    """A descriptor's canonical bytes up to its discretionary list, which stands last, and the list's entries."""
    whole = answer("adsd_sd_from_normal", *given(sd.normal()), 7)
    at = struct.unpack_from("<I", whole, 16)[0]
    count, made, place = struct.unpack_from("<H", whole, at + 4)[0], [], at + 8
    for _ in range(count):
        size = struct.unpack_from("<H", whole, place + 2)[0]
        made.append(whole[place : place + size])
        place += size
    return whole[:at], made


def _with_entries(front: bytes, entries: Sequence[bytes]) -> Descriptor:
    body = b"".join(entries)
    if 8 + len(body) > 0xFFFF:
        raise AdsdError(_TOO_LONG, argument="sd")
    return Descriptor(front + struct.pack("<BBHHH", 4, 0, 8 + len(body), len(entries), 0) + body)


def _allow(sid: bytes) -> bytes:
    return struct.pack("<BBHI", 0, 0, 8 + len(sid), _ALL) + sid


def explain(sd: Descriptor, token: Token, desired: int, path: Sequence[GuidLike] = (),
            own: Optional[SidLike] = None) -> Dict[int, Reason]:
    """For each right of `desired`, after generic mapping, whether it is granted, and which entry decides.

    >>> sd = Descriptor.from_sddl("O:BAG:BAD:(D;;WP;;;AU)(A;;RPWP;;;AU)")
    >>> ann = Token("S-1-5-21-1-2-3-1001", groups=["S-1-5-11"])
    >>> explain(sd, ann, 0x30)
    {16: Reason(granted=True, entry=1), 32: Reason(granted=False, entry=0)}

    The library doesn't tell this. It is found by asking it again and again, of the first entries of the list, with and
    without an entry behind them that allows everything: a right is granted by the last entry without which it isn't,
    and denied by the first one behind which such an entry doesn't help. So each single answer is a proved one, and that
    they are put together rightly is not. It costs as many checks as there are entries, twice.
    """
    _, caller, owned, asked = _asked(sd, token, desired, own)
    guids, (front, entries) = _path_of(path), _entries(sd)
    probe = [_allow(token.user)] + [_allow(sid) for sid in token.restricting[:1]]
    wanted = map_rights(asked)

    def granted(some: Sequence[bytes]) -> int:
        return _granted([_with_entries(front, some).normal(), caller, owned], guids, asked)

    has = [granted(entries[:k]) for k in range(len(entries) + 1)]
    may = [granted(entries[:k] + probe) for k in range(len(entries) + 1)]
    found = {}
    for bit in (1 << n for n in range(32)):
        if wanted & bit and has[-1] & bit:
            lacking = [k for k in range(len(has)) if not has[k] & bit]
            found[bit] = Reason(True, lacking[-1] if lacking else None)
        elif wanted & bit:
            denying = [k for k in range(1, len(may)) if may[k - 1] & bit and not may[k] & bit]
            found[bit] = Reason(False, denying[0] - 1 if denying else None)
    return found
