"""What the program's `effective` says of a token at an object (docs/profile/listings.md)."""

from typing import Dict, FrozenSet, Tuple

from adsd_tools import lines
from adsd_tools.forms.rights import RIGHTS

# The rights on the object as a whole that `effective` speaks of.
ON_OBJECT = [code for code, bit in RIGHTS.items() if bit & 0xF01FF]
# A right that is granted: its kind, the name of what it is on, and its code; and all that are, then and now.
Right = Tuple[str, str, str]
Rights = FrozenSet[Right]
Pair = Tuple[Rights, Rights]
# What a line is about, and the validAccesses of the rights that are of this kind.
KINDS: Dict[str, Tuple[int, ...]] = {"attribute": (), "set": (48,), "right": (256,), "validated": (8,)}


def rights_of(said: bytes) -> Rights:
    """All that an answer grants, as triples of kind, name and code."""
    return frozenset((one.kind, one.name, code) for one in lines.effective(said) for code in one.codes)
