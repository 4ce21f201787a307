"""The proved access check of Active Directory's rules, for Python.

>>> from adsd import Descriptor, Token, check
>>> sd = Descriptor.from_sddl("O:BAG:BAD:(A;;RPWP;;;AU)")
>>> ann = Token("S-1-5-21-1-2-3-1001", groups=["S-1-5-11"])
>>> hex(check(sd, ann, 0x70))
'0x30'

Answers come from the library `libadsd.so.1`, whose calls are proved; this package hands bytes over and names things.
`Store` asks the program `adsd` over a store.
"""

from ._library import AdsdError
from .access import Reason, check, check_tree, explain, map_rights
from .descriptors import Descriptor, inherit
from .ids import guid_bytes, guid_text, sid_bytes, sid_text
from .store import Entry, Result, Store
from .tokens import Token

__all__ = ["AdsdError", "Descriptor", "Entry", "Reason", "Result", "Store", "Token", "check", "check_tree", "explain", "guid_bytes",
           "guid_text", "inherit", "map_rights", "sid_bytes", "sid_text"]
