"""What loading makes of an object's list below its parent's: by the proved library where it is there, which is what
`adsd load` itself goes by, else by the same rules in Python."""

import tempfile
from typing import List, Optional

from adsd_tools.forms.descriptor import INHERITED, Acl, Descriptor, Entry, Unreadable, written
from adsd_tools.forms.descriptor import read as read_bytes
from adsd_tools.forms.inheriting import copies
from adsd_tools.forms.sids import NOBODY
from adsd_tools.report.library import Calls, Missing, open_library


class Loading:
    """Opens the library when it is first asked for a list that inherits something."""

    calls: Optional[Calls] = None
    is_looked_for = False

    @classmethod
    def library(cls) -> Optional[Calls]:
        """The calls of the library; None where it isn't there."""
        if not cls.is_looked_for:
            cls.is_looked_for = True
            with tempfile.TemporaryDirectory(prefix="adsd-import-") as place:
                try:
                    open_library(place)
                    cls.calls = Calls()
                except (Missing, OSError):
                    cls.calls = None
        return cls.calls


def plain(own: Acl, parent: List[Entry], of_class: bytes, owner: bytes, group: bytes) -> List[Entry]:
    """The list of an object with an own list, an owner and a group, below a list of its parent."""
    made = [entry for entry in own.entries if not entry.flags & INHERITED]
    if not own.protected:
        for entry in parent:
            made += copies(entry, of_class, owner, group)
    return made


def proved(calls: Calls, own: Acl, parent: List[Entry], of_class: bytes, owner: bytes,
           group: bytes) -> Optional[List[Entry]]:
    """The same by the library; None where it has no answer, as where a list is longer than one can be."""
    try:
        above = written(Descriptor(NOBODY, NOBODY, Acl(parent), None))
        made, lost = read_bytes(calls.inherited(above, written(Descriptor(owner, group, own, None)), of_class))
    except (calls.error, Unreadable):
        return None
    return made.dacl.entries if made.dacl is not None and not lost else None


def whole(own: Acl, parent: List[Entry], of_class: bytes, owner: bytes, group: bytes) -> List[Entry]:
    """The list that loading makes."""
    calls = Loading.library() if parent and not own.protected and len(of_class) == 16 else None
    found = proved(calls, own, parent, of_class, owner, group) if calls is not None else None
    return plain(own, parent, of_class, owner, group) if found is None else found
