"""What identifiers and rights are called on the page."""

from typing import Dict, List, Optional, Set

from adsd_tools.forms.known import OF_DOMAIN, WELL_KNOWN
from adsd_tools.forms.sids import below, known_sid, text_of_sid
from adsd_tools.shown import brief

from .state import State

CODES = {
    "CC": "create child", "DC": "delete child", "LC": "list children", "SW": "self write", "RP": "read property",
    "WP": "write property", "DT": "delete tree", "LO": "list object", "CR": "control access", "SD": "delete",
    "RC": "read control", "WD": "write the list", "WO": "write owner", "GA": "all", "GX": "generic execute",
    "GW": "generic write", "GR": "generic read",
}


class Principals:
    """The identifiers of a directory: which object has one, who belongs to it, and what it is called."""

    def __init__(self, state: State) -> None:
        self.state = state
        self.of_sid: Dict[bytes, int] = {}
        self.by_primary: Optional[Dict[Optional[bytes], Set[int]]] = None
        for number in state.objects:
            sid = state.own_sid(number)
            if sid is not None:
                self.of_sid.setdefault(bytes(sid), number)
        self.domain = state.own_sid(1)
        self.of_domain = {below(self.domain, rid): name for rid, name in OF_DOMAIN.items()} if self.domain else {}
        self.used: Dict[bytes, None] = {}

    def name(self, sid: bytes) -> str:
        """What an identifier is called: the object that has it, or its well-known name; its text where it has none."""
        self.used.setdefault(bytes(sid), None)
        number, text = self.of_sid.get(bytes(sid)), text_of_sid(sid)
        if number is not None and self.state.objects[number].naming.decode("utf-8", "replace") != text:
            return brief(self.state.objects[number].naming, 80)
        return WELL_KNOWN.get(text) or self.of_domain.get(bytes(sid)) or text

    def members(self, sid: bytes) -> List[int]:
        """The numbers of the objects that belong to an object of this identifier, by member and by primary group."""
        number = self.of_sid.get(bytes(sid))
        if number is None:
            return []
        made: Set[int] = set()
        todo = [number]
        while todo:
            one = todo.pop()
            found = self.direct(one) - made
            made |= found
            todo += found
        return sorted(made - {number})

    def primaries(self) -> Dict[Optional[bytes], Set[int]]:
        """The objects whose primary group one is, by its identifier."""
        made: Dict[Optional[bytes], Set[int]] = {}
        for one in self.state.objects:
            value = self.state.value(one, "primaryGroupID")
            if value is not None and self.domain is not None and value.isdigit():
                made.setdefault(below(self.domain, int(value)), set()).add(one)
        return made

    def direct(self, number: int) -> Set[int]:
        if self.by_primary is None:
            self.by_primary = self.primaries()
        sid = self.state.own_sid(number)
        links = {int.from_bytes(value, "big") for value in self.state.values(number, "member") if len(value) == 4}
        return {one for one in links if one in self.state.objects} | self.by_primary.get(sid, set())


SELF = known_sid("S-1-5-10")
