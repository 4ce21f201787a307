"""A directory at one moment: names, the tree, which descriptors are stale, and what is pending
(docs/profile/propagation.md)."""

from typing import Dict, Iterator, List, Optional, Set, Tuple

from adsd_tools.forms.descriptor import INHERITED, Acl, Descriptor, Entry
from adsd_tools.forms.inheriting import copies
from adsd_tools.forms.sids import NOBODY, sid_at
from adsd_tools.rows import store
from adsd_tools.rows.schema import Schema
from adsd_tools.shown import shown

# The entries of the two lists of an object.
Both = Tuple[List[Entry], List[Entry]]
SETTINGS = ("configuration", "services", "windows nt", "directory service")


class State:
    """What is read of a store's rows, and what follows from it."""

    directory: store.Directory
    schema: Schema
    objects: Dict[int, store.Object]
    names: Dict[int, bytes]
    children: Dict[int, List[int]]
    order: List[int]
    parsed: Dict[bytes, Descriptor]
    queue: List[Tuple[int, int]]
    stale: Set[int]

    def __init__(self, path: str, kept: Optional["State"] = None, known: Optional[store.Directory] = None) -> None:
        """`kept` is a state from before, and `known` a directory that was read before, of both of which is taken what
        is the same."""
        self.over(store.read(path, kept.directory if kept else known), kept)

    def over(self, directory: store.Directory, kept: Optional["State"] = None) -> None:
        """Takes a directory that was read."""
        self.directory = directory
        self.schema = kept.schema if kept else Schema(self.directory.records)
        self.objects = self.directory.objects
        if kept and self.same_tree(kept):
            self.names, self.children, self.order = kept.names, kept.children, kept.order
        else:
            self.names = store.names_of(self.directory, self.schema.naming)
            self.children = {number: [] for number in self.objects}
            for number, one in self.objects.items():
                if one.parent:
                    self.children[one.parent].append(number)
            self.order = [number for number, _ in self.in_tree_order()]
        self.parsed = kept.parsed if kept else {}
        self.queue = self.directory.pending
        self.stale = self.find_stale()

    def same_tree(self, kept: "State") -> bool:
        """Whether the same objects have the same names as before."""
        same = self.directory.suffix == kept.directory.suffix and self.objects.keys() == kept.objects.keys()
        return same and all(
            one is before or (one.parent, one.of_class, one.naming) == (before.parent, before.of_class, before.naming)
            for one, before in zip(self.objects.values(), kept.objects.values()))

    def descriptor(self, number: int) -> Descriptor:
        normal = self.objects[number].normal
        if normal not in self.parsed:
            self.parsed[normal] = store.descriptor_of(normal)
        return self.parsed[normal]

    def value(self, number: int, name: str) -> Optional[bytes]:
        """The first value of an attribute of an object, or None."""
        found = self.values(number, name)
        return found[0] if found else None

    def values(self, number: int, name: str) -> List[bytes]:
        place = self.schema.of_attribute.get(name.lower())
        return [] if place is None else self.objects[number].values.get(place, [])

    def own_sid(self, number: int) -> Optional[bytes]:
        place = self.schema.of_attribute.get("objectsid")
        if place is None or self.schema.attributes[place].text("attributeSyntax") != "2.5.5.17":
            return None
        value = self.value(number, "objectSid")
        return None if value is None else sid_at(value, 0, len(value))

    def in_tree_order(self, number: int = 1, depth: int = 0) -> Iterator[Tuple[int, int]]:
        """Pairs of number and depth, each object before those below it."""
        todo = [(number, depth)]
        while todo:
            number, depth = todo.pop()
            yield number, depth
            todo += [(child, depth + 1) for child in reversed(self.children[number])]

    def passed(self, number: int, above: Both, of_parent: bool) -> Both:
        """The two lists of an object below two lists of its parent."""
        own = self.descriptor(number)
        guid = self.schema.class_guid(self.objects[number].of_class)

        def whole(acl: Acl, entries: List[Entry]) -> List[Entry]:
            kept = [entry for entry in acl.entries if not entry.flags & INHERITED]
            if of_parent and not acl.protected:
                kept += [one for entry in entries for one in copies(entry, guid, own.owner or NOBODY, own.group or NOBODY)]
            return kept

        return whole(own.dacl or Acl(), above[0]), whole(own.sacl or Acl(), above[1])

    def find_stale(self) -> Set[int]:
        """The objects whose descriptor isn't the one that is computed anew from the root."""
        made: Dict[int, Both] = {}
        stale: Set[int] = set()
        known: Dict[Tuple[bytes, int, int], Tuple[Both, bool]] = {}
        nothing: Both = ([], [])
        for number in self.order:
            one = self.objects[number]
            above = made.get(one.parent, nothing)
            key = (one.normal, one.of_class, id(above))
            if key not in known:
                own, lists = self.descriptor(number), self.passed(number, above, number != 1)
                known[key] = lists, ((own.dacl or Acl()).entries, (own.sacl or Acl()).entries) != lists
            made[number], is_stale = known[key]
            if is_stale:
                stale.add(number)
        return stale

    def left(self, parent: int, cursor: int) -> List[int]:
        """The children that a pending entry has still to go over."""
        return [child for child in self.children[parent] if child > cursor]

    def lists_objects(self) -> bool:
        """Whether list-object mode is on: the third character of dSHeuristics."""
        number = 1
        for name in SETTINGS:
            found = [child for child in self.children[number]
                     if self.objects[child].naming.decode("utf-8", "replace").casefold() == name]
            if not found:
                return False
            number = found[0]
        value = self.value(number, "dSHeuristics")
        return value is not None and value.decode("utf-8", "replace")[2:3] == "1"

    def found(self, name: str) -> Optional[int]:
        """The number of the object of a name, or None; names compare without regard to case."""
        return {text.decode("utf-8", "replace").casefold(): number for number, text in self.names.items()}.get(
            shown(name).casefold())

    def counts(self) -> Dict[str, int]:
        """The numbers that the program's `check` gives."""
        different = len({one.normal for one in self.objects.values()})
        return {"objects": len(self.objects), "pending": len(self.queue), "stale": len(self.stale),
                "descriptors": different}
