"""What the schema of a directory says of types (docs/profile/schema.md): names of GUIDs, paths, allowed attributes."""

import re
from dataclasses import dataclass
from typing import Iterator, Optional

from adsd_tools.forms.sids import guid_of_text, text_of_guid
from adsd_tools.shown import text_of

ATTRIBUTE, CLASS, RIGHT = 0, 1, 2
CONFIDENTIAL = 0x80
MAY_HAVE = ("mustContain", "mayContain", "systemMustContain", "systemMayContain")
# Attributes that nobody reads, whatever is granted (docs/profile/search.md).
UNREAD = {"unicodepwd", "ntsecuritydescriptor", "allowedattributeseffective", "allowedchildclasseseffective",
          "sdrightseffective"}


@dataclass
class Lines:
    """A record of the schema: its lines by name in lower case."""

    told: dict[str, list[bytes]]

    def text(self, name: str, other: str = "") -> str:
        found = self.told.get(name.lower())
        return text_of(found[0]) if found else other

    def guid(self, name: str) -> Optional[bytes]:
        found = self.told.get(name.lower())
        return bytes(found[0]) if found else None

    def its_guid(self) -> bytes:
        """The GUID of a class or an attribute, which each has in a store."""
        return self.guid("schemaIDGUID") or b""

    def number(self, name: str) -> int:
        return int(self.text(name, "0"))

    def many(self, *names: str) -> list[str]:
        return [value.decode("utf-8", "replace").lower() for name in names for value in self.told.get(name.lower(), [])]


def lines_of(pairs: list[tuple[bytes, bytes]]) -> Lines:
    told: dict[str, list[bytes]] = {}
    for name, value in pairs:
        told.setdefault(name.decode("latin-1").lower(), []).append(value)
    return Lines(told)


# What a line names a right by, where its cn is that: a word of printable characters of ASCII.
TITLE = re.compile("[!-~]+")


def title_of(right: Lines) -> str:
    """How a line names a right (docs/profile/listings.md#list): by its cn where that is a word, else by its GUID."""
    name, guid = right.text("cn"), guid_of_text(right.text("rightsGuid"))
    return name if guid is None or name != "-" and TITLE.fullmatch(name) else text_of_guid(guid)


class Schema:
    """Attributes, classes and rights by their places, and what they are called."""

    def __init__(self, records: list[tuple[int, list[tuple[bytes, bytes]]]]) -> None:
        kinds: dict[int, list[Lines]] = {ATTRIBUTE: [], CLASS: [], RIGHT: []}
        for kind, pairs in records:
            kinds[kind].append(lines_of(pairs))
        self.attributes, self.classes, self.rights = kinds[ATTRIBUTE], kinds[CLASS], kinds[RIGHT]
        self.attribute_names = [one.text("lDAPDisplayName") for one in self.attributes]
        self.class_names = [one.text("lDAPDisplayName") for one in self.classes]
        self.of_attribute = {name.lower(): at for at, name in enumerate(self.attribute_names)}
        self.of_class = {name.lower(): at for at, name in enumerate(self.class_names)}
        self.right_guids = [guid_of_text(one.text("rightsGuid")) for one in self.rights]
        self.right_titles = [title_of(one) for one in self.rights]
        self.shown: dict[Optional[bytes], str] = {}
        for guid, name in self.all_types():
            self.shown.setdefault(guid, name)
        self.kept: dict[int, list[int]] = {}

    def all_types(self) -> Iterator[tuple[Optional[bytes], str]]:
        """Pairs of GUID and name: classes, then attributes, then rights, as a list shows them."""
        yield from ((one.guid("schemaIDGUID"), name) for one, name in zip(self.classes, self.class_names))
        yield from ((one.guid("schemaIDGUID"), name) for one, name in zip(self.attributes, self.attribute_names))
        yield from zip(self.right_guids, self.right_titles)

    def type_name(self, guid: bytes) -> str:
        return self.shown.get(guid) or text_of_guid(guid)

    def class_guid(self, of_class: int) -> bytes:
        return self.classes[of_class].its_guid()

    def chain(self, of_class: int) -> list[int]:
        made = []
        while of_class not in made:
            made.append(of_class)
            of_class = self.of_class[self.classes[of_class].text("subClassOf").lower()]
        return made

    def naming(self, of_class: int) -> str:
        """The type of the names of a class, in upper case."""
        told = [self.classes[one].text("rDNAttID") for one in self.chain(of_class)]
        return next((name for name in told if name), "cn").upper()

    def allowed(self, of_class: int) -> list[int]:
        """The places of the attributes that a class allows, rising."""
        if of_class not in self.kept:
            classes, todo = set(), [of_class]
            while todo:
                one = todo.pop()
                if one not in classes:
                    classes.add(one)
                    lines = self.classes[one]
                    above = lines.many("subClassOf", "auxiliaryClass", "systemAuxiliaryClass")
                    todo += [self.of_class[name] for name in above]
            names = {self.naming(of_class).lower()}
            for one in classes:
                names.update(self.classes[one].many(*MAY_HAVE))
            self.kept[of_class] = sorted(self.of_attribute[name] for name in names)
        return self.kept[of_class]

    def allowed_names(self, of_class: int) -> list[str]:
        return [self.attribute_names[at] for at in self.allowed(of_class)]

    def attribute_path(self, of_class: int, name: str) -> list[bytes]:
        """The path of an attribute: class, property set where it has one, attribute."""
        one = self.attributes[self.of_attribute[name.lower()]]
        of_set = one.guid("attributeSecurityGUID")
        return [self.class_guid(of_class), *([of_set] if of_set else []), one.its_guid()]

    def in_set(self, of_class: int, guid: bytes) -> list[str]:
        """The names of the allowed attributes that are in a property set."""
        return [self.attribute_names[at] for at in self.allowed(of_class)
                if self.attributes[at].guid("attributeSecurityGUID") == guid]

    def is_confidential(self, name: str) -> bool:
        return bool(self.attributes[self.of_attribute[name.lower()]].number("searchFlags") & CONFIDENTIAL)

    def is_unread(self, name: str) -> bool:
        return name.lower() in UNREAD

    def reads_by_control(self, name: str) -> bool:
        """Whether an attribute is read by those alone who have control access besides."""
        return self.is_confidential(name) and not self.is_unread(name)

    def right_guid(self, name: str, kinds: tuple[int, ...]) -> list[bytes]:
        """The GUIDs of the rights that a line names so and whose validAccesses is one of some numbers."""
        return [guid for guid, one, title in zip(self.right_guids, self.rights, self.right_titles)
                if guid is not None and title == name and one.number("validAccesses") in kinds]
