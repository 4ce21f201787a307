"""A descriptor in words: who, what, on what, for whom below, and where an inherited entry comes from."""

from adsd_tools.forms.descriptor import INHERITED
from adsd_tools.forms.rights import RIGHTS
from adsd_tools.forms.sids import CREATOR_GROUP, CREATOR_OWNER, OWNER_RIGHTS, text_of_guid
from adsd_tools.report.names import CODES

from .answers import SELF
from .texts import told
from .trying import Lists

CI, NP, IO, SUCCESS, FAILURE = 0x02, 0x04, 0x08, 0x40, 0x80
DACL_ALONE = 4
FULL = {0xF01FF: "everything", RIGHTS["GA"]: "everything"}
NOTES = {SELF: "the object itself (SELF)",
         OWNER_RIGHTS: "owner rights: the owner has these instead of reading and writing the list",
         CREATOR_OWNER: "on each object below: its owner", CREATOR_GROUP: "on each object below: its group"}
OF_TYPE = {48: "property set", 256: "extended right", 8: "validated write"}


class Describing:
    """Writes descriptors in words."""

    def __init__(self, world):
        self.world, self.lists, self.sources = world, Lists(world), {}
        self.types = self.all_types()

    def all_types(self):
        """What each GUID of the schema is: its kind and its name, by the first that has it, as `list` shows it."""
        schema, made = self.world.schema, {}
        for kind, ones, names in (("class", schema.classes, schema.class_names),
                                  ("attribute", schema.attributes, schema.attribute_names)):
            for one, name in zip(ones, names):
                made.setdefault(one.guid("schemaIDGUID"), (kind, told(name, 200)))
        for guid, one in zip(schema.right_guids, schema.rights):
            made.setdefault(guid, (OF_TYPE.get(one.number("validAccesses"), "right"), told(one.text("cn"), 200)))
        return made

    def rights(self, mask):
        """The rights of a mask as pairs of code and words."""
        if mask in FULL:
            return [["GA" if mask == RIGHTS["GA"] else "all", FULL[mask]]]
        made = [[code, CODES[code]] for code, bit in RIGHTS.items() if mask & bit]
        left = mask & ~sum(RIGHTS.values())
        return made + ([[f"0x{left:x}", "unnamed bits"]] if left else [])

    def target(self, guid):
        """On what an entry is, in words; nothing where it is on the object as a whole."""
        if guid is None:
            return ""
        kind, name = self.types.get(guid, ("type", text_of_guid(guid)))
        return f"children of class {name}" if kind == "class" else f"{kind} {name}"

    def applies(self, one):
        """Which objects an entry is about."""
        of = self.types.get(one.inherited, ("", text_of_guid(one.inherited)))[1] if one.inherited else ""
        what = f"{of} objects" if of else "objects"
        if not one.flags & CI:
            return "this object" if not one.flags & IO else "no object"
        below = f"the {what} right below it" if one.flags & NP else f"all {what} below it"
        return below if one.flags & IO else f"this object and {below}"

    def entry(self, place, one, text):
        """An entry in words."""
        made = {"place": place, "kind": one.word, "who": self.world.principal(one.sid), "rights": self.rights(one.mask),
                "on": self.target(one.object), "applies": self.applies(one), "text": text,
                "inherited": bool(one.flags & INHERITED), "note": NOTES.get(one.sid, "")}
        if one.word == "audit":
            made["audits"] = [word for bit, word in ((SUCCESS, "granted"), (FAILURE, "refused")) if one.flags & bit]
        return made

    def descriptor(self, number, moment):
        """The descriptor of an object at a moment."""
        normal, known = moment.normal(number), self.world.known
        parts, own_texts = known.of(normal), self.lists.dacl(normal)
        entries = [self.entry(place, one, text)
                   for place, (one, text) in enumerate(zip(known.list_of(normal), own_texts))]
        for made, one in zip(entries, known.list_of(normal)):
            if made["inherited"]:
                made["from"] = self.source(number, one.data, moment)
        system = [self.entry(place, one, "") for place, one in enumerate(known.system_list_of(normal))]
        return {"owner": self.world.principal(parts.owner), "group": self.world.principal(parts.group),
                "protected": bool(parts.marks & 1), "entries": entries, "system": system,
                "system_protected": bool(parts.marks & 2)}

    def source(self, number, data, moment):
        """The object of whose own list an inherited entry comes; None where nothing above passes it down now."""
        while number != 1:
            parent = self.world.objects[number].parent
            given = self.giver(number, data, moment)
            if given is None:
                return None
            if not self.world.known.entry(given).flags & INHERITED:
                return {"n": parent, "name": self.world.label(parent)}
            number, data = parent, given
        return None

    def giver(self, number, data, moment):
        """The entry of the parent's list that the library passes down as one of a child's; its own ones first."""
        one, normal = self.world.objects[number], moment.normal(number)
        above = moment.normal(one.parent)
        key = (above, normal, one.of_class, data)
        if key not in self.sources:
            entries = sorted(self.world.known.of(above).dacl, key=lambda entry: entry[1] & INHERITED)
            self.sources[key] = next((entry for entry in entries
                                      if data in self.passed(above, normal, one.of_class, entry)), None)
        return self.sources[key]

    def passed(self, above, normal, of_class, entry):
        """What the library passes of one entry of a parent's list to a child with this descriptor."""
        key = (entry, of_class, self.world.known.of(normal).owner, self.world.known.of(normal).group)
        if key not in self.sources:
            calls, known = self.world.calls, self.world.known
            parent = calls.sd(known.of(above).normal((entry,)))
            child = known.of(normal)
            bare = bytes([0]) + child.owner + child.group + bytes(16)
            made = calls.normal_of(calls.inherited(parent, calls.sd(bare), self.world.schema.class_guid(of_class)))
            self.sources[key] = frozenset(known.of(made).dacl)
        return self.sources[key]
