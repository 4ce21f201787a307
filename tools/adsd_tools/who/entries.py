"""What decides, spelled out: the owner, a privilege, or the entry of a place of a list, as the text of it."""

from adsd_tools import lines
from adsd_tools.forms.descriptor import KIND_WORDS
from adsd_tools.forms.sids import text_of_guid, text_of_sid
from adsd_tools.rows import store
from adsd_tools.shown import shown


class Changed(Exception):
    """What the program says isn't so of the rows that were read, with what it is."""

    def __init__(self, what):
        super().__init__(f"the store changed meanwhile, or the program isn't of this release: {what}")


def sddl(line, entry, schema):
    """The text of an entry in SDDL, by the line that `list` has of it. Its types are told there by name, so their GUIDs
    are those of the store's row, if they have these names; a name may have blanks."""
    kind, sid, rights, *told, flags, origin = line.split(" ")
    types = [schema.type_name(guid) if guid else "-" for guid in (entry.object, entry.inherited)]
    row = KIND_WORDS[entry.kind], text_of_sid(entry.sid), shown(" ".join(types))
    if row != (kind, sid, shown(" ".join(told))):
        raise Changed(f"its row hasn't the entry {line}")
    guids = [text_of_guid(guid) if guid else "" for guid in (entry.object, entry.inherited)]
    letters = ("O" if any(guids) else "") + ("A" if kind == "allow" else "D")
    flags = ("" if flags == "-" else flags) + ("ID" if origin == "inherited" else "")
    return f"({letters};{flags};{rights};{guids[0]};{guids[1]};{sid})"


class Entries:
    """The entries of the objects of a store, asked once for each descriptor."""

    def __init__(self, ask, accounts, names):
        self.ask, self.schema, self.objects, self.names = ask, accounts.schema, accounts.directory.objects, names
        self.kept = {}

    def told(self, number):
        """The owner of an object, and pairs of the line and the text of each entry of its DACL."""
        normal = self.objects[number].normal
        if normal not in self.kept:
            listing = lines.listed(self.ask("list", self.names[number]))
            entries = store.descriptor_of(normal).dacl.entries
            if shown(listing.name) != self.names[number] or len(listing.entries()) != len(entries):
                raise Changed(f"{listing.name} has {len(listing.entries())} entries")
            texts = [(line, sddl(line, entry, self.schema)) for line, entry in zip(listing.entries(), entries)]
            self.kept[normal] = listing.owner, texts
        return self.kept[normal]

    def decides(self, word, number):
        """What a first word of an answer says: by what; of an entry its place, its text and the line of `list`, and else who
        owns the object. Where it is the parent's, its name stands beside it; where nothing is needed, it is by nothing."""
        if word.startswith("parent:"):
            above = self.objects[number].parent
            return {**self.decides(word[len("parent:"):], above), "parent": self.names[above]}
        if word == "-":
            return {"by": "nothing"}
        owner, texts = self.told(number)
        if not word.isdigit():
            return {"by": word, "owner": owner} if word == "owner" else {"by": word}
        if not 0 < int(word) <= len(texts):
            raise Changed(f"{self.names[number]} has no entry {word}")
        line, text = texts[int(word) - 1]
        return {"by": "entry", "place": int(word), "entry": text, "line": line}
