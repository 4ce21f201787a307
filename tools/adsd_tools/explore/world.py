"""A store as it was copied: objects, names, the tree, principals and tokens; and moments of it in a what-if."""

from functools import cached_property

from adsd_tools.forms.names import value_text
from adsd_tools.forms.sids import text_of_sid
from adsd_tools.report.names import Principals
from adsd_tools.report.normals import Known
from adsd_tools.report.state import State
from adsd_tools.rows import store

from . import tokens
from .texts import told


class Named(Principals):
    """The principals, and what an identifier is called as the page has it."""

    def name(self, sid):
        number, text = self.of_sid.get(bytes(sid)), text_of_sid(sid)
        naming = b"" if number is None else self.state.objects[number].naming
        if number is not None and naming.decode("utf-8", "replace") != text:
            return told(naming, 80)
        return super().name(sid)


class World(State):
    """What is read of the copy's rows. Which descriptors are stale is asked of the proved library, by inheritance."""

    def __init__(self, path, calls):
        self.calls, self.known, self.scratched, self.sds = calls, Known(), {}, {}
        # Each descriptor once, and of each object the bytes of its row in front of its own.
        self.kept, self.fronts, self.owns = {}, {}, {}
        self.over(self.interned(path))
        self.who = Named(self)

    def interned(self, path):
        """The directory, with equal descriptors kept once."""
        made = store.read(path)
        for number, one in made.objects.items():
            one.normal = self.kept.setdefault(one.normal, one.normal)
            self.fronts[number] = made.rows[number][: -len(one.normal)]
        made.rows = {}
        return made

    def normal_of(self, number, row):
        """The descriptor of a row that an object has got."""
        front = self.fronts[number]
        normal = row[len(front) :] if row.startswith(front) else store.object_of(number, row).normal
        return self.kept.setdefault(normal, normal)

    def find_stale(self):
        return self.stale_of(Moment(self, {}, self.queue, 0))

    def sd(self, normal):
        """The self-relative bytes of normal bytes."""
        if normal not in self.sds:
            self.sds[normal] = self.calls.sd(normal)
        return self.sds[normal]

    def scratch(self, above, normal, of_class):
        """The descriptor that the library makes of one and its parent's from the root, in normal bytes; the root's has
        no parent."""
        key = (above, normal, of_class)
        if key not in self.scratched:
            own = self.sd(normal)
            made = self.calls.explicit(own) if above is None else self.calls.inherited(
                self.sd(above), own, self.schema.class_guid(of_class))
            self.scratched[key] = self.calls.normal_of(made)
        return self.scratched[key]

    def stale_of(self, moment):
        """The objects whose descriptor isn't the one that is computed anew from the root."""
        made, stale = {0: None}, set()
        for number in self.order:
            one, normal = self.objects[number], moment.normal(number)
            made[number] = self.scratch(made[one.parent], normal, one.of_class)
            if made[number] != normal:
                stale.add(number)
        return stale

    def label(self, number, most=80):
        """What an object is called in short: its naming value."""
        return told(self.objects[number].naming, most)

    def first_part(self, number):
        """The first part of a name, as the tree shows it; of the root its whole name."""
        if number == 1:
            return told(self.names[1], 400)
        one = self.objects[number]
        return told(self.schema.naming(one.of_class).encode() + b"=" + value_text(one.naming), 400)

    def dn(self, number):
        return told(self.names[number], 4000)

    def class_name(self, number):
        return told(self.schema.class_names[self.objects[number].of_class], 200)

    def above(self, number):
        """The objects above one, the root first."""
        made = []
        while self.objects[number].parent:
            number = self.objects[number].parent
            made.append(number)
        return made[::-1]

    def principal(self, sid):
        """An identifier in words: its text, what it is called, and the object that has it."""
        return {"sid": text_of_sid(sid), "name": self.who.name(sid), "n": self.who.of_sid.get(bytes(sid))}

    def own(self, number):
        """The identifier of an object as a check takes it."""
        if number not in self.owns:
            self.owns[number] = bytes(self.own_sid(number) or b"")
        return self.owns[number]

    @cached_property
    def accounts(self):
        return tokens.Accounts(self)

    @cached_property
    def found_by(self):
        """Pairs of a text and a number, by which an object is searched."""
        made = []
        for number, one in self.objects.items():
            login = (self.values(number, "sAMAccountName") or [b""])[0]
            texts = {one.naming.decode("utf-8", "replace").casefold(), login.decode("utf-8", "replace").casefold()}
            made.append((number, [text for text in texts if text]))
        return made

    def search(self, text, most):
        """The objects whose name begins with a text, and then those whose name has it; and whether there are more."""
        wanted, first, later = text.casefold(), [], []
        exact = self.by_dn.get(wanted)
        for number, texts in self.found_by if wanted else ():
            if any(one.startswith(wanted) for one in texts):
                first.append(number)
            elif any(wanted in one for one in texts):
                later.append(number)
        rank = {wanted: 0}
        first.sort(key=lambda number: rank.get(self.objects[number].naming.decode("utf-8", "replace").casefold(), 1))
        found = list(dict.fromkeys(([exact] if exact else []) + first + later))
        return found[:most], len(found) > most

    @cached_property
    def by_dn(self):
        return {text.decode("utf-8", "replace").casefold(): number for number, text in self.names.items()}


class Moment:
    """The world at a moment of a what-if: the descriptors that aren't those of the store, what is pending, and after
    how many steps this is."""

    def __init__(self, world, changed, queue, step):
        self.world, self.changed, self.queue, self.step = world, changed, queue, step

    def normal(self, number):
        found = self.changed.get(number)
        return self.world.objects[number].normal if found is None else found

    @cached_property
    def stale(self):
        return self.world.stale_of(self) if self.changed or self.step else self.world.stale

    @cached_property
    def places(self):
        """Of each pending parent its place in the queue and how many of its children are left."""
        children, made = self.world.children, {}
        for place, (parent, cursor) in enumerate(self.queue, 1):
            left = sum(child > cursor for child in children[parent]) if children[parent] else 0
            made.setdefault(parent, (place, left))
        return made
