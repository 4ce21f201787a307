"""What a client asks of searches beyond what the program answers. All of it is made of what the program shows to the
client's own token, and so shows no more (docs/clients.md)."""

from dataclasses import replace

from . import (budgets, computed, contexts, extended_names, items, lists, messages, narrowing, paging, ranges, root_dse,
               schema_entries, scoped, searches, sorting, subschema)
from .heavy import HEAVY, beside
from .program import MESSAGE
from .rewriting import Rewriter
from .searches import Found, Refused
from .spelling import Speller
from .view import View, names_of, with_member_of

OWN = (paging.PAGED, sorting.SORT, lists.VIEW)
# Those that say what is found, and how it is written.
INNER = (scoped.SCOPED, extended_names.EXTENDED)
# What is made of several questions is asked again where the directory changes meanwhile: so often beside others, and
# then while they wait.
TRIES = 3
# A filter of so many bytes for the root DSE is tried beside.
MANY = 2000


def own_controls(search):
    """The controls that the bridge answers, by name, and the search without them."""
    known = [one for one in search.controls if one.name in OWN + INNER]
    if len({one.name for one in known}) < len(known):
        raise Refused(messages.PROTOCOL_ERROR, "a control that stands twice")
    for one in search.controls:
        if one.name in searches.NOT_HERE:
            raise Refused(messages.CRITICAL, f"{searches.NOT_HERE[one.name]} isn't here")
    own = [one for one in known if one.name in OWN]
    others = tuple(one for one in search.controls if one.name not in OWN + searches.IDLE)
    plain = replace(search, controls=others, everywhere=contexts.asks_all(search)) if search.controls else search
    return {one.name: one for one in own}, plain


def inner_controls(search):
    """The controls that say what is found and how it is written, by name, and the search without them."""
    found = {one.name: one for one in search.controls if one.name in INNER}
    if not found:
        return found, search
    return found, replace(search, controls=tuple(one for one in search.controls if one.name not in INNER))


def asked_as(kind):
    """The name of an attribute in lower case; of a range without its end."""
    name, sign, place = kind.decode("latin-1").lower().partition(";range=")
    return name + sign + place.partition("-")[0]


def projected(found, search):
    """What was found, with those attributes alone that a search asks for. A range may have another end."""
    names, everything = search.asked()
    if everything and not search.types_only:
        return found
    names, made = {asked_as(name.encode("latin-1")) for name in names}, []
    for entry in map(searches.entry_of, found.entries):
        held = [(kind, () if search.types_only else values) for kind, values in entry.held
                if everything or asked_as(kind) in names]
        made.append(searches.body_of(replace(entry, held=tuple(held))))
    return replace(found, entries=tuple(made))


class Face:
    """The searches of one client."""

    def __init__(self, session):
        self.session, self.bridge = session, session.bridge
        self.pages, self.view = paging.Pages(self.bridge.shelf), View(session, self.ask)

    def forget(self):
        """Forgets what is kept for the client: it is somebody else now, or gone."""
        self.pages.forget_all()

    async def ask(self, data):
        """The program's reply to a message."""
        if len(data) > messages.MOST:
            raise Refused(searches.ADMIN_LIMIT, "what would be asked in its place has too many bytes")
        return await self.bridge.turns.ask(MESSAGE, self.session.number, data)

    async def answer(self, message, data):
        """The reply to a search."""
        search = await beside(len(data), searches.read, message)
        if search is None:
            return await self.ask(data)
        try:
            budgets.check(self.session, search)
            return await self.reply(search, data)
        except Refused as why:
            refusal = Found(code=why.code, text=why.text.encode())
            return searches.reply_of(search.number, refusal, why.controls)
        except searches.Unread as why:
            return why.args[0]

    async def reply(self, search, data):
        own, plain = own_controls(search)
        plain = await Speller(self.view).search(plain)
        computed.check(plain.filter, self.bridge.schema)
        inner = inner_controls(plain)[0]
        if not own and not inner and not self.is_own(plain):
            reply = await self.at_once(search, plain, data)
            if reply is not None:
                return reply
        if lists.VIEW in own:
            return await self.listed(search.number, plain, own)
        page = paging.asked(own[paging.PAGED]) if paging.PAGED in own else None
        mark = self.mark(search) if page else b""
        if page and page.cookie:
            return self.pages.next(page, *self.pages.place(page.cookie, mark), search.number)
        found, controls = await self.in_order(plain, own.get(sorting.SORT))
        if page:
            return self.pages.first(page, paging.Kept(mark, found, controls), search.number)
        return searches.reply_of(search.number, found, controls)

    async def at_once(self, search, plain, data):
        """The reply that one frame gives: the program's, or where items by bits are tried here what is left of that.
        None where it takes more."""
        if self.has_more(plain):
            return None
        rewriter = Rewriter(self.view, plain)
        if not await beside(len(plain.filter), rewriter.known):
            if await self.apart(plain):
                return None
            reply = await self.ask(data if plain == search else searches.written(plain))
            return None if searches.is_cut(reply) else reply
        apart = await self.apart(plain)
        found, _ = await narrowing.found(self.view, plain, rewriter)
        if found is None or apart and found.code == searches.SIZE_LIMIT:
            return None
        return searches.reply_of(search.number, projected(contexts.kept(found, apart), plain))

    def mark(self, search):
        """What tells a search from another one, whatever its page."""
        others = tuple(one for one in search.controls if one.name != paging.PAGED)
        return searches.mark(replace(search, controls=others))

    async def listed(self, number, search, own):
        """A part of a sorted list (lists.py)."""
        wanted = lists.asked(own[lists.VIEW])
        if sorting.SORT not in own:
            raise lists.refused(lists.NO_SORT)
        if paging.PAGED in own:
            raise Refused(messages.UNWILLING, "pages of a virtual list view")
        mark, keys = searches.mark(replace(search, controls=(own[sorting.SORT],))), sorting.asked(own[sorting.SORT])
        kept = self.pages.kept_at(wanted.cookie, mark)
        if kept is None:
            kept = self.pages.keep(paging.Kept(mark, *await self.sorted(search, own[sorting.SORT])))
        held = self.pages.kept[kept]
        total = len(held.found.entries)
        if wanted.value is None:
            place = lists.place_of(wanted, total)
        else:
            place = await beside(held.found.weight(), lists.place_of_value, wanted, held.found, keys[0],
                                 self.bridge.schema)
        found = replace(projected(lists.part(wanted, held.found, place), search), code=held.found.code)
        told = lists.told(place, total, 0, lists.COOKIE.pack(kept))
        return searches.reply_of(number, found, (*held.controls, told))

    async def sorted(self, search, control):
        """What a search finds, sorted, with what it is sorted by; refused where it can't be."""
        keys, schema = sorting.asked(control), self.bridge.schema
        fault = sorting.why_not(keys, schema)
        if fault is not None:
            raise Refused(messages.CRITICAL, "", (sorting.told(*fault),))
        names = search.attributes + tuple(key.sent for key in keys) if not search.asked()[1] else search.attributes
        found = await self.found(replace(search, types_only=False, attributes=names))
        if found.code == messages.SUCCESS:
            return await beside(found.weight(), sorting.put_in_order, found, keys, schema), (sorting.told(0),)
        return found, ()

    async def in_order(self, search, control):
        """What a search finds, in the order that a control asks for, and the control of the answer."""
        if control is None:
            return await self.found(search), ()
        fault = sorting.why_not(sorting.asked(control), self.bridge.schema)
        if fault is None:
            found, told = await self.sorted(replace(search, size=0), control)
            if found.code == messages.SUCCESS:
                return await beside(found.weight(), projected, found.limited(search.size), search), told
            if found.code != searches.ADMIN_LIMIT:
                return found, ()
            fault = searches.ADMIN_LIMIT, None
        if control.critical:
            raise Refused(messages.CRITICAL, "", (sorting.told(*fault),))
        return await self.found(search), (sorting.told(*fault),)

    def is_own(self, search):
        """Whether a search is for what the bridge tells of itself or of the schema."""
        root = self.bridge.root
        if root_dse.asked(search) or not self.bridge.schema:
            return root_dse.asked(search)
        return subschema.asked(search, root) or schema_entries.asked(search, root)

    async def found(self, search):
        """What a search finds that is neither sorted nor parted."""
        inner, search = inner_controls(search)
        if scoped.SCOPED in inner:
            name = Speller(self.view).attribute(scoped.attribute_of(inner[scoped.SCOPED]))
            found = await scoped.found(self, search, name)
        else:
            found = await self.found_plainly(search)
        if extended_names.EXTENDED in inner:
            found = await extended_names.of_found(self.view, found, inner[extended_names.EXTENDED])
        return found

    async def found_plainly(self, search):
        """What a search finds that has no control of the bridge's."""
        bridge = self.bridge
        if root_dse.asked(search):
            weight = HEAVY if len(search.filter) > MANY else 0
            return await beside(weight, root_dse.answer, search, bridge, self.session)
        if not self.is_own(search):
            return await self.of_context(search)
        if subschema.asked(search, bridge.root):
            return await subschema.answer(self.shown, search, bridge.root, bridge.schema)
        return await schema_entries.answer(self.shown, search, bridge.root, bridge.schema)

    async def apart(self, search):
        """The naming contexts at whose heads a search ends, of those that the store has objects of."""
        keys = contexts.apart(search, self.bridge)
        return keys if keys and await self.bridge.has_contexts() else []

    async def of_context(self, search):
        """What the program shows for a search, without what is of other naming contexts."""
        keys, found = await self.apart(search), await self.shown(search)
        held = await beside(found.weight(), contexts.kept, found, keys) if keys else found
        if held is not found and found.code == searches.SIZE_LIMIT:
            found = await self.shown(replace(search, size=0))
            held = (await beside(found.weight(), contexts.kept, found, keys)).limited(search.size)
        return held

    def asks_member_of(self, search):
        """Whether entries are to have memberOf, which the bridge makes."""
        names, everything = search.asked()
        schema = self.bridge.schema
        return bool(schema and self.bridge.root and schema.has_member_of() and (everything or "memberof" in names))

    def has_more(self, search):
        """Whether entries are to have what the bridge makes."""
        return bool(self.asks_member_of(search) or ranges.asked(search) or computed.asked(search, self.bridge.schema))

    async def is_made(self, search):
        """Whether an answer is made of several of the program."""
        if self.has_more(search):
            return True
        return bool(await beside(len(search.filter), Rewriter(self.view, search).known))

    async def shown(self, search):
        """What the program shows for a search, with what is made of that."""
        if not await self.is_made(search):
            found = await self.view.found(search)
            if found.code != searches.ADMIN_LIMIT:
                return found
        for _ in range(TRIES):
            found = await self.undisturbed(search)
            if found:
                return found
        async with self.bridge.turns.held(self.session.number):
            # A frame that was in work when the others began to wait disturbs once at most.
            return await self.undisturbed(search) or await self.made(search)

    async def undisturbed(self, search):
        """What is made of several answers; None where the directory changed between them."""
        changes = self.bridge.turns.changes
        found = await self.made(search)
        return found if self.bridge.turns.changes == changes else None

    async def made(self, search):
        """What is made of several answers."""
        schema = self.bridge.schema
        found = await self.with_member_of(computed.with_needs(ranges.without(search), schema))
        if computed.asked(search, schema):
            found = await computed.Maker(self.view, search).added(found, search)
        if ranges.asked(search):
            found = await beside(found.weight(), ranges.cut, found, search)
        return projected(found, search) if computed.asked(search, schema) else found

    async def with_member_of(self, search):
        """What the program finds by a filter that is rewritten, with memberOf."""
        rewriter = Rewriter(self.view, search)
        found, by = await narrowing.found(self.view, search, rewriter)
        if found is None:
            by = await rewriter.rewritten()
            found = await self.view.all_found(replace(search, filter=by))
        else:
            found = projected(found, search)
        search = replace(search, filter=by)
        if not found.entries or not self.asks_member_of(search):
            return found
        memberships = await self.view.memberships()
        if not memberships.groups:
            return found
        read = items.no(items.present(b"memberOf"))
        both = items.all_of(search.filter, read)
        asked = replace(search, size=0, filter=read if items.is_deep(both) else both, attributes=(b"1.1",), controls=())
        shown = await self.view.whole(asked)
        names = await beside(shown.weight(), names_of, shown)
        return await beside(found.weight(), with_member_of, found, names, memberships, self.bridge.schema,
                            search.types_only)
