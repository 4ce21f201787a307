"""Changes and compares of one client: turned into words that the program reads, with what Active Directory fills
in, and without what it forbids (docs/clients.md)."""

from adsd_tools.ask.records import TREE_DELETE

from . import ad_rules, computed, guards, messages, operations, permissive, searches, stretching
from .program import MESSAGE
from .searches import Refused
from .spelling import Speller

FALSE, TRUE, NO_ATTRIBUTE = 5, 6, 16

def without_idle(controls):
    """The controls of a message, as they came, without those that change nothing."""
    return tuple(one for one in controls if name_of(one) not in searches.IDLE)


def name_of(held):
    try:
        return searches.control_of(held).name
    except (searches.ber.Broken, ValueError):
        return None


def is_permissive(operation, controls):
    """Whether a Modify asks that values are passed over that stand there, or don't."""
    return operation.kind == operations.MODIFY and any(name_of(one) == permissive.PERMISSIVE for one in controls)


class Changes:
    """The changes and compares of one client."""

    def __init__(self, session):
        self.session, self.bridge = session, session.bridge
        # What the store is given for the passwords of the change that is made.
        self.passwords = {}

    async def ask(self, data, changes):
        return await self.bridge.turns.ask(MESSAGE, self.session.number, data, changes)

    async def answer(self, message, data):
        """The reply to a change or a compare."""
        self.passwords = {}
        operation, changes = operations.read(message), message.operation in messages.CHANGES
        if operation is None:
            return await self.ask(data, changes)
        if any(item.act > operations.REPLACES for item in operation.items):
            return messages.refusal(message, messages.PROTOCOL_ERROR, "no item but add, delete and replace")
        try:
            made = await operations.spelled(operation, Speller(self.session.face.view))
            controls = without_idle(message.controls)
            if message.operation == messages.COMPARE:
                return await self.compared(message, made, await self.asked(message, data, operation, made, controls))
            self.passwords = await stretching.of_change(self.session, made)
            rules = guards.has_any(self.session, made) or ad_rules.has_any(self.session, made)
            if rules or is_permissive(made, controls):
                return await self.judged(message, data, operation, made, controls)
            return await self.asked(message, data, operation, made, controls)
        except Refused as why:
            return messages.refusal(message, why.code, why.text)

    async def judged(self, message, data, operation, made, controls):
        """The reply to a change that is judged before. What a permissive Modify reads, and whether a login is taken,
        has to be so still when the change is made."""

        async def judge():
            return await self.left(made, controls)

        async def send(left, controls_left):
            return await self.asked(message, data, operation, left, controls_left)

        exact = operation.kind in (operations.ADD, operations.MODIFY)
        return await self.bridge.turns.judged(self.session.number, judge, send, exact)

    async def left(self, made, controls):
        """A change as Active Directory takes it: what is passed over, filled in and refused; and the controls left."""
        if is_permissive(made, controls):
            made = await permissive.left(made, self.session.face.view)
            controls = tuple(one for one in controls if name_of(one) != permissive.PERMISSIVE)
        if guards.has_any(self.session, made):
            await guards.judge(self.session, made)
        if ad_rules.has_any(self.session, made):
            is_tree = any(name_of(one) == TREE_DELETE for one in controls)
            made = await ad_rules.judged(self.session, made, is_tree)
        return made, controls

    async def compared(self, message, operation, reply):
        """The reply to a compare: the program's, but of what the bridge makes of an object where it has no value."""
        ((item),) = operation.items
        asked = searches.Search(1, operation.name, searches.BASE, attributes=(item.name,))
        face = self.session.face
        made = computed.asked(asked, self.bridge.schema) or (item.lower == "memberof" and face.asks_member_of(asked))
        if not made or messages.is_notice(reply) or messages.code_of(reply)[0] != NO_ATTRIBUTE:
            return reply
        found = await face.found(asked)
        values = searches.entry_of(found.entries[0]).values(item.lower) if found.entries else ()
        if not values:
            return reply
        return messages.refusal(message, TRUE if permissive.has(values, item.values[0]) else FALSE, "")

    async def asked(self, message, data, operation, made, controls):
        """What the program says of it; as it came, where nothing is changed in it."""
        changes = message.operation in messages.CHANGES
        made = stretching.replaced(made, self.passwords or await stretching.of_new(self.session, made))
        if made != operation or controls != message.controls:
            data = operations.written(message, made, controls)
        if len(data) > messages.MOST:
            raise Refused(searches.ADMIN_LIMIT, "what would be asked in its place has too many bytes")
        return await self.ask(data, changes)
