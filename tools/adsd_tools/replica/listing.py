"""What a replica's program lists of its directory, as it has it in its memory: each object's entry with all attributes
and the whole descriptor, one after the other, as SYSTEM sees them. Replicas that stand at one entry list the same.

The directory may not change meanwhile, so a sum is made where a replica is idle; clients' frames have their turns."""

import hashlib

from adsd_tools.ldap import searches, words
from adsd_tools.ldap.program import MESSAGE, TOKEN

# The connection at the program that it has, below that of entries; clients have those below.
CONNECTION = 1022
WHO = "user=SY groups=BA,AU,WD privileges=security"
NAMES, ALL = (b"1.1",), (b"*", b"nTSecurityDescriptor")


class Listing:
    """What one replica lists. `root` gives the name of the directory's root."""

    def __init__(self, turns, applying, root):
        self.turns, self.applying, self.root = turns, applying, root

    async def sum_at(self, number):
        """The sum of what is listed after an entry; None where the directory goes on meanwhile, or has too much for one
        answer."""
        if self.applying.number() != number or self.root() is None:
            return None
        await self.turns.ask(TOKEN, CONNECTION, words.reader(WHO))
        found, made = searches.found(await self.ask(self.root(), NAMES, searches.SUBTREE)), hashlib.sha256()
        for entry in found.entries:
            reply = await self.ask(searches.entry_of(entry).name, ALL, searches.BASE)
            if self.applying.number() != number:
                return None
            made.update(b"%d " % len(reply) + reply)
        return made.hexdigest() if not found.code and self.applying.number() == number else None

    async def ask(self, base, attributes, scope):
        asked = searches.Search(1, base, scope, filter=searches.TRUE, attributes=attributes)
        return await self.turns.ask(MESSAGE, CONNECTION, searches.written(asked))
