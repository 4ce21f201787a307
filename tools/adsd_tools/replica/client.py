"""A client of a replica."""

from adsd_tools.ldap import messages
from adsd_tools.ldap.searches import Refused
from adsd_tools.ldap.session import Session

from .naming import NamedChanges


class Client(Session):
    """A client whose requests may have names, and who isn't told what is too old."""

    def __init__(self, plain):
        super().__init__(plain.bridge, plain.number, plain.reader, plain.writer)
        self.changes = NamedChanges(self)

    async def stale(self, message):
        try:
            return await super().stale(message)
        except Refused as why:
            return messages.refusal(message, why.code, why.text)
