"""Binds by tickets of Kerberos: whose account the client's principal is, and which layer is put in force behind the
answer (docs/clients.md#tickets-of-kerberos)."""

import time

from adsd_tools.forms import ber

from . import layers, messages, names, principals, sasl
from .accounts import Ambiguous, Unidentified
from .gss import FOREVER, Refused
from .names import Who

# What Active Directory says of a layer within TLS, and of a bind without one.
WITHIN = ("00002029: LdapErr: DSID-0C09016D, comment: Cannot bind using sign/seal on a connection on which TLS or SSL "
          "is in effect, data 0, v1db1")
NO_LAYER = ("00002028: LdapErr: DSID-0C0901FC, comment: The server requires binds to turn on integrity checking if "
            "SSL\\TLS are not already active on the connection, data 0, v1db1")


class ByTickets:
    """The binds of one client by tickets."""

    def __init__(self, binder):
        self.binder, self.session, self.bridge = binder, binder.session, binder.bridge
        self.steps, self.next, self.ends = None, None, None

    def mechanisms(self):
        return list(sasl.MECHANISMS) if self.bridge.tickets else []

    def taken(self):
        """The steps so far, which go on in the next request or never."""
        steps, self.steps = self.steps, None
        return steps

    def layer(self):
        """The layer that is in force behind the answer to a bind; None where that puts none."""
        made, self.next = self.next, None
        return made

    def allowed(self):
        """The layers that a bind may put in force: none within TLS or another one, and nowhere else no layer where
        somebody between could change what is sent."""
        if self.session.has_tls() or self.session.layer is not None:
            return layers.NONE
        open_too = self.session.is_safe() or self.binder.options.any_address
        return layers.INTEGRITY | layers.CONFIDENTIALITY | (layers.NONE if open_too else 0)

    async def step(self, mechanism, given, steps):
        """The code, the text and what stands behind them, for one step. The library of Kerberos reads files, so it is
        asked beside."""
        if steps is None or steps.mechanism != mechanism:
            steps = sasl.Steps(self.bridge.tickets, mechanism, self.allowed())
        try:
            told = await self.bridge.checks.run(self.session.host, steps.step, given)
            behind = [ber.octets(told, messages.SERVER_CREDENTIALS)] if told or not steps.is_done else []
            if not steps.is_done:
                self.steps = steps
                return messages.PROGRESS, "", *behind
            made = None if steps.layer == layers.NONE else self.made(steps)
        except sasl.NoLayer:
            return (messages.UNWILLING, WITHIN) if steps.layer != layers.NONE else (messages.STRONGER, NO_LAYER)
        except Refused as why:
            return await self.binder.bound(self.refused(str(why)))
        code, text = await self.binder.bound(self.whole(steps))
        if code != messages.SUCCESS:
            return code, text
        self.next, self.session.ends = made, self.ends
        return code, text, *behind

    def made(self, steps):
        """The layer that the steps ended with."""
        confidential = steps.layer == layers.CONFIDENTIALITY
        return layers.Layer(self.session.reader, steps.context, confidential, steps.piece())

    async def refused(self, why):
        raise self.binder.refusal(why)

    def realm(self):
        return self.binder.options.realm or self.bridge.accounts.dotted().upper()

    async def whole(self, steps):
        """Whoever the ticket is of, with a token."""
        try:
            client, service, seconds = steps.context.told()
            principals.check_service(service, self.realm())
            who = principals.read(client)
            account = await principals.account_of(self.bridge.accounts, who, self.realm())
        except Refused as why:
            raise self.binder.refusal(str(why)) from None
        except Ambiguous:
            raise self.binder.refusal(f"{client.decode()}: several accounts have this name") from None
        except Unidentified as which:
            raise self.binder.refusal(f"{which} has no objectSid that the reader reads") from None
        if account is None:
            raise self.binder.refusal(f"{who}: no account that the reader sees has this name")
        lines = map(self.bridge.names.who, account.spelled(self.bridge.accounts.short))
        line = next(filter(None, lines), None)
        if steps.identity:
            self.check_identity(steps.identity, line, account, who)
        made = await self.binder.whole(line or Who(str(who), None, None), account)
        self.ends = None if seconds == FOREVER else time.monotonic() + seconds
        return made

    def check_identity(self, asked, line, account, who):
        """Refused where the client wants to be somebody else."""
        kind, sign, name = asked.decode("utf-8", "replace").partition(":")
        known = [*account.spelled(self.bridge.accounts.short), str(who), *([line.name] if line else [])]
        if not sign or kind not in ("u", "dn") or names.key_of(name) not in map(names.key_of, known):
            raise self.binder.refusal(f"{who} asked to be somebody else")
