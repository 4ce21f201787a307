"""Requests that a client gives a name to, so that one that comes again is answered as before.

The control 2.25.41262396397855973326443701585176998905, critical or not, has the name as its value, 1 to 64 bytes. What
it names is a change of one user: the log takes it once, and etcd knows for a while which entry it was."""

import asyncio
import hashlib
import time
from dataclasses import replace

from adsd_tools.forms import ber
from adsd_tools.forms.sids import sid_at
from adsd_tools.ldap import messages, searches
from adsd_tools.ldap.changes import Changes, name_of
from adsd_tools.ldap.searches import Refused

from . import entries
from .etcd import Denied

CONTROL = b"2.25.41262396397855973326443701585176998905"
MOST = 64
LOST = "lease not found"


class Repeated(Exception):
    """A request whose name was another one's before: the number of the entry, and the digest of what was asked."""


def user_of(token):
    """The user of a token, nothing where there is none."""
    return bytes(sid_at(token, 2, len(token))) if token else b""


def asked(message):
    """The name of a request, or None, and its other controls."""
    own = [one for one in message.controls if name_of(one) == CONTROL]
    others = tuple(one for one in message.controls if name_of(one) != CONTROL)
    if not own:
        return None, others
    value = searches.control_of(own[0]).value
    if len(own) > 1 or value is None or not 1 <= len(value) <= MOST:
        raise Refused(messages.PROTOCOL_ERROR, f"the name of a request stands once, and has 1 to {MOST} bytes")
    return value, others


def digest_of(message, controls):
    """What tells a request from another one."""
    told = b"".join(ber.octets(one, ber.SEQUENCE) for one in controls)
    return hashlib.sha256(ber.octets(message.body, message.operation) + told).hexdigest()[:32].encode()


def plain(message, controls):
    """The message without its name, and its bytes."""
    held = [ber.octets(one, ber.SEQUENCE) for one in controls]
    behind = [ber.sequence(*held, tag=messages.CONTROLS)] if held else []
    data = ber.sequence(ber.number(message.number), ber.octets(message.body, message.operation), *behind)
    return replace(message, controls=controls, critical=any(map(messages.is_critical, controls))), data


def renumbered(reply, number):
    """A reply with the number of another request."""
    ((tag, held),) = ber.parts(reply)
    _, first = ber.parts(held)[0]
    return ber.element(tag, ber.number(number) + held[len(ber.octets(first)) :])


class NamedChanges(Changes):
    """The changes of a client of a replica."""

    async def answer(self, message, data):
        if message.operation not in messages.CHANGES:
            return await super().answer(message, data)
        try:
            name, controls = asked(message)
        except Refused as why:
            return messages.refusal(message, why.code, why.text)
        if name is None:
            return await super().answer(message, data)
        turns, number = self.bridge.turns, self.session.number
        request, digest = entries.named(user_of(self.session.token), name), digest_of(message, controls)
        known, why = await turns.known(request)
        if why:
            return messages.unavailable(message, why)
        turns.names[number] = request, digest
        try:
            return await (self.again(message, request, digest, *known) if known
                          else super().answer(*plain(message, controls)))
        except Repeated as why:
            return await self.again(message, request, digest, *why.args)
        finally:
            turns.names.pop(number, None)

    async def again(self, message, request, digest, number, before):
        """The answer to a request that was made before."""
        if before != digest:
            return messages.refusal(message, messages.UNWILLING, "another request had this name; nothing was changed")
        reply = await self.bridge.turns.answered(number, request)
        if reply is None:
            return messages.unavailable(message, f"this request was made as entry {number}, and what it was answered "
                                                 "isn't known at this replica")
        return renumbered(reply, message.number)


class Remembered:
    """The lease under which names are kept in etcd: each so many seconds at least."""

    def __init__(self, seconds):
        self.seconds, self.lease, self.since = seconds, None, 0.0

    async def current(self, lane):
        now = time.monotonic()
        if self.lease is None or now - self.since >= self.seconds:
            self.lease, self.since = await lane.call(lambda log: log.lease(2 * self.seconds + 60)), now
        return self.lease

    def denied(self, why):
        """Takes a new lease where etcd has that one no longer."""
        if isinstance(why, Denied) and LOST in str(why):
            self.lease = None


async def within(seconds, work):
    """What some work gives within so many seconds; None where it takes longer."""
    try:
        return await asyncio.wait_for(work, seconds)
    except asyncio.TimeoutError:
        return None
