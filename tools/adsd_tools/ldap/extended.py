"""Extended requests that the bridge answers: Who am I (RFC 4532), StartTLS (RFC 4511 4.14), and the change of a
password (RFC 3062), which becomes a change of unicodePwd that the program judges."""

import secrets

from adsd_tools.forms import ber

from . import messages, stretching, tls
from .accounts import Ambiguous, Unidentified
from .binding import change, quoted
from .program import MESSAGE

PASSWORD = b"1.3.6.1.4.1.4203.1.11.1"
USER, OLD, NEW, MADE = 0x80, 0x81, 0x82, 0x80
# The letters of a password that is made, and how many it has.
LETTERS, LENGTH = "abcdefghjkmnpqrstuvwxyzABCDEFGHJKMNPQRSTUVWXYZ23456789-", 20


def asked(message):
    """The name of what is asked for, and its value or None."""
    try:
        (tag, name), *behind = ber.parts(message.body, 2)
        value = behind[0][1] if behind else None
    except (ber.Broken, ValueError):
        return None, None
    return (name, value) if tag == 0x80 else (None, None)


async def answer(session, message):
    """The reply; None where it is the program's."""
    name, value = asked(message)
    if name == messages.WHO_AM_I and not message.critical:
        return messages.i_am(message.number, session.identity())
    if name == tls.START:
        return await started(session, message)
    if name == PASSWORD and not message.critical:
        return await changed(session, message, value)
    return None


def told(message, code, text="", *behind):
    return messages.result(message.number, messages.EXTENDED_RESPONSE, code, text, *behind)


async def started(session, message):
    """StartTLS. From the answer on the client speaks TLS, and is nobody."""
    name = ber.octets(tls.START, 0x8A)
    if session.bridge.tls is None:
        return told(message, messages.UNAVAILABLE, "there is no certificate", name)
    if session.has_tls() or session.layer is not None:
        there = "TLS" if session.has_tls() else "a layer of SASL"
        return told(message, messages.OPERATIONS, f"{there} is there already", name)
    await session.become(None)
    session.count(True)
    if not tls.is_quiet(session.reader):
        return told(message, messages.OPERATIONS, "requests stand behind this one", name)
    # From here on nothing is read that came in the clear.
    session.writer.transport.pause_reading()
    session.starts_tls = True
    return told(message, messages.SUCCESS, "", name)


async def whose(session, given):
    """The name of the object whose password is changed; None where there is none."""
    if given is None:
        return session.who.object_name() or None
    kind, sign, name = given.decode("utf-8", "replace").partition(":")
    name = name if sign and kind in ("dn", "u") else given.decode("utf-8", "replace")
    if "=" in name:
        return name.encode()
    try:
        found = await session.bridge.accounts.find(name)
    except (Ambiguous, Unidentified):
        return None
    return found.name if found else None


async def changed(session, message, value):
    """The change of a password. Without an old one it is set, and without a new one it is made."""
    if session.who is None or not session.is_safe():
        return told(message, messages.STRONGER, "a password is changed by who has bound, over TLS or on this machine")
    try:
        ((outer, held),) = ber.parts(value) if value else ((ber.SEQUENCE, b""),)
        given = dict(ber.parts(held))
    except (ber.Broken, ValueError):
        return told(message, messages.PROTOCOL_ERROR, "no change of a password")
    if outer != ber.SEQUENCE or not set(given) <= {USER, OLD, NEW}:
        return told(message, messages.PROTOCOL_ERROR, "no change of a password")
    name = await whose(session, given.get(USER))
    made = "".join(secrets.choice(LETTERS) for _ in range(LENGTH)).encode()
    old, new = (quoted(one) if one is not None else None for one in (given.get(OLD), given.get(NEW, made)))
    if name is None or new is None or (OLD in given and old is None):
        return told(message, messages.UNWILLING, "no account, or no text")
    if session.bridge.options.store_passwords:
        salt = await stretching.salt_of(session.bridge.accounts, name)
        old, new = [one and await session.bridge.checks.run(session.host, stretching.stretched, one, salt)
                    for one in (old, new)]
    request = ber.sequence(ber.number(message.number), change(name, old, new))
    reply = await session.bridge.turns.ask(MESSAGE, session.number, request, True)
    code, text = messages.code_of(reply)
    behind = [ber.octets(ber.sequence(ber.octets(made, MADE)), 0x8B)] if NEW not in given and not code else []
    return told(message, code, text.decode(), *behind)
