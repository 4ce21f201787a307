"""Binds: who a client says to be, and what tells that it is so (docs/clients.md#who-is-there)."""

import asyncio
import time

from adsd_tools.forms import ber

from . import by_tickets, messages, names, stretching
from .accounts import Ambiguous, TooMany, Unidentified
from .groups import NotKnown
from .names import Who

EXTERNAL = b"EXTERNAL"
# What Active Directory says of a bind that it refuses; clients look at the code behind `data`.
REFUSED = "80090308: LdapErr: DSID-0C090400, comment: AcceptSecurityContext error, data {}, v1db1"
WRONG, CLOSED = "52e", "775"
# What a client is told whose groups aren't known.
NO_GROUPS = "who is in which group isn't known to the server"
# So often a token is made beside changes, and then while they wait.
TRIES = 3
# What the program answers of a password that isn't the account's.
NOT_IT = 19
STRONGER = ("00002028: LdapErr: DSID-0C090257, comment: The server requires binds to turn on integrity checking if "
            "SSL\\TLS are not already active on the connection, data 0, v1db1")


class NotBound(Exception):
    """A bind that is refused as a wrong password is, with why, which only the log says, and Active Directory's
    code."""

    def __init__(self, why, told=WRONG):
        super().__init__(why)
        self.why, self.told = why, told


class WrongPassword(NotBound):
    """A bind by what isn't the password of whoever is counted by a name."""

    def __init__(self, why, name):
        super().__init__(why)
        self.name = name


def quoted(password):
    """A password as unicodePwd has it; None where it isn't text."""
    try:
        return f'"{password.decode()}"'.encode("utf-16-le")
    except UnicodeDecodeError:
        return None


def item(act, values):
    held = ber.octets(b"unicodePwd"), ber.sequence(*map(ber.octets, values), tag=ber.SET)
    return ber.sequence(ber.number(act, ber.ENUMERATED), ber.sequence(*held))


def change(name, old, new):
    """The operation that changes a password, or sets it where no old one is given."""
    items = [item(1, [old]), item(0, [new])] if old is not None else [item(2, [new])]
    return ber.sequence(ber.octets(name), ber.sequence(*items), tag=0x66)


class Binder:
    """The binds of one client."""

    def __init__(self, session):
        self.session, self.bridge = session, session.bridge
        self.options, self.accounts = session.bridge.options, session.bridge.accounts
        self.by_ticket = by_tickets.ByTickets(self)

    async def answer(self, message):
        """The code and the text for a bind, with what stands behind them."""
        steps = self.by_ticket.taken()
        try:
            asked = messages.bind_of(message.body)
        except messages.NoForm:
            return messages.PROTOCOL_ERROR, "no bind of version 3"
        if message.critical:
            return messages.CRITICAL, ""
        name, password, mechanism = asked
        if mechanism is not None:
            return await self.by_sasl(mechanism.upper(), password, steps)
        if not name and not password:
            return messages.SUCCESS, ""
        if not password:
            return messages.UNWILLING, "a name without a password"
        if not self.session.is_safe() and not self.options.any_address:
            return messages.STRONGER, STRONGER
        return await self.bound(self.by_password(name.decode("utf-8", "backslashreplace"), password))

    async def by_sasl(self, mechanism, given, steps):
        if mechanism in self.by_ticket.mechanisms():
            return await self.by_ticket.step(mechanism, given, steps)
        if mechanism != EXTERNAL or self.session.uid is None:
            more = b" and ".join(self.by_ticket.mechanisms() + ([EXTERNAL] if self.session.uid is not None else []))
            return messages.METHOD, "simple binds" + (f" and {more.decode()}" if more else "") + " only"
        return await self.bound(self.by_uid(given))

    async def bound(self, work):
        """Lets the client be somebody, or says that it isn't. It waits for nothing, since others may bind behind it."""
        try:
            who = await work
        except NotKnown as why:
            self.bridge.log.timed(f"{self.session.peer} not bound, whoever it is: {why}")
            return messages.UNAVAILABLE, NO_GROUPS
        except NotBound as told:
            self.bridge.log.timed(f"{self.session.peer} not bound: {told.why}")
            if isinstance(told, WrongPassword):
                self.bridge.guesses.wrong(told.name, self.session.host)
            return messages.INVALID, REFUSED.format(told.told)
        await self.session.become(who)
        self.session.count(False)
        return messages.SUCCESS, ""

    def refusal(self, why):
        """A bind that is refused, with why, which only the log says."""
        return NotBound(why)

    async def by_uid(self, given):
        who = self.bridge.names.of_uid.get(self.session.uid)
        if who is None:
            raise NotBound(f"no line has uid={self.session.uid}")
        if given and given[:2] not in (b"u:", b"dn"):
            raise NotBound("unknown form of an identity")
        if given and names.key_of(given.partition(b":")[2].decode("utf-8", "replace")) != names.key_of(who.name):
            raise NotBound(f"{who.name} asked to be somebody else")
        return await self.whole(who)

    async def by_password(self, name, password):
        """Whoever has the name and the password. While wrong ones keep it closed, no password is looked at."""
        who, account = self.bridge.names.who(name), None
        if who is None:
            account = await self.account(name)
            lines = map(self.bridge.names.who, account.spelled(self.accounts.short) if account else ())
            who = next(filter(None, lines), None)
        counted, guesses = self.counted(name, who, account), self.bridge.guesses
        if guesses.closed(counted, self.session.host):
            raise NotBound("by wrong passwords before it is closed for a while: " +
                           (counted if who or account else "a name that isn't in the file"), CLOSED)
        good = await self.bridge.checks.run(self.session.host, names.fits, who, password)
        if not good and (who is None or who.fits is None) and self.is_open():
            account = account or await self.account(name)
            good = await self.by_store(account, password)
        if not good:
            raise WrongPassword(self.why_wrong(who, account), counted)
        guesses.right(counted, self.session.host)
        return await self.whole(who or Who(name, None, None), account)

    def counted(self, name, who, account):
        """By which name wrong passwords are counted: one whatever the spelling."""
        return who.name if who else account.name.decode("utf-8", "replace") if account else name[: names.LONGEST]

    def why_wrong(self, who, account):
        if who or account:
            return f"wrong password of {who.name if who else account.name.decode()}"
        return "a name that isn't in the file" + (", nor of an account that the reader sees" if self.is_open() else "")

    def is_open(self):
        """Whether accounts may bind that have no line."""
        return self.options.trust_names or self.options.store_passwords

    async def by_store(self, account, password):
        """Whether it is somebody's password: any is with --trust-names; else the program says so of what scrypt makes
        of it (stretching.py), by a change that changes nothing. It takes as long where there is no account."""
        if self.options.trust_names:
            return account is not None
        held = quoted(password)
        if held is None:
            return False
        salt = await stretching.salt_of(self.accounts, account.name) if account else b"nobody"
        held = await self.bridge.checks.run(self.session.host, stretching.stretched, held, salt)
        if account is None:
            return False
        reply = await self.accounts.ask(ber.sequence(ber.number(1), change(account.name, held, held)))
        code = messages.code_of(reply)[0]
        if code not in (messages.SUCCESS, NOT_IT):
            raise NotBound(f"whether it is the password of {account.name.decode()} isn't known: the reader's change of "
                           f"it to itself ended with {code}")
        return code == messages.SUCCESS

    async def account(self, name):
        """The account of a name, or None."""
        if len(name) > names.LONGEST:
            return None
        try:
            return await self.accounts.find(name)
        except Ambiguous:
            raise NotBound("several accounts have this name") from None
        except Unidentified as which:
            raise NotBound(f"{which} has no objectSid that the reader reads") from None

    async def whole(self, who, account=None):
        """Somebody with a token: that of the line, else the one that the directory makes."""
        if who.token is not None:
            return who
        account = account or await self.account(who.name)
        if account is None:
            raise NotBound(await self.why_none(who.name))
        if self.options.ad_rules and account.fault(time.time()):
            raise NotBound(f"{who.name}: the account is disabled or has expired", account.fault(time.time()))
        try:
            token = await self.token(account)
        except TooMany:
            raise NotBound(f"{who.name}: too many groups for a token") from None
        own = f"{self.accounts.short}\\{account.login}" if account.login else account.name.decode()
        return Who(own, None, token, None, account.name)

    async def why_none(self, name):
        """Why there is no account of a name whose password was right: whether the store has none, or the reader sees
        none."""
        try:
            rows = await self.bridge.groups.rows()
            is_there = await asyncio.get_running_loop().run_in_executor(None, rows.has_account, name)
        except NotKnown:
            is_there = None
        if is_there is None:
            return f"the reader sees no account {name}; whether the store has one isn't known"
        return f"the reader doesn't see the account {name}" if is_there else f"{name} is no account of the store"

    async def token(self, account):
        """The token of an account, as the directory is at one moment; NotKnown where it could lack a group."""
        turns = self.bridge.turns
        for _ in range(TRIES):
            changes, made, fault = turns.changes, None, None
            try:
                made = await self.token_now(account)
            except NotKnown as why:
                fault = why
            if turns.changes == changes:
                break
        else:
            async with turns.held(self.session.number):
                return await self.token_now(account)
        if fault:
            raise fault
        return made

    async def token_now(self, account):
        await self.bridge.groups.check(account)
        return await self.accounts.token(account)
