"""The command: what its words ask for is done."""

import argparse
import asyncio
import getpass
import resource
import shlex
import sys

from adsd_tools import incomplete
from adsd_tools.ask.words import Wrong, groups_of, sid
from adsd_tools.forms.sids import text_of_sid
from adsd_tools.rows.accounts import Accounts
from adsd_tools.rows.store import Broken
from adsd_tools.run import ADSD
from adsd_tools.shown import shown

from . import gss, names, passwords, stretching, tls
from .bridge import Bridge
from .log import Log
from .words import USUAL, parsed


NO_NAMES = "without --names nobody may bind by name"


def password_asked():
    if not sys.stdin.isatty():
        return sys.stdin.buffer.readline().rstrip(b"\r\n")
    first = getpass.getpass("Password: ")
    if first != getpass.getpass("Again: "):
        raise Wrong("the two passwords differ")
    return first.encode("utf-8", "surrogateescape")


def by_name(asked):
    """The identifiers of what names accounts of a store. The line has them as they are now."""
    try:
        accounts = Accounts(asked.store)
    except Broken as why:
        raise Wrong(f"{asked.store}: {why}") from None

    incomplete.warn(asked.store)

    def text(name):
        return text_of_sid(sid(name, accounts)) if name else name

    groups = list(map(text_of_sid, groups_of(",".join(asked.group), sid(asked.user, accounts), accounts)))
    return argparse.Namespace(user=text(asked.user), owner=text(asked.owner), primary=text(asked.primary), group=groups)


def line_of(asked):
    """The line of a name, which is read again, so that what isn't one is said at once."""
    if not asked.user:
        return line_of_account(asked)
    who = by_name(asked) if asked.store else asked
    groups = who.group + [name for name in USUAL if not asked.bare and sid(name) not in map(sid, who.group)]
    pairs = {"also": asked.also, "user": who.user, "owner": who.owner, "primary": who.primary,
             "groups": ",".join(groups), "privileges": ",".join(asked.privilege)}
    told = [shlex.quote(f"{key}={value}") for key, value in pairs.items() if value]
    return finished(asked, told)


def line_of_account(asked):
    """The line of somebody whose token the directory makes."""
    if asked.group or asked.bare or asked.primary or asked.owner or asked.privilege:
        raise Wrong("what makes a token needs --user")
    return finished(asked, [shlex.quote(f"also={asked.also}")] if asked.also else [])


def finished(asked, told):
    """A line with the hash of a password that is asked for."""
    names.one_line(" ".join([shlex.quote(asked.name), "password=x", *told]))
    password = password_asked()
    if not password:
        raise Wrong("the password is empty")
    hashed = passwords.made(password, "pbkdf2" if asked.pbkdf2 else "scrypt")
    return " ".join([shlex.quote(asked.name), f"password={hashed}", *told])


def room_for(clients):
    """As many open files as the clients need, where the system gives them."""
    soft, hard = resource.getrlimit(resource.RLIMIT_NOFILE)
    wanted = clients + 64
    if soft != resource.RLIM_INFINITY and soft < wanted and (hard == resource.RLIM_INFINITY or hard >= wanted):
        resource.setrlimit(resource.RLIMIT_NOFILE, (wanted, hard))


def serve(asked, kind=Bridge, called="adsd-ldap"):
    log, told = Log(asked.log_changes, called), incomplete.line(asked.store)
    if told:
        log.say(told)
    known, warning = names.read(asked.names) if asked.names else (names.Names(), NO_NAMES)
    if asked.trust_names or asked.store_passwords or asked.keytab:
        warning = None if warning == NO_NAMES else warning
    if warning:
        log.say(f"warning: {warning}")
    room_for(asked.connections)
    asked.program = ADSD
    try:
        asked.tls = tls.context(asked.certificate, asked.key) if asked.certificate else None
    except tls.NoCertificate as why:
        raise Wrong(str(why)) from None

    async def bridged():
        # Python 3.9 binds what the bridge waits for to the loop in which it is made.
        try:
            made = kind(asked, known, log)
        except gss.NoTickets as why:
            raise Wrong(str(why)) from None
        return await made.run()

    return asyncio.run(bridged())


def converted():
    """Copies an export, with what scrypt makes of its passwords."""
    try:
        for line in stretching.of_export(sys.stdin.buffer):
            sys.stdout.buffer.write(line)
        sys.stdout.buffer.flush()
    except ValueError as why:
        raise Wrong(str(why)) from None
    return 0


def main(arguments):
    asked = parsed(arguments)
    try:
        if asked.word == "serve":
            return serve(asked)
        if asked.word == "passwords":
            return converted()
        print(line_of(asked))
    except Wrong as wrong:
        print(f"adsd-ldap: {shown(str(wrong))}", file=sys.stderr)
        return 1
    except (KeyboardInterrupt, EOFError):
        print("adsd-ldap: no password was given", file=sys.stderr)
        return 1
    return 0
