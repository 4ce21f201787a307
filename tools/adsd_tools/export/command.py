"""The command: words, the file, statuses."""

import argparse
import getpass
import os
import sys
import time

from adsd_tools.files import write
from adsd_tools.importing.output import line_text
from adsd_tools.shown import shown

from .told import Fault, Lacks, Progress, clock, say

ABOUT = """Writes one file that adsd-import takes: the schema, the extended rights, the configuration and the domain of
a server of Active Directory or Samba, with all descriptors, read over LDAP. Nothing is ever written to the server.

    adsd-export ldaps://dc1.corp.example --user ann@corp.example --output export.ldif
    adsd-export ldap://dc1.corp.example --gssapi --output export.ldif       (with a ticket of kinit, sealed)
    adsd-import export.ldif --output corp.ldif --report corp.report

The file's last line says how many objects it has, and adsd-import names one that was cut short. Attributes that hold
passwords, keys or their hashes aren't asked for; deleted objects aren't there. The file is as secret as the directory,
and its owner's alone (0600). Where the connection is lost a new one goes on where it was.

This script is not proved. It needs Debian's python3-ldap."""
STATUSES = """status: 0 written; 1 the server refuses, or isn't Active Directory or Samba; 2 usage; 4 stopped,
since the account may not read what matters; 5 the file can't be written; 6 the server can't be reached, or its
certificate isn't trusted, or the connection was lost for good. Where it isn't 0, no file is written."""
SYSTEM = "/usr/bin/python3"


class Words(argparse.ArgumentParser):
    """The words of the command. A fault is told in one line."""

    def error(self, message):
        say(message)
        sys.exit(2)


def words(arguments):
    parser = Words(prog="adsd-export", description=ABOUT, epilog=STATUSES,
                   formatter_class=argparse.RawDescriptionHelpFormatter)
    parser.add_argument("server", metavar="SERVER", help="ldaps://HOST, ldap://HOST with StartTLS, or HOST for ldaps")
    parser.add_argument("-o", "--output", metavar="FILE", required=True, help="the file that is written")
    who = parser.add_mutually_exclusive_group(required=True)
    who.add_argument("-u", "--user", metavar="NAME",
                     help="who reads: ann@corp.example, CORP\\ann or a DN; the password is read from standard input")
    who.add_argument("--gssapi", action="store_true", help="use the Kerberos ticket of kinit")
    parser.add_argument("--password-file", metavar="FILE", help="the password is the first line of this file")
    parser.add_argument("--ca", metavar="FILE", help="CA certificates to check the server's certificate with (the system's)")
    parser.add_argument("--plain", action="store_true",
                        help="ldap:// without StartTLS: password and directory cross the network unencrypted")
    parser.add_argument("--context", metavar="DN", action="append", default=[],
                        help="export this naming context too, as DC=DomainDnsZones,DC=corp,DC=example")
    parser.add_argument("--partial", action="store_true", help="write although the account may not read what matters")
    parser.add_argument("--page", metavar="N", type=int, default=500, help="objects in a page of a search (%(default)s)")
    parser.add_argument("--values", metavar="N", type=int, default=0,
                        help="values in a range, of large groups (as many as the server gives at once)")
    options = parser.parse_args(arguments)
    if not 1 <= options.page <= 1000 or not 0 <= options.values <= 100000:
        parser.error("--page is 1 to 1,000, and --values 1 to 100,000")
    return options, parser


def password_of(options):
    """The password: of a file, of standard input, or typed; without one a bind would be nobody's, and count as good."""
    if options.password_file:
        try:
            with open(options.password_file, "rb") as opened:
                given = opened.readline().rstrip(b"\r\n")
        except OSError as fault:
            raise Fault(6, f"{options.password_file}: {fault.strerror}") from None
    elif sys.stdin.isatty():
        given = getpass.getpass(f"Password of {shown(options.user)}: ").encode()
    else:
        given = sys.stdin.buffer.readline().rstrip(b"\r\n")
    if not given:
        raise Fault(2, "the password is empty")
    return given


class Export:
    """One export: what the server says of itself, and the pieces of the file."""

    def __init__(self, options, link):
        self.options, self.link, self.count = options, link, 0
        self.lacks, self.progress = Lacks(), Progress()

    def contexts(self):
        """The naming contexts, the schema's first."""
        held = self.link.root()
        own = [held[name][0] for name in ("schemanamingcontext", "configurationnamingcontext", "defaultnamingcontext")]
        first = held.get("rootdomainnamingcontext", [own[2]])[0]
        if first.lower() != own[2].lower():
            say(f"this isn't the forest's first domain: import it with --base '{own[2]}'")
        return own + [one for one in self.options.context if one not in own]

    def pieces(self):
        """The file, piece by piece; a Fault at its end where the account may not read what matters."""
        from .reading import Reader, same

        contexts = self.contexts()
        reader = Reader(self.link, self.options.page, self.options.values, self.lacks, self.progress)
        if not reader.flags(contexts[2]):
            say("the account may not read SACLs, so the export says nothing of auditing")
        day = time.strftime("%Y-%m-%d %H:%M:%S UTC", time.gmtime())
        yield f"# adsd-export: {shown(contexts[2])} of {self.link.where.url()}, {day}\n\n".encode()
        parts = [reader.listed(base) for base in contexts]
        heads = {same(base) for base in contexts}
        for names, attributes in parts:
            reader.parents(names, heads)
            for dn, held in reader.objects(names, attributes):
                self.count += 1
                yield record(dn, held)
        if reader.gone:
            say(f"{len(reader.gone)} objects were deleted or renamed while it was read, as {reader.gone[0]}")
        yield self.judged()
        yield f"# numEntries: {self.count}\n".encode()

    def judged(self):
        """Says what the account may not read, and ends where that may not be written; comments that say it."""
        lines = self.lacks.lines()
        for line in lines:
            say(f"missing: {line}")
        if lines and not self.options.partial:
            raise Fault(4, "the account may not read what matters; nothing is written without --partial")
        return "".join(f"# missing: {shown(line)}\n" for line in lines).encode("utf-8", "backslashreplace")


def record(dn, held):
    """The text of an object, an empty line behind it."""
    lines = [line_text("dn", dn.encode("utf-8", "surrogateescape"))]
    lines += [line_text(name, value) for name, values in held.items() for value in values]
    return b"\n".join(lines) + b"\n\n"


def exported(options):
    """Exports; the status is 0."""
    from .link import Link, address

    where = address(options.server)
    if where is None:
        raise Fault(2, f"{options.server}: not a server: give ldaps://HOST, ldap://HOST or HOST")
    if options.ca and not os.access(options.ca, os.R_OK):
        raise Fault(6, f"{options.ca}: it can't be read")
    link = Link(where, (options.user, password_of(options)) if options.user else None, options.ca, options.plain)
    link.open()
    work = Export(options, link)
    begun = time.monotonic()
    write(options.output, work.pieces())
    say(f"{work.count} objects in {options.output}; {clock(time.monotonic() - begun)}")
    return 0


def has_ldap(arguments):
    """Whether python3-ldap is there. Where another Python has it, the system's, that one goes on."""
    try:
        import ldap  # noqa: F401
        return True
    except ImportError:
        if os.access(SYSTEM, os.X_OK) and os.path.realpath(SYSTEM) != os.path.realpath(sys.executable):
            if not os.environ.get("ADSD_EXPORT_AGAIN"):
                os.environ["ADSD_EXPORT_AGAIN"] = "1"
                os.execv(SYSTEM, [SYSTEM, sys.argv[0], *arguments])
        return False


def main(arguments: list[str]) -> int:
    """Runs the command; the status."""
    options, _ = words(arguments)
    if not has_ldap(arguments):
        say("python3-ldap isn't installed (Debian: python3-ldap)")
        return 1
    try:
        return exported(options)
    except Fault as fault:
        say(str(fault))
        return fault.status
    except KeyboardInterrupt:
        say("stopped; nothing is written")
        return 130
    except OSError as fault:
        say(f"{fault.filename or options.output}: {fault.strerror}")
        return 5
