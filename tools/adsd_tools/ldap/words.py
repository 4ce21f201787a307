"""The words of adsd-ldap, and what is wrong with others."""

import argparse
import ipaddress
import re
import sys

from adsd_tools.ask.requests import Line
from adsd_tools.ask.words import PRIVILEGES, Wrong
from adsd_tools.shown import shown

from .names import token_of
from .program import MOST_FRAMES

ABOUT = "LDAP for clients over one `adsd serve STORE`, which it starts and ends. This script is not proved."
BEHIND = """
    adsd-ldap serve STORE --names FILE     serves the directory of a store on ldap://127.0.0.1:1389
    adsd-ldap name NAME [--user SID ..]    makes a line of the file of names, with a hash of the password
    adsd-ldap passwords <LDIF >LDIF        makes of an export's passwords what --store-passwords checks binds by

A line of the file of names has a name, a password or its hash, and what makes the token that the program judges by:

    'CN=ann,OU=staff,DC=corp,DC=example' also=ann password=scrypt:.. user=S-1-5-21-1-2-3-1001 groups=AU,WD
    admin password='in the clear' user=BA privileges=security,take-ownership
    '' user=AN groups=WD                   whoever hasn't bound; without such a line it is told the root DSE alone

Further words are owner=, primary=, deny= and restricting=, and uid= of the system's user who may bind over --socket. A
line without any of these has the token that the directory's groups make, of the account with that name. An empty line
and one that begins with # is passed over.
What has blanks or quotes stands in quotes. SIGHUP reads the file again. SIGTERM and SIGINT stop the bridge behind the
request in work; a second one stops it at once.

status: 0 stopped; 1 the file of names isn't as it should be; 2 usage; 3 the store can't be served, or it isn't known who
is in some groups; 4 the address can't be had; 5 the program ended by itself. A line on standard error says why.
"""
MOST_CLIENTS, MOST_STEPS, PORT = 1023, 1_000_000, 1389
# What each token has beside its groups, where nobody says otherwise: authenticated users, everyone.
USUAL = ("AU", "WD")


class Words(argparse.ArgumentParser):
    """The words of the command. A fault is told in one line."""

    def error(self, message):
        print(f"{self.prog}: {shown(message)}", file=sys.stderr)
        sys.exit(2)


def count(low, high):
    """Reads a number within bounds."""

    def read(text):
        if not text.isascii() or not text.isdigit() or not low <= int(text) <= high:
            raise argparse.ArgumentTypeError(f"{text!r} isn't a number from {low} to {high}")
        return int(text)

    return read


def address(text):
    """A host's address and a port; IPv6 stands in brackets, and a port alone is one of 127.0.0.1."""
    host, sign, port = text.rpartition(":")
    host = host[1:-1] if host.startswith("[") and host.endswith("]") else host
    host = "127.0.0.1" if host == "localhost" or not sign else host
    try:
        ipaddress.ip_address(host)
    except ValueError:
        wanted = f"as 127.0.0.1:{PORT} or [::1]:{PORT}"
        raise argparse.ArgumentTypeError(f"{text!r} isn't an address and port, {wanted}") from None
    return host, count(0, 65535)(port)


def reader(text):
    """The token of some words, as a line of the file of names has them."""
    try:
        line = Line(f"reader {text}")
        made = token_of(line)
        line.ended()
        return made
    except (Wrong, ValueError) as why:
        raise argparse.ArgumentTypeError(f"{text!r}: {why}") from None


def host(text):
    """A host's name, in the domain or whole."""
    if not re.fullmatch("[A-Za-z0-9-]{1,63}(\\.[A-Za-z0-9-]{1,63})*", text):
        raise argparse.ArgumentTypeError(f"{text!r} isn't a host name")
    return text


def realm(text):
    """A realm of Kerberos, whose case counts."""
    if not re.fullmatch("[A-Za-z0-9._-]{1,255}", text):
        raise argparse.ArgumentTypeError(f"{text!r} isn't a realm's name")
    return text


def store(text):
    """The name of a store, which is UTF-8, as the program wants it."""
    try:
        text.encode()
    except UnicodeEncodeError:
        raise argparse.ArgumentTypeError(f"{text!r}: the name of a store is UTF-8") from None
    return text


def words_of_tickets(form):
    """Who may bind by tickets of Kerberos, and what is said to who looks for a domain controller."""
    form.add_argument("--keytab", metavar="FILE",
                      help="let accounts of the store bind by tickets of Kerberos for ldap/.. of this keytab: SASL "
                           "GSSAPI and GSS-SPNEGO (Debian: python3-gssapi)")
    form.add_argument("--realm", metavar="NAME", type=realm,
                      help="the realm whose principals are accounts of the store (the domain's name in capitals)")
    form.add_argument("--ping", action="store_true",
                      help="answer LDAP pings, at the same address and port by UDP too: what looks for a domain "
                           "controller sends one")


def words_of_clients(form):
    """How many clients there may be, and how long they have."""
    form.add_argument("--connections", metavar="N", type=count(1, MOST_CLIENTS), default=MOST_CLIENTS,
                      help="how many clients at once (%(default)s)")
    form.add_argument("--unbound", metavar="N", type=count(1, MOST_CLIENTS), default=128,
                      help="how many clients of one peer at once that haven't bound; one more has the place of who "
                           "has been silent longest (%(default)s)")
    form.add_argument("--first", metavar="SECONDS", type=count(1, 10**6), default=10,
                      help="let a client go that hasn't bound and from whom no whole request comes for so long "
                           "(%(default)s)")
    form.add_argument("--delay", metavar="SECONDS", type=count(0, 10**3), default=16,
                      help="how long wrong passwords close an account at most: each behind the third for twice as "
                           "long, from a quarter of a second on; 0 not at all (%(default)s)")
    form.add_argument("--idle", metavar="SECONDS", type=count(0, 10**6), default=900,
                      help="let a client go from whom no whole request comes for so long; 0 never (%(default)s)")


def words_of_serve(form):
    form.add_argument("store", metavar="STORE", type=store, help="the store's first file, as `adsd serve` takes it")
    form.add_argument("--names", metavar="FILE", help="who may bind; without it nobody may")
    form.add_argument("--listen", metavar="HOST:PORT", type=address, default=("127.0.0.1", PORT),
                      help=f"where clients come; port 0 is any free one (127.0.0.1:{PORT})")
    form.add_argument("--any-address", action="store_true",
                      help="take passwords in the clear also elsewhere than on a loopback address")
    form.add_argument("--certificate", metavar="FILE", help="a certificate in PEM, with those behind it: StartTLS")
    form.add_argument("--key", metavar="FILE", help="its key (in the same file)")
    form.add_argument("--ldaps", metavar="HOST:PORT", type=address, help="where clients come under TLS")
    form.add_argument("--socket", metavar="FILE", help="a Unix socket for clients of this machine: SASL EXTERNAL")
    form.add_argument("--trust-names", action="store_true",
                      help="take any password of an account of the store that has no line; on loopback addresses alone")
    form.add_argument("--store-passwords", action="store_true",
                      help="let accounts of the store bind that have no line, by the password that the store has: what "
                           "scrypt makes of it, which this bridge stores in its place (`adsd-ldap passwords`)")
    form.add_argument("--reader", metavar="WORDS", type=reader, default=reader("user=SY groups=BA,AU,WD"),
                      help="the token by which accounts and groups are looked up (user=SY groups=BA,AU,WD)")
    form.add_argument("--no-ad-rules", dest="ad_rules", action="store_false",
                      help="neither fill in nor forbid what Active Directory does (docs/clients.md)")
    form.add_argument("--profile-rules", action="store_true",
                      help="refuse what the program refuses and no more; without it nobody gives an account a "
                           "primary group that it isn't in, bits of trust, an identifier of before or another's login, "
                           "nor writes what is the system's (docs/clients.md#what-nobody-may-write)")
    form.add_argument("--unknown-groups", action="store_true",
                      help="serve also where the reader doesn't read who is in some groups, so that tokens lack them")
    form.add_argument("--base", metavar="DN", type=str.encode,
                      help="the root's name, which the root DSE tells (found by the names that are DNs)")
    form.add_argument("--host", metavar="NAME", type=host,
                      help="what the root DSE calls this server (the machine's name, in the domain)")
    words_of_tickets(form)
    words_of_clients(form)
    form.add_argument("--steps", metavar="N", type=count(0, MOST_STEPS), default=200,
                      help="propagate by so many steps at a time, while no client waits and at least five times a "
                           "second; 0 not at all (%(default)s)")
    form.add_argument("--run-every", metavar="SECONDS", type=count(0, 10**8), default=3600,
                      help="a protection run each so many seconds; 0 none (%(default)s)")
    form.add_argument("--log-changes", action="store_true",
                      help="say each change, propagation and protection run: who, what, and its code")
    form.add_argument("--frames", metavar="N", type=count(1, MOST_FRAMES), default=MOST_FRAMES,
                      help="start the program again after so many frames (%(default)s, as it takes no more)")


def words_of_name(form):
    form.add_argument("name", metavar="NAME", help="a DN or a user name")
    form.add_argument("--store", metavar="STORE",
                      help="take names of this store's accounts for identifiers; --group '*' are all groups of the user")
    form.add_argument("--user", metavar="SID",
                      help="the token's user, an identifier or an alias (without it the token is that of the account "
                           "with this name, as the directory says at each bind)")
    form.add_argument("--group", action="append", default=[], metavar="SID", help="a group of the token")
    form.add_argument("--bare", action="store_true",
                      help=f"don't put {' and '.join(USUAL)} (authenticated users, everyone) among the groups")
    form.add_argument("--primary", metavar="SID", help="the primary group for new objects (the user)")
    form.add_argument("--owner", metavar="SID", help="the owner for new objects (the user)")
    form.add_argument("--privilege", action="append", default=[], choices=list(PRIVILEGES))
    form.add_argument("--also", metavar="NAME", help="further user names, parted by commas")
    form.add_argument("--pbkdf2", action="store_true", help="hash by PBKDF2 in the place of scrypt")


def parsed(arguments):
    form = Words(prog="adsd-ldap", description=ABOUT, epilog=BEHIND,
                 formatter_class=argparse.RawDescriptionHelpFormatter)
    of_word = form.add_subparsers(dest="word", required=True, metavar="serve|name|passwords")
    serve = of_word.add_parser("serve", help="serves a store; serve --help has its words",
                               description="Serves a store to LDAP clients.")
    name = of_word.add_parser("name", help="makes a line of the file of names; name --help has its words",
                              description="Makes a line of the file of names. It asks for the password, or takes the "
                                          "first line of its input as one.")
    of_word.add_parser("passwords", help="makes of an export's passwords what --store-passwords checks binds by",
                       description="Copies LDIF, and writes in the place of each value of unicodePwd what scrypt makes "
                                   "of it and of the object's objectGUID, else its objectSid; for `adsd load`.")
    words_of_serve(serve)
    words_of_name(name)
    asked = form.parse_args(arguments)
    if asked.word == "serve":
        check(serve, asked)
    return asked


def check(form, asked):
    """Ends with a fault where the words don't go together."""
    asked.ad_rules = asked.ad_rules and not asked.profile_rules
    hosts = [one[0] for one in (asked.listen, asked.ldaps) if one]
    away = [host for host in hosts if not ipaddress.ip_address(host).is_loopback]
    if away and asked.trust_names:
        form.error(f"{away[0]} isn't a loopback address: --trust-names would let anybody in")
    if away and not asked.any_address and not asked.certificate:
        form.error(f"{away[0]} isn't a loopback address, and there is no TLS: passwords would go in the clear; "
                   "--certificate makes TLS, and --any-address allows it without")
    if asked.realm and not asked.keytab:
        form.error("--realm needs --keytab")
    if (asked.ldaps or asked.key) and not asked.certificate:
        form.error("--ldaps and --key need --certificate")
