"""The words of adsd-replica, and what is wrong with others."""

import argparse
import ipaddress
import re
from urllib.parse import urlsplit

from adsd_tools.ldap import words as ldap

from .getting import SCHEME, address_of
from .listing import CONNECTION

ABOUT = ("Replicas of a store: each a process with a store and an `adsd serve` of its own, which takes the changes of "
         "an ordered log in etcd and serves LDAP clients. This script is not proved.")
BEHIND = """
    adsd-replica begin STORE --name a        begins a log with a store, which becomes replica a
    adsd-replica copy STORE NEW --name b     makes a copy of a replica's store, running or not, for a new replica b
    adsd-replica copy replica://HOST:PORT NEW --name b --copy-key FILE
                                             the same of a replica that runs on another machine
    adsd-replica serve STORE ..              runs a replica; it takes the words of `adsd-ldap serve` too
    adsd-replica status [--json]             tells the log's head, and how far each replica is
    adsd-replica health                      tells what isn't well
    adsd-replica forget NAME                 no longer keeps the log for a replica that won't come back
    adsd-replica upgrade                     takes the log to the release of the program here
    adsd-replica compare                     whether all replicas that run hold the same rows
    adsd-replica compare STORE STORE         whether two stores do
    adsd-replica skip ENTRY STORE            has all replicas pass over an entry that none takes; STORE stands before it
    adsd-replica position STORE              tells where a store stands in its log, running or not
    adsd-replica repair STORE                puts back what says what a log is, where somebody wrote over it
    adsd-replica key FILE [--name a]         makes a key to seal entries by, or with --name one to sign them by

Beside STORE stand STORE.b and STORE.position, where the replica stands in the log. docs/replicas.md has the rest.

status of serve: 0 stopped; 1 the file of names, a key, or what ADSD names, isn't as it should be; 2 usage; 3 the store
can't be served; 4 the address can't be had; 5 the program ended by itself; 6 the log doesn't go with the store, or with
the program. Of health: 0 all is well; 1 something has to be looked at; 2 usage; 3 no change is taken. Of the others: 0
done; 1 not done, or the stores differ; 2 usage. A line on standard error says why.
"""
USUAL = "http://127.0.0.1:2379"


def name(text):
    """The name of a log or of a replica."""
    if not re.fullmatch(r"[A-Za-z0-9._-]{1,64}", text):
        raise argparse.ArgumentTypeError(f"{text!r} isn't a name of letters, digits and ._-, 64 at most")
    return text


def urls(text):
    """The addresses of etcd's members."""
    found = [one.strip() for one in text.split(",")]
    for one in found:
        parts = urlsplit(one)
        try:
            good = parts.scheme in ("http", "https") and parts.hostname and parts.path in ("", "/") and parts.port != 0
        except ValueError:
            good = False
        if not good:
            raise argparse.ArgumentTypeError(f"{one!r} isn't an address as {USUAL}")
    return found


def unit(units, low, high):
    """Reads a number with a unit behind it, or without, within bounds."""

    def read(text):
        found = re.fullmatch(r"([0-9]{1,15})([a-zA-Z]?)", text)
        number = int(found[1]) * units[found[2]] if found and found[2] in units else -1
        if not low <= number <= high:
            told = ", ".join(one for one in units if one)
            raise argparse.ArgumentTypeError(f"{text!r} isn't a number, with one of {told} after it or without, from "
                                             f"{low} to {high}")
        return number

    return read


BYTES = unit({"": 1, "k": 1 << 10, "M": 1 << 20, "G": 1 << 30}, 0, 1 << 40)
SECONDS = unit({"": 1, "s": 1, "m": 60, "h": 3600, "d": 86400}, 0, 10**9)


def near(text):
    """An address of this machine alone, and a port."""
    host, port = ldap.address(text)
    if not is_loopback(host):
        raise argparse.ArgumentTypeError(f"{text!r} isn't a loopback address")
    return host, port


def words_of_etcd(form, has_log=True):
    form.add_argument("--etcd", metavar="URL[,URL]", type=urls, default=[USUAL],
                      help=f"the members of etcd, by their clients' addresses ({USUAL})")
    form.add_argument("--etcd-ca", metavar="FILE", help="who vouches for etcd's certificates (the system's)")
    form.add_argument("--etcd-cert", metavar="FILE", help="the certificate that is shown to etcd")
    form.add_argument("--etcd-key", metavar="FILE", help="its key (in the same file)")
    form.add_argument("--etcd-clear", action="store_true",
                      help="speak with etcd in the clear also elsewhere than on a loopback address")
    form.add_argument("--etcd-user", metavar="NAME", help="by whom etcd is asked, where its auth is enabled")
    form.add_argument("--etcd-password", metavar="FILE",
                      help="the file that has the user's password in its first line, and that nobody else may read")
    if has_log:
        form.add_argument("--log", metavar="NAME", type=name, default="adsd",
                          help="the log's name in etcd (%(default)s)")


def words_of_serve(form):
    ldap.words_of_serve(form)
    words_of_etcd(form, has_log=False)
    form.add_argument("--etcd-calls", choices=("json", "grpc"), default="json",
                      help="how etcd is asked: by its JSON gateway, or by gRPC, which wants python3-grpcio (%(default)s)")
    form.add_argument("--reads", choices=("local", "linear"), default="local",
                      help="what a read is answered by: the store as it is, or as the log's head has it when the read "
                           "comes (%(default)s)")
    form.add_argument("--patience", metavar="SECONDS", type=ldap.count(1, 3600), default=10,
                      help="how long a change, and a linear read, wait for the log before they are answered by 52 "
                           "(%(default)s)")
    form.add_argument("--copies", metavar="[HOST:]PORT", type=ldap.address,
                      help="give copies of the store at this address, to who has the secret of --copy-key")
    word_of_copies(form)
    words_of_log(form)
    words_of_keys(form)


def words_of_log(form):
    """How long the log is, and what is looked after."""
    form.add_argument("--max-age", metavar="SECONDS", type=SECONDS, default=30,
                      help="how old it may be what a local read is answered by; beyond that it is answered by 51; 0 "
                           "however old (%(default)s)")
    form.add_argument("--user-bytes", metavar="BYTES", type=BYTES, default=64 << 20,
                      help="how many bytes of changes each user may put into the log in a minute; 0 any (64M)")
    form.add_argument("--keep", metavar="BYTES", type=BYTES, default=256 << 20,
                      help="how many bytes of entries that all replicas have taken the log keeps, and a quarter of "
                           "etcd's quota at most (256M)")
    form.add_argument("--forget-after", metavar="TIME", type=SECONDS, default=3 * 86400,
                      help="forget a replica that has told nothing for so long, as 12h or 3d; 0 never (3d)")
    form.add_argument("--remember", metavar="TIME", type=SECONDS, default=3600,
                      help="how long the log knows the names of requests at least (1h)")
    form.add_argument("--check-every", metavar="TIME", type=SECONDS, default=3600,
                      help="look through the whole log, and compare what replicas hold, so often; 0 never (1h)")
    form.add_argument("--etcd-upkeep", choices=("keeper", "told"), default="keeper",
                      help="whether the keeper has etcd free room in its files and takes its alarms away, or says that "
                           "it has to be done (%(default)s)")
    form.add_argument("--metrics", metavar="[HOST:]PORT", type=near,
                      help="tell Prometheus on this loopback address how the replica is; port 0 is any free one")


def words_of_keys(form, signs=True):
    if signs:
        form.add_argument("--sign", metavar="FILE", help="sign the entries that this replica puts, by this key")
    form.add_argument("--keys", metavar="FILE",
                      help="take entries alone that are signed by one of these replicas' keys")
    form.add_argument("--seal", metavar="FILE", help="seal entries by this key, and take sealed ones alone")


def parsed(arguments):
    form = ldap.Words(prog="adsd-replica", description=ABOUT, epilog=BEHIND,
                      formatter_class=argparse.RawDescriptionHelpFormatter)
    words = "begin|copy|serve|status|health|forget|upgrade|compare|skip|position|repair|key"
    of_word = form.add_subparsers(dest="word", required=True, metavar=words)

    def word(called, told):
        return of_word.add_parser(called, help=told, description=told[0].upper() + told[1:] + ".")

    words_of_stores(word)
    words_of_logs(word)
    words_of_entries(word)
    asked = form.parse_args(arguments)
    check(of_word.choices[asked.word], asked)
    return asked


def words_of_stores(word):
    """The words about a store."""
    begin = word("begin", "begins a log with a store")
    begin.add_argument("store", metavar="STORE", type=ldap.store)
    begin.add_argument("--name", type=name, required=True, help="the replica's name")
    words_of_etcd(begin)
    copy = word("copy", "makes a copy of a replica's store for a new replica")
    copy.add_argument("store", metavar="STORE", type=ldap.store,
                      help="or replica://HOST:PORT, where another machine's replica gives copies (--copies)")
    copy.add_argument("new", metavar="NEW", type=ldap.store)
    copy.add_argument("--name", type=name, required=True, help="the new replica's name")
    word_of_copies(copy)
    words_of_etcd(copy, has_log=False)
    words_of_serve(word("serve", "runs a replica"))


def word_of_copies(form):
    form.add_argument("--copy-key", metavar="FILE",
                      help="the secret by which one replica gives another one a copy: adsd-replica key FILE, the same at "
                           "both")


def words_of_logs(word):
    """The words about a log and its replicas."""
    status = word("status", "tells how far the log and the replicas are")
    status.add_argument("--json", action="store_true", help="as JSON")
    health = word("health", "tells what isn't well: status 0, 1 or 3")
    health.add_argument("--lag", metavar="N", type=ldap.count(0, 10**9), default=1000,
                        help="how many entries a replica may lack (%(default)s)")
    forget = word("forget", "no longer keeps the log for a replica")
    forget.add_argument("name", metavar="NAME", type=name)
    upgrade = word("upgrade", "takes the log to the release of the program here, once all replicas are at its head")
    compare = word("compare", "tells whether all replicas that run hold the same rows, or two stores do")
    compare.add_argument("stores", metavar="STORE", nargs="*", type=ldap.store)
    for one, seconds in ((upgrade, 30), (compare, 60)):
        one.add_argument("--wait", metavar="SECONDS", type=ldap.count(1, 3600), default=seconds,
                         help="how long replicas are waited for (%(default)s)")
    for one in (status, health, forget, upgrade, compare):
        words_of_etcd(one)


def words_of_entries(word):
    """The words about entries and their keys."""
    skip = word("skip", "has all replicas pass over an entry that none of them takes")
    skip.add_argument("entry", metavar="ENTRY", type=ldap.count(1, 10**16 - 1))
    skip.add_argument("store", metavar="STORE", type=ldap.store, help="of a replica that has ended at this entry")
    words_of_keys(skip, signs=False)
    words_of_etcd(skip, has_log=False)
    position = word("position", "tells where a store stands in its log, whether its replica runs or not")
    position.add_argument("store", metavar="STORE", type=ldap.store)
    repair = word("repair", "puts back the log's id, release, head and first entry, where they aren't of their form")
    repair.add_argument("store", metavar="STORE", type=ldap.store, help="of the replica that is the furthest")
    words_of_etcd(repair, has_log=False)
    key = word("key", "makes a key to seal entries by, or to sign them by, and prints the line for --keys")
    key.add_argument("file", metavar="FILE")
    key.add_argument("--name", type=name, help="whose key it is, to sign by")


def check(form, asked):
    """Ends with a fault where the words don't go together."""
    if asked.word in ("key", "position"):
        return
    if asked.word == "compare" and len(asked.stores) not in (0, 2):
        form.error("compare takes two stores, or none: then it asks the replicas that run")
    if (asked.etcd_user is None) != (asked.etcd_password is None):
        form.error("--etcd-user and --etcd-password go together")
    away = [one for one in asked.etcd if urlsplit(one).scheme == "http" and not is_loopback(urlsplit(one).hostname)]
    if away and not asked.etcd_clear:
        form.error(f"{away[0]} isn't a loopback address, and there is no TLS: who is between could change the directory; "
                   "https:// makes TLS, and --etcd-clear allows it without")
    check_copies(form, asked)
    if asked.word == "serve":
        ldap.check(form, asked)
        asked.connections = min(asked.connections, CONNECTION - 1)


def check_copies(form, asked):
    """Copies are given and taken by a secret alone."""
    if asked.word == "serve" and (asked.copies is None) != (asked.copy_key is None):
        form.error("--copies and --copy-key go together")
    is_far = asked.word == "copy" and asked.store.startswith(SCHEME + "://")
    try:
        known = is_far and address_of(asked.store)
    except ValueError:
        known = None
    if is_far and not known:
        form.error(f"{asked.store} isn't an address as {SCHEME}://192.0.2.1:7389")
    if asked.word == "copy" and is_far != (asked.copy_key is not None):
        form.error("a copy from another machine wants --copy-key, and one of a store here has none")


def is_loopback(host):
    try:
        return host == "localhost" or ipaddress.ip_address(host).is_loopback
    except ValueError:
        return False
