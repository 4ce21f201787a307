"""What tools/test/ldap tries of who is there: names of accounts, tokens that the directory's groups make, TLS,
users of the system, passwords of the store and their change."""

import asyncio
import hashlib
import os
import random
import socket
import ssl
import subprocess
import tempfile

import ldap_store
from ldap_client import REFUSED, SECONDS, Bridge, Client, Closed, ber
from ldap_face import asked
from ldap_peers import BOUND, same
from ldap_store import DOMAIN, GROUPS, ROOT, UNIT, sid
from adsd_tools.forms.sids import sid_of_text, text_of_sid
from adsd_tools.ldap import accounts
from adsd_tools.ldap.accounts import token_of
from adsd_tools.ldap.extended import PASSWORD
from adsd_tools.ldap.tls import START

NAMES = "admin password=adm1n user=BA privileges=security\n"
ANN, EVE = f"CN=Ann Lee,{UNIT}", f"CN=Eve,{UNIT}"
SPELLINGS = (ANN, "ann", "ANN", "ann.lee@corp.example", "ann@corp.example", "CORP\\ann", "corp.example\\ann",
             f"{DOMAIN}-2001", f"cn=ann lee, ou=people,{ROOT}")
STRONGER, NO_RIGHT = 8, 50


class Made(Bridge):
    """A bridge over the directory of ldap_store."""

    def __init__(self, *words, names=NAMES, more=""):
        self.held = os.path.join(tempfile.gettempdir(), f"ldap_store_{os.getpid()}_{id(self)}")
        super().__init__("--delay", "0", *words, names=names, store=ldap_store.load(self.held, more))

    def __exit__(self, *given):
        super().__exit__(*given)
        for end in ("", ".b"):
            if os.path.exists(self.held + end):
                os.remove(self.held + end)


def who(client):
    number = client.extended(b"1.3.6.1.4.1.4203.1.11.3")
    data, given, _ = client.message()
    same(given, number)
    return dict(ber.parts(ber.parts(ber.parts(data)[0][1])[1][1])).get(0x8B, b"").decode()


def groups_of(client, name):
    found = asked(client, f"search base='{name}' attrs=tokenGroups")[0]
    return sorted(found[0][1].get("tokenGroups", ()))


def names_of_accounts():
    """A line without a token has that of its account, whatever the name; others that aren't there are refused."""
    lines = f"'{ANN}' password=pw\n'CORP\\bob' password=pw\neve password=pw\n'not there' password=pw\n"
    with Made(names=NAMES + lines) as bridge:
        one = bridge.client()
        for name in SPELLINGS:
            same((name, one.bind(name, "pw")), (name, BOUND))
            same(who(one), "u:CORP\\ann")
            same(one.bind(name, "first"), REFUSED)
            same(who(one), "")
        for name in ("OTHER\\ann", "ann@other.example", "ann lee", "not there", f"{DOMAIN}-1"):
            same((name, one.bind(name, "pw")), (name, REFUSED))
        same([one.bind("bob", "pw")[-15:], one.bind("bob", "no")[-15:]], ["data 533, v1db1", "data 52e, v1db1"])
        same(one.bind("eve", "pw")[-15:], "data 701, v1db1")
        same(one.bind("ann", "pw"), BOUND)
        wanted = sorted(map(sid, (513, 2101, 2102)))
        same(groups_of(one, ANN), wanted)
        same(groups_of(one, f"CN=Bob,{UNIT}"), [])
    with Made("--no-ad-rules", names="bob password=pw\n") as bridge:
        same(bridge.client().bind("bob", "pw"), BOUND)


class Over:
    """What the accounts are looked up by: a client of a bridge, in the place of the program's turns."""

    root = ROOT.encode()

    def __init__(self, client):
        self.client, self.turns = client, self

    async def ask(self, kind, connection, data, changes=False):
        self.client.socket.sendall(data)
        reply, tag = b"", 0x64
        while tag == 0x64:
            more, _, tag = self.client.message()
            reply += more
        return reply


def made_token(client, name):
    """The token that the directory makes of somebody."""
    found = accounts.Accounts(Over(client), b"")
    found.domain = sid(0)[:1] + b"\x04" + sid(0)[2:-4]

    async def made():
        return await found.token(await found.find(name))

    return asyncio.run(made())


def tokens():
    """What the token has: groups one by the other, the primary group, no group of mail, and what is behind
    everybody's."""
    with Made() as bridge:
        admin, every = bridge.client("admin", "adm1n"), set(accounts.EVERYBODY)
        wanted = token_of(sid(2001), sid(513), every | {sid(513), sid(2101), sid(2102)})
        same(made_token(admin, "ann"), wanted)
        same(made_token(admin, "bob"), token_of(sid(2002), accounts.USERS, every | {accounts.USERS}))


def reader():
    """Of how many objects the reader doesn't read what tokens are made of is said."""
    with Made("--reader", "user=S-1-5-9 groups=AU,WD", names=NAMES + f"'{ANN}' password=pw\n") as bridge:
        bridge.wait_for(r"warning: the reader doesn't read primaryGroupID of \d+ objects, so tokens lack what it tells")
    with Made(names=NAMES + f"'{ANN}' password=pw\n") as bridge:
        same([line for line in bridge.lines() if "warning" in line], [])


def random_tokens():
    """Of random groups the token has what the least set has, made step by step of all that stands in the directory."""
    dice = random.Random(3)
    for _ in range(4):
        names = [f"CN=g{at},{GROUPS}" for at in range(24)]
        sids = {name: sid(3000 + at) for at, name in enumerate(names)}
        sids.update({names[0]: accounts.EVERYBODY[1], names[1]: sid_of_text("S-1-5-32-551"), ANN: sid(2001)})
        kinds = {name: dice.choice((None, -2147483646, 2, -2147483644)) for name in names}
        members = {name: dice.sample([*names, ANN], dice.randrange(4)) for name in names}
        text = ""
        for name in names:
            told = "" if kinds[name] is None else f"groupType: {kinds[name]}\n"
            held = "".join(f"member: {one}\n" for one in members[name])
            text += f"\ndn: {name}\nobjectClass: group\nobjectSid: {text_of_sid(sids[name])}\n{told}{held}"
        with Made(more=text) as bridge:
            found = {*accounts.EVERYBODY, sid(513), *map(sid, (2101, 2102))}
            while True:
                new = {sids[name] for name in names if (kinds[name] is None or kinds[name] < 0)
                       and any(sids[one] in found | {sid(2001)} for one in members[name])} - found
                if not new:
                    break
                found |= new
            same(made_token(bridge.client("admin", "adm1n"), ANN), token_of(sid(2001), sid(513), found))


def passwords_of_the_store():
    """The program says whether a password is an account's; nobody without one binds, and a changed one counts at
    once."""
    with Made("--store-passwords") as bridge:
        one, admin = bridge.client(), bridge.client("admin", "adm1n")
        same([one.bind("ann", "first"), one.bind("ann", "second")], [BOUND, REFUSED])
        same(one.bind("staff", "first"), REFUSED)
        same(one.bind("admin", "first"), REFUSED)
        same(one.bind("ann", "first"), BOUND)
        same(changed(one, None, b"wrong", b"second")[0] in (19, 50), True)
        same(changed(admin, ANN.encode(), None, b"second")[0], 0)
        same([one.bind("ann", "first"), one.bind("ann", "second")], [REFUSED, BOUND])
        code, made = changed(admin, b"u:ann", None, None)
        same((code, len(made)), (0, 20))
        same(one.bind("ann", made.decode()), BOUND)
        same(changed(one, EVE.encode(), None, b"mine")[0], NO_RIGHT)
        same(changed(bridge.client(), ANN.encode(), None, b"x")[0], STRONGER)


def plain_digests():
    """A store by whose passwords binds are checked has no digest of a password alone, and one that came into it so lets
    nobody bind: whoever has the store's files would guess it."""
    with tempfile.TemporaryDirectory() as place:
        store, bob = ldap_store.load(os.path.join(place, "corp")), f"CN=Bob,{UNIT}"
        digests = [hashlib.sha256(one).digest() for one in (b"second", '"second"'.encode("utf-16-le"), b'"second"')]

        def in_files():
            held = b""
            for name in os.listdir(place):
                with open(os.path.join(place, name), "rb") as file:
                    held += file.read()
            return any(one in held for one in digests)

        with Bridge("--delay", "0", "--store-passwords", names=NAMES, store=store) as bridge:
            admin = bridge.client("admin", "adm1n")
            same([changed(admin, name.encode(), None, b"second")[0] for name in (ANN, bob)], [0, 0])
            same(bridge.client().bind("ann", "second"), BOUND)
        same(in_files(), False)
        with Bridge("--delay", "0", names=NAMES, store=store) as bridge:
            same(changed(bridge.client("admin", "adm1n"), ANN.encode(), None, b"second")[0], 0)
        same(in_files(), True)
        with Bridge("--delay", "0", "--store-passwords", names=NAMES, store=store) as bridge:
            one = bridge.client()
            same([one.bind("ann", "second"), one.bind("ann", digests[1].hex())], [REFUSED, REFUSED])


def changed(client, name, old, new):
    """The code of a change of a password, and what was made."""
    held = [ber.octets(one, tag) for tag, one in ((0x80, name), (0x81, old), (0x82, new)) if one is not None]
    client.send(ber.sequence(ber.octets(PASSWORD, 0x80), ber.octets(ber.sequence(*held), 0x81), tag=0x77))
    fields = ber.parts(ber.parts(ber.parts(client.message()[0])[0][1])[1][1])
    made = dict(fields).get(0x8B)
    return fields[0][1][0], made and ber.parts(ber.parts(made)[0][1])[0][1]


def trusted():
    """With --trust-names any password is an account's, but of one that has a line."""
    with Made("--trust-names") as bridge:
        one = bridge.client()
        same([one.bind("ann", "x"), one.bind("admin", "x"), one.bind("nobody", "x")], [BOUND, REFUSED, REFUSED])
        same(one.bind("ann", ""), "# bind: 53 unwilling to perform, a name without a password")


def by_socket():
    """Over a Unix socket the system says who is there."""
    place = os.path.join(tempfile.gettempdir(), f"ldap_who_{os.getpid()}")
    line = f"'{ANN}' uid={os.geteuid()}\n"
    with Made("--socket", place, names=NAMES + line) as bridge:
        one = over(bridge, place)
        held = asked(one, "search base='' attrs=supportedSASLMechanisms")[0][0][1]
        same(held, {"supportedSASLMechanisms": [b"EXTERNAL"]})
        same([external(one), external(one, b"dn:" + ANN.encode())], [BOUND, BOUND])
        same(external(one, b"dn:CN=other"), REFUSED)
        same([external(one), who(one)], [BOUND, "u:CORP\\ann"])
        same(external(bridge.client()), "# bind: 7 authentication method not supported, simple binds only")
        same(one.bind(ANN, "anything"), REFUSED)
        bridge.write(NAMES)
        bridge.running.send_signal(1)
        bridge.wait_for("is read again")
        same(external(over(bridge, place)), REFUSED)
        same(bridge.end()[0], 0)
    same(os.path.exists(place), False)


def external(client, given=None):
    held = [ber.octets(b"EXTERNAL")] + ([ber.octets(given)] if given is not None else [])
    method = ber.sequence(*held, tag=0xA3)
    return client.reply(client.send(ber.sequence(ber.number(3), ber.octets(b""), method, tag=0x60)))


def over(bridge, place):
    """A client at a Unix socket."""
    made = Client(bridge.port)
    made.socket.close()
    made.socket = socket.socket(socket.AF_UNIX)
    made.socket.settimeout(SECONDS)
    made.socket.connect(place)
    return made


def certificate(place):
    """A certificate of 127.0.0.1 with its key; None where there is no openssl."""
    try:
        words = "openssl req -x509 -newkey ec -pkeyopt ec_paramgen_curve:P-256 -nodes -days 2 -subj /CN=127.0.0.1"
        more = ["-addext", "subjectAltName=IP:127.0.0.1", "-keyout", f"{place}.key", "-out", place]
        subprocess.run(words.split() + more, check=True, stderr=subprocess.DEVNULL, stdout=subprocess.DEVNULL)
    except OSError:
        return None
    return ["--certificate", place, "--key", f"{place}.key"]


def by_tls():
    """StartTLS, and TLS from the beginning; what is sent behind a StartTLS in the clear ends the connection."""
    place = os.path.join(tempfile.gettempdir(), f"ldap_tls_{os.getpid()}")
    words = certificate(place)
    if words is None:
        return
    trusted_by = ssl.create_default_context(cafile=place)
    with Made(*words, "--ldaps", "127.0.0.1:0") as bridge:
        one = bridge.client("admin", "adm1n")
        same(one.reply(one.extended(START)), "# extended: 0 success")
        one.socket = trusted_by.wrap_socket(one.socket, server_hostname="127.0.0.1")
        same(who(one), "")
        same([one.bind("admin", "adm1n"), who(one)], [BOUND, "u:admin"])
        same(one.reply(one.extended(START))[:13], "# extended: 1")
        found = bridge.wait_for(r"ldaps://127\.0\.0\.1:(\d+)")
        two = Client(int(found[1]))
        two.socket = trusted_by.wrap_socket(two.socket, server_hostname="127.0.0.1")
        same([two.bind("admin", "adm1n"), who(two)], [BOUND, "u:admin"])
        large = asked(two, f"search base='{ROOT}' scope=sub")[0]
        same(len(large) > 20, True)
        injected(bridge)
        same(bridge.end()[0], 0)
    for end in ("", ".key"):
        os.remove(place + end)


def injected(bridge):
    """What was sent in the clear behind a StartTLS isn't taken for something that came by TLS."""
    one = bridge.client()
    bind = ber.sequence(ber.number(3), ber.octets(b"admin"), ber.octets(b"adm1n", 0x80), tag=0x60)
    start = ber.sequence(ber.octets(START, 0x80), tag=0x77)
    one.socket.sendall(ber.sequence(ber.number(1), start) + ber.sequence(ber.number(2), bind))
    same(one.reply(1)[:13], "# extended: 1")
    try:
        one.taken(1)
    except (Closed, ConnectionError):
        return


CASES = (names_of_accounts, tokens, random_tokens, reader, passwords_of_the_store, plain_digests, trusted, by_socket,
         by_tls)
