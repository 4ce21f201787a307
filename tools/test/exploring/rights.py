"""That each right which the explorer tells is the program's or the library's, each token the bridge's, and that what is
told of a directory whose answers are known is that."""

import asyncio
import os
import random
import subprocess

from adsd_tools.forms.sids import sid_of_text, text_of_sid
from adsd_tools.report import program
from adsd_tools.report.harms import RANK, dangerous

import plain_why

from . import corp

TOP = corp.TOP
ADMIN, STAFF = f"CN=Administrator,{corp.USERS}", corp.STAFF
# Who resets the administrator's password: by the entry for whom, and the groups that lead there.
RESETS = [("Administrators", [("Administrator", ["Administrators"]), ("alice", ["Domain Admins", "Administrators"])]),
          ("old-support", [("frank", ["contractors", "old-support"]), ("grace", ["contractors", "old-support"])])]


class Opened:
    """An explorer of a store, in this process."""

    def __init__(self, tries, store):
        from adsd_tools.explore.api import Api
        from adsd_tools.explore.explorer import Explorer
        self.explorer = Explorer(store, tries.place, False, lambda line: tries.check(False, f"{store}: {line}"))
        self.api, self.world = Api(self.explorer), self.explorer.world
        self.answers, self.now = self.explorer.answers, self.explorer.now

    def number(self, dn):
        return self.world.by_dn[dn.casefold()]

    def get(self, what, **words):
        return self.api.answer(what, {key: str(value) for key, value in words.items()})

    def post(self, name, body):
        return self.api.answer(name, {}, body)


def tokens(opened):
    """The tokens of all accounts, and those of whoever is in one group alone."""
    accounts = opened.world.accounts
    sids = list(accounts.sids) + [opened.world.own(number) for number in opened.world.objects if opened.world.own(number)]
    return [accounts.token(sid) for sid in dict.fromkeys(sids)] + [accounts.token(sid_of_text("S-1-5-18"))]


def as_effective(tries, opened, store, most):
    """All rights are those of `effective`, line by line."""
    pairs = [(number, token) for number in opened.world.objects for token in tokens(opened)]
    random.Random(7).shuffle(pairs)
    for number, token in pairs[:most]:
        words = [os.environ["ADSD"], "effective", store, opened.world.names[number]]
        said = subprocess.run(words, input=token.data, capture_output=True).stdout.decode().splitlines()
        told = opened.answers.lines(opened.answers.object(number, opened.now), token)
        tries.check(said == told, f"{store}: object {number}, {text_of_sid(token.sid)}: {told}, effective says {said}")


def each_alone(tries, opened):
    """What is asked once for accounts that are alike is the same for each of them, with dangers and reasons."""
    from adsd_tools.explore.answers import Answers
    accounts = opened.world.accounts
    for number in opened.world.objects:
        on = opened.answers.object(number, opened.now)
        for mask, first in opened.answers.split(on, accounts):
            for place in accounts.places_of(mask):
                token, alone = accounts.at(place), Answers(opened.world, opened.world.calls)
                same = alone.rights(on, token) == opened.answers.rights(on, first)
                same = same and alone.dangers(on, token).keys() == opened.answers.dangers(on, first).keys()
                tries.check(same, f"object {number}: {text_of_sid(token.sid)} isn't as {text_of_sid(first.sid)}")


def dangers(tries, opened):
    """The dangerous rights are those that the report finds among all rights."""
    for number in opened.world.objects:
        on = opened.answers.object(number, opened.now)
        for token in tokens(opened):
            found = set(opened.answers.dangers(on, token)) - {"owner", "all"}
            wanted = set(dangerous(opened.answers.triples(on, token), opened.world.schema).values())
            tries.check(found == wanted, f"object {number}, {text_of_sid(token.sid)}: {found}, the report says {wanted}")


def reasons(tries, opened):
    """What decides is what the report works out by the rules."""
    for number in opened.world.objects:
        one, on = opened.world.descriptor(number), opened.answers.object(number, opened.now)
        checked = plain_why.Checked(one.dacl.entries, one.owner, opened.world.own_sid(number))
        for token in tokens(opened):
            plain = plain_why.Token(token.sid, tuple(token.held - {token.sid}), (), (), token.privileges)
            for question in opened.answers.questions.of(on.of_class).lines:
                path = [question.path[at : at + 16] for at in range(0, len(question.path), 16)]
                for bit in (1 << place for place in range(20) if question.bits >> place & 1):
                    if question.kind == "set":
                        continue
                    found = opened.answers.why(on, token, question.path, bit)
                    wanted = checked.of_token(plain, path, bit)
                    by = wanted.by[0] - 1 if isinstance(wanted.by[0], int) else wanted.by[0]
                    tries.check((found.granted, found.by) == (wanted.granted, by),
                                f"object {number}, {question.name}, {bit:x}: {found}, the report says {wanted}")


class Asking:
    """The program behind the bridge's accounts, in place of the bridge."""

    def __init__(self, store, base):
        self.serving, self.root, self.schema = program.Serving(os.environ["ADSD"], store), base, None
        self.turns = self

    async def ask(self, kind, number, data):
        from adsd_tools.ask.requests import frame
        return self.serving.answer(frame(kind, number, data))[1]


def as_the_bridge(tries, opened, store):
    """A token is the one that the bridge makes of the program's searches."""
    from adsd_tools.ldap.accounts import Accounts
    from adsd_tools.explore.tokens import operator
    program.copy_slots(store, store + ".bridge")
    asking = Asking(store + ".bridge", opened.world.names[1])
    bridge = Accounts(asking, operator().data)

    async def all_of():
        await bridge.start()
        for number, sid in zip(opened.world.accounts.numbers, opened.world.accounts.sids):
            account = await bridge.find(text_of_sid(sid))
            made = await bridge.token(account)
            tries.check(made == opened.world.accounts.token(sid).data, f"{store}: object {number} has another token")

    asyncio.run(all_of())
    asking.serving.close()


def known(tries, opened):
    """What is told of the directory of corp.py."""
    told = opened.get("who", n=opened.number(ADMIN), kind="right", name="User-Force-Change-Password", code="CR")
    found = [(group["by"][0]["who"]["name"], [(one["name"], [step["name"] for step in one["chains"][0]])
                                              for one in group["accounts"]]) for group in told["groups"]]
    tries.check(found == RESETS, f"who resets the administrator's password: {found}")
    tries.check([one["name"] for one in told["others"]] == ["the system"], f"besides: {told['others']}")
    erin = opened.get("principal", sid=corp.ERIN)
    first = [(row["key"], [one["name"] for some in row["rows"] for one in some["objects"]]) for row in erin["ranks"][:1]]
    tries.check(first == [("owner", ["svc-backup"])], f"the worst of erin: {first}")
    keys = {row["key"]: row["count"] for row in erin["ranks"]}
    tries.check(keys == {"owner": 1, "list": 1, "groups": 6, "confidential": 7}, f"erin: {keys}")
    one = opened.get("object", n=opened.number(f"CN=bob,OU=sales,{STAFF}"))
    froms = [(entry["who"]["name"], entry.get("from", {}).get("name")) for entry in one["entries"]]
    tries.check(("helpdesk", "staff") in froms and ("Administrators", "corp") in froms, f"where bob's entries come from: {froms}")
    words = [entry for entry in one["entries"] if entry["who"]["name"] == "helpdesk"]
    told = [(entry["on"], entry["applies"]) for entry in words]
    wanted = ("extended right User-Force-Change-Password", "this object and all user objects below it")
    tries.check(told == [wanted],
                f"the helpdesk's entry in words: {words}")
    found = opened.get("exposed")["rows"]
    told = [(row["key"], row["name"], [one["name"] for one in row["first"]]) for row in found]
    tries.check(told == [("reset", "Administrator", ["frank", "grace"])], f"ways to what is protected: {told}")
    chain = opened.get("principal", sid=f"{corp.DOMAIN}-1104")["groups"]
    ways = {one["name"]: [step["name"] for step in one["chain"]] for one in chain}
    tries.check(ways.get("server-admins") == ["helpdesk", "server-admins"] and ways.get("Domain Users") == ["Domain Users"]
                and "everybody" not in ways, f"dave's groups: {ways}")
    tries.check(min(RANK.values()) == 0, "the ranks")


def run(tries, long):
    """All of it."""
    subprocess.run([os.environ["ADSD"], "load", tries.path("base")], stdout=subprocess.DEVNULL, check=True,
                   stdin=open(os.path.join(TOP, "examples", "base.ldif"), "rb"))
    for name in ("corp", "base", "odd"):
        opened = Opened(tries, tries.path(name))
        try:
            as_effective(tries, opened, tries.path(name), 5000 if long else 150)
            each_alone(tries, opened)
            dangers(tries, opened)
            if long or name == "corp":
                reasons(tries, opened)
            as_the_bridge(tries, opened, tries.path(name))
            if name == "corp":
                known(tries, opened)
        finally:
            opened.explorer.close()
