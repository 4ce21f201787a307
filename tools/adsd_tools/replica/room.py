"""Whether etcd has room: how full it is by its quota, what it complains of, and what is done against it.

At half of the quota it is warned, and the keeper keeps no entry longer than some replica wants it; at nine tenths
changes are refused, so that what frees room can be done still. The keeper gives room back that etcd has freed inside its files
(`defrag`), one member after the other and the leader last, and takes an alarm away (`disarm`) once there is room; or it
says that an operator has to."""

import asyncio
import re
import time

from .etcd import Away, Denied, Waits
from .lane import Lane

# Etcd's own quota where it isn't told, and how often it is looked.
USUAL, LOOK = 2 << 30, 5.0
HALF, FULL = 0.5, 0.9
# So much of the quota has to be free inside a member's file before it is written anew, and so often is that done.
FREED, AGAIN = 0.1, 60.0
# A member counts what is free inside when it writes, and one that is full writes nothing: it may have more than it
# tells. So it is written anew also where it tells of little, after so long, in seconds, and each time later up to so
# long.
UNTOLD, SELDOM = 5.0, 600.0
DEFRAGS, QUOTA = 300.0, re.compile(r"^etcd_server_quota_backend_bytes (\S+)$", re.M)
NO_SPACE = "NOSPACE"
FULL_TOLD = ("etcd is full to {:.0%} of its quota: no change is taken until there is room, nothing was changed; "
             "adsd-replica health tells more")


class Member:
    """What a member tells of its room."""

    def __init__(self, url, status, quota):
        self.url, self.size, self.quota = url, int(status.get("dbSize", 0)), quota
        self.used = int(status.get("dbSizeInUse", self.size))
        self.leads = status.get("leader") == status.get("header", {}).get("member_id")

    def fullness(self):
        return self.size / self.quota

    def freed(self):
        """How much of the quota is free inside its file."""
        return (self.size - self.used) / self.quota


def members(etcd, quotas):
    """What those members tell that answer. `quotas` is what was told before, by address."""
    found = []
    for url in etcd.urls:
        one, address = etcd.only(url.geturl()), url.geturl()
        try:
            status = one.call("maintenance/status", {})
            if address not in quotas:
                told = QUOTA.search(one.text("/metrics"))
                quotas[address] = int(float(told[1])) if told else 0
            found.append(Member(address, status, quotas[address] or USUAL))
        except (Away, Denied, OSError, ValueError):
            quotas.pop(address, None)
        finally:
            one.close()
    return found


def alarms(etcd):
    """What etcd complains of: pairs of a member's number and the alarm."""
    found = etcd.call("maintenance/alarm", {"action": "GET"}).get("alarms", ())
    return [(one.get("memberID", "0"), one.get("alarm", "NONE")) for one in found]


class Room:
    """What one replica knows of etcd's room. `is_keeper` tells whether it acts; `hurry` has it look at once."""

    def __init__(self, log, options, say):
        self.lane, self.say, self.acts = Lane(log), say, options.etcd_upkeep == "keeper"
        self.members, self.alarms, self.quotas, self.is_warned, self.told = [], [], {}, False, set()
        self.done, self.is_keeper, self.hurry = 0.0, lambda: False, asyncio.Event()
        # When a full member that tells of little room is written anew next, None while there is none, and when each was.
        self.untold, self.waits, self.tried = None, Waits(UNTOLD, SELDOM), {}

    def fullness(self):
        """The part of the quota that the fullest member has."""
        return max((one.fullness() for one in self.members), default=0.0)

    def full(self):
        """Why no change is taken, or nothing."""
        if self.fullness() >= FULL or self.is_alarmed():
            return FULL_TOLD.format(max(self.fullness(), 0.0))
        return ""

    def used(self):
        """How many bytes etcd has in use."""
        return max((one.used for one in self.members), default=0)

    def is_half(self):
        return self.fullness() >= HALF

    async def work(self):
        while True:
            try:
                await self.look()
                if self.is_keeper() or await self.is_forsaken():
                    await self.act()
            except (Away, Denied):
                pass
            self.hurry.clear()
            try:
                await asyncio.wait_for(self.hurry.wait(), LOOK if not self.is_half() else LOOK / 5)
            except asyncio.TimeoutError:
                pass

    async def look(self):
        found = await self.lane.call(lambda log: members(log.etcd, self.quotas))
        self.members = found or self.members
        self.alarms = await self.lane.call(lambda log: alarms(log.etcd))
        if self.is_half() and not self.is_warned:
            self.say(f"warning: etcd is full to {self.fullness():.0%} of its quota of {self.members[0].quota} bytes; "
                     f"at {FULL:.0%} no change is taken")
        self.is_warned = self.is_half()
        for _, alarm in self.alarms:
            if alarm not in self.told:
                self.say(f"warning: etcd has the alarm {alarm}")
        self.told = {alarm for _, alarm in self.alarms}

    def is_alarmed(self):
        """Whether etcd takes nothing that is put."""
        return any(alarm == NO_SPACE for _, alarm in self.alarms)

    async def is_forsaken(self):
        """Whether etcd takes nothing that is put, and there is no keeper: it gives no lease then, so each replica does
        what a keeper would do for room."""
        return self.is_alarmed() and await self.lane.call(lambda log: log.keeper()) is None

    async def act(self):
        """Frees room in one member's file, or takes an alarm away, or says that it has to be done."""
        ones = sorted((one for one in self.members if one.freed() >= FREED and one.fullness() >= HALF),
                      key=lambda one: one.leads)
        other = None if ones else self.silent()
        if ones and (time.monotonic() - self.done >= AGAIN or self.full()):
            self.done = time.monotonic()
            await self.defragment(ones[0])
        elif other:
            await self.defragment(other)
        elif self.alarms and not ones and self.fullness() < FULL:
            await self.disarm()

    def silent(self):
        """The full member that is written anew now though it tells of little room: the one that wasn't for longest;
        None where there is none, or it isn't time yet."""
        full, now = [one for one in self.members if one.fullness() >= FULL], time.monotonic()
        if not full:
            self.untold = None
            self.waits.again()
        elif self.untold is None:
            self.untold = now + self.waits.grow()
        elif now >= self.untold:
            self.untold = now + self.waits.grow()
            found = min(full, key=lambda one: (self.tried.get(one.url, 0.0), one.leads))
            self.tried[found.url] = now
            return found
        return None

    async def defragment(self, one):
        command, free = f"etcdctl --endpoints {one.url} defrag", one.size - one.used
        much = f"{free} bytes" if one.freed() >= FREED else "what may be free"
        await self.done_or_told(f"frees {much} inside the file of {one.url}", command,
                                lambda log: log.etcd.only(one.url).call("maintenance/defragment", {}, DEFRAGS))

    async def disarm(self):
        def disarmed(log):
            for member, alarm in self.alarms:
                asked = {"action": "DEACTIVATE", "memberID": member, "alarm": alarm}
                log.etcd.call("maintenance/alarm", asked)

        await self.done_or_told("takes etcd's alarm away", "etcdctl alarm disarm", disarmed)

    async def done_or_told(self, what, command, work):
        """Does some work on etcd, or says that an operator has to, also where etcd doesn't let this user."""
        if not self.acts:
            self.say(f"warning: an operator has to do what {what}: {command}")
            return
        self.say(f"{what}: {command}")
        try:
            await self.lane.call(work)
        except Denied as why:
            self.say(f"warning: etcd doesn't let this user ({why}); an operator has to: {command}")

    def close(self):
        self.lane.close()
