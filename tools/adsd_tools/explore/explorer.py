"""One store that is explored: its copy, what was read of it, the what-ifs that are open, and the one way to write."""

import gc
import hashlib
import json
import os
import struct
import threading

from adsd_tools import incomplete
from adsd_tools.ask import requests
from adsd_tools.forms.sids import sid_of_text
from adsd_tools.report import program
from adsd_tools.report.library import Calls
from adsd_tools.report.protection import HOLDER, frozen
from adsd_tools.rows import store
from adsd_tools.run import ADSD

from . import private, tokens, walks
from .answers import Answers
from .asking import Asking
from .auditing import Auditing
from .chains import Chains
from .principals import Principals
from .texts import told
from .trying import Plan, Wrong
from .views import NotThere, Views
from .world import Moment, World

MOST_PLANS = 6


class Changed(Exception):
    """The store isn't the one that was copied, with what to do."""


class Explorer:
    """Holds a store open for questions."""

    def __init__(self, source, place, may_write, tell):
        self.source, self.may_write, self.tell = source, may_write, tell
        self.program, self.calls = program.program(), Calls()
        if not os.path.exists(source):
            raise store.Broken("there is no such file")
        size = sum(os.path.getsize(source + slot) for slot in store.SLOTS if os.path.exists(source + slot))
        self.folder = private.Folder(walks.folder_for(size) or place)
        self.place, self.slots = self.folder.path, None
        self.operator, self.plans, self.lock = tokens.operator(), {}, threading.RLock()
        try:
            self.load()
        except BaseException:
            self.folder.close()
            raise

    def stamp(self):
        found = [os.stat(self.source + slot) for slot in store.SLOTS if os.path.exists(self.source + slot)]
        return [(one.st_mtime_ns, one.st_size) for one in found]

    def load(self):
        """Copies the store and reads the copy, while the program checks it and opens another one. Then the copy has no
        name any more."""
        gc.disable()
        try:
            self.read()
        finally:
            gc.freeze()
            gc.enable()
            private.unname(os.path.join(self.place, "copy"))

    def read(self):
        self.stamped = self.stamp()
        copy = store.copied(self.source, self.place)
        self.incomplete = incomplete.line(self.source)
        self.slots, asked = private.Slots(copy), {}

        def check():
            try:
                asked["counts"] = program.counts(self.program, copy)
                asked["walk"] = walks.Walk(self.program, self.slots, self.place, None, self.operator)
            except BaseException as fault:
                asked["fault"] = fault

        beside = threading.Thread(target=check, daemon=True)
        beside.start()
        fault = None
        try:
            self.world = World(copy, self.calls)
        except (store.Broken, LookupError, ValueError, struct.error) as why:
            fault = why
        while beside.is_alive():
            beside.join(0.5)
        if "fault" in asked:
            raise asked["fault"]
        if fault:
            raise store.Broken(f"its rows can't be read: {fault}")
        if asked["counts"] != self.world.counts():
            raise store.Broken(f"the program's check says {asked['counts']}, and what was read of it is "
                               f"{self.world.counts()}")
        self.now = Moment(self.world, {}, self.world.queue, 0)
        self.protected = self.find_protected(asked["walk"])
        self.answers = Answers(self.world, self.calls)
        self.views = Views(self.world, self.answers, self.protected)
        self.principals = Principals(self.views)
        self.auditing = Auditing(self.source, self.place, self.slots, self.tell)
        asking = Asking(self.program, self.place, self.slots, self.tell)
        self.chains = Chains(self.principals, asking, self.source, self.now)
        self.walks = walks.Stable(lambda: walks.Walk(self.program, self.slots, self.place, self.world, self.operator))

    def find_protected(self, walk):
        """The objects that have AdminSDHolder's descriptor, frozen, and adminCount after a protection run on a copy."""
        walk.over(self.world)
        try:
            count = struct.unpack(">II", walk.ask(requests.frame(walks.RUN, 0, b"")))[1]
            rows = walk.rows
        finally:
            walk.close()
        holder = self.world.found(HOLDER + self.world.names[1].decode("utf-8", "replace")) if count else None
        if holder is None:
            return set()
        wanted, place = frozen(self.world.objects[holder].normal), self.world.schema.of_attribute.get("admincount")
        made = set()
        for number, one in self.world.objects.items():
            if walk.changed.get(number, one.normal) == wanted:
                values = store.object_of(number, rows[number]).values if number in rows else one.values
                if place is None or values.get(place, [])[:1] == [b"1"]:
                    made.add(number)
        if len(made) != count:
            self.tell(f"the program says that {count} objects are protected, and {len(made)} look so behind a run")
        return made

    def warm(self):
        """Makes ready, beside the first questions, what later ones rest on."""
        self.walks.prepare()
        threading.Thread(target=lambda: self.views.accounts.holders, daemon=True).start()

    def start(self):
        """What the page begins with."""
        return {"incomplete": self.incomplete, "store": told(os.path.basename(self.source)),
                "objects": len(self.world.objects),
                "accounts": len(self.views.accounts.numbers), "protected": len(self.protected),
                "stale": len(self.world.stale), "pending": len(self.world.queue), "write": self.may_write,
                "root": self.views.brief(1, self.now), "everybody": self.everybody()}

    def everybody(self):
        """Who everybody is who has an account: the domain's users, where there is such a group."""
        users = tokens.users_of(self.world)
        return self.world.principal(users if users in self.world.who.of_sid else tokens.AUTHENTICATED)

    # ---- what-ifs

    def plan(self, changes, by):
        """The plan of some changes, made by somebody: an identifier's text, or nobody for the administrators."""
        token = self.views.accounts.token(sid_of_text(by)) if by else self.operator
        key = hashlib.sha256(json.dumps([changes, by], sort_keys=True).encode()).hexdigest()[:24]
        if key not in self.plans:
            made = Plan(key, self.world, self.walks, changes, token)
            while len(self.plans) >= MOST_PLANS:
                self.plans.pop(next(iter(self.plans))).close()
            self.plans[key] = made
        return self.plans[key]

    def open_plan(self, key):
        if key not in self.plans:
            raise NotThere("this what-if isn't open any more: run it again")
        return self.plans[key]

    def moment(self, key, step):
        """The moment of a plan at a step, -1 for the last one; without a plan the store as it is."""
        if not key:
            return self.now
        plan = self.open_plan(key)
        return plan.last if step < 0 else plan.moment(step)

    # ---- writing

    def write(self, key, settle):
        """Serves the frames of a plan on the store itself; what the program said to each."""
        if not self.may_write:
            raise Wrong("the explorer was started without --write")
        plan = self.open_plan(key)
        if not all(one["ok"] for one in plan.told):
            raise Wrong("a change is refused, so nothing is written")
        if self.stamp() != self.stamped:
            raise Changed("another program has written the store since it was read: start the explorer again")
        frames = plan.settled if settle else plan.frames
        # (the launcher, which looks whose the files are)
        serving = program.Serving(ADSD, self.source)
        try:
            for frame in frames:
                serving.answer(frame)
        finally:
            status = serving.close()
        self.tell(f"{len(plan.changes)} changes written to {self.source}")
        self.again()
        return {"status": status, "pending": len(self.world.queue)}

    def again(self):
        """Reads the store anew."""
        for plan in self.plans.values():
            plan.close()
        self.plans = {}
        self.walks.close()
        self.chains.asking.close()
        self.slots.close()
        self.load()
        self.warm()

    def close(self):
        """Ends the program's runs, and takes the copies away. What is being answered fails then, and nobody waits for it."""
        self.tell = lambda line: None
        self.chains.asking.close()
        try:
            self.walks.close()
            for plan in list(self.plans.values()):
                plan.close()
        finally:
            self.slots.close()
            self.folder.close()
