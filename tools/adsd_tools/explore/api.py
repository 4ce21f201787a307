"""The requests of the page: a name, its words, and the JSON that answers it."""

from dataclasses import dataclass

from adsd_tools.forms.known import WELL_KNOWN
from adsd_tools.forms.sids import sid_of_text, text_of_sid
from adsd_tools.report.differences import phrases, several

from . import asked
from .differences import Differences, order
from .pictures import Picture
from .trying import Wrong
from .views import NotThere, count_of

OPS = {"add": ("n", "ace"), "edit": ("n", "old", "ace"), "remove": ("n", "old"), "revoke": ("n", "sid"),
       "list": ("n", "sddl"), "protect": ("n", "on"), "owner": ("n", "sid"), "run": (), "settle": ()}
SHAPES = {"n": int, "ace": str, "old": str, "sid": str, "sddl": str, "on": bool}
MOST_TEXT, MOST_ROWS, MOST_FOUND = 65_536, 40, 30


@dataclass(frozen=True)
class Raw:
    """An answer that is a file: its name and its bytes."""

    name: str
    data: bytes


class Api:
    """Answers requests, one at a time."""

    def __init__(self, explorer):
        self.explorer = explorer
        self.reads = {one.__name__: one for one in (
            self.start, self.children, self.find, self.object, self.askable, self.classes, self.whom, self.who,
            self.principal, self.can, self.exposed, self.audited, self.moment, self.gains, self.gained, self.frames,
            self.chains, self.reaches, self.cuts)}
        self.writes = {"try": self.attempt, "write": self.write}

    def answer(self, name, words, body=None):
        """The answer to a request; NotThere where it names nothing."""
        called = (self.reads if body is None else self.writes).get(name)
        if called is None:
            raise NotThere("no such request")
        given = asked.words(name, words) if body is None else body
        with self.explorer.lock:
            return called(given)

    # ---- words

    def number(self, words):
        """The number of an object that there is."""
        if words["n"] not in self.explorer.world.objects:
            raise NotThere("no such object")
        return words["n"]

    def at(self, words):
        """The moment that is asked about."""
        return self.explorer.moment(words["plan"], words["step"])

    # ---- what is read

    def start(self, words):
        return self.explorer.start()

    def children(self, words):
        return self.explorer.views.children(self.number(words), words["after"], self.explorer.now)

    def find(self, words):
        found, more = self.explorer.world.search(words["q"], MOST_FOUND)
        views = self.explorer.views
        return {"found": [{**views.brief(one, self.explorer.now), "dn": self.explorer.world.dn(one),
                           "sid": views.sid_of(one), "label": self.explorer.world.label(one)} for one in found],
                "more": more}

    def object(self, words):
        return self.explorer.views.whole(self.number(words), self.at(words))

    def askable(self, words):
        """What may be asked of an object, or of the objects of a class."""
        if (words["class"] is None) == (words["n"] is None):
            raise Wrong("either n or class is wanted")
        views = self.explorer.views
        if words["class"] is None:
            return views.askable(self.explorer.world.objects[self.number(words)].of_class)
        return views.askable(views.class_called(words["class"]))

    def classes(self, words):
        return {"classes": self.explorer.views.classes()}

    def whom(self, words):
        """The principals whose name has a text, for a form: those of the store, and those that everybody knows."""
        text, world = words["q"].casefold(), self.explorer.world
        found, _ = world.search(text, 4 * MOST_FOUND)
        made = [world.principal(world.own(one)) for one in found if world.own(one)]
        known = [(sid, name) for sid, name in WELL_KNOWN.items() if text and (text in name or text == sid.casefold())]
        made += [{"sid": sid, "name": name, "n": None} for sid, name in known
                 if sid_of_text(sid) not in world.who.of_sid]
        given = sid_of_text(text.upper())
        if given and not any(one["sid"] == text_of_sid(given) for one in made):
            made.insert(0, world.principal(given))
        return {"found": made[:MOST_FOUND]}

    def who(self, words):
        right = words["kind"], words["name"], words["code"]
        return self.explorer.views.who(self.number(words), right, self.at(words), words["after"])

    def principal(self, words):
        return self.explorer.principals.principal(words["sid"], self.at(words))

    def can(self, words):
        return self.explorer.principals.can(words["sid"], self.number(words), self.at(words))

    def exposed(self, words):
        return self.explorer.principals.exposed(self.at(words))

    def audited(self, words):
        made = self.explorer.auditing.told()
        self.explorer.chains.add_rights(made.get("targets", ()))
        return made

    def chains(self, words):
        """Who comes to control an object."""
        return self.explorer.chains.of_object(self.number(words))

    def reaches(self, words):
        """What a principal comes to control."""
        return self.explorer.chains.of_principal(words["sid"])

    # ---- what-ifs

    def cuts(self, words):
        """Who comes to control an object before a what-if and at its end; without one, of which that is told."""
        plan, chains = self.explorer.open_plan(words["plan"]), self.explorer.chains
        if words["n"] is None:
            return {"targets": chains.targets_of(plan)}
        return chains.cuts(plan, self.number(words))

    def changes_of(self, given):
        """The changes of a request, looked through."""
        if not isinstance(given, list):
            raise Wrong("changes have to be a list")
        return [self.change_of(one) for one in given]

    def change_of(self, one):
        word = one.get("op") if isinstance(one, dict) else None
        keys = OPS.get(word) if isinstance(word, str) else None
        if keys is None or any(type(one.get(key)) is not SHAPES[key] for key in keys):
            raise Wrong("unknown kind of change")
        if any(isinstance(one[key], str) and len(one[key]) > MOST_TEXT for key in keys):
            raise Wrong("a text is too long")
        if "n" in keys and one["n"] not in self.explorer.world.objects:
            raise Wrong("the change names no object")
        made = {"op": word, **{key: one[key] for key in keys}}
        if "sid" in keys:
            made["sid"] = text_of_sid(asked.sid(one["sid"], "the owner" if word == "owner" else "that"))
        return made

    def attempt(self, body):
        """Makes changes on a copy, and says what the program said to each."""
        by = body.get("by")
        if by is not None and not isinstance(by, str):
            raise Wrong("who makes the changes is a text")
        plan = self.explorer.plan(self.changes_of(body.get("changes")), text_of_sid(asked.sid(by, "who makes the changes")) if by else "")
        return {"plan": plan.key, "told": plan.told, "pending": len(plan.first.queue), "lines": plan.lines,
                "grants": plan.grants, "by": self.explorer.world.principal(plan.token.sid)}

    def moment(self, words):
        """A moment as a picture."""
        plan = self.explorer.open_plan(words["plan"])
        if not hasattr(plan, "picture"):
            plan.picture = Picture(self.explorer.world, plan.first, plan.last)
        moment = self.at(words)
        lines, more = plan.picture.lines(moment)
        return {"step": moment.step, "total": plan.total, "pending": len(moment.queue), "stale": len(moment.stale),
                "changed": len(moment.changed), "lines": lines, "more": more}

    def sides(self, words):
        """The three moments that are compared: the store, the one that is asked about, and the last one."""
        plan = self.explorer.open_plan(words["plan"])
        moments = [self.explorer.now, self.at(words), plan.last]
        if getattr(plan, "sides", None) is None or plan.sides[0] != moments[1].step:
            made = Differences(self.explorer.answers, self.explorer.views.accounts, self.explorer.protected, moments)
            plan.sides = (moments[1].step, made)
        return plan.sides[1], moments

    def gains(self, words):
        """Who gains and who loses, the worst first."""
        made, moments = self.sides(words)
        rows = sorted(made.totals(), key=lambda row: (order(row[1]), -count_of(row[0])))
        views = self.explorer.views
        return {"step": moments[1].step, "total": moments[2].step, "whole": made.whole, "count": len(rows), "rows": [
            {"accounts": count_of(mask), "first": views.few(mask),
             "ranks": [{**views.rank(place), "counts": list(counts)} if place < 10 else
                       {"rank": place, "key": "any", "title": "has other rights than before", "means": "",
                        "counts": list(counts)} for place, counts in sorted(row.items())]}
            for mask, row in rows[:MOST_ROWS]]}

    def gained(self, words):
        """What comes to one account and what goes, right by right: up to the moment, and from there to the last one."""
        made, moments = self.sides(words)
        explorer = self.explorer
        token, found = explorer.views.accounts.token(words["sid"]), {}
        for group in made.groups:
            for number in group.numbers:
                objects = [explorer.answers.object(number, moment) for moment in moments]
                key = tuple(explorer.answers.rights(on, token) for on in objects), objects[0].of_class
                if len(set(key[0])) > 1:
                    found.setdefault(key, (objects, []))[1].append(number)
        rows = []
        for objects, numbers in found.values():
            before, now, after = (explorer.answers.triples(on, token) for on in objects)
            rows.append({"objects": [explorer.views.brief_name(one) for one in numbers[:8]], "count": len(numbers),
                         "class": explorer.world.class_name(numbers[0]), "came": said(now - before),
                         "went": said(before - now), "comes": said(after - now), "goes": said(now - after)})
        return {"who": explorer.world.principal(token.sid), "rows": rows[:MOST_ROWS], "more": len(rows[MOST_ROWS:])}

    def frames(self, words):
        plan = self.explorer.open_plan(words["plan"])
        if words["form"] == "bytes":
            return Raw("adsd.frames", b"".join(plan.frames))
        if words["form"] == "text":
            return Raw("adsd.txt", "".join(f"{line}\n" for line in plan.lines).encode())
        if words["form"]:
            raise Wrong("frames have to be text or bytes")
        return {"lines": plan.lines, "grants": plan.grants}

    def write(self, body):
        plan, settle = body.get("plan"), body.get("settle", False)
        if not isinstance(plan, str) or not isinstance(settle, bool):
            raise Wrong("a what-if is written by its key, and settled or not")
        return self.explorer.write(plan, settle)


def said(rights):
    """Rights in words: pairs of codes and of what they are on."""
    made = []
    for codes, targets in phrases(rights):
        on = []
        for kind, names in targets.items():
            few = ", ".join(names[:6]) + (" .." if len(names) > 6 else "")
            on.append("the object as a whole" if kind == "object" else f"{several(kind, len(names))}: {few}")
        made.append({"codes": list(codes), "on": "; ".join(on)})
    return made
