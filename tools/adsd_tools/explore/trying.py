"""What-if: changes of lists and protection runs, served on a copy, and what stands there after so many steps."""

import re
import shlex
import struct
from functools import cached_property

from adsd_tools.ask import requests
from adsd_tools.ask.answers import CODES
from adsd_tools.forms import ber
from adsd_tools.forms.descriptor import INHERITED
from adsd_tools.forms.sids import sid_of_text, text_of_sid
from adsd_tools.shown import shown

from .texts import told
from .walks import ALL_STEPS, MESSAGE, RUN, STEPS, TOKEN
from .world import Moment

DACL, OWNER = 4, 1
ENTRY = re.compile(r"\([^()]*\)")
MOST_CHANGES, MOST_MOMENTS = 64, 24
PRIVILEGES = {1: "security", 2: "take-ownership", 4: "restore"}


class Wrong(Exception):
    """A change that can't be meant, with why."""


def entries_of(text):
    """The texts of the entries of a list's text."""
    return ENTRY.findall(text)


class Lists:
    """Texts of lists: of the entries that are an object's own, and of an entry that somebody types."""

    def __init__(self, world):
        self.world, self.calls = world, world.calls

    def dacl(self, normal):
        """The texts of all entries of a discretionary list, in order."""
        made = self.calls.answer("adsd_sd_from_normal", *self.calls.given(normal), DACL)
        return entries_of(self.calls.sddl(made))

    def own(self, normal):
        """The texts of the entries that aren't inherited, and whether the list is protected."""
        explicit = self.calls.normal_of(self.calls.explicit(self.world.sd(normal)))
        return self.dacl(explicit), bool(explicit[0] & 1)

    def read(self, text):
        """A text in SDDL with a discretionary list alone: the texts of its entries, and whether it is protected."""
        try:
            data = self.calls.of_sddl(text, self.world.own(1))
        except self.calls.error as fault:
            said = str(fault).partition(", at place ")[0]
            raise Wrong(f"at character {fault.place + 1}: {said}" if fault.code >= 32 else said) from None
        text = self.calls.sddl(data)
        if not text.startswith("D:") or "S:" in ENTRY.sub("", text):
            raise Wrong("a list begins with D: and has nothing else")
        entries = entries_of(text)
        if any(INHERITED & self.flags(one) for one in entries):
            raise Wrong("an entry with the flag ID is inherited: it can't be added here")
        return entries, text.startswith("D:P")

    def flags(self, entry):
        return INHERITED if "ID" in re.findall("..", entry.split(";")[1]) else 0

    def entry(self, text):
        """The canonical text of one entry."""
        try:
            entries, _ = self.read("D:" + text.strip())
        except Wrong as wrong:
            found = re.fullmatch(r"at character (\d+)(: .*)", str(wrong))
            raise Wrong(f"at character {max(1, int(found[1]) - 2)}{found[2]}" if found else str(wrong)) from None
        if len(entries) != 1:
            raise Wrong(f"expected one entry, not {len(entries)}")
        if entries[0].startswith(("(AU;", "(OU;")):
            raise Wrong("an audit entry belongs in the SACL")
        return entries[0]


def list_text(entries, protected):
    return f"D:{'P' if protected else ''}{''.join(entries)}"


def put(entries, change, lists):
    """What a change makes of the own entries of a list."""
    op, made = change["op"], list(entries)
    if op == "add":
        entry = lists.entry(change["ace"])
        made.insert(0 if entry.startswith(("(D;", "(OD;")) else len(made), entry)
        return made
    if op == "revoke":
        kept = [one for one in made if one[1:-1].split(";")[5] != change["sid"]]
        if len(kept) == len(made):
            raise Wrong("the object has no explicit entry for it")
        return kept
    if change["old"] not in made:
        raise Wrong("the object no longer has this explicit entry")
    place = made.index(change["old"])
    made[place : place + 1] = [lists.entry(change["ace"])] if op == "edit" else []
    return made


def line_of_name(name):
    """A name as it stands in a line of text: what would end or change the line is escaped, so that it reads back."""
    text = shown(name.decode("utf-8", "surrogateescape"))
    return "".join(one if one.isprintable() else escaped(one) for one in text)


def escaped(letter):
    return "".join(f"\\{byte:02X}" for byte in letter.encode())


def modify(number, name, flags, data):
    """A message that replaces parts of a descriptor."""
    values = ber.sequence(ber.octets(data), tag=ber.SET)
    item = ber.sequence(ber.number(2, ber.ENUMERATED), ber.sequence(ber.octets(b"nTSecurityDescriptor"), values))
    request = ber.sequence(ber.octets(name), ber.sequence(item), tag=0x66)
    control = requests.control(requests.SD_FLAGS, ber.sequence(ber.number(flags)))
    return ber.sequence(ber.number(number), request, ber.sequence(control, tag=0xA0))


class Plan:
    """Changes in order, made by a token on a copy; and the moments after them."""

    def __init__(self, key, world, walks, changes, token):
        if len(changes) > MOST_CHANGES:
            raise Wrong(f"more than {MOST_CHANGES} changes")
        self.key, self.world, self.walks, self.changes, self.token = key, world, walks, changes, token
        self.lists, self.frames, self.lines, self.told = Lists(world), [], [], []
        self.grants, self.messages = [], 0
        walk = walks.take()
        try:
            self.begin(walk)
            for change in changes:
                self.make(walk, change)
        except BaseException:
            walk.close()
            raise
        self.first, self.walk, self.moments = self.moment_of(walk), walk, {}

    @property
    def settled(self):
        """The frames, and that all is passed down then."""
        return [*self.frames, requests.frame(STEPS, 0, struct.pack(">I", ALL_STEPS))]

    @cached_property
    def last(self):
        """The moment when nothing is pending any more."""
        walk, self.walk = self.walk or self.walk_to(0), None
        try:
            while walk.queue:
                walk.steps(ALL_STEPS)
            return self.moment_of(walk)
        finally:
            walk.close()

    @property
    def total(self):
        return self.last.step

    def begin(self, walk):
        """Gives the connection the token, and writes both down."""
        words = [f"user={text_of_sid(self.token.sid)}"]
        groups = sorted(text_of_sid(sid) for sid in self.token.held - {self.token.sid})
        words += [f"groups={','.join(groups)}"] if groups else []
        held = [name for bit, name in PRIVILEGES.items() if self.token.privileges & bit]
        words += [f"privileges={','.join(held)}"] if held else []
        self.send(walk, requests.frame(TOKEN, 0, self.token.data), "token 0 " + " ".join(words))

    def send(self, walk, frame, line):
        self.frames.append(frame)
        self.lines.append(line)
        return walk.ask(frame)

    def make(self, walk, change):
        """Makes one change, and notes what the program said."""
        if change["op"] == "run":
            count, of = struct.unpack(">II", self.send(walk, requests.frame(RUN, 0, b""), "run"))
            self.told.append({"ok": True, "said": f"{count:,} of {of:,} protected objects changed"})
            self.grants.append(None)
        elif change["op"] == "settle":
            made = 0
            self.frames.append(requests.frame(STEPS, 0, struct.pack(">I", ALL_STEPS)))
            self.lines.append(f"steps {ALL_STEPS}")
            while walk.queue:
                made += walk.steps(ALL_STEPS)[0]
            walk.step = 0
            self.told.append({"ok": True, "said": f"{made:,} steps"})
            self.grants.append(None)
        else:
            self.write(walk, change)

    def write(self, walk, change):
        """Writes the list, the owner or the protection of one object."""
        number, name = change["n"], self.world.names[change["n"]]
        before = walk.changed.get(number, self.world.objects[number].normal)
        flags, text, grant = DACL, None, None
        if change["op"] == "owner":
            if sid_of_text(change["sid"]) is None:
                raise Wrong("the owner isn't a SID")
            flags, text = OWNER, f"O:{change['sid']}"
        elif change["op"] == "list":
            text = list_text(*self.lists.read(change["sddl"]))
        else:
            entries, protected = self.lists.own(before)
            if change["op"] == "protect":
                protected = bool(change["on"])
            else:
                entries = put(entries, change, self.lists)
                grant = self.grant_of(change, name)
            text = list_text(entries, protected)
        data = self.world.calls.of_sddl(text, None)
        line = (f"modify 0 dn={shlex.quote(line_of_name(name))} sd={'owner' if flags == OWNER else 'dacl'} "
                f"replace:nTSecurityDescriptor={shlex.quote('sddl:' + text)}")
        self.messages += 1
        body = self.send(walk, requests.frame(MESSAGE, 0, modify(self.messages, name, flags, data)), line)
        code, said = result_of(body)
        after = walk.changed.get(number, self.world.objects[number].normal)
        word = f"refused, {CODES.get(code, code)}" if code else "done"
        if code == 0 and after == before:
            word = "nothing changes"
        self.told.append({"ok": code == 0, "said": word + (f": {told(said)}" if said else ""), "text": text})
        self.grants.append(grant)

    def grant_of(self, change, name):
        """The line for `adsd grants` that does the same, where there is one."""
        called = line_of_name(name)
        if change["op"] == "add":
            entry = self.lists.entry(change["ace"])
            return f"{'deny' if entry.startswith(('(D;', '(OD;')) else 'grant'} {entry} {called}"
        return f"revoke {change['sid']} {called}" if change["op"] == "revoke" else None

    def moment_of(self, walk):
        return Moment(self.world, dict(walk.changed), walk.queue, walk.step)

    def moment(self, step):
        """The moment after so many steps behind the changes."""
        if step <= 0:
            return self.first
        if step >= self.total:
            return self.last
        if step not in self.moments:
            walk = self.walk_to(step)
            if len(self.moments) >= MOST_MOMENTS:
                self.moments.pop(next(iter(self.moments)))
            self.moments[step] = self.moment_of(walk)
        return self.moments[step]

    def walk_to(self, step):
        """The walk of this plan at a step: the one that is there where it isn't further yet, else another one."""
        if self.walk is not None and self.walk.step > step:
            self.walk.close()
            self.walk = None
        if self.walk is None:
            self.walk = self.walks.take()
            for frame in self.frames:
                self.walk.ask(frame)
            self.walk.step = 0
        if step > self.walk.step:
            self.walk.steps(step - self.walk.step)
        return self.walk

    def close(self):
        if self.walk is not None:
            self.walk.close()
            self.walk = None


def result_of(body):
    """The code and the text of an answer to a change."""
    _, message = ber.parts(body)[0]
    fields = ber.parts(ber.parts(message)[1][1])
    return int.from_bytes(fields[0][1], "big"), fields[2][1].decode("utf-8", "replace")
