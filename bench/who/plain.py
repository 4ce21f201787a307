#!/usr/bin/env python3
"""Who may do something on all objects of a text of bench/load, in plain Python: plain.py FILE QUESTION. The text is read line by line,
identities are bits of a number, and each different descriptor is walked over once; QUESTION is `reset`, `RP` or `WD`. Prints how many
pairs of an identity and an object are told yes, and how many objects have anybody. It knows what stands in such a text and no more: no
generic rights, no owner rights, no property sets, no group that doesn't count."""
import base64
import struct
import sys

SELF, LIST, CONTROL = "S-1-5-10", 0x4, 0x100
RESET = bytes.fromhex("709529006d24d011a76800aa006e0529")
PLAIN = {"RP": 0x10, "WD": 0x40000}
OWNERS = 0x60000


def sid(data, at):
    count = data[at + 1]
    parts = struct.unpack_from("<%dI" % count, data, at + 8)
    return "S-1-%d-%s" % (int.from_bytes(data[at + 2:at + 8], "big"), "-".join(map(str, parts)))


def entries(data):
    """The owner, and of each entry that counts here whether it allows, its mask, what it is about and whom it is for."""
    owner, _, _, dacl = struct.unpack_from("<IIII", data, 4)
    found, at = [], dacl + 8
    for _ in range(struct.unpack_from("<H", data, dacl + 4)[0]):
        kind, flags, size = struct.unpack_from("<BBH", data, at)
        mask, where, what = struct.unpack_from("<I", data, at + 4)[0], at + 8, None
        if kind in (5, 6):
            held, where = struct.unpack_from("<I", data, at + 8)[0], at + 12
            if held & 1:
                what, where = data[where:where + 16], where + 16
            where += 16 if held & 2 else 0
        if not flags & 8 and kind in (0, 1, 5, 6):
            found.append((kind in (0, 5), mask, what, sid(data, where)))
        at += size
    return sid(data, owner), found


def records(path):
    """Of each record its lines, by their names."""
    lines, last = {}, None
    with open(path, encoding="utf-8") as text:
        for line in text:
            line = line.rstrip("\n")
            if not line:
                if lines:
                    yield lines
                lines, last = {}, None
            elif line[0] == " ":
                last[-1] += line[1:]
            else:
                name, value = line.split(":", 1)
                last = lines.setdefault(name, [])
                last.append(value)
    if lines:
        yield lines


def text_of(value):
    return value[1:]


def bytes_of(value):
    return base64.b64decode(value[2:])


class Directory:
    def __init__(self, path):
        self.objects = [one for one in records(path) if "nTSecurityDescriptor" in one]
        self.names = {text_of(one["dn"][0]).lower(): place for place, one in enumerate(self.objects)}
        self.sids = [sid(bytes_of(one["objectSid"][0]), 0) if "objectSid" in one else None for one in self.objects]
        self.lists = {}
        for one in self.objects:
            value = one["nTSecurityDescriptor"][0]
            if value not in self.lists:
                self.lists[value] = entries(bytes_of(value))
        self.holders, self.own, self.count = {}, {}, 0
        self.hold_all()

    def hold_all(self):
        """Of each identifier who holds it, as bits of a number."""
        above = {}
        for place, one in enumerate(self.objects):
            for value in one.get("member", ()):
                above.setdefault(self.names[text_of(value).lower()], []).append(place)
        domain = self.sids[0]
        places = {one: place for place, one in enumerate(self.sids) if one is not None}
        for place in range(1, len(self.objects)):
            if self.sids[place] is not None:
                rid = self.objects[place].get("primaryGroupID")
                primary = "%s-%s" % (domain, text_of(rid[0])) if rid else "S-1-5-32-545"
                held = {self.sids[place], "S-1-1-0", "S-1-5-11", primary}
                left = [place] + [at for at in (places.get(primary),) if at is not None]
                while left:
                    at = left.pop()
                    for group in above.get(at, ()):
                        if self.sids[group] not in held:
                            held.add(self.sids[group])
                            left.append(group)
                self.own[self.sids[place]] = self.put(held)
        named = {"S-1-5-7", "S-1-1-0", "S-1-5-11"}
        for owner, found in self.lists.values():
            named |= {owner} | {who for _, _, _, who in found}
        for who in sorted(named - set(self.own) - {SELF}):
            held = {who, "S-1-1-0"}
            self.put(held if who in ("S-1-5-7", "S-1-1-0") else held | {"S-1-5-11"})

    def put(self, held):
        bit = 1 << self.count
        self.count += 1
        for one in held:
            self.holders[one] = self.holders.get(one, 0) | bit
        return bit

    def granted(self, value, own, right, path, known):
        """Who is granted the right: each descriptor is walked over once, and once more for an object that it speaks of itself."""
        owner, found = self.lists[value]
        key = (value, right, path)
        speaks = own is not None and any(who == SELF and mask & right and (what is None or what == path) for _, mask, what, who in found)
        if not speaks and key in known:
            return known[key]
        left, given = (1 << self.count) - 1, 0
        if right & OWNERS:
            given = self.holders.get(owner, 0)
            left &= ~given
        for allows, mask, what, who in found:
            if mask & right and (what is None or what == path):
                hit = self.holders.get(own if who == SELF else who, 0) & left
                left &= ~hit
                given |= hit if allows else 0
        if not speaks:
            known[key] = given
        return given


def main(words):
    directory, question, known, pairs, told = Directory(words[0]), words[1], {}, 0, 0
    for place, one in enumerate(directory.objects):
        value, own = one["nTSecurityDescriptor"][0], directory.sids[place]
        if question == "reset":
            if " user" not in one["objectClass"]:
                continue
            above = directory.names[text_of(one["dn"][0]).split(",", 1)[1].lower()]
            seen = directory.granted(directory.objects[above]["nTSecurityDescriptor"][0], directory.sids[above], LIST, None, known)
            given = seen & directory.granted(value, own, CONTROL, RESET, known)
        else:
            given = directory.granted(value, own, PLAIN[question], None, known)
        pairs += bin(given).count("1")
        told += given != 0
    print(pairs, told)
    return 0


if __name__ == "__main__":
    sys.exit(main(sys.argv[1:]))
