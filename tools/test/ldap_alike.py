"""What tools/test/ldap-samba makes of the answers to searches and changes by chance: each difference has a rule, or is
told."""

import random
import re
from collections import Counter

import ldap_chance
from export_server import PASSWORD
from ldap_face import asked

NO_OBJECT, NO_RIGHT = 32, 50
# By which rules answers differ, as docs/clients.md has them.
UNDEFINED, HIDDEN, UNREAD = ("an attribute that isn't read", "an object that isn't seen",
                             "a group whose members aren't read")


class Alike:
    """The answers of both, and a bridge that is asked why one differs."""

    def __init__(self, bridge, theirs, ours):
        self.bridge, self.theirs, self.ours, self.clients = bridge, theirs, ours, {}
        self.rules, self.wrong, self.count = Counter(), [], 0

    def compared(self):
        """Which rules explain how many differences, and what no rule explains."""
        for name, place in ldap_chance.placed():
            if name in ldap_chance.ACCOUNTS:
                dice = random.Random(f"{ldap_chance.SEED}{name}")
                for at, told in enumerate(ldap_chance.searches(dice)):
                    self.count += 1
                    self.search(name, told, self.theirs[name][at], self.ours[name][at])
                dice = random.Random(f"{ldap_chance.SEED}{name}changes")
                for told, samba, adsd in zip(ldap_chance.changes(dice), self.theirs[name][-1], self.ours[name][-1]):
                    self.count += 1
                    self.change(name, told, samba, adsd)
        return self

    def differs(self, name, told, samba, adsd):
        self.wrong.append(f"{name} {told}: adsd {adsd}, Samba {samba}: no rule")

    def search(self, name, told, samba, adsd):
        if isinstance(samba, int) or isinstance(adsd, int):
            if samba != adsd:
                self.differs(name, told, samba, adsd)
            return
        for dn in sorted({*samba, *adsd}):
            if samba.get(dn) == adsd.get(dn):
                continue
            kinds = {one.lower() for one in re.findall(r"\((\w+)[<>=:~]", told[2])} - {"objectclass", "cn"}
            if dn not in adsd and not all(self.reads(name, dn, kind) for kind in kinds):
                self.rules[UNDEFINED] += 1
            elif self.lacks_groups(name, samba.get(dn, {}), adsd.get(dn, {})):
                self.rules[UNREAD] += 1
            else:
                self.differs(name, (*told, dn), samba.get(dn), adsd.get(dn))

    def lacks_groups(self, name, samba, adsd):
        """Whether two entries differ by groups in memberOf alone, of which the caller doesn't read the members."""
        theirs, ours = set(samba.get("memberof", ())), set(adsd.get("memberof", ()))
        rest = [{key: told for key, told in one.items() if key != "memberof"} for one in (samba, adsd)]
        groups = [bytes.fromhex(one).decode() for one in theirs - ours]
        return rest[0] == rest[1] and ours <= theirs and not any(self.reads(name, one, "member") for one in groups)

    def change(self, name, told, samba, adsd):
        if samba == adsd:
            return
        if {samba, adsd} == {NO_OBJECT, NO_RIGHT} and not self.finds(name, told[1], "(objectClass=*)"):
            self.rules[HIDDEN] += 1
        else:
            self.differs(name, told, samba, adsd)

    def finds(self, name, dn, text):
        if name not in self.clients:
            self.clients[name] = self.bridge.client(name, PASSWORD)
        return bool(asked(self.clients[name], f"search base='{dn}' filter='{text}' attrs=1.1")[0])

    def reads(self, name, dn, kind):
        """Whether an account reads an attribute of an object, which has it or not."""
        return self.finds(name, dn, f"(|({kind}=*)(!({kind}=*)))")
