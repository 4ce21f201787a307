"""What is read: the names below each naming context first, then each object by its name, with whole ranges of values.

The first search asks for names alone, of objects and of their attributes. So it is known how many objects there are,
each one can be asked for again over another connection, and no attribute has to be asked for that may hold a secret.
"""

import re

import ldap

from .told import OBJECTS, PARENTS, VALUES, Fault

BATCH = 64
RANGE = re.compile(r"(.*);range=([0-9]+)-([0-9]+|\*)", re.I)
# Passwords, keys and their hashes, which are never asked for. The first lines are what no server gives; the others an
# administrator may read: of LAPS, of managed accounts, of BitLocker, of keys of the domain and of users.
SECRET = {name.lower() for name in (
    "unicodePwd", "dBCSPwd", "ntPwdHistory", "lmPwdHistory", "supplementalCredentials", "currentValue", "priorValue",
    "initialAuthIncoming", "initialAuthOutgoing", "trustAuthIncoming", "trustAuthOutgoing", "pekList",
    "msDS-ExecuteScriptPassword", "clearTextPassword", "userPassword", "unixUserPassword", "msSFU30Password",
    "os400Password", "ms-Mcs-AdmPwd", "msLAPS-Password", "msLAPS-EncryptedPassword", "msLAPS-EncryptedPasswordHistory",
    "msLAPS-EncryptedDSRMPassword", "msLAPS-EncryptedDSRMPasswordHistory", "msDS-ManagedPassword",
    "msFVE-RecoveryPassword", "msFVE-KeyPackage", "msTPM-OwnerInformation", "msKds-RootKeyData",
    "msPKIAccountCredentials", "msPKIDPAPIMasterKeys", "msDS-TrustForestTrustInfo", "sambaNTPassword",
    "sambaLMPassword", "userPKCS12")}
# What changes by itself and is another server's: it says nothing of rights.
OF_SERVER = {"replpropertymetadata", "repluptodatevector", "repsfrom", "repsto"}


def parent_of(dn):
    """The name above a name, as it is written: what stands behind the first comma that isn't escaped."""
    found = re.match(r"(?:[^,\\]|\\.)*,", dn, re.S)
    return dn[found.end():] if found else ""


def same(dn):
    """What two spellings by one server have in common."""
    return dn.casefold()


class Reader:
    """Reads contexts over a Link. What is missed goes to `lacks`, how far it is to `progress`."""

    def __init__(self, link, page, values, lacks, progress):
        self.link, self.page, self.values, self.lacks, self.progress = link, page, values, lacks, progress
        self.gone, self.seen = [], set()

    def flags(self, base):
        """Has the link ask for system lists too, where the account may read them; whether it may."""
        for flags in (15, 7):
            self.link.flags = flags
            found = self.link.kept(lambda: self.link.read(base, ["nTSecurityDescriptor"]), lambda: 0)
            if any(found.values()):
                return flags == 15
        return False

    def listed(self, base):
        """The names of the objects at and below a name that weren't listed yet, and of their attributes."""
        found, attributes = {}, {"nTSecurityDescriptor"}

        def work():
            cookie = b""
            while True:
                page, cookie = self.link.page(base, ["*"], self.page, cookie)
                fresh = [one for one in page if same(one[0]) not in found and same(one[0]) not in self.seen]
                found.update((same(dn), dn) for dn, _ in fresh)
                attributes.update(name.partition(";")[0] for _, held in page for name in held)
                self.progress.step(listed=len(fresh))
                if not cookie:
                    return

        try:
            self.link.kept(work, lambda: len(found))
        except ldap.LDAPError as fault:
            why = fault.args[0].get("desc", "") if fault.args else ""
            raise Fault(1, f"{base} can't be listed: {why}") from None
        self.seen.update(found)
        return list(found.values()), sorted(one for one in attributes if one.lower() not in SECRET | OF_SERVER)

    def parents(self, names, heads):
        """Notes the names whose parent isn't listed, though it has to be there."""
        for dn in names:
            if same(dn) not in heads and same(parent_of(dn)) not in self.seen:
                self.lacks.add(PARENTS, dn)

    def objects(self, names, attributes):
        """The objects of some names, each a name and its values, in the order of the names."""
        if self.values:
            attributes = [f"{one};range=0-{self.values - 1}" if one.lower() == "member" else one for one in attributes]
        for at in range(0, len(names), BATCH):
            batch = names[at : at + BATCH]
            found = self.link.kept(lambda: self.batch(batch, attributes), lambda: self.progress.read)
            for dn, answer in zip(batch, found):
                if answer is None:
                    self.gone.append(dn)
                    continue
                held = {} if not answer else self.whole(*answer[0])
                if not any(held.values()):
                    self.lacks.add(OBJECTS, dn)
                elif not is_deleted(held):
                    self.lacks.look(dn, held)
                    yield answer[0][0], held
            self.progress.step(read=len(batch))

    def batch(self, names, attributes):
        """The answers for some names, all asked at once."""
        numbers = [self.link.ask(dn, attributes) for dn in names]
        return [self.link.answer(number) for number in numbers]

    def whole(self, dn, held):
        """An object's values, those of which the server gave a range all together. Where it gives no more, what came
        keeps its range, so that whoever reads it sees that it isn't all."""
        made = {}
        for name, values in held.items():
            told = RANGE.fullmatch(name)
            if not told:
                made.setdefault(name, []).extend(values)
                continue
            of, last, values = told[1], told[3], list(values)
            while last != "*":
                begin = int(last) + 1
                found = self.more(dn, of, begin)
                if found is None:
                    self.lacks.add(VALUES, dn)
                    break
                last, more = found
                values += more
            if values:
                made.setdefault(of if last == "*" else f"{of};range={told[2]}-{last}", []).extend(values)
        return made

    def more(self, dn, of, begin):
        """The end of the next range of values, and these; None where there is none."""
        wanted = f"{of};range={begin}-{begin + self.values - 1 if self.values else '*'}"
        found = self.link.kept(lambda: self.link.read(dn, [wanted]), lambda: self.progress.read)
        for name, values in found.items():
            told = RANGE.fullmatch(name)
            if told and told[1].lower() == of.lower() and int(told[2]) == begin and (values or told[3] == "*"):
                return told[3], values
        return None


def is_deleted(held):
    return any(name.lower() == "isdeleted" and values[:1] == [b"TRUE"] for name, values in held.items())
