"""Answers of the Python package beside those of Samba: samba_cases.py COUNT

COUNT access checks without object types and COUNT descriptors by chance, as texts and as bytes in both directions. Where the two are known
to differ the case is left out, and counted by its name, as docs/embedding.md lists them. Prints a line for each other difference, and
ends with 0 where there is none."""

import sys
from collections import Counter

import drawn
from adsd import Descriptor, Token, check
from samba import NTSTATUSError
from samba.dcerpc import security
from samba.ndr import ndr_pack, ndr_unpack
from samba.security import access_check

DOMAIN = security.dom_sid("S-1-5-21-1-2-3")


def samba_token(user, groups):
    sids = [security.dom_sid(sid) for sid in [user, *groups]]
    made = security.token()
    # (the number first: it says how many the binding takes)
    made.num_sids = len(sids)
    made.sids = sids
    return made


def samba_grants(sd, token, desired):
    try:
        access_check(sd, token, desired)
        return True
    except NTSTATUSError:
        return False


def checks(count, chance):
    """Whether all of some rights is granted."""
    faults = []
    for _ in range(count):
        text = drawn.sddl(chance, with_owner_rights=True)
        user, groups = drawn.token(chance)
        desired = drawn.mask(chance)
        own = check(Descriptor.from_sddl(text), Token(user, groups), desired) == desired
        theirs = samba_grants(security.descriptor.from_sddl(text, DOMAIN), samba_token(user, groups), desired)
        if own != theirs:
            faults.append(f"check {text} for {user} {groups}, {desired:#x}: {own}, Samba {theirs}")
    return faults


def texts(count, chance, left_out):
    """Samba's bytes of a text are read as that text is, and its text of our bytes too."""
    faults = []
    for _ in range(count):
        text = drawn.sddl(chance, with_objects=True, with_sacl=True)
        own = Descriptor.from_sddl(text)
        if "D:PS:" in text:
            # Samba takes the S of the next part for a flag of the list.
            left_out["sddl: a protected list without entries before another part"] += 1
            continue
        theirs = security.descriptor.from_sddl(text, DOMAIN)
        read = Descriptor(ndr_pack(theirs))
        if read != own:
            faults.append(f"bytes of {text}: {read!r}, expected {own!r}")
        printed = ndr_unpack(security.descriptor, own.to_bytes()).as_sddl(DOMAIN)
        if Descriptor.from_sddl(printed, "S-1-5-21-1-2-3") != own:
            faults.append(f"text of {text}: {printed}")
    return faults


def main(count):
    chance, left_out = drawn.chance_of(1), Counter()
    faults = checks(count, chance) + texts(count, chance, left_out)
    for fault in faults[:20]:
        print(f"DIFFERS samba: {fault}")
    told = ", ".join(f"{name}: {number}" for name, number in sorted(left_out.items())) or "none"
    print(f"samba: {count} checks and {count} descriptors; differences by name: {told}; others: {len(faults)}")
    return 1 if faults else 0


if __name__ == "__main__":
    sys.exit(main(int(sys.argv[1])))
