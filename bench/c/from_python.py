"""Times checks from Python beside Samba's binding, where it is installed: microseconds a call, the least of twenty batches."""

import time

from adsd import Descriptor, Token, check


def least(call, calls=200):
    best = 1e9
    for _ in range(20):
        begun = time.perf_counter()
        for _ in range(calls):
            call()
        best = min(best, (time.perf_counter() - begun) / calls)
    return best * 1e6


def samba_call(text, sids):
    try:
        from samba import NTSTATUSError
        from samba.dcerpc import security
        from samba.security import access_check
    except ImportError:
        return None
    made = [security.dom_sid(sid) for sid in sids]
    token = security.token()
    token.num_sids = len(made)
    token.sids = made
    sd = security.descriptor.from_sddl(text, security.dom_sid("S-1-5-21-1-2-3"))

    def call():
        try:
            access_check(sd, token, 16)
        except NTSTATUSError:
            pass
    call.kept = made
    return call


for entries in (4, 44):
    text = "O:BAG:BAD:" + "".join(f"(A;;0x10;;;S-1-5-21-1-2-3-{9000 + i})" for i in range(entries))
    for identifiers in (10, 100, 1000):
        sids = [f"S-1-5-21-1-2-3-{2000 + i}" for i in range(identifiers)]
        sd, token = Descriptor.from_sddl(text), Token(sids[0], sids[1:])
        theirs = samba_call(text, sids)
        beside = "" if theirs is None else f", Samba's binding {least(theirs):.1f} µs"
        print(f"{entries} entries, {identifiers} identifiers: {least(lambda: check(sd, token, 16)):.1f} µs{beside}")
