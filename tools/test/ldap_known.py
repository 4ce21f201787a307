"""What tools/test/ldap tries of groups and accounts that the bridge's own account doesn't read: no token is made that
could lack a group, and the log says why somebody isn't bound."""

from ldap_client import REFUSED
from ldap_face import asked
from ldap_guards import VIC, WORK, over
from ldap_peers import BOUND, same
from ldap_store import DOMAIN, ROOT, descriptor_line
from ldap_who import NAMES, Made

G1, PAPERS = f"CN=g1,{WORK}", f"OU=papers,{ROOT}"
# The reader is the system, with the administrators: who has a group with this list isn't read by it.
CLOSED = "O:BAG:BAD:P(D;;RP;;;SY)(A;;GA;;;BA)"
NOT_KNOWN = "# bind: 52, who is in which group isn't known to the server"
OWN_PRIMARY = "a0000000-0000-4000-8000-00000000000a"


def denied_group():
    """A group with vic in it, whose members nobody of the bridge's reads; it is denied what all others read."""
    group = (f"\ndn: CN=de\\0Anied,{WORK}\nobjectClass: group\nobjectSid: {DOMAIN}-3020\nmember: {VIC}\n"
             + descriptor_line(CLOSED))
    papers = (f"\ndn: {PAPERS}\nobjectClass: organizationalUnit\ndescription: top secret\n"
              + descriptor_line(f"O:BAG:BAD:P(D;;GA;;;{DOMAIN}-3020)(A;;RPLC;;;AU)"))
    return group + papers


def closed_group():
    """The bridge doesn't start, and names the group on one line; or it starts and says so, and its members read on."""
    line = f"the reader doesn't read who is in CN=de\\0Anied,{WORK}, or its identifier"
    with over(more=denied_group()) as bridge:
        same((bridge.port, bridge.running.wait()), (None, 3))
        same([one for one in bridge.lines() if "who is in" in one], [f"adsd-ldap: {line}"])
        same([one for one in bridge.lines() if "not served without --unknown-groups" in one] == [], False)
    with over("--unknown-groups", more=denied_group()) as bridge:
        same(f"adsd-ldap: warning: {line}" in bridge.lines(), True)
        found = asked(bridge.client("vic", "pw"), f"search base='{PAPERS}' attrs=description")[0]
        same(found, [(PAPERS, {"description": [b"top secret"]})])
    # Where each line says its token, none hangs on the directory.
    with Made(names=NAMES, more=denied_group().replace(WORK, ROOT).replace(f"member: CN=vic,{ROOT}\n", "")) as bridge:
        same((bridge.port is None, [one for one in bridge.lines() if "who is in" in one]), (False, []))


def wrote(client, name, text):
    same(client.ask(f"modify dn='{name}' sd=dacl replace:nTSecurityDescriptor='sddl:{text}'"), "# modify: 0 success")


def closes_meanwhile():
    """Once a group's list is changed so that it isn't read, no token is made of the directory; who has a line binds on,
    who is bound stays so, and it is as before once the list is. So too for a group that is made so."""
    with over() as bridge:
        one, delegate, admin = bridge.client(), bridge.client("del", "pw"), bridge.client("admin", "adm1n")
        own = f"(A;;GA;;;{DOMAIN}-3001)"
        same(one.bind("vic", "pw"), BOUND)
        wrote(delegate, G1, f"D:(D;;RP;;;SY){own}")
        same([one.bind("vic", "pw"), one.bind("vic", "no"), one.bind("admin", "adm1n")], [NOT_KNOWN, REFUSED, BOUND])
        bridge.wait_for(f"the reader doesn't read who is in {G1}, or its identifier")
        bridge.wait_for("not bound, whoever it is: the reader doesn't read who is in some groups, 1 in all")
        same(len(asked(delegate, f"search base='{WORK}' scope=one attrs=1.1")[0]), 6)
        wrote(delegate, G1, f"D:(A;;GA;;;BA){own}")
        same(one.bind("vic", "pw"), BOUND)
        made = f"add dn='CN=born,{WORK}' objectClass=group sd=dacl nTSecurityDescriptor='sddl:D:P(D;;RP;;;SY){own}'"
        same(delegate.ask(made), "# add: 0 success")
        same(one.bind("vic", "pw"), NOT_KNOWN)
        bridge.wait_for(f"the reader doesn't read who is in CN=born,{WORK}, or its identifier")
        same(delegate.ask(f"delete dn='CN=born,{WORK}'"), "# delete: 0 success")
        same(one.bind("vic", "pw"), BOUND)
        wrote(delegate, f"CN=few,{WORK}", f"D:(OD;;RP;{OWN_PRIMARY};;SY)(A;;GA;;;BA){own}")
        same([one.bind("few", "pw"), one.bind("vic", "pw")], [NOT_KNOWN, BOUND])
        bridge.wait_for("the reader doesn't read its primaryGroupID")
        for other in (delegate, admin):
            other.close()


def unseen_accounts():
    """An account that the reader doesn't see, or whose identifier it doesn't read, isn't told as a wrong password in the
    log; a client is told what it is told of a wrong one."""
    with over("--store-passwords", names="gone password=pw\n") as bridge:
        one, delegate = bridge.client(), bridge.client("del", "pw")
        same([one.bind("gone", "pw"), one.bind("gone", "no")], [REFUSED, REFUSED])
        bridge.wait_for("not bound: gone is no account of the store")
        bridge.wait_for("not bound: wrong password of gone")
        own, sids = f"(A;;GA;;;{DOMAIN}-3001)", "a0000000-0000-4000-8000-000000000007"
        wrote(delegate, VIC, f"D:(OD;;RP;{sids};;SY)(A;;GA;;;BA){own}")
        same(one.bind("vic", "pw"), REFUSED)
        bridge.wait_for(f"not bound: {VIC} has no objectSid that the reader reads")
        wrote(delegate, WORK, f"D:(D;;LC;;;SY)(A;CI;GA;;;BA)(A;CI;GA;;;{DOMAIN}-3001)")
        same(one.bind("vic", "pw"), REFUSED)
        bridge.wait_for("not bound: the reader doesn't see the account vic")
        same(one.bind("nobody", "pw"), REFUSED)
        bridge.wait_for("not bound: a name that isn't in the file, nor of an account that the reader sees")
        same(one.bind("ann", "first"), NOT_KNOWN)
    by_no_right()


def by_no_right():
    """Whether a password is the store's isn't known where the reader may not ask for it."""
    with Made("--store-passwords") as bridge:
        one, admin = bridge.client(), bridge.client("admin", "adm1n")
        same(one.bind("ann", "no"), REFUSED)
        bridge.wait_for("not bound: wrong password of CN=Ann Lee")
        wrote(admin, f"CN=Ann Lee,OU=people,{ROOT}", "D:P(D;;CR;;;SY)(A;;GA;;;BA)(A;;RP;;;WD)")
        same(one.bind("ann", "first"), REFUSED)
        bridge.wait_for("not bound: whether it is the password of CN=Ann Lee,.* isn't known: .* ended with 50")


CASES = (closed_group, closes_meanwhile, unseen_accounts)
