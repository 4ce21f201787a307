"""Probes of ldap_probes.py of which Active Directory's answer isn't Samba's, or isn't known to us; and why adsd answers
otherwise than Active Directory, or than Samba where that isn't known."""

# What Active Directory answers: as Samba does; or it isn't known to us.
SAME, UNKNOWN = "", "?"
NO_TICKETS, NO_NUMBERS = "without `--keytab`", "a change counts no number"
METHOD = "7 for whatever method isn't here"
NOT_KEPT = "the store keeps none"
RFC = "the code of RFC 4511 for it"
OTHERWISE = [
    ("root DSE", "`supportedSASLMechanisms`", SAME, NO_TICKETS), ("root DSE", "`highestCommittedUSN`", SAME, NO_NUMBERS),
    ("root DSE", "`supportedExtension`", "there", ""), ("root DSE", "`tokenGroups`", SAME, "not told; of one's own object it is"),
    ("root DSE", "`validFSMOs`", UNKNOWN, ""), ("root DSE", "`vendorName`", UNKNOWN, ""), ("bind", "a name without a password", UNKNOWN, ""),
    ("bind", "a login", UNKNOWN, ""), ("bind", "an identifier", UNKNOWN, ""), ("bind", "neither", SAME, ""),
    ("bind", "a display name", UNKNOWN, ""), ("not bound", "Who am I", "nobody", ""), ("not bound", "a Compare", "1", ""),
    ("extended", "Who am I", "0", ""), *(("bind", f"SASL {one}", UNKNOWN, METHOD) for one in ("DIGEST-MD5", "NTLM", "PLAIN", "NONE")),
    ("filter", "`(nTSecurityDescriptor=*)`", SAME, "undefined: it isn't read by filters"),
    ("filter", "`(2.5.4.3=ann)`", "ann", ""), ("filter", "`(1.2.840.113556.1.4.221=ann)`", "ann", ""),
    ("filter", "`(cn:dn:=ann)`", UNKNOWN, ""), ("filter", "`(!(nosuch=x))`", UNKNOWN, ""), ("filter", "`(cn~=ann)`", "ann", ""),
    ("filter", "`(objectClass=u*)`", UNKNOWN, ""), ("filter", "`(objectCategory=CN=Per*)`", "nothing", ""),
    ("filter", "`(memberOf=CN=c*)`", "nothing", "18, which says why"), ("filter", "`(member=CN=a*)`", "nothing", ""),
    ("filter", "`(whenCreated>=soon)`", UNKNOWN, ""),
    *(("filter", f"`({one})`", UNKNOWN, "") for one in (
        "canonicalName=*", "tokenGroups=*", "msDS-User-Account-Control-Computed=0", "allowedAttributes=cn", "primaryGroupToken=513",
        "createTimeStamp>=20200101000000.0Z", "structuralObjectClass=user", "parentGUID=*", "msDS-PrincipalName=*")),
    ("attribute of ann", "`msDS-PrincipalName`", "there", ""), ("attribute of ann", "`replPropertyMetaData`", SAME, NOT_KEPT),
    ("attribute of ann", "`msDS-KeyVersionNumber`", SAME, NOT_KEPT),
    *(("change", one, UNKNOWN, "") for one in (
        "Add: an unknown class", "Add: an abstract class", "Add: without what the class must have", "Add: objectSid",
        "Modify: memberOf", "Modify: name", "Modify: an item of objectClass", "Move: no object above",
        "Rename: another naming attribute", "Compare: no such attribute there", "Compare: an unknown attribute")),
    ("change", "Add: an unknown attribute", "16", RFC), ("change", "Modify: an unknown attribute", "16", RFC),
    *(("change", f"Modify: {one}, permissive", "0", "") for one in (
        "add a value that is there", "delete a value that isn't there")),
    *(("change", f"Modify: {one}", "19", "") for one in (
        "a second value of one that has one", "a number out of its range", "a text too long")),
    ("change", "Modify: a member that is there", "68", RFC), ("change", "Modify: a member that isn't there is deleted", "53", RFC),
    ("attribute of club", "`member;range=7-*`", UNKNOWN, ""), ("attribute of club", "`msDS-PrincipalName`", "msds-principalname: CORP\\club", ""),
]
