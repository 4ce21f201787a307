"""The files of BloodHound CE's ingest, version 6: what stands in each."""

from .edges import ALL, RP, Edges

FILES = {"User": "users", "Group": "groups", "Computer": "computers", "OU": "ous", "Container": "containers", "GPO": "gpos",
         "Domain": "domains"}
# What is collected: groups, lists, containers and properties, as SharpHound counts them.
METHODS, VERSION = 1 | 64 | 128 | 512, 6
GPO_CHANGES = ("AffectedComputers", "LocalAdmins", "RemoteDesktopUsers", "DcomUsers", "PSRemoteUsers")


def nothing_collected():
    return {"Collected": False, "FailureReason": None, "Results": []}


class Writer:
    """Makes the files of the nodes of a store."""

    def __init__(self, nodes, library):
        self.nodes, self.edges = nodes, Edges(library, nodes.schema)

    def aces(self, number):
        """The edges to an object, but those that begin at itself."""
        nodes, one = self.nodes, self.nodes.objects[number]
        own, made = nodes.sids.get(number), []
        for sid, name, inherited in self.edges.of(one.normal, nodes.kinds[number], one.of_class, nodes.passwords(number)):
            if sid == own:
                continue
            identifier, kind = nodes.of_sid(sid)
            made.append({"PrincipalSID": identifier, "PrincipalType": kind, "RightName": name, "IsInherited": inherited})
        for identifier, kind in self.named_in(number, "msDS-GroupMSAMembership", RP):
            made.append({"PrincipalSID": identifier, "PrincipalType": kind, "RightName": "ReadGMSAPassword", "IsInherited": False})
        return made

    def named_in(self, number, attribute, want):
        """The identifiers and kinds of those to whom a descriptor in an attribute grants something of a mask."""
        return [self.nodes.of_sid(sid) for value in self.nodes.values(number, attribute) for sid in self.edges.named_in(value, want)
                if sid != self.nodes.sids.get(number)]

    def item(self, number):
        nodes, kind = self.nodes, self.nodes.kinds[number]
        parent = nodes.objects[number].parent
        made = {"ObjectIdentifier": nodes.identifier(number), "Properties": nodes.properties(number), "Aces": self.aces(number),
                "IsDeleted": False, "IsACLProtected": nodes.is_protected(number),
                "ContainedBy": nodes.pair(parent) if parent in nodes.kinds else None}
        if kind in ("User", "Computer"):
            made.update(PrimaryGroupSID=nodes.primary_group(number), AllowedToDelegate=[], HasSIDHistory=nodes.history(number))
        if kind == "User":
            made.update(SPNTargets=[])
        if kind == "Computer":
            acts = self.named_in(number, "msDS-AllowedToActOnBehalfOfOtherIdentity", ALL)
            made.update(AllowedToAct=[{"ObjectIdentifier": name, "ObjectType": of} for name, of in acts], DumpSMSAPassword=[], LocalGroups=[], UserRights=[], Status=None, IsDC=nodes.is_controller(number),
                        Sessions=nothing_collected(), PrivilegedSessions=nothing_collected(), RegistrySessions=nothing_collected())
        if kind == "Group":
            made.update(Members=nodes.members(number))
        if kind in ("OU", "Container", "Domain"):
            made.update(ChildObjects=[nodes.pair(child) for child in nodes.children.get(number, [])])
        if kind in ("OU", "Domain"):
            made.update(Links=nodes.links(number), GPOChanges={name: [] for name in GPO_CHANGES})
        if kind == "Domain":
            made.update(Trusts=[])
        return made

    def everywhere(self, identifier, name):
        """A group that is the same everywhere, so that the edges from it have a name."""
        nodes = self.nodes
        return {"ObjectIdentifier": identifier, "Aces": [], "Members": [], "IsDeleted": False, "IsACLProtected": False,
                "ContainedBy": None, "Properties": {"domain": nodes.domain, "name": name, "domainsid": nodes.domain_sid}}

    def files(self):
        """The content of each file by its name without .json."""
        made = {name: [] for name in FILES.values()}
        for number, kind in self.nodes.kinds.items():
            made[FILES[kind]].append(self.item(number))
        made["groups"] += [self.everywhere(*one) for one in self.nodes.well_known()]
        return {name: {"data": items, "meta": {"methods": METHODS, "type": name, "count": len(items), "version": VERSION}}
                for name, items in made.items()}
