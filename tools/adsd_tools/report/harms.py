"""Which of the rights that the program grants are dangerous, by rank. Nothing is judged here that decides on a right:
what is granted is said by `effective`, who owns an object by `list`, who is protected by a protection run on a copy."""

from dataclasses import dataclass
from typing import AbstractSet, Dict, Iterable, List, Optional, Tuple

from adsd_tools.forms.sids import guid_of_text, text_of_sid
from adsd_tools.rows.schema import Schema

from .cards import Card
from .deciding import By
from .effective import KINDS, ON_OBJECT, Right
from .tokens import Token

# What decides a right, by each holder; None where it isn't known.
Decides = Optional[Tuple[By, ...]]


@dataclass(frozen=True)
class Harm:
    """A rank: a word for links, what the token may do, and what follows."""

    key: str
    title: str
    means: str


# The worst first.
HARMS = (
    Harm("owner", "owns the object", "so it may write the list, and grant itself every right"),
    Harm("list", "writes the DACL (WD)", "so it may grant itself every right"),
    Harm("take", "writes the owner (WO)", "so it may own the object, and then write the list"),
    Harm("all", "has all rights (GA)", "each right on the object as a whole"),
    Harm("secrets", "replicates secrets", "so it gets the passwords of all accounts"),
    Harm("reset", "resets the password", "so it may act as the account"),
    Harm("members", "writes members of a protected group", "so it may make anybody as powerful as that"),
    Harm("scripts", "writes ways into an account", "servicePrincipalName, scriptPath, and other attributes by which an "
         "account or its machines are taken over"),
    Harm("groups", "writes members of another group", "so it has what is granted to that"),
    Harm("confidential", "reads confidential attributes", "which the schema keeps from those who read the rest"),
)
RANK = {harm.key: rank for rank, harm in enumerate(HARMS)}
RESET = guid_of_text("00299570-246d-11d0-a768-00aa006e0529")
SECRETS = guid_of_text("1131f6ad-9c07-11d1-f79f-00c04fc2dcd2")
SELF_MEMBERSHIP = guid_of_text("bf9679c0-0de6-11d0-a285-00aa003049e2")
VALIDATED_SPN = guid_of_text("f3a64788-5306-11d1-a9c5-0000f80367c1")
BY_GUID = {("right", RESET): "reset", ("right", SECRETS): "secrets", ("validated", SELF_MEMBERSHIP): "members",
           ("validated", VALIDATED_SPN): "scripts"}
SCRIPTS = {"serviceprincipalname", "scriptpath", "msds-keycredentiallink", "msds-allowedtoactonbehalfofotheridentity",
           "msds-allowedtodelegateto", "useraccountcontrol", "altsecurityidentities", "gplink", "gpcfilesyspath",
           "gpcmachineextensionnames", "gpcuserextensionnames", "msts-initialprogram"}


def harm_of(right: Right, schema: Schema) -> Optional[str]:
    """The word of the rank of one right; None where it isn't dangerous by itself. `members` is of every group here, and
    `confidential` of control access alone."""
    kind, name, code = right
    if kind == "object":
        return {"WD": "list", "WO": "take"}.get(code)
    if kind == "attribute" and code == "WP":
        return "members" if name.lower() == "member" else "scripts" if name.lower() in SCRIPTS else None
    if kind == "attribute" and code == "CR" and schema.reads_by_control(name):
        return "confidential"
    if (kind, code) in (("right", "CR"), ("validated", "SW")):
        found = [BY_GUID.get((kind, guid)) for guid in schema.right_guid(name, KINDS[kind])]
        return next((word for word in found if word), None)
    return None


def dangerous(rights: Iterable[Right], schema: Schema) -> Dict[Right, str]:
    """Those of some rights that are dangerous together, each with the word of its rank."""
    made = {right: harm_of(right, schema) for right in rights}
    return {right: word for right, word in made.items()
            if word and (word != "confidential" or ("attribute", right[1], "RP") in made)}


@dataclass
class Finding:
    """A danger on some objects of one card: on which, by which rights, and what decides them (None: it isn't known)."""

    harm: Harm
    objects: List[int]
    rights: List[Right]
    why: List[Decides]


def granted_of(card: Card) -> Dict[Right, Decides]:
    """Each right that is granted on a card, with what decides it."""
    made: Dict[Right, Decides] = {}
    for row in card.rows:
        if row.granted and row.kind != "unread":
            made.update({(row.kind, name, code): row.why for name in row.names or [""] for code in row.codes})
    return made


def by_rank(card: Card, token: Token, schema: Schema, granted: Dict[Right, Decides]) -> Dict[str, List[Right]]:
    """The dangerous rights of a card, by the words of their ranks."""
    made: Dict[str, List[Right]] = {}
    for right, word in dangerous(granted, schema).items():
        made.setdefault(word, []).append(right)
    owners = [text_of_sid(sid) for sid in (token.user, *token.groups)]
    if "list" in made and card.listing[0].partition(" ")[2] in owners:
        made["owner"] = made["list"]
    whole = [("object", "", code) for code in ON_OBJECT]
    if all(right in granted for right in whole):
        made["all"] = whole
    return made


def findings(card: Card, token: Token, schema: Schema, protected: AbstractSet[int]) -> List[Finding]:
    """The dangers of a card, the worst first. `protected` has the numbers of the objects that are protected."""
    granted = granted_of(card)
    made: List[Finding] = []
    for word, rights in by_rank(card, token, schema, granted).items():
        asked = [("attribute", name, "RP") for _, name, _ in rights] if word == "confidential" else []
        why = list(dict.fromkeys(granted[right] for right in asked + rights))
        of = {word: card.objects}
        if word == "members":
            of = {"members": [one for one in card.objects if one in protected],
                  "groups": [one for one in card.objects if one not in protected]}
        made += [Finding(HARMS[RANK[key]], objects, rights, why) for key, objects in of.items() if objects]
    return sorted(made, key=lambda found: RANK[found.harm.key])
