"""The subschema (RFC 4512 4.2): a store's schema as clients read it.

It is told by the name that Active Directory gives it. Where the store has an object of that name, the program says who
sees it; where it has none, those have it to whom the program shows the root by its objectClass."""

import re
import uuid
from dataclasses import replace

from adsd_tools.forms import ber, filters

from . import searches
from .names import key_of
from .searches import Entry, Found

NAME = b"CN=Aggregate,CN=Schema,CN=Configuration,"
OID = re.compile(r"[0-2](\.(0|[1-9][0-9]*))+")
IETF, AD = "1.3.6.1.4.1.1466.115.121.1.", "1.2.840.113556.1.4."
# The syntaxes of attributes by those of the store, with what they are called; any other is octets.
OCTETS = IETF + "40"
SYNTAXES = {
    "2.5.5.1": IETF + "12", "2.5.5.2": IETF + "38", "2.5.5.3": AD + "1362", "2.5.5.4": AD + "905",
    "2.5.5.5": IETF + "26", "2.5.5.6": IETF + "36", "2.5.5.7": AD + "903", "2.5.5.8": IETF + "7",
    "2.5.5.9": IETF + "27", "2.5.5.10": OCTETS, "2.5.5.11": IETF + "24", "2.5.5.12": IETF + "15",
    "2.5.5.13": IETF + "43", "2.5.5.14": AD + "904",
    "2.5.5.15": AD + "907", "2.5.5.16": AD + "906", "2.5.5.17": OCTETS}
CALLED = {
    "12": "DN", "38": "OID", "1362": "Case-Sensitive String", "905": "Case-Ignore String", "26": "IA5 String",
    "36": "Numeric String", "903": "DN with Binary", "7": "Boolean", "27": "INTEGER", "40": "Octet String",
    "24": "Generalized Time", "15": "Directory String", "43": "Presentation Address", "904": "DN with String",
    "907": "NT Security Descriptor", "906": "Large Integer"}
# What the bridge itself tells, and what clients take for known (RFC 4512 3.4, 4.2, 5.1), for schemas that haven't it:
# object identifiers and syntaxes.
TOLD = {
    "attributeTypes": ("2.5.21.5", "3"), "matchingRules": ("2.5.21.4", "30"), "objectClasses": ("2.5.21.6", "37"),
    "dITContentRules": ("2.5.21.2", "16"),
    "ldapSyntaxes": ("1.3.6.1.4.1.1466.101.120.16", "54"), "subschemaSubentry": ("2.5.18.10", "12"),
    "namingContexts": ("1.3.6.1.4.1.1466.101.120.5", "12"), "supportedControl": ("1.3.6.1.4.1.1466.101.120.13", "38"),
    "supportedExtension": ("1.3.6.1.4.1.1466.101.120.7", "38"),
    "createTimestamp": ("2.5.18.1", "24"), "modifyTimestamp": ("2.5.18.2", "24"),
    "supportedLDAPVersion": ("1.3.6.1.4.1.1466.101.120.15", "27")}
TOLD_SYNTAXES = {"3": "Attribute Type Description", "37": "Object Class Description", "30": "Matching Rule Description",
                 "58": "Substring Assertion",
                 "16": "DIT Content Rule Description", "54": "LDAP Syntax Description"}
# The rules by which values of a syntax are compared: equality, order, pieces; and what is told of each rule.
BY_BYTES = ("octetStringMatch",)
COMPARED = {
    "2.5.5.1": ("distinguishedNameMatch",), "2.5.5.2": ("objectIdentifierMatch",), "2.5.5.8": ("booleanMatch",),
    "2.5.5.9": ("integerMatch", "integerOrderingMatch"), "2.5.5.16": ("integerMatch", "integerOrderingMatch"),
    "2.5.5.10": ("octetStringMatch", "octetStringOrderingMatch"),
    "2.5.5.11": ("generalizedTimeMatch", "generalizedTimeOrderingMatch"),
    "2.5.5.12": ("caseIgnoreMatch", "caseIgnoreOrderingMatch", "caseIgnoreSubstringsMatch")}
RULES = {
    "objectIdentifierMatch": ("2.5.13.0", "38"), "distinguishedNameMatch": ("2.5.13.1", "12"),
    "caseIgnoreMatch": ("2.5.13.2", "15"), "caseIgnoreOrderingMatch": ("2.5.13.3", "15"),
    "caseIgnoreSubstringsMatch": ("2.5.13.4", "58"), "booleanMatch": ("2.5.13.13", "7"),
    "integerMatch": ("2.5.13.14", "27"), "integerOrderingMatch": ("2.5.13.15", "27"),
    "octetStringMatch": ("2.5.13.17", "40"), "octetStringOrderingMatch": ("2.5.13.18", "40"),
    "generalizedTimeMatch": ("2.5.13.27", "24"), "generalizedTimeOrderingMatch": ("2.5.13.28", "24"),
    "integerBitAndMatch": (AD + "803", "27"), "integerBitOrMatch": (AD + "804", "27"),
    "inChainMatch": (AD + "1941", "12")}
TOLD_CLASS = "( 2.5.20.1 NAME 'subschema' AUXILIARY )"
KINDS = {2: "ABSTRACT", 3: "AUXILIARY"}


def oid_of(record, line):
    """The object identifier of a record: the one that it has, else one made of its GUID (ITU-T X.667)."""
    told = record.text(line)
    return told if OID.fullmatch(told) else f"2.25.{uuid.UUID(bytes_le=record.guid('schemaIDGUID')).int}"


def listed(word, names):
    """A word with names behind it; nothing where there are none."""
    if not names:
        return ""
    return f" {word} {names[0]}" if len(names) == 1 else f" {word} ( {' $ '.join(names)} )"


def attribute_line(record):
    syntax = SYNTAXES.get(record.text("attributeSyntax"), OCTETS)
    single = " SINGLE-VALUE" if record.text("isSingleValued").upper() == "TRUE" else ""
    rules = zip(("EQUALITY", "ORDERING", "SUBSTR"), COMPARED.get(record.text("attributeSyntax"), BY_BYTES))
    told = "".join(f" {word} {rule}" for word, rule in rules)
    head = f"( {oid_of(record, 'attributeID')} NAME '{record.text('lDAPDisplayName')}'"
    return f"{head}{told} SYNTAX {syntax}{single} )"


def rule_lines():
    return [f"( {oid} NAME '{name}' SYNTAX {IETF}{syntax} )" for name, (oid, syntax) in RULES.items()]


def syntax_lines():
    called = {one: CALLED[one.rpartition(".")[2]] for one in SYNTAXES.values()}
    called.update((IETF + number, name) for number, name in TOLD_SYNTAXES.items())
    return [f"( {one} DESC '{name}' )" for one, name in sorted(called.items())]


class Lines:
    """The lines of the subschema of a schema."""

    def __init__(self, schema):
        self.schema = schema
        classes = range(len(schema.classes))
        told = {"attributeTypes": [*map(attribute_line, schema.attributes), *self.operational()],
                "objectClasses": [*map(self.class_line, classes), *[TOLD_CLASS] * ("subschema" not in schema.of_class)],
                "dITContentRules": filter(None, map(self.content_line, classes)),
                "matchingRules": rule_lines(), "ldapSyntaxes": syntax_lines()}
        self.told = [(kind.encode(), tuple(line.encode() for line in lines)) for kind, lines in told.items()]

    def operational(self):
        """Lines of what the bridge tells and the schema hasn't."""
        for name, (oid, syntax) in TOLD.items():
            if name.lower() not in self.schema.of_attribute:
                yield f"( {oid} NAME '{name}' SYNTAX {IETF}{syntax} NO-USER-MODIFICATION USAGE directoryOperation )"

    def attributes(self, record, *lines):
        """The names of attributes that lines of a record have, as the schema spells them."""
        names = dict.fromkeys(record.many(*lines))
        return [self.schema.attribute_names[self.schema.of_attribute[name]] for name in names]

    def head(self, at):
        return f"( {oid_of(self.schema.classes[at], 'governsID')} NAME '{self.schema.class_names[at]}'"

    def class_line(self, at):
        one, above = self.schema.classes[at], self.schema.chain(at)[1:2]
        must = self.attributes(one, "mustContain", "systemMustContain")
        may = self.attributes(one, "mayContain", "systemMayContain")
        naming = self.schema.attribute_names[self.schema.of_attribute[self.schema.naming(at).lower()]]
        kind = KINDS.get(one.number("objectClassCategory"), "STRUCTURAL")
        may = [name for name in may if name not in must] + [naming] * (naming not in must + may)
        held = listed("SUP", [self.schema.class_names[top] for top in above]), listed("MUST", must), listed("MAY", may)
        return f"{self.head(at)}{held[0]} {kind}{held[1]}{held[2]} )"

    def content_line(self, at):
        """Which classes go along with a class; nothing where there are none."""
        names = dict.fromkeys(self.schema.classes[at].many("auxiliaryClass", "systemAuxiliaryClass"))
        others = [self.schema.class_names[self.schema.of_class[name]] for name in names]
        return f"{self.head(at)}{listed('AUX', others)} )" if others else ""


def asked(search, root):
    """Whether a search is one for the subschema of the directory with this root."""
    if not root or search.scope != searches.BASE or len(search.base) > len(NAME) + 2 * len(root):
        return False
    if b"aggregate" not in search.base.lower():
        return False
    kinds = [(tag, body.lower()) for tag, body in ber.parts(search.filter)]
    wanted = (filters.read("(objectClass=*)"), filters.read("(objectClass=subschema)"))
    is_whole = kinds in [[(tag, body.lower()) for tag, body in ber.parts(one)] for one in wanted]
    keys = [key_of(name.decode("utf-8", "replace")) for name in (search.base, NAME + root)]
    return is_whole and keys[0] == keys[1]


def chosen(pairs, search):
    """Those of some attributes that a search asks for by name, or as operational ones."""
    names = search.asked()[0]
    return tuple((kind, () if search.types_only else values) for kind, values in pairs
                 if "+" in names or kind.decode().lower() in names)


async def answer(found, search, root, schema):
    """What is found; `found` asks the program."""
    made = await found(search)
    lines = (*schema.subschema().told, (b"subschemaSubentry", (NAME + root,)))
    if made.entries:
        entry = searches.entry_of(made.entries[0])
        return replace(made, entries=(searches.body_of(replace(entry, held=entry.held + chosen(lines, search))),))
    seen = searches.Search(search.number, root, searches.BASE, filter=filters.read("(objectClass=*)"),
                           attributes=(b"1.1",))
    if made.code != searches.NO_OBJECT or not (await found(seen)).entries:
        return made
    own = ((b"objectClass", (b"top", b"subSchema")), (b"cn", (b"Aggregate",)))
    shown = tuple((kind, () if search.types_only else values) for kind, values in own
                  if search.asked()[1] or kind.decode().lower() in search.asked()[0])
    return Found((searches.body_of(Entry(NAME + root, shown + chosen(lines, search))),))
