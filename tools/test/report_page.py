"""What a page of tools/adsd-report says first, its pictures, its form and its size: for tools/test/report. What is
expected was worked out by hand from examples/base.ldif and the texts below, by the rules of docs/profile/."""

import base64
import hashlib
import os
import re
import subprocess
import unicodedata
from html.parser import HTMLParser

import chosen

TOP = os.path.dirname(os.path.dirname(os.path.dirname(os.path.abspath(__file__))))
VOID = {"meta", "br", "input"}
STAFF = "OU=staff,DC=corp,DC=example"
ADMIN, NOBODY = ["--user", "BA"], ["--user", "S-1-5-7"]
ANN = ["--user", "S-1-5-21-1-2-3-1001", "--group", "AU", "--group", "WD"]


class Page(HTMLParser):
    """A page's elements: faults of form, what it names from elsewhere, identifiers and links, rows by table, texts."""

    def __init__(self, text):
        super().__init__()
        self.open, self.faults, self.ids, self.links, self.rows, self.cell = [], [], set(), set(), [], None
        self.row_ids, self.texts, self.inside = {}, {}, []
        self.feed(text)
        self.close()
        if self.open:
            self.faults.append(f"not closed: {self.open}")

    def text(self, id_):
        """The text of the element of an id, with single blanks."""
        return tidy([self.texts.get(id_, "")])

    def handle_starttag(self, tag, attrs):
        marks = dict(attrs)
        if len(marks) != len(attrs):
            self.faults.append(f"{tag} has a mark twice")
        if tag not in VOID:
            self.open.append(tag)
            self.inside.append(marks.get("id") or f".{marks.get('class')}")
        if "id" in marks:
            if marks["id"] in self.ids:
                self.faults.append(f"the id {marks['id']} stands twice")
            self.ids.add(marks["id"])
        self.faults += [f"{tag} names {name}={marks[name]}" for name in ("src", "srcset", "action", "data", "poster")
                        if name in marks]
        self.faults += [f"{tag} has {name}" for name in marks if name.startswith("on") or name == "style"]
        if "href" in marks:
            self.links.add(marks["href"])
        if tag == "tr":
            self.rows.append([])
            self.row_ids[marks.get("id")] = self.rows[-1]
        if tag in ("td", "th") and self.rows:
            self.rows[-1].append("")

    def handle_endtag(self, tag):
        if not self.open or self.open.pop() != tag:
            self.faults.append(f"</{tag}> closes nothing")
        else:
            self.inside.pop()

    def handle_data(self, data):
        for one in set(self.inside):
            self.texts[one] = self.texts.get(one, "") + " " + data
        if {"td", "th"} & set(self.open) and self.rows and self.rows[-1]:
            self.rows[-1][-1] += (" " if self.rows[-1][-1] else "") + data


def tidy(cells):
    """The text of a row's cells, without signs and with single blanks."""
    text = " | ".join(" ".join(cell.replace("\u2713", "").replace("\u2717", "").split()) for cell in cells)
    return text.replace(" ,", ",").replace("( ", "(").replace(" )", ")")


# A list for each danger, for the anonymous (AN): nothing else gives it anything.
CONFIGURATION = "CN=Configuration,DC=corp,DC=example"
SERVICES = f"CN=Services,{CONFIGURATION}"
DANGERS = [
    (f"CN=ann,{STAFF}", "dacl", "D:P(OA;;CR;00299570-246d-11d0-a768-00aa006e0529;;AN)"),
    (f"CN=bob,{STAFF}", "dacl", "D:P(OA;;RPCR;a0000000-0000-4000-8000-000000000013;;AN)"),
    (f"CN=pc1,{STAFF}", "dacl", "D:P(A;;RC;;;SY)(OA;;SW;f3a64788-5306-11d1-a9c5-0000f80367c1;;AN)"),
    (f"CN=club,{STAFF}", "dacl", "D:P(OA;;WP;a0000000-0000-4000-8000-000000000008;;AN)"),
    (f"CN=more,{STAFF}", "dacl", "D:P(OA;;SW;bf9679c0-0de6-11d0-a285-00aa003049e2;;AN)"),
    (f"CN=Directory Service,CN=Windows NT,{SERVICES}", "owner,dacl", "O:AND:P(A;;RC;;;SY)"),
    (f"CN=Windows NT,{SERVICES}", "dacl", "D:P(A;;GA;;;AN)"),
    (SERVICES, "dacl", "D:P(A;;WO;;;AN)"),
    (CONFIGURATION, "dacl", "D:P(A;;LCRPWD;;;AN)"),
    # Nothing of this one is dangerous: what would be is denied in front, or owner rights take it.
    ("CN=System,DC=corp,DC=example", "owner,dacl", "O:AND:P(D;;WDWO;;;AN)(A;;RPWPCCWD;;;AN)(A;;RC;;;OW)"),
]
MORE = """
dn: CN=more,OU=staff,DC=corp,DC=example
objectClass: group
objectSid: S-1-5-21-1-2-3-1005
"""
BY = "allowed by entry 1 (anonymous)"
RANKED = [
    ("Directory Service", "owns the object, writes the DACL (WD) : the token holds the owner, and no entry is for "
     "owner rights"),
    ("Windows NT", f"writes the DACL (WD), writes the owner (WO), has all rights (GA) : {BY}"),
    ("Configuration", f"writes the DACL (WD) : {BY}"),
    ("Services", f"writes the owner (WO) : {BY}"),
    ("ann", f"resets the password (User-Force-Change-Password): {BY}"),
    ("club", f"writes members of a protected group (member): {BY}"),
    ("pc1", "writes ways into an account (Validated-SPN): allowed by entry 2 (anonymous)"),
    ("more", f"writes members of another group (Self-Membership): {BY}"),
    ("bob", f"reads confidential attributes (secretCode): {BY}"),
]
FRAMES = {
    "came.txt": [(STAFF, "dacl",
                  "D:(A;;GA;;;SY)(A;CI;WP;;;AU)(OA;CI;CR;00299570-246d-11d0-a768-00aa006e0529;;AU)")],
    "went.txt": [(STAFF, "dacl", "D:P(A;;GA;;;SY)(A;CI;RP;;;AU)")],
    "danger.txt": DANGERS,
}
# What stands in the pictures of came.txt, moment by moment, and in their words: what is expected by docs/profile/
# propagation.md, where the queue goes over one child at a time.
MOMENTS = [
    (["0 objects stale, 0 pending", "nothing is stale or pending"], ["stale:", "+"]),
    (["4 objects stale, 1 pending", "\u25b71, 4 left", "pending 1: staff, 4 children left",
      "stale: ann, bob, pc1, club", "+WP object, 7 attributes", "CN=bob \u2260 stale",
      "rights on staff: +WP the object as a whole; 7 attributes: "], ["User-Force"]),
    (["3 objects stale, 2 pending", "changed: ann", "CN=ann \u25b72 \u25cf +WP object, 14 attributes",
      "+CR User-Force-Change-Password",
      "rights on ann: +WP the object as a whole; 14 attributes: "], ["changed: ann, bob"]),
    (["1 object stale", "changed: bob, pc1", "stale: club", "rights on bob: ", "rights on pc1: "], ["rights on ann"]),
]
# How many signs of each kind these pictures have: circles that are full and empty, diamonds, and triangles.
SIGNS = [(0, 6, 0, 0), (0, 1, 4, 1), (0, 1, 3, 2), (0, 1, 1, 4)]
CAME = [
    ("ann, bob", "+CR extended right: User-Force-Change-Password", "resets the password"),
    ("pc1", "15 attributes", "resets the password"),
    ("club", "9 attributes", "writes members of a protected group"),
    ("staff", "7 attributes", ""),
]
HOSTILE = ["<script>alert(1)</script>&\"'", "\x01\x07\x1b[2J\r\n\t", "\u202egnp.\u2066x\u200f\u2028\ufeff",
           "\u00e9" * 512, "<b>" * 341 + "x", "]]></svg><svg onload=alert(1)>",
           "</details></li></title>", "' onfocus=alert(1) x='"]


def frames_of(changes):
    """Lines for adsd-ask that write descriptors."""
    return "token 1 user=S-1-5-32-544 privileges=security,restore\n" + "".join(
        f"modify 1 dn='{dn}' sd={parts} replace:nTSecurityDescriptor='sddl:{sddl}'\n" for dn, parts, sddl in changes)


def escaped(name):
    """A value as it stands in a name of LDIF."""
    return "".join(f"\\{c}" if c in "\\\"+,;<>#=" else f"\\{ord(c):02x}" if ord(c) < 32 else c for c in name)


def ranks(page):
    """The ranks of a page with how many objects there are of each."""
    return re.findall(r"(\d+) (?=[a-z])([a-zA-Z ()]+),", page.text(".harms"))


def result(tries, base):
    """What is dangerous stands first: by rank, with counts, the objects, and the entry that decides."""
    tries.load("danger", base + MORE.encode())
    for name, changes in FRAMES.items():
        tries.put(name, frames_of(changes).encode())
    page, text = tries.page("danger", *NOBODY, "--frames", "danger.txt")
    tries.form(page, text, "the page of dangers")
    found = [tuple(tidy([cell]) for cell in row[:2]) for row in page.rows if len(row) == 3 and "card " in row[2]]
    for at, (name, said) in enumerate(RANKED):
        row = found[at] if at < len(found) else ("", "")
        tries.check(row[0].startswith(name + " ") and row[1] == said, f"danger {at}: {row}, {said}")
    tries.check(len(found) == len(RANKED), f"{len(found)} rows of dangers")
    tries.check("protected" in found[4][0] + found[5][0] and "protected" not in found[7][0], f"protected: {found}")
    wanted = [("1", "owns the object"), ("3", "writes the DACL (WD)"), ("2", "writes the owner (WO)"),
              ("1", "has all rights (GA)"), ("1", "resets the password"), ("1", "writes members of a protected group"),
              ("1", "writes ways into an account"), ("1", "writes members of another group"),
              ("1", "reads confidential attributes")]
    tries.check(ranks(page) == wanted, f"ranks: {ranks(page)}")
    wanted = "dangerous rights on 9 of 14 objects. The worst, on 1 object: it owns the object."
    tries.check(wanted in page.text(".lead"), f"lead: {page.text('.lead')}")
    places = [text.index(f'id="{part}"') for part in ("result", "front", "objects", "cards")]
    tries.check(places == sorted(places), "the order of the parts")
    page, _ = tries.page("danger", *NOBODY)
    tries.check("anonymous has none of these rights on any of 14 objects" in page.text(".lead"), page.text(".lead"))
    page, _ = tries.page("corp", *ADMIN)
    wanted = ["13", "13", "13", "13", "3", "2", "3", "3"]
    tries.check([count for count, _ in ranks(page)] == wanted, f"ranks of an administrator: {ranks(page)}")


def front(tries):
    """The front of a propagation: pictures, the same in words, and what came and went in all."""
    words = ["corp", *ANN, "--frames", "came.txt", "--steps", "1"]
    tries.put("steps.txt", (frames_of(FRAMES["came.txt"]) + "steps 1\n").encode())
    page, text = tries.page("corp", *ANN, "--frames", "steps.txt", "--steps", "2")
    tries.form(page, text, "the page of a day")
    for at, (wanted, not_) in enumerate(MOMENTS, 1):
        said = page.text(f"m{at}")
        missing = [piece for piece in wanted if piece not in said] + [piece for piece in not_ if piece in said]
        tries.check(not missing, f"moment {at}: {missing}: {said}")
        picture = text.partition(f'id="m{at}"')[2].partition("</svg>")[0]
        signs = tuple(picture.count(f' class="{sign}"') for sign in "cdsq")
        tries.check(signs == SIGNS[at - 1], f"signs of moment {at}: {signs}")
    rows = [[tidy([cell]) for cell in row] for row in page.rows if len(row) == 4 and row[1] != "came"]
    good = [row[0] == name and came in row[1] and not row[2] and row[3] == danger
            for row, (name, came, danger) in zip(rows, CAME)]
    tries.check(all(good) and len(rows) == len(CAME), f"what came: {rows}")
    wanted = "something dangerous comes on 4 objects, and goes on 0"
    tries.check(wanted in page.text("main"), f"what comes isn't told first: {page.text('main')[:300]}")
    tries.check("pending 1, 3 children left" in page.text("objects"), "staff isn't pending in the tree")
    tries.check("stale" in page.text("o3"), f"bob isn't stale: {page.text('o3')}")
    frames = subprocess.run([os.path.join(TOP, "tools", "adsd-ask"), "frames", os.path.join(tries.place, "steps.txt")],
                            capture_output=True, env={**os.environ, "ADSD": os.path.abspath(chosen.program())}).stdout
    tries.put("day.bin", frames)
    again = tries.ask("corp", *ANN, "--frames", "day.bin", "--steps", "2")[1]
    tries.check(again == text, "frames as bytes give another page")
    page, _ = tries.page("corp", *ANN, "--frames", "went.txt", "--steps", "50")
    rows = [[tidy([cell]) for cell in row] for row in page.rows if len(row) == 4 and row[1] != "came"]
    gone = "\u2212LC \u2212LO \u2212RC the object as a whole"
    tries.check(rows and all(not row[1] and row[2].startswith(gone) for row in rows), f"what went: {rows}")
    tries.check("\u2212RP" not in text, "what stays is said to go")
    tries.check(tries.ask(*words)[0] == 0, "a page of all moments")


def policy(tries, text):
    """The page lets no script run but its own."""
    script = re.findall(r"<script>(.*?)</script>", text, re.S)
    made = base64.b64encode(hashlib.sha256(script[0].encode()).digest()).decode() if script else ""
    said = re.findall(r'http-equiv="Content-Security-Policy" content="([^"]*)"', text)
    tries.check(len(said) == 1 and f"script-src 'sha256-{made}';" in said[0] and "default-src 'none'" in said[0],
                f"policy: {said}")


def escapes(tries, base):
    """Names that are markup, marks of direction, controls or long: in the result, the pictures and the tree."""
    for at, name in enumerate(HOSTILE):
        dn = base64.b64encode(f"CN={escaped(name)},{STAFF}".encode()).decode()
        base += f"\ndn:: {dn}\nobjectClass: group\nobjectSid: S-1-5-21-1-2-3-{1100 + at}\n".encode()
    tries.load("evil", base)
    page, text = tries.page("evil", *ADMIN, "--frames", "came.txt", "--steps", "3")
    tries.form(page, text, "a page of bad names")
    policy(tries, text)
    bad = sorted({hex(ord(c)) for c in text if c != "\n" and unicodedata.category(c) in ("Cc", "Cf", "Zl", "Zp")})
    tries.check(text.count("<script>") == 1 and not bad, f"a name is read as it stands: {bad}")
    for part in ("result", "front", "objects"):
        said = page.texts.get(part, "") if part == "objects" else page.text("main").partition(
            {"result": "What is dangerous", "front": "moments"}[part])[2]
        missing = [piece for piece in ("alert(1)", "\\E2\\80\\AEgnp", "\\1B", "\u00e9" * 9) if piece not in said]
        tries.check(not missing, f"names in {part}: {missing}")
    tries.check("\u00e9" * 512 in page.text("objects"), "a long name isn't whole in the tree")
    odd, _ = tries.page("evil", "--user", "S-1-5-21-1-2-3-1100", "--base", STAFF)
    tries.check(not odd.faults, f"a page of a bad account: {odd.faults[:3]}")


def deep(tries, base):
    """What is deeper than the tree unfolds stands flat, by the rest of its name."""
    above = "DC=corp,DC=example"
    for number in range(40):
        above = f"CN=d{number},{above}"
        base += f"\ndn: {above}\nobjectClass: container\n".encode()
    tries.load("deep", base)
    page, text = tries.page("deep", *ANN)
    tries.form(page, text, "a deep page")
    wanted = "CN=d39,CN=d38,CN=d37"
    tries.check(wanted in page.text("objects") and text.count('class="t"') < 40, "the deepest object isn't in the tree")


def large(tries):
    """10,000 objects are less than a megabyte."""
    words = [chosen.program(), "sample", os.path.join(tries.place, "big"), "909"]
    subprocess.run(words, capture_output=True, check=True)
    page, text = tries.page("big", "--user", "BA", "--group", "AU")
    tries.form(page, text, "a page of 10,003 objects")
    tries.check(len(text.encode()) < 1_000_000, f"10,003 objects are {len(text.encode())} bytes")
    tries.check("CN=u909-10" in page.text("objects"), "an object of 10,003 isn't on the page")
