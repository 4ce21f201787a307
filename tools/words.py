"""The field's words in comments and documents, and each library's front page."""

import os
import re
import subprocess

from specs import CRATES, TOP, crates, text_of

# A word that isn't used, where it may stand nevertheless, and what stands in its place.
WORDS = [
    (r"\b[Bb]ehind\b", r"\bbehind (?:a |an |its |the |that slot's |which |their )?(?:own )?(?:closed |open )?(?:gates?|pointer)\b|left behind|(?:input|output) behind an? ", "after"),
    (r"\b[Ii]n front\b|\bfronts?\b", r"\bfront pages?\b|\bfront of (?:the|a) propagation\b", "before, first, prefix or start"),
    (r"\b(?:stands?|stood|standing) for\b", r"stands for each attribute", "represents"),
    (r"\bspent\b", None, "poisoned"),
    (r"\blasts\b", None, "is durable"),
    (r"\bimages?\b", r"-image", "crash state"),
    (r"\b(?:discretionary|system) lists?\b", None, "DACL or SACL"),
    (r"\blent\b", None, "borrowed"),
    (r"\bthe needs\b|\ba missing need\b", None, "required right"),
    (r"\b(?:first|second) holder\b|\btoken's holders\b|\bholders? of (?:a|the) token\b", None, "principal, or restricted pass"),
    (r"\b[Ss]pells\b", r"\b(?:as|than|that|what) (?:the )?(?:schema|line) spells\b|line spells it", "encodes"),
]
# What of a text isn't prose: code, links' targets, and the names of clauses.
CODE = re.compile(r"```.*?```|`[^`\n]*`|\]\([^)\n]*\)|(?<![\*\w])\*\w+\*(?!\*)", re.S)
# Documents whose words are those of their time, or made of others' words.
OTHERS = ("CHANGELOG.md", "docs/trust.md")
# Crates of which only the front page and the files' headers are looked at.
HEADS = ("ad_dir", "ad_dir_links", "ad_dir_table", "ad_filter", "ad_search")
PARTS = ("# Example", "# Proved", "# The caller owes", "# Cost")
# Libraries of a format say its layout too.
FORMATS = ("ad_acl", "ad_ber", "ad_dn", "ad_frames", "ad_ids", "ad_ldap", "ad_ldif", "ad_rows_write", "ad_sd", "ad_sddl", "gate_log", "row_store")


def prose(text):
    """The text without what isn't prose, on as many lines."""
    return CODE.sub(lambda match: "\n" * match[0].count("\n") + "`", text)


def comments(path, text):
    """The comments of a file of code or definitions, on the lines where they stand."""
    mark = "//" if path.endswith(".rt") else "--"
    is_head = path.split("/")[1] in HEADS
    found = []
    for line in text.split("\n"):
        own = re.match(rf"\s*{mark}[/!]?(?: (.*)|$)", line)
        beside = None if own else re.search(rf"^[^\"]*\s{mark} ([^\"]*)$", line)
        if is_head and not line.startswith("//!"):
            found.append("")
            continue
        found.append((own[1] or "") if own else beside[1] if beside else "")
    return "\n".join(found)


def wrong_words(path):
    text = text_of(os.path.join(TOP, path))
    told = prose(text if path.endswith(".md") else comments(path, text))
    for pattern, allowed, instead in WORDS:
        kept = re.sub(allowed.replace(" ", r"\s+"), lambda match: "\n" * match[0].count("\n"), told) if allowed else told
        for match in re.finditer(pattern.replace(" ", r"\s+"), kept):
            yield f"{path}:{kept.count(chr(10), 0, match.start()) + 1}: '{' '.join(match[0].split())}' isn't the field's word: {instead}"


def pages():
    """What a front page lacks, and which files have no header."""
    for name in crates():
        files = [os.path.join(CRATES, name, "src", file) for file in ("lib.rt", "main.rt")]
        root = next(file for file in files if os.path.exists(file))
        head = re.match(r"(?://!.*\n)*", text_of(root))[0]
        lines = [line[4:] for line in head.split("\n") if line]
        wanted = () if name.startswith("tests_") else PARTS + (("# Layout",) if name in FORMATS else ())
        if not lines or lines[0].startswith("#"):
            yield f"crates/{name}: the front page doesn't begin with what it is for"
        yield from (f"crates/{name}: the front page has no part '{part}'" for part in wanted if part not in lines)
    for path in listed("crates/*.rt"):
        if "/src/" in path and not text_of(os.path.join(TOP, path)).startswith("//!"):
            yield f"{path}: no header says what the file holds"


def listed(*patterns):
    found = subprocess.run(["git", "ls-files", "-co", "--exclude-standard", *patterns], cwd=TOP, capture_output=True, text=True, check=True).stdout.split("\n")
    return [path for path in found if path and os.path.exists(os.path.join(TOP, path))]


def faults():
    paths = listed("crates/*.rt", "crates/*.antt", "docs/*.md", "README.md", "CONTRIBUTING.md")
    return [fault for path in paths if path not in OTHERS for fault in wrong_words(path)] + list(pages())
