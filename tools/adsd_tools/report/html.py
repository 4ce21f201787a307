"""Pieces of a page: every text of a directory comes through `text`, so that none of it is read as markup."""

from html import escape
from typing import Iterable, Optional, Tuple, Union

from adsd_tools.shown import brief


def text(value: Union[str, bytes], most: int = 400) -> str:
    """A text or bytes as they are shown: what isn't printed stands as its code, and nothing is markup."""
    return escape(brief(value, most), quote=True)


def tag(name: str, body: str = "", **marks: object) -> str:
    """An element. `body` is markup already; the marks are texts, with `of` for class and `_` for a hyphen."""
    given = "".join(f' {key.rstrip("_").replace("_", "-")}="{escape(str(value), quote=True)}"'
                    for key, value in (("class" if key == "of" else key, value) for key, value in marks.items())
                    if value is not None)
    return f"<{name}{given}>{body}</{name}>"


def row(cells: Iterable[str], cell: str = "td") -> str:
    return "<tr>" + "".join(one if one.startswith("<t") else tag(cell, one) for one in cells) + "</tr>"


def table(caption: str, heads: Iterable[str], rows: Iterable[str], **marks: object) -> str:
    """A table with a caption in words and a head."""
    head = "<thead><tr>" + "".join(tag("th", one, scope="col") for one in heads) + "</tr></thead>"
    body = "<tbody>\n" + "\n".join(rows) + "\n</tbody>"
    made = tag("table", (tag("caption", caption) if caption else "") + head + body, **marks)
    return tag("div", made, of="scroll", tabindex="0", role="region", aria_label=marks.get("aria_label", "table"))


def code(value: Union[str, bytes]) -> str:
    return tag("code", text(value))


def yes_no(good: bool, yes: str, no: str) -> str:
    """A sign and a word, so that nothing hangs on the colour."""
    return tag("span", ("\u2713 " if good else "\u2717 ") + (yes if good else no), of="yes" if good else "no")


def facts(pairs: Iterable[Tuple[str, str]]) -> str:
    return tag("dl", "".join(tag("dt", name) + tag("dd", value) for name, value in pairs), of="facts")


def plural(count: int, one: str, many: Optional[str] = None) -> str:
    return f"{count:,} {one if count == 1 else many or one + 's'}"
