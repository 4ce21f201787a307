"""The head of a request, its first line and its fields, read of bytes that are bounded already."""

import re
from dataclasses import dataclass
from typing import Dict, List, Optional

MOST_HEAD, MOST_FIELDS = 16_384, 100
END = b"\r\n\r\n"
FIRST = re.compile(rb"([A-Z]{1,16}) ([!-~]+) HTTP/1\.([01])")
NAME = re.compile(rb"[!#$%&'*+.^_`|~0-9A-Za-z-]{1,64}")
VALUE = re.compile(rb"[\t -~\x80-\xff]*")


class Bad(Exception):
    """Bytes that are no head."""


@dataclass(frozen=True)
class Head:
    """A method, a target, the fields by their names in lower case, and whether the connection goes on behind it."""

    method: str
    target: bytes
    fields: Dict[str, List[str]]
    goes_on: bool

    def one(self, name: str, other: str = "") -> Optional[str]:
        """The value of a field that stands there once; None where it stands there more often."""
        found = self.fields.get(name, [other])
        return found[0] if len(found) == 1 else None


def read(data: bytes) -> Head:
    """The head of bytes without the empty line that ends it."""
    first, *lines = data.split(b"\r\n")
    found = FIRST.fullmatch(first)
    if not found or len(lines) > MOST_FIELDS:
        raise Bad
    fields: Dict[str, List[str]] = {}
    for line in lines:
        name, colon, value = line.partition(b":")
        if not colon or not NAME.fullmatch(name) or not VALUE.fullmatch(value):
            raise Bad
        fields.setdefault(name.decode("ascii").lower(), []).append(value.decode("latin-1").strip(" \t"))
    words = {word.strip().lower() for value in fields.get("connection", ()) for word in value.split(",")}
    goes_on = "close" not in words if found[3] == b"1" else "keep-alive" in words
    return Head(found[1].decode("ascii"), found[2], fields, goes_on)
