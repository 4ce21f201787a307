"""How a text is shown: nothing in it ends a line, moves a cursor or turns the direction of writing.

A companion shows each name, value, text of a schema and word of another program by `shown` wherever it prints one:
each byte of a control, a line separator or a mark of direction stands as a backslash and two hexadecimal digits, as
`\\0A`, and so does a byte that isn't UTF-8. In a distinguished name that is a spelling of the byte, so the name reads
back. A value may have such letters itself: it is exact in JSON alone. Not proved."""

import argparse
import json
import re
from typing import NoReturn, Optional, Union

# The characters whose bytes are spelled; the halves of pairs are what `text_of` makes of bytes that aren't UTF-8.
SPELLED = re.compile("[\u0000-\u001f\u007f-\u009f\u061c\u200e\u200f\u2028-\u202e\u2066-\u2069\ufeff\ud800-\udfff]")
BYTES = "surrogateescape"
# How a cell of a table begins that a table program would run; and the mark that is put before it, and before itself.
RUN, MARK = ("=", "+", "-", "@", "\t", "\r"), "'"


class Words(argparse.ArgumentParser):
    """The words of a command, which are told as they are shown where they are wrong."""

    def error(self, message: str) -> NoReturn:
        super().error(shown(message))


def text_of(data: bytes) -> str:
    """Bytes as a text. What isn't UTF-8 is kept, a byte by a character, which `shown` spells."""
    return data.decode("utf-8", BYTES)


def spelled(found: "re.Match[str]") -> str:
    """The spelling of a character: of each of its bytes."""
    letter = found[0]
    data = letter.encode("utf-8", BYTES if "\udc80" <= letter <= "\udcff" else "surrogatepass")
    return "".join(f"\\{byte:02X}" for byte in data)


def shown(text: str) -> str:
    """A text on one line, as a terminal shows it: all that isn't to be printed as it is stands there spelled."""
    return SPELLED.sub(spelled, text)


def brief(value: Union[str, bytes], most: int = 60) -> str:
    """A text or bytes as they are shown, cut off where they are long."""
    text = shown(text_of(value) if isinstance(value, bytes) else value)
    return text if len(text) <= most else text[:most] + ".."


def shown_bytes(data: bytes) -> bytes:
    """The same of bytes."""
    return shown(text_of(data)).encode()


def line_of(data: Union[str, bytes], most: int = 200) -> str:
    """What another program said, on one line: without the line end behind it, and cut off where it is long."""
    return shown(text_of(data).removesuffix("\n") if isinstance(data, bytes) else data)[:most]


def cell(value: object) -> str:
    """A cell of a table for other programs: shown, and with a mark before it where such a program would run it, or
    where it begins with the mark. So whoever reads it takes one mark off."""
    text = str(value)
    return (MARK if text.startswith((*RUN, MARK)) else "") + shown(text)


def json_of(made: object, indent: Optional[int] = None) -> str:
    """A document of JSON with its letters as they are, but for those that aren't printed, which stand as `\\u` and
    four digits. What it says is exact."""
    text = json.dumps(made, indent=indent, ensure_ascii=False)
    return SPELLED.sub(lambda found: found[0] if found[0] == "\n" else f"\\u{ord(found[0]):04x}", text)
