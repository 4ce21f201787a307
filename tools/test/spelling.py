"""How the tests expect a text to be shown, told otherwise than tools/adsd_tools/shown.py does: character by character."""

SPELLED = {*range(0x20), *range(0x7F, 0xA0), 0x61C, 0x200E, 0x200F, *range(0x2028, 0x202F), *range(0x2066, 0x206A),
           0xFEFF}


def spelled(text):
    """A text with each byte of the characters above as a backslash and two upper-case digits."""
    return "".join("".join("\\%02X" % byte for byte in c.encode()) if ord(c) in SPELLED else c for c in text)


def in_csv(text):
    """The same as a cell that no table program runs."""
    return ("'" if text[:1] in tuple("=+-@\t\r'") else "") + spelled(text)


def raw(data):
    """The first character of what was printed that a terminal would obey, with its place; None where there is none."""
    text = data.decode("utf-8", "surrogateescape")
    return next(((at, hex(ord(c))) for at, c in enumerate(text)
                 if c != "\n" and (ord(c) in SPELLED or "\ud800" <= c <= "\udfff")), None)
