"""Moments as values of GeneralizedTime and UTCTime (X.680 46, 47), which the program compares by their bytes alone."""

import calendar
import re

from . import items

GENERALIZED = re.compile(r"(\d{4})(\d\d)(\d\d)(\d\d)(?:(\d\d)(?:(\d\d))?)?(?:[.,](\d{1,9}))?(Z|[+-]\d\d(?:\d\d)?)")
UTC = re.compile(r"(\d\d)(\d\d)(\d\d)(\d\d)(\d\d)(?:(\d\d))?()(Z|[+-]\d{4})")
BILLION, TIME = 10**9, "2.5.5.11"
TAGS = (items.EQUAL, items.LIKE, items.AT_LEAST, items.AT_MOST)


def moment_of(value):
    """The billionths of a second since 1970; None where it is no time."""
    text = value.decode("latin-1")
    found = UTC.fullmatch(text) if re.match(r"\d{10}(\d\d)?[Z+-]", text) else None
    is_short = found is not None
    found = found or GENERALIZED.fullmatch(text)
    if not found or not text.isascii():
        return None
    year, month, day, hour, minute, second = (int(one or 0) for one in found.groups()[:6])
    if is_short:
        year += 2000 if year < 50 else 1900
    if not (1 <= month <= 12 and 1 <= day <= calendar.monthrange(max(year, 1), month)[1] and hour < 24 and minute < 60
            and second <= 60 and year):
        return None
    # A fraction is one of the smallest unit that stands there.
    unit = 1 if found[6] else 60 if found[5] else 3600
    part = int((found[7] or "0").ljust(9, "0")) * unit
    zone = found[8] + "00" if len(found[8]) == 3 else found[8]
    away = 0 if zone == "Z" else (60 * int(zone[1:3]) + int(zone[3:])) * (60 if zone[0] == "+" else -60)
    return (calendar.timegm((year, month, day, hour, minute, second)) - away) * BILLION + part


def fits(tag, value, wanted):
    """Whether a value is a moment that an item asks for."""
    own = moment_of(value)
    if own is None:
        return False
    return own >= wanted if tag == items.AT_LEAST else own <= wanted if tag == items.AT_MOST else own == wanted


def fitting(tag, wanted, held):
    """The different values that fit, of pairs of a name and its values, and the names that have one."""
    different = dict.fromkeys(value for _, values in held for value in values)
    known = {value: fits(tag, value, wanted) for value in different}
    names = [name for name, values in held if any(known[value] for value in values)]
    return [value for value, one in known.items() if one], names
