"""Numbers as values of attributes spell them."""

import re
from typing import Optional

NUMBER = re.compile(rb"-?[0-9]{1,23}")


def number_of(value: bytes) -> Optional[int]:
    """The number that a value is, also with leading zeros; None where it is none."""
    return int(value) if NUMBER.fullmatch(value) else None
