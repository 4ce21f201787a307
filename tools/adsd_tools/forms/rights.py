"""The rights of a mask and the flags of an entry, and their codes in SDDL ([MS-DTYP] 2.5.1)."""

FLAGS = {"OI": 1, "CI": 2, "NP": 4, "IO": 8, "ID": 16, "SA": 64, "FA": 128}
RIGHTS = {"CC": 0x1, "DC": 0x2, "LC": 0x4, "SW": 0x8, "RP": 0x10, "WP": 0x20, "DT": 0x40, "LO": 0x80, "CR": 0x100,
          "SD": 0x10000, "RC": 0x20000, "WD": 0x40000, "WO": 0x80000, "GA": 0x10000000, "GX": 0x20000000,
          "GW": 0x40000000, "GR": 0x80000000}


def codes(value: int) -> list[str]:
    """The names of the rights of a mask."""
    named = [code for code, bit in RIGHTS.items() if value & bit]
    left = value & ~sum(RIGHTS[code] for code in named)
    return named + ([f"0x{left:x}"] if left else [])
