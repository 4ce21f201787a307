"""Security descriptors."""

from typing import Optional

from . import _arguments as arguments
from ._library import AdsdError, answer, given
from .ids import GuidLike, SidLike, guid_of, sid_if


class Descriptor:
    """A security descriptor, kept in its self-relative bytes. Any part may be absent; a check and inheritance ask for owner,
    group and discretionary list.

    >>> sd = Descriptor.from_sddl("O:BAG:BAD:P(A;;GA;;;SY)")
    >>> sd.to_sddl()
    'O:S-1-5-32-544G:S-1-5-32-544D:P(A;;GA;;;S-1-5-18)'
    >>> Descriptor(sd.to_bytes()) == sd
    True
    """

    def __init__(self, data: bytes) -> None:
        self._bytes = arguments.octets(data, "data")
        # (a fault shows here, and not at the first use)
        self._sddl = answer("adsd_sd_to_sddl", *given(self._bytes), about="data").decode("ascii")
        self._normal: Optional[bytes] = None

    @classmethod
    def from_sddl(cls, text: str, domain: Optional[SidLike] = None) -> "Descriptor":
        """The descriptor of a text; the aliases of a domain's principals stand for identifiers below `domain`.

        >>> Descriptor.from_sddl("O:DA", domain="S-1-5-21-1-2-3").to_sddl()
        'O:S-1-5-21-1-2-3-512'
        >>> Descriptor.from_sddl("O:BAD:(A;;XX;;;BA)")
        Traceback (most recent call last):
        adsd._library.AdsdError: text: neither a right nor the end of the rights, at place 10
        """
        below = sid_if(domain, "domain")
        return cls(answer("adsd_sd_from_sddl", *given(arguments.text(text, "text"), below), about="text"))

    def to_sddl(self) -> str:
        """Its one canonical text."""
        return self._sddl

    def to_bytes(self) -> bytes:
        """Its self-relative bytes, as they were given."""
        return self._bytes

    def normal(self) -> bytes:
        """Its normal bytes, which a check takes without making anything of them. They are made once."""
        if self._normal is None:
            self._normal = answer("adsd_normal_from_sd", *given(self._bytes))
        return self._normal

    def explicit(self) -> "Descriptor":
        """The descriptor without the entries that were inherited.

        >>> Descriptor.from_sddl("O:BAG:BAD:(A;;GA;;;SY)(A;ID;RP;;;AU)").explicit().to_sddl()
        'O:S-1-5-32-544G:S-1-5-32-544D:(A;;GA;;;S-1-5-18)S:'
        """
        return Descriptor(answer("adsd_explicit", *given(self._bytes)))

    def __eq__(self, other: object) -> bool:
        return isinstance(other, Descriptor) and self._sddl == other._sddl

    def __hash__(self) -> int:
        return hash(self._sddl)

    def __repr__(self) -> str:
        return f"Descriptor.from_sddl({self._sddl!r})"


def inherit(parent: Descriptor, own: Descriptor, object_class: GuidLike) -> Descriptor:
    """The descriptor of an object of the class, from its own one and its parent's.

    >>> user = "bf967aba-0de6-11d0-a285-00aa003049e2"
    >>> above = Descriptor.from_sddl("O:BAG:BAD:(A;CI;RP;;;AU)")
    >>> inherit(above, Descriptor.from_sddl("O:SYG:SYD:(A;;GA;;;SY)"), user).to_sddl()
    'O:S-1-5-18G:S-1-5-18D:(A;;GA;;;S-1-5-18)(A;CIID;RP;;;S-1-5-11)S:'
    """
    above, below = arguments.kind(parent, "parent", Descriptor), arguments.kind(own, "own", Descriptor)
    parts = above.to_bytes(), below.to_bytes(), guid_of(object_class, "object_class")
    try:
        return Descriptor(answer("adsd_inherit", *given(*parts)))
    except AdsdError as fault:
        raise AdsdError(fault.code, fault.place, {3: "own", 4: "parent"}.get(fault.code, "")) from None
