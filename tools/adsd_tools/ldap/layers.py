"""Security layers (RFC 4422 3.7): what a client and the bridge send after a bind by a ticket is wrapped, so that nobody
between can change it, or read it. Each frame has its length before it, in four bytes."""

import asyncio
from typing import List, Protocol, Tuple

from .gss import Refused

# The layers, by their bits: none, integrity, and confidentiality, which has the other one too.
NONE, INTEGRITY, CONFIDENTIALITY = 1, 2, 4
# No frame that comes has more bytes, and none that goes; and a client takes as many at least.
MOST, PIECE, LEAST = 1_048_576, 65_536, 1024


class Broken(Exception):
    """What came isn't what the client wrapped: the connection ends."""


class Wraps(Protocol):
    """What wraps and unwraps."""

    def wrapped(self, data: bytes, confidential: bool) -> bytes: ...

    def unwrapped(self, data: bytes) -> Tuple[bytes, bool]: ...


class Layer:
    """The layer of one connection. It is read as a stream is."""

    def __init__(self, reader: asyncio.StreamReader, context: Wraps, confidential: bool, piece: int) -> None:
        self.reader, self.context, self.confidential, self.piece = reader, context, confidential, piece
        self.held, self.at = b"", 0

    async def frame(self) -> bool:
        """Reads the next frame; whether there is one."""
        first = await self.reader.read(1)
        if not first:
            return False
        size = int.from_bytes(first + await self.reader.readexactly(3), "big")
        if not 0 < size <= MOST:
            raise Broken(f"a frame of {size} bytes in the place of one of at most {MOST}")
        try:
            self.held, encrypted = self.context.unwrapped(await self.reader.readexactly(size))
        except Refused as why:
            raise Broken(f"a frame that isn't what the client wrapped: {why}") from None
        if self.confidential and not encrypted:
            raise Broken("a frame that isn't encrypted")
        self.at = 0
        return True

    async def read(self, most: int) -> bytes:
        """Some bytes, so many at most; none at the end."""
        while self.at == len(self.held):
            if not await self.frame():
                return b""
        made = self.held[self.at : self.at + most]
        self.at += len(made)
        return made

    async def readexactly(self, count: int) -> bytes:
        made: List[bytes] = []
        left = count
        while left:
            more = await self.read(left)
            if not more:
                raise asyncio.IncompleteReadError(b"".join(made), count)
            made.append(more)
            left -= len(more)
        return b"".join(made)

    def wrapped(self, data: bytes) -> bytes:
        """Some bytes as frames."""
        made = []
        for at in range(0, len(data), self.piece):
            one = self.context.wrapped(data[at : at + self.piece], self.confidential)
            made += [len(one).to_bytes(4, "big"), one]
        return b"".join(made)
