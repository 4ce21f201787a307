"""The files of an export as they are opened, as they stand or compressed by gzip, and read for a second time.

What can't be read twice where it stands (a pipe, what gzip compressed, a text in UTF-16) is copied meanwhile, in UTF-8,
into one file without a name in the folder for temporary files."""

import codecs
import gzip
import io
import os
import stat
import sys
import tempfile
import zlib
from typing import BinaryIO, Dict, Iterator, Optional, cast

from .report import ENDS, TEXTS, Report

GZIP = b"\x1f\x8b"
PIECE = 1 << 20
MARKS = ((b"\xff\xfe", "utf-16-le"), (b"\xfe\xff", "utf-16-be"))
# So many files stay open at most while they are read for a second time.
MOST_OPEN = 64


class Unpacked(io.RawIOBase):
    """The bytes of a compressed file. Where it is cut short or spoiled, they end there, which is reported."""

    def __init__(self, opened: BinaryIO, file: str, report: Report) -> None:
        super().__init__()
        self.packed, self.file, self.report, self.ended = gzip.GzipFile(fileobj=opened), file, report, False

    def readable(self) -> bool:
        return True

    def readinto(self, buffer) -> int:  # type: ignore[no-untyped-def]  # its type has a name from Python 3.12 on
        data = b""
        if not self.ended:
            try:
                data = self.packed.read1(len(buffer))
            except (EOFError, gzip.BadGzipFile, zlib.error) as why:
                self.ended = True
                what = f"end of {self.file}"
                self.report.missing(f"{self.file}:1", ENDS, what, f"it is compressed, and spoiled or cut off: {why}")
        buffer[: len(data)] = data
        return len(data)


class Source:
    """A file of an export: its name in the report; its path where it can be read again; whether its lists are
    explicit."""

    __slots__ = ("name", "path", "is_explicit")

    def __init__(self, name: str) -> None:
        self.name, self.is_explicit = name, False
        self.path: Optional[str] = None


class Twice:
    """Reads files piece by piece, and then parts of them again."""

    def __init__(self, report: Report) -> None:
        self.report = report
        self.copies: Optional[BinaryIO] = None
        self.open: Dict[str, int] = {}

    def pieces(self, file: str, source: Source) -> Iterator[bytes]:
        """The text of a file in UTF-8 without a byte order mark, piece by piece, and before it one empty piece. Once it
        came, `start` has the place where the text begins in what is read again."""
        try:
            if file == "-":
                yield from self.read(sys.stdin.buffer, None, source)
                return
            with open(file, "rb") as opened:
                yield from self.read(opened, file, source)
        except OSError as fault:
            raise OSError(fault.errno, fault.strerror, file) from None

    def read(self, opened: BinaryIO, file: Optional[str], source: Source) -> Iterator[bytes]:
        """The same of an open file."""
        is_file = file is not None and stat.S_ISREG(os.fstat(opened.fileno()).st_mode)
        ahead = opened if isinstance(opened, io.BufferedReader) else io.BufferedReader(cast(io.RawIOBase, opened))
        if ahead.peek(2)[:2] == GZIP:
            ahead, is_file = io.BufferedReader(Unpacked(ahead, source.name, self.report), PIECE), False
        first, self.start = ahead.read(PIECE), 0
        coding = next((coding for mark, coding in MARKS if first[:2] == mark), None)
        rest: Iterator[bytes] = iter(lambda: ahead.read(PIECE), b"")
        if first[:3] == b"\xef\xbb\xbf" or coding:
            where = f"{source.name}:1"
            told = ("text in UTF-16", "written in UTF-8") if coding else ("byte order mark", "taken off")
            self.report.mended(where, *told)
            first, self.start = first[2 if coding else 3 :], 0 if coding else 3
        if coding:
            pieces = self.in_utf8(first, rest, coding, f"{source.name}:1")
        else:
            pieces = joined(first, rest)
        if is_file and not coding:
            source.path = file
            yield b""
            yield from pieces
            return
        self.copies = self.copies or cast(BinaryIO, tempfile.TemporaryFile(prefix="adsd-import-"))
        self.start = self.copies.seek(0, os.SEEK_END)
        yield b""
        for piece in pieces:
            self.copies.write(piece)
            yield piece

    def in_utf8(self, first: bytes, rest: Iterator[bytes], coding: str, where: str) -> Iterator[bytes]:
        """A text in UTF-16, piece by piece in UTF-8. Where it is none, that is reported, and letters stand there."""
        decoder, at, known = codecs.getincrementaldecoder(coding)(), 2, False
        pieces, ended = joined(first, rest), False
        while not ended:
            piece = next(pieces, b"")
            ended, before = not piece, decoder.getstate()
            try:
                text = decoder.decode(piece, ended)
            except UnicodeDecodeError as why:
                if not known:
                    place = at - len(before[0]) + why.start
                    self.report.missing(where, TEXTS, "text in UTF-16", f"at byte {place} it is none, or cut off")
                known, decoder = True, codecs.getincrementaldecoder(coding)("replace")
                decoder.setstate(before)
                text = decoder.decode(piece, ended)
            at += len(piece)
            yield text.encode()

    def again(self, source: Source, offset: int, size: int) -> bytes:
        """Some bytes of a file that was read."""
        if source.path is None:
            if self.copies is None:
                return b""
            self.copies.seek(offset)
            return self.copies.read(size)
        handle = self.open.get(source.path)
        if handle is None:
            if len(self.open) >= MOST_OPEN:
                os.close(self.open.pop(next(iter(self.open))))
            handle = self.open[source.path] = os.open(source.path, os.O_RDONLY | os.O_CLOEXEC)
        return os.pread(handle, size, offset)

    def close(self) -> None:
        """Closes all that is open."""
        for handle in self.open.values():
            os.close(handle)
        self.open.clear()
        if self.copies is not None:
            self.copies.close()


def joined(first: bytes, rest: Iterator[bytes]) -> Iterator[bytes]:
    """A piece that isn't empty, and those behind it."""
    if first:
        yield first
    yield from rest
