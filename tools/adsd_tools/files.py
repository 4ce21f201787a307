"""The one way in which companions write a file: under a new name beside it, for its owner alone, whole, and renamed.

Nothing that somebody planted is written to: no link is followed, no file that was there is opened, and one that has
further names keeps what they show. Where it fails, what was begun is removed, and what stood there stays. It isn't
proved."""

import errno
import os
import re
import secrets
import stat
from typing import BinaryIO, Iterable, Iterator, Optional, Union

# What is written is as secret as the directory that it is of.
MODE = 0o600
PIECE = 1 << 20
# Names of streams that are open here already. These are written to as they are, and no name is looked up.
STREAM = re.compile(r"/dev/(stdin|stdout|stderr)|(?:/dev/fd|/proc/self/fd)/([0-9]{1,9})")
STREAMS = {"stdin": 0, "stdout": 1, "stderr": 2}
# What a system says that has no second names for files.
NO_LINKS = (errno.EPERM, errno.EOPNOTSUPP, errno.ENOSYS)
OPEN = os.O_WRONLY | os.O_NOFOLLOW | os.O_CLOEXEC | os.O_NOCTTY
KINDS = ((stat.S_ISLNK, "a link"), (stat.S_ISFIFO, "a pipe"), (stat.S_ISDIR, "a directory"),
         (stat.S_ISSOCK, "a socket"), (stat.S_ISBLK, "a disk"))


def refused(path: str, why: str, number: int = errno.EEXIST) -> OSError:
    return OSError(number, why, path)


def pieces_of(opened: BinaryIO) -> Iterator[bytes]:
    """The bytes of an open file, piece by piece."""
    return iter(lambda: opened.read(PIECE), b"")


def put(file: int, pieces: Iterable[bytes]) -> None:
    """Writes all of some pieces to an open file."""
    for piece in pieces:
        left = memoryview(piece)
        while left:
            left = left[os.write(file, left):]


def stream_of(path: str) -> Optional[int]:
    """The number of the stream that a name is of; None where it is a file's."""
    found = STREAM.fullmatch(path)
    if not found:
        return None
    return STREAMS[found[1]] if found[1] else int(found[2])


def kind_of(name: str, folder: int) -> str:
    """How what has a name in a folder is to be treated: `new` where nothing has it, `file`, `device`, or the words for
    what isn't written to."""
    try:
        mode = os.stat(name, dir_fd=folder, follow_symlinks=False).st_mode
    except FileNotFoundError:
        return "new"
    if stat.S_ISREG(mode):
        return "file"
    return "device" if stat.S_ISCHR(mode) else next(word for is_it, word in KINDS if is_it(mode))


def makes_file(path: str) -> bool:
    """Whether `write` makes a file of a name, or would: it is no stream that is open here, and no device."""
    try:
        return stream_of(path) is None and not stat.S_ISCHR(os.stat(path, follow_symlinks=False).st_mode)
    except OSError:
        return True


def begun(folder: int) -> tuple[int, str]:
    """A new file in a folder, and its name, which nobody could know before."""
    while True:
        name = f".adsd-{secrets.token_hex(8)}"
        try:
            return os.open(name, OPEN | os.O_CREAT | os.O_EXCL, MODE, dir_fd=folder), name
        except FileExistsError:
            continue


def moved(made: str, name: str, folder: int, new: bool) -> None:
    """Gives a file that is whole its own name. A new one is linked there, which fails where the name was taken
    meanwhile, but on a system that has no links."""
    if new:
        try:
            return os.link(made, name, src_dir_fd=folder, dst_dir_fd=folder, follow_symlinks=False)
        except OSError as fault:
            if fault.errno not in NO_LINKS:
                raise
    os.rename(made, name, src_dir_fd=folder, dst_dir_fd=folder)


def synced(folder: int) -> None:
    """Syncs a folder, where the system does that."""
    try:
        os.fsync(folder)
    except OSError as fault:
        if fault.errno != errno.EINVAL:
            raise


def whole(name: str, folder: int, pieces: Iterable[bytes], new: bool, durable: bool) -> None:
    """Makes a file of some pieces; on the disk, where that is asked for."""
    file, made = begun(folder)
    try:
        try:
            put(file, pieces)
            if durable:
                os.fsync(file)
        finally:
            os.close(file)
        moved(made, name, folder, new)
    finally:
        try:
            os.unlink(made, dir_fd=folder)
        except FileNotFoundError:
            pass  # It has its own name now.
    if durable:
        synced(folder)


def into(file: int, pieces: Iterable[bytes]) -> None:
    """Writes to what is no file, and was opened for that; it is closed then."""
    try:
        put(file, pieces)
    finally:
        os.close(file)


def write(path: Union[str, "os.PathLike[str]"], pieces: Union[bytes, Iterable[bytes]], new: bool = False,
          durable: bool = True) -> None:
    """Writes some pieces of bytes, or some bytes, as the file of a name, which is there whole or as before.

    A regular file that has the name is replaced; where a `new` one is asked for nothing may have it. A stream that is
    open here (`/dev/stdout`) and a device, as a terminal, are written to. All else that has the name is refused: a
    link, a pipe, a directory. `durable` is for what isn't a copy to be thrown away. OSError says what failed, and of
    which name."""
    path, pieces = os.fspath(path), (pieces,) if isinstance(pieces, bytes) else pieces
    above, name = os.path.split(path)
    try:
        stream = stream_of(path)
        if stream is not None:
            return into(os.dup(stream), pieces)
        if name in ("", ".", ".."):
            raise refused(path, "it is a directory", errno.EISDIR)
        folder = os.open(above or ".", os.O_RDONLY | os.O_DIRECTORY | os.O_CLOEXEC)
        try:
            kind = kind_of(name, folder)
            if kind == "device" and not new:
                return into(os.open(name, OPEN, dir_fd=folder), pieces)
            if kind not in ("new", "file"):
                raise refused(path, f"it is {kind}, and no file")
            if new and kind == "file":
                raise refused(path, os.strerror(errno.EEXIST))
            whole(name, folder, pieces, new, durable)
        finally:
            os.close(folder)
    except OSError as fault:
        raise OSError(fault.errno, fault.strerror, path) from None


def copy(source: str, path: str) -> None:
    """Copies a file for a while, into a folder of one's own: it isn't synced. One that has the name is replaced."""
    with open(source, "rb") as opened:
        write(path, pieces_of(opened), durable=False)
