"""Where copies of a directory stand: in folders of this process alone, which go when it ends, and in files without a
name. What a process that was killed left is removed at the next start."""

import fcntl
import os
import shutil
import stat
import tempfile
from typing import IO, Iterator, Optional

from adsd_tools.files import PIECE, write
from adsd_tools.rows import store

SHARED = "/dev/shm"


def prefix() -> str:
    """How the folders of a user are called."""
    return f"adsd-explore-{os.geteuid()}-"


class Folder:
    """A folder that nobody else may enter. It is locked as long as this process lives, by the folder itself, so that
    another one can tell whether anybody needs it."""

    def __init__(self, parent: Optional[str]) -> None:
        lock: Optional[int] = None
        while lock is None:
            self.path = tempfile.mkdtemp(prefix=prefix(), dir=parent)
            # (whoever looks for what was left may have come in between)
            lock = locked(self.path)
        self.lock: int = lock

    def close(self) -> None:
        """Removes it, with what another thread may still put there meanwhile."""
        for _ in range(3):
            shutil.rmtree(self.path, ignore_errors=True)
        os.close(self.lock)

    def __enter__(self) -> "Folder":
        return self

    def __exit__(self, *_: object) -> None:
        self.close()


def locked(path: str) -> Optional[int]:
    """A folder of this user alone, open and locked; None where it isn't one, is locked by another process, or is gone."""
    try:
        made = os.open(path, os.O_RDONLY | os.O_DIRECTORY | os.O_NOFOLLOW)
    except OSError:
        return None
    try:
        about = os.fstat(made)
        if about.st_uid == os.geteuid() and stat.S_IMODE(about.st_mode) & 0o777 == 0o700:
            fcntl.flock(made, fcntl.LOCK_EX | fcntl.LOCK_NB)
            if os.path.samestat(about, os.stat(path, follow_symlinks=False)):
                return made
    except OSError:
        pass
    os.close(made)
    return None


def remove_left() -> None:
    """Removes the folders of processes that ended without doing so: those that are this user's, that nobody else may
    enter, and that no process has locked."""
    for parent in dict.fromkeys((SHARED, tempfile.gettempdir())):
        try:
            names = [name for name in os.listdir(parent) if name.startswith(prefix())]
        except OSError:
            continue
        for name in names:
            remove(os.path.join(parent, name))


def remove(path: str) -> None:
    """Removes a folder that can be locked. What is in it is found by the folder that is open, whatever its name is now."""
    opened = locked(path)
    if opened is None:
        return
    try:
        with os.scandir(opened) as found:
            for one in list(found):
                if one.is_dir(follow_symlinks=False):
                    shutil.rmtree(f"/proc/self/fd/{opened}/{one.name}")
                else:
                    os.unlink(one.name, dir_fd=opened)
        os.rmdir(path)
    except OSError:
        pass
    finally:
        os.close(opened)


def pieces_of(file: int) -> Iterator[bytes]:
    """The bytes of an open file, piece by piece, whoever else reads it."""
    at = 0
    while piece := os.pread(file, PIECE, at):
        at += len(piece)
        yield piece


class Slots:
    """A copy of a store, open: it stays when its names go, and further copies are made of it."""

    def __init__(self, path: str) -> None:
        self.path = path
        self.files: dict[str, IO[bytes]] = {slot: open(path + slot, "rb", 0) for slot in store.SLOTS if os.path.exists(path + slot)}

    def put(self, path: str) -> None:
        """Makes a copy under a name, for a program that wants one."""
        for slot, one in self.files.items():
            write(path + slot, pieces_of(one.fileno()), new=True, durable=False)

    def close(self) -> None:
        for one in self.files.values():
            one.close()


def unname(path: str) -> None:
    """Takes the names of a store's slots away; who has them open keeps them."""
    for slot in store.SLOTS:
        try:
            os.unlink(path + slot)
        except FileNotFoundError:
            pass
