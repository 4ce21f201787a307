"""Folders in which crates are proved side by side: out/lanes/N, each the repository, with its own out/ of each crate.

rt keeps every other rt out of the crate that it works in, and of all below it; so two of them need two trees. What rt
proved is current by the sum of the texts that it was made of, wherever they stand. So a lane has the texts as they were
when the build began, and links to the libraries that are proved; the out/ of the crate that is proved there moves in
from crates/ and out again, so that what stands proved, and what rt keeps of earlier work, is always in crates/."""

import fcntl
import glob
import os
import shutil
import sys

from plan import PARTS


def text_of(path):
    try:
        with open(path, encoding="utf-8", errors="replace") as file:
            return file.read()
    except OSError:
        return ""


def link(source, made):
    """A hard link, or a copy where the file system has none."""
    try:
        os.link(source, made)
    except OSError:
        shutil.copy2(source, made)


def move(source, made):
    """Moves a folder, over what stood there."""
    if os.path.isdir(source):
        shutil.rmtree(made, ignore_errors=True)
        os.makedirs(os.path.dirname(made), exist_ok=True)
        shutil.move(source, made)


class Lanes:
    def __init__(self, top):
        self.top, self.place = top, os.path.join(top, "out/lanes")
        self.texts = os.path.join(self.place, "texts")
        self.held, self.linked = [], {}

    def out(self, name, lane=None):
        return os.path.join(self.top if lane is None else self.lane(lane), "crates", name, "out")

    def lane(self, number):
        return os.path.join(self.place, str(number))

    def clear(self):
        """Puts back what a killed build left in its lanes, and removes them."""
        for out in glob.glob(f"{glob.escape(self.place)}/[0-9]*/crates/*/out"):
            to = self.out(os.path.basename(os.path.dirname(out)))
            if os.path.isdir(os.path.dirname(to)) and not os.path.lexists(to):
                shutil.move(out, to)
        shutil.rmtree(self.place, ignore_errors=True)

    def take_texts(self, crates, names):
        """Copies the texts of `names`, as they are now. Of the others of crates.txt rt only wants to see a folder."""
        for name in crates:
            os.makedirs(os.path.join(self.texts, "crates", name, "src"))
        for name in names:
            for part in PARTS:
                folder = os.path.join("crates", name, part)
                if os.path.isdir(os.path.join(self.top, folder)):
                    shutil.copytree(os.path.join(self.top, folder), os.path.join(self.texts, folder),
                                    symlinks=True, dirs_exist_ok=True)
        for file in ("crates.txt", "HANDLES"):
            if os.path.isfile(os.path.join(self.top, file)):
                shutil.copy2(os.path.join(self.top, file), self.texts)

    def enter(self, number, name, below):
        """Makes the lane ready to prove a crate: the folder in which rt works."""
        if number not in self.linked:
            shutil.copytree(self.texts, self.lane(number), symlinks=True, copy_function=link)
            self.linked[number] = set()
        for one in below - self.linked[number]:
            library = os.path.join(self.out(one), "rlib")
            if os.path.isdir(library):
                shutil.copytree(library, os.path.join(self.out(one, number), "rlib"), symlinks=True, copy_function=link)
        self.linked[number] |= below
        move(self.out(name), self.out(name, number))
        return os.path.dirname(self.out(name, number))

    def leave(self, number, name):
        """Brings what was made in the lane, and what rt keeps of it, back to where the crate stands."""
        move(self.out(name, number), self.out(name))

    def hold(self, names, say):
        """Waits until no rt works on these crates, and keeps further ones waiting, as rt itself does it."""
        for folder in sorted(os.path.realpath(os.path.join(self.top, "crates", name)) for name in names):
            self.held.append(os.open(folder, os.O_RDONLY))
            try:
                fcntl.flock(self.held[-1], fcntl.LOCK_EX | fcntl.LOCK_NB)
            except BlockingIOError:
                say(f"waiting for an rt that works in {folder}")
                fcntl.flock(self.held[-1], fcntl.LOCK_EX)
            except OSError:
                # Some file systems have no locks.
                pass

    def let_go(self):
        while self.held:
            os.close(self.held.pop())


class Kept:
    """Which libraries stand proved in crates/, in out/adsd.libraries: of each the sum of its texts, of those below and of
    the toolchain, and what rt noted. It only saves asking rt, which takes long to say that nothing is to be done: rt
    itself judges all of them once more when it builds the program."""

    def __init__(self, lanes, costs):
        self.lanes, self.costs = lanes, costs
        self.path = os.path.join(lanes.top, "out/adsd.libraries")
        rows = [line.split() for line in text_of(self.path).splitlines()]
        self.found = {row[0]: row[1:] for row in rows if len(row) == 3}

    def noted(self, name):
        return "".join(text_of(os.path.join(self.lanes.out(name), "rlib/stamp")).split())

    def stands(self, name):
        noted = self.noted(name)
        return bool(noted) and self.found.get(name) == [self.costs.sum[name], noted]

    def keep(self, name):
        if self.noted(name):
            self.found[name] = [self.costs.sum[name], self.noted(name)]
            try:
                with open(f"{self.path}.new", "w", encoding="utf-8") as file:
                    file.writelines(f"{one} {' '.join(words)}\n" for one, words in self.found.items())
                os.replace(f"{self.path}.new", self.path)
            except OSError as fault:
                print(f"adsd: what is proved can't be noted: {fault}", file=sys.stderr)
