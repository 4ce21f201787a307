"""Where copies of the directory are: in files without a name while the explorer runs, and nowhere when it has ended, however
it ended."""

import fcntl
import os
import signal
import stat
import subprocess
import tempfile
import time

from . import corp
from .web import COMMAND, SECONDS, Served

PREFIX = f"adsd-explore-{os.geteuid()}-"


class Ours(Served):
    """An explorer whose temporary files have a place of their own, and that a signal reaches whatever the test ignores."""

    def __init__(self, place, store, *words, before=""):
        self.place, self.seen = place, set()
        command = ["env", "--default-signal=HUP,INT,TERM", *before.split(), COMMAND, store, *words]
        super().__init__(store, command=command, env={**os.environ, "TMPDIR": place})

    def folders(self):
        """The folders of this explorer that there are or were: those that it has open, and those in its own place."""
        number = self.child.pid
        found = {linked(f"/proc/{number}/fd/{one}") for one in listed(f"/proc/{number}/fd")}
        self.seen |= {path for path in found if os.path.basename(path).startswith("adsd-explore-") and os.path.isdir(path)}
        self.seen |= {os.path.join(self.place, name) for name in listed(self.place) if name.startswith("adsd-explore-")}
        return self.seen

    def left(self):
        """Those of them that are still there."""
        return {path for path in self.folders() if os.path.lexists(path)}

    def files(self):
        """The regular files that have a name in its folders, but those of the library."""
        return [path for folder in self.left() for path in files_in(folder)]


def listed(place):
    try:
        return os.listdir(place)
    except OSError:
        return []


def linked(path):
    try:
        return os.readlink(path)
    except OSError:
        return ""


def files_in(folder):
    return [os.path.join(above, name) for above, _, names in os.walk(folder) for name in names
            if not above.endswith(("/lib", "/include", "/pkgconfig"))]


def open_copies(pid):
    """The files without a name that a process has open."""
    paths = [linked(f"/proc/{pid}/fd/{number}") for number in listed(f"/proc/{pid}/fd")]
    return [path for path in paths if path.endswith(" (deleted)") and "/adsd-explore-" in path]


def unnamed(tries, store):
    """While it runs no file of its folders has a name, and nobody else may enter them; what-ifs change nothing of that."""
    with tempfile.TemporaryDirectory() as place:
        served = Ours(place, store)
        try:
            made = served.left()
            tries.check(len(made) > 1, f"the folders of an explorer: {made}")
            modes = {oct(stat.S_IMODE(os.stat(one).st_mode)) for one in made}
            tries.check(modes == {"0o700"}, f"the folders: {modes}")
            for step in range(3):
                served.post("try", {"changes": [{"op": "add", "n": 1, "ace": f"(A;CI;WD;;;{corp.HELPDESK})"}] * (step + 1)})
                named = waited(served.files)
                tries.check(not named, f"files with a name: {named}")
            tries.check(len(open_copies(served.child.pid)) >= 4, f"copies without a name: {open_copies(served.child.pid)}")
        finally:
            served.end()
        tries.check(not served.left(), f"left behind: {served.left()}")


def waited(found):
    """What a function gives, once that is nothing, or after a while."""
    end = time.monotonic() + SECONDS
    while found() and time.monotonic() < end:
        time.sleep(0.02)
    return found()


def signals(tries, store):
    """HUP, TERM and INT end it well, and nothing is left; so they do while it begins."""
    for number in (signal.SIGHUP, signal.SIGTERM, signal.SIGINT):
        for early in (False, True):
            with tempfile.TemporaryDirectory() as place:
                served = Begun(place, store) if early else Ours(place, store)
                waited(lambda: len(served.folders()) < 2 - early)
                served.child.send_signal(number)
                status, said = served.ended()
                tries.check((status, said) == (0, ""), f"{number.name}, early {early}: {status} {said}")
                tries.check(served.seen and not served.left(), f"{number.name}, early {early}: left {served.left()} of {served.seen}")


class Begun(Ours):
    """An explorer that has begun and hasn't told its address yet."""

    def told(self):
        return ""


def kept(tries, store):
    """Who starts it with HUP ignored, as nohup does, keeps it."""
    with tempfile.TemporaryDirectory() as place:
        served = Ours(place, store, before="env --ignore-signal=HUP")
        served.child.send_signal(signal.SIGHUP)
        tries.check(served.get("start")[0] == 200, "HUP ended it though it is ignored")
        tries.check(served.end() == (0, ""), "an explorer with HUP ignored didn't end well")


def killed(tries, store):
    """After kill -9 nothing of the directory has a name, and the next start takes the folders away: of ended processes
    alone, of this user's alone, and of those that nobody else may enter."""
    with tempfile.TemporaryDirectory() as place:
        os.mkdir(os.path.join(place, "other"))
        other = Ours(os.path.join(place, "other"), store)
        served = Ours(place, store)
        served.folders()
        # (while a copy is made it has a name, so that it is begun with when there is none to be made)
        waited(lambda: len(open_copies(served.child.pid)) < 4)
        served.child.kill()
        served.end()
        tries.check(served.left() == served.seen, "a killed explorer has no folder that is left, so that nothing was tried")
        tries.check(not waited(served.files), f"named after kill -9: {served.files()}")
        wide, link, busy, stale = (os.path.join(place, PREFIX + word) for word in ("wide", "link", "busy", "stale"))
        os.mkdir(wide, 0o755)
        os.mkdir(os.path.join(place, "mine"), 0o700)
        os.symlink("mine", link)
        os.mkdir(busy, 0o700)
        os.mkdir(stale, 0o700)
        os.mkdir(os.path.join(stale, "below"))
        for path in (stale, os.path.join(stale, "below"), busy, wide, os.path.join(place, "mine")):
            with open(os.path.join(path, "copy"), "wb") as made:
                made.write(b"a directory")
        os.symlink("/etc", os.path.join(stale, "etc"))
        lock = os.open(busy, os.O_RDONLY)
        fcntl.flock(lock, fcntl.LOCK_EX)
        third = Ours(place, store)
        left = served.left() - third.folders() - {wide, link, busy} | {one for one in (stale,) if os.path.exists(one)}
        tries.check(not left, f"what was left is still there: {left}")
        tries.check(os.path.isdir("/etc"), "a link was followed")
        tries.check(all(listed(one) == ["copy"] for one in (wide, link, busy)), "what isn't left was taken away")
        tries.check(other.get("start")[0] == 200 and other.get("object", n=1)[0] == 200, "the other explorer lost its folder")
        status, told = other.post("try", {"changes": [{"op": "run"}]})
        tries.check(status == 200, f"the other explorer can't make a copy: {status} {told}")
        os.close(lock)
        for one in (other, third):
            tries.check(one.end() == (0, ""), "an explorer beside others didn't end well")
        tries.check(served.left() | third.left() | other.left() == {wide, link, busy}, f"in the end: {third.left()}")


def run(tries):
    """All of it."""
    for part in (unnamed, signals, kept, killed):
        part(tries, tries.path("corp"))
    said = subprocess.run([COMMAND, tries.path("none")], capture_output=True, text=True, env={**os.environ, "TMPDIR": tries.place})
    tries.check(said.returncode == 1 and not [one for one in listed(tries.place) if one.startswith(PREFIX)],
                f"a start that failed left {listed(tries.place)}")
