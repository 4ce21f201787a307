"""The calls that the program makes on its two files and its output, as strace tells them."""

import os
import re
import shutil
import subprocess
import sys

from . import program

CALLS = (
    "open openat creat read pread64 write pwrite64 writev pwritev lseek fsync fdatasync ftruncate truncate flock "
    "fstat statx rename unlink unlinkat close dup dup2 mmap"
).split()
LINE = re.compile(r"(?:\d+ +)?(\w+)\((.*)\) += (-?\d+|\?)( .*)?$")
TEXT = re.compile(r'"((?:\\x[0-9a-f]{2})*)"')
ENV = {"LC_ALL": "C"}


def is_there():
    """Whether strace can be run here, over another process."""
    if not shutil.which("strace"):
        return False
    return subprocess.run(["strace", "-o", os.devnull, "true"], capture_output=True).returncode == 0


class Event:
    """A call: what it does ('make', 'write', 'sync', 'folder', 'emit' or 'take', else the system's name for it), the
    slot's number, the place, the bytes, whether it failed, and its name and ordinal among the calls of that name."""

    def __init__(self, what, slot=None, at=0, data=b"", failed=False, name="", ordinal=0):
        self.what, self.slot, self.at, self.data, self.failed = what, slot, at, data, failed
        self.name, self.ordinal = name, ordinal

    def __str__(self):
        slot = "" if self.slot is None else " AB"[self.slot + 1]
        size = {"write": f" {len(self.data)} at {self.at}", "emit": f" {len(self.data)}"}.get(self.what, "")
        return f"{self.what} {slot}{size}{' fails' if self.failed else ''}".replace("  ", " ").strip()


class Reader:
    """Takes strace's lines, and keeps the events."""

    def __init__(self, slots):
        self.files, self.places, self.events, self.counts = {0: "in", 1: "out"}, {}, [], {}
        self.missing = {n for n, data in enumerate(slots) if data is None}

    def add(self, what, args, value, name):
        number = args.split(",")[0]
        file = self.files.get(int(number)) if number.isdigit() else None
        failed = value < 0
        text = TEXT.search(args)
        data = bytes.fromhex(text.group(1).replace("\\x", "")) if text else b""
        event = Event(what, None, 0, data, failed, name, self.counts[name])
        if name in ("open", "openat"):
            self.opened(event, data.decode(), value, "O_CREAT" in args)
        elif file in (0, 1):
            event.slot = file
            self.on_slot(event, args, value)
        elif file == "out" and name == "write":
            event.what, event.data = "emit", data[: max(value, 0)]
            self.events.append(event)
        elif (file, name) in (("folder", "fsync"), ("in", "read")):
            event.what, event.at, event.data = "folder" if file == "folder" else "take", value, b""
            self.events.append(event)
        if name == "close" and not failed:
            self.files.pop(int(args), None)

    def opened(self, event, path, value, makes):
        named = [n for n, name in enumerate(program.SLOTS) if os.path.basename(path) == name]
        kind = named[0] if named else "folder" if path in (".", "") else None
        if kind is None:
            return
        if value >= 0:
            self.files[value], self.places[value] = kind, 0
        event.data, event.slot = b"", kind if named else None
        if makes and kind in self.missing:
            event.what = "make"
            if value >= 0:
                self.missing.discard(kind)
        self.events.append(event)

    def on_slot(self, event, args, value):
        number = int(args.split(",")[0])
        if event.name == "lseek" and value >= 0:
            self.places[number] = value
        elif event.name == "write":
            event.at, event.data = self.places[number], event.data[: max(value, 0)]
            self.places[number] += len(event.data)
        elif event.name == "read":
            event.data = b""
            self.places[number] += max(value, 0)
        elif event.name in ("fsync", "fdatasync"):
            event.what = "sync"
        elif event.name not in ("lseek", "flock", "fstat", "statx", "close"):
            sys.exit(f"record: the program calls {event.name} on a slot, of which this script knows nothing")
        self.events.append(event)

    def line(self, text):
        found = LINE.match(text)
        if not found or found.group(3) == "?":
            return
        name, args = found.group(1), found.group(2)
        self.counts[name] = self.counts.get(name, 0) + 1
        self.add(name, args, int(found.group(3)), name)


def run(store, *words, given=b"", inject=()):
    """Calls the program in the folder of the store, with faults that strace injects: its status, output and events."""
    before = store.slots()
    log = os.path.join(store.folder, "log")
    out = os.path.join(store.folder, "out")
    traced = "trace=" + ",".join("?" + name for name in CALLS)
    called = ["strace", "-o", log, "-s", str(1 << 28), "-xx", "-e", traced, "-e", "signal=none"]
    for fault in inject:
        called += ["-e", "inject=" + fault]
    program.put(os.path.join(store.folder, "given"), given)
    called += [store.program, *words]
    with open(out, "wb") as sink, open(os.path.join(store.folder, "given"), "rb") as source:
        done = subprocess.run(
            called, cwd=store.folder, stdin=source, stdout=sink, stderr=subprocess.DEVNULL, env={**os.environ, **ENV})
    reader = Reader(before)
    with open(log, encoding="ascii") as lines:
        for text in lines:
            reader.line(text.rstrip("\n"))
    said = program.contents(out)
    for path in (log, out, os.path.join(store.folder, "given")):
        os.remove(path)
    return done.returncode, said, reader.events
