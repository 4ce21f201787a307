"""The built program, and stores of two files in folders of their own."""

import os
import shutil
import subprocess
import sys

TOP = os.path.dirname(os.path.dirname(os.path.dirname(os.path.abspath(__file__))))
SLOTS = ("S", "S.b")
BASE = os.path.join(TOP, "examples/base.ldif")
sys.path.insert(0, os.path.join(TOP, "tools"))


def program_to_run(script):
    """The program that ADSD names, or the launcher's; where there is none it is said what would build it. From then on
    ADSD names it, so that tools/adsd-ask asks the same one."""
    words = [os.path.join(TOP, "tools/which-program"), "--must"]
    asked = subprocess.run(words, stdin=subprocess.DEVNULL, stdout=subprocess.PIPE, text=True)
    if asked.returncode != 0:
        sys.exit(f"{script}: there is no program: tools/which-program ended with {asked.returncode}")
    os.environ["ADSD"] = asked.stdout.rstrip("\n")
    return os.environ["ADSD"]


def contents(path):
    """The bytes of a file, or None where it isn't there."""
    if not os.path.exists(path):
        return None
    with open(path, "rb") as file:
        return file.read()


def put(path, data):
    """Makes the file hold these bytes, or be away where they are None."""
    if data is None:
        if os.path.exists(path):
            os.remove(path)
        return
    with open(path, "wb") as file:
        file.write(data)


class Store:
    """The two files S and S.b in a folder of their own, and calls of the program there."""

    def __init__(self, program, folder, slots=(None, None)):
        self.program, self.folder = program, folder
        os.makedirs(folder, exist_ok=True)
        self.put(slots)

    def slots(self):
        return tuple(contents(os.path.join(self.folder, name)) for name in SLOTS)

    def put(self, slots):
        for name, data in zip(SLOTS, slots):
            put(os.path.join(self.folder, name), data)

    def run(self, *words, given=b""):
        """The status and the output of a call."""
        done = subprocess.run(
            [self.program, *words], cwd=self.folder, input=given, stdout=subprocess.PIPE, stderr=subprocess.DEVNULL)
        return done.returncode, done.stdout

    def must(self, *words, given=b""):
        """The output of a call that has to end with 0."""
        status, said = self.run(*words, given=given)
        if status != 0:
            sys.exit(f"adsd {' '.join(words)} ended with {status}: {said[:200]!r}")
        return said

    def remove(self):
        shutil.rmtree(self.folder)


def loaded(program, folder, ldif=BASE):
    """The slots of a store that an LDIF file was loaded into."""
    store = Store(program, folder)
    with open(ldif, "rb") as file:
        store.must("load", "S", given=file.read())
    return store.slots()


def frames_of(stream):
    """The frames that a file of lines for tools/adsd-ask, or a list of such lines, stands for."""
    from adsd_tools.ask import requests

    if isinstance(stream, (list, tuple)):
        return list(requests.frames(stream))
    with open(stream, encoding="utf-8") as lines:
        return list(requests.frames(lines))


def whole_answers(data):
    """How many answers stand whole at the start of an output, and how many bytes they have."""
    count, at = 0, 0
    while at + 7 <= len(data):
        end = at + 7 + int.from_bytes(data[at + 3 : at + 7], "big")
        if end > len(data):
            break
        count, at = count + 1, end
    return count, at
