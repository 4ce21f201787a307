"""Which release a program is of: what all replicas of a log have in common, so that they answer its entries alike.

It is the sum of the sources that the program was proved and built of, as the launcher tells it, or the folder of a
release. Of a program that neither knows it is the sum of its bytes, and of one that was installed by hand those of the
program that the launcher runs there. What another script runs nobody can tell."""

import hashlib
import os
import re
import subprocess

from adsd_tools.ask.words import Wrong

SECONDS = 120
# The program beside the launcher where adsd is installed.
INSTALLED = "program"


def release_of(program):
    """The release of a program, as it stands in a log."""
    path = os.path.realpath(program)
    found = told(program) or noted(path)
    if found:
        return b"sources " + found.encode()
    beside = os.path.join(os.path.dirname(path), INSTALLED)
    if os.path.basename(path) == "adsd" and os.path.exists(beside):
        path = beside
    try:
        with open(path, "rb") as file:
            is_script = file.read(2) == b"#!"
        if is_script:
            raise Wrong(f"{program} is a script, and which program it runs isn't told: ADSD has to name the program")
        return b"program " + sum_of(path).encode()
    except OSError as fault:
        raise Wrong(f"{program}: {fault.strerror}") from None


def told(program):
    """The sum of sources that a launcher tells; None where it is no launcher."""
    try:
        done = subprocess.run([program, "--version"], stdin=subprocess.DEVNULL, stdout=subprocess.PIPE,
                              stderr=subprocess.DEVNULL, timeout=SECONDS)
    except (OSError, subprocess.TimeoutExpired):
        return None
    found = re.search(r"\bsources ([0-9a-f]{64})\b", done.stdout.decode("utf-8", "replace"))
    return found[1] if found and not done.returncode else None


def noted(path):
    """The sum of sources that stands beside a release's program, where its bytes are those of the checksum."""
    folder, name = os.path.split(path)
    try:
        with open(os.path.join(folder, "made-of"), encoding="utf-8") as file:
            found = re.search(r"^sources ([0-9a-f]{64})$", file.read(), re.M)
        with open(os.path.join(folder, "SHA256SUMS"), encoding="utf-8") as file:
            is_whole = f"{sum_of(path)}  {name}\n" in file.readlines()
    except (OSError, UnicodeDecodeError):
        return None
    return found[1] if found and is_whole else None


def sum_of(path):
    made = hashlib.sha256()
    with open(path, "rb") as file:
        while piece := file.read(1 << 20):
            made.update(piece)
    return made.hexdigest()
