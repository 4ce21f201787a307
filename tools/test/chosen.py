"""Which program the tests try."""

import os
import subprocess
import tempfile

TOP = os.path.dirname(os.path.dirname(os.path.dirname(os.path.abspath(__file__))))


def program():
    """The program that ADSD names, or the launcher's: what was proved and built here, or the release. Where neither is good,
    the path of what was built here, which may be older than its sources, or not be there."""
    if os.environ.get("ADSD"):
        return os.path.abspath(os.environ["ADSD"])
    asked = subprocess.run([os.path.join(TOP, "tools/which-program")], stdin=subprocess.DEVNULL,
                           stdout=subprocess.PIPE, text=True)
    return asked.stdout.rstrip("\n") or os.path.join(TOP, "crates/adsd/out/adsd")


def has_library():
    """Whether there is a library for C: the one that LIBADSD names, what was proved and built here, or the release's."""
    with tempfile.TemporaryDirectory() as place:
        return not subprocess.run([os.path.join(TOP, "tools/library"), place], stdin=subprocess.DEVNULL,
                                  stdout=subprocess.DEVNULL, stderr=subprocess.DEVNULL).returncode
