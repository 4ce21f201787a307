"""Builds the wheel of this package: by `pip install python/`, without a network and without any other package.

The shared library is the one that tools/library of the tree that this folder stands in gives: that of the release, or
of the library that is built there; or ADSD_LIBRARY names a shared library that is taken as it is.
"""

import base64
import hashlib
import os
import shutil
import subprocess
import tempfile
import zipfile

HERE = os.path.dirname(os.path.abspath(__file__))
TAG = "py3-none-linux_x86_64"
METADATA = "Metadata-Version: 2.1\nName: adsd\nVersion: 1\nSummary: The proved access check of Active Directory's rules\nRequires-Python: >=3.9\n"
WHEEL = f"Wheel-Version: 1.0\nGenerator: adsd\nRoot-Is-Purelib: false\nTag: {TAG}\n"


def shared_library(folder):
    given = os.environ.get("ADSD_LIBRARY")
    if given:
        return shutil.copy(given, os.path.join(folder, "libadsd.so.1"))
    subprocess.run([os.path.join(HERE, "../tools/library"), folder], check=True)
    return os.path.join(folder, "lib/libadsd.so.1")


def files_of_tools():
    """What the package takes of the tree's scripts."""
    folder = os.path.join(HERE, "../tools/adsd_tools/forms")
    for name in ("ber.py", "filters.py"):
        with open(os.path.join(folder, name), "rb") as file:
            yield f"adsd/_ask/{name}", file.read()


def files_of_package():
    """The names in the wheel and their bytes."""
    yield from files_of_tools()
    for folder, inner, names in os.walk(os.path.join(HERE, "adsd")):
        inner[:] = sorted(name for name in inner if name != "__pycache__")
        for name in sorted(names):
            if name.endswith((".py", ".typed")):
                path = os.path.join(folder, name)
                with open(path, "rb") as file:
                    yield os.path.relpath(path, HERE), file.read()
    with tempfile.TemporaryDirectory() as made, open(shared_library(made), "rb") as file:
        yield "adsd/libadsd.so.1", file.read()


def row_of(name, data):
    digest = base64.urlsafe_b64encode(hashlib.sha256(data).digest()).rstrip(b"=").decode()
    return f"{name},sha256={digest},{len(data)}\n"


def build_wheel(wheel_directory, config_settings=None, metadata_directory=None):
    name, about = f"adsd-1-{TAG}.whl", "adsd-1.dist-info"
    files = dict(files_of_package())
    files[f"{about}/METADATA"], files[f"{about}/WHEEL"] = METADATA.encode(), WHEEL.encode()
    rows = "".join(row_of(*item) for item in files.items()) + f"{about}/RECORD,,\n"
    with zipfile.ZipFile(os.path.join(wheel_directory, name), "w", zipfile.ZIP_DEFLATED) as wheel:
        for path, data in [*files.items(), (f"{about}/RECORD", rows.encode())]:
            wheel.writestr(zipfile.ZipInfo(path, (1980, 1, 1, 0, 0, 0)), data)
    return name
