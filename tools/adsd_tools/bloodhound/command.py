"""The command: words, files, statuses."""

import argparse
import errno
import io
import json
import os
import sys
import zipfile

from adsd_tools import incomplete
from adsd_tools.files import write
from adsd_tools.rows import store
from adsd_tools.shown import Words, shown

from .library import Library, Missing
from .nodes import Nodes, NoDomain
from .written import Writer

ABOUT = """Writes a store's users, groups, computers, units, containers, policies and domain as BloodHound CE reads them (version 6), with
the edges of rights: users.json, groups.json, computers.json, ous.json, containers.json, gpos.json and domains.json.

    adsd-bloodhound corp --output edges
    adsd-bloodhound corp --zip corp.zip

An edge stands where the proved library grants the right to the identifier alone, without groups and privileges, so
that entries that deny, their order and owner rights count. What a group denies to its members no edge can say: `adsd who` does.
The store's files are read and not locked; settle it first. What is written is as secret as the directory. This script is
not proved."""
STATUSES = """status: 0 written; 1 the store can't be read, or is no domain's, or there is no library; 2 usage; 5 a file can't be
written. Where it isn't 0, no file is left half written."""


def say(line):
    sys.stderr.write(f"adsd-bloodhound: {shown(str(line))}\n")


def parsed(arguments):
    form = Words(prog="adsd-bloodhound", description=ABOUT, epilog=STATUSES,
                 formatter_class=argparse.RawDescriptionHelpFormatter)
    form.add_argument("store", metavar="STORE", help="the store, as `adsd` is given it")
    form.add_argument("--output", metavar="FOLDER", help="where the files are put; made where it isn't there (bloodhound)")
    form.add_argument("--zip", metavar="FILE", help="write one archive of the seven files instead, as BloodHound takes it too")
    form.add_argument("--library", metavar="FILE", help="libadsd.so.1; if not given that of ADSD_LIBRARY, else what is installed")
    made = form.parse_args(arguments)
    if made.output and made.zip:
        form.error("--output and --zip exclude each other")
    return made


def zipped(files):
    """The bytes of an archive of some files."""
    made = io.BytesIO()
    with zipfile.ZipFile(made, "w", zipfile.ZIP_DEFLATED) as archive:
        for name, data in files.items():
            archive.writestr(name, data)
    return made.getvalue()


def put(folder, files):
    """Writes some files into a folder, which is made where it isn't there."""
    if os.path.islink(folder):
        raise OSError(errno.EEXIST, "it is a symbolic link, not a folder", folder)
    os.makedirs(folder, mode=0o700, exist_ok=True)
    for name, data in files.items():
        write(os.path.join(folder, name), data)


def main(arguments):
    """Runs the command; the status."""
    asked = parsed(arguments)
    try:
        writer = Writer(Nodes(asked.store), Library(asked.library))
        made = writer.files()
        for told in incomplete.warn(asked.store):
            for item in made["domains"]["data"]:
                item["Properties"]["incomplete"] = told
    except (store.Broken, NoDomain) as why:
        say(f"{asked.store}: {why}")
        return 1
    except Missing as why:
        say(why)
        return 1
    except OSError as fault:
        say(f"{asked.store}: {fault.strerror}")
        return 1
    files = {f"{name}.json": json.dumps(content, separators=(",", ":")).encode() for name, content in made.items()}
    try:
        if asked.zip:
            write(asked.zip, zipped(files))
        else:
            put(asked.output or "bloodhound", files)
    except OSError as fault:
        say(f"{fault.filename or 'output'}: {fault.strerror}")
        return 5
    counts = ", ".join(f"{content['meta']['count']} {name}" for name, content in made.items())
    edges = sum(len(item["Aces"]) for content in made.values() for item in content["data"])
    say(f"{counts}; {edges} edges, by {writer.edges.library.count} checks")
    return 0
