"""The command: words, files, statuses."""

import argparse
import gc
import os
import sys
import tempfile
from typing import Iterable, Iterator, List, NamedTuple, NoReturn, Optional

from adsd_tools import incomplete
from adsd_tools.files import makes_file, write
from adsd_tools.forms import names
from adsd_tools.shown import shown

from . import complete, objects, output, schema, second
from .domains import Domains
from .index import Index
from .opened import Twice
from .report import DEFAULTING, DENIES, ENDS, FITTING, READING, SHAPING, Refused, Report

ABOUT = """Makes LDIF that `adsd load` takes of an export of Active Directory or Samba, as adsd-export, ldifde,
ldbsearch or ldapsearch write it. An export has the schema and the rights with it (CN=Schema and CN=Extended-Rights
below CN=Configuration), and the attribute nTSecurityDescriptor; it may come in several files. The report begins with a summary,
losses first. All that is mended or left out is told, a line each:

    FILE:LINE: mended: ..       stands otherwise in the output, and grants nothing more
    FILE:LINE: left out: ..     isn't in the output, and says nothing of rights
    FILE:LINE: loss: ..         isn't in the output, so less may be granted
    FILE:LINE: missing: ..      the export lacks it, and answers mislead without it: stops, unless --partial is given
    FILE:LINE: denies: ..       takes rights away and isn't in the output: stops, unless --force is given

What --partial writes says what the export lacks: the LDIF by its first line, OUT.incomplete beside it, and the store
that is loaded of it to every companion, which shows `INCOMPLETE: ..` first.

Lists are written with their explicit entries alone, where loading computes the rest; the LDIF says so before its first
record, so that an import of it knows. The export is read twice, and what can't be (standard input, gzip, UTF-16) is
copied meanwhile to a file without a name in the folder for temporary files (TMPDIR), and so is what is written.

Limits, those of `adsd load`: 65,536 objects, 64 of them above another one, and 67,108,864 bytes of LDIF. What is
longer loses the attributes that no rule needs, the greatest first, and says so; else it is refused (status 1), and
--base takes a part. An account with the 24 entries that accounts are born with takes 1,700 bytes at least: 39,000 fit.

This script is not proved."""
STATUSES = """status: 0 written; 1 the input can't be imported; 2 usage; 3 stopped, since what denies would be lost;
4 stopped, since the export lacks what matters; 5 the output can't be written; 6 an input can't be read. Where it isn't
0, no output is written."""


# What Active Directory answers to a search without pages, where its limit is as it comes.
MOST_WITHOUT_PAGES = 1000


class Made(NamedTuple):
    """The pieces of the text, how many objects it has, and what the export lacks (empty: nothing)."""

    data: Iterator[bytes]
    objects: int
    lacked: str


class Words(argparse.ArgumentParser):
    """The words of the command. A fault is told in one line."""

    def error(self, message: str) -> NoReturn:
        say(message)
        sys.exit(2)


def words(arguments: List[str]) -> argparse.Namespace:
    parser = Words(prog="adsd-import", description=ABOUT, epilog=STATUSES,
                   formatter_class=argparse.RawDescriptionHelpFormatter)
    parser.add_argument("exports", nargs="+", metavar="EXPORT",
                        help="a file of LDIF, as it stands or compressed by gzip, or - for standard input")
    parser.add_argument("-o", "--output", metavar="FILE", help="where the LDIF goes (standard output)")
    parser.add_argument("-r", "--report", metavar="FILE", help="where the report goes (standard error)")
    parser.add_argument("--base", metavar="DN", help="take the objects at and below this name alone")
    parser.add_argument("--domain", metavar="NAME",
                        help="which domain to take (DC=child,DC=corp,DC=example or child.corp.example) of files that "
                             "have several of a forest: each is a store of its own")
    parser.add_argument("--partial", action="store_true",
                        help="write although the export lacks what matters, and with it the line that says so")
    parser.add_argument("--records", metavar="N", type=int,
                        help="how many records the files have that don't say it themselves, all together, as ldifde "
                             "tells it where it writes them: other ones are missing")
    parser.add_argument("--force", action="store_true", help="write although what denies is lost")
    parser.add_argument("--defaults", action="store_true",
                        help="leave objects without a descriptor to their class's default, which may grant more than "
                             "the source did: goes with --force alone. Without it they get one that grants nothing")
    parser.add_argument("--limit", metavar="BYTES", type=int, default=output.LIMIT,
                        help="how long the text may be (%(default)s)")
    return parser.parse_args(arguments)


def counted(options: argparse.Namespace, report: Report) -> None:
    """Reports files that have other records than --records says, or as many as a search without pages gives at most."""
    there = sum(count for _, count in report.untold)
    if options.records not in (None, there):
        why = f"{there} are in the files that don't say how many they have"
        report.missing(f"{options.exports[-1]}:1", ENDS, f"records, {options.records} of them", why)
    for file, count in report.untold:
        if options.records is None and count == MOST_WITHOUT_PAGES:
            why = f"at {count} records Active Directory ends a search without pages: ask with pages, or give --records"
            report.missing(f"{file}:1", ENDS, f"end of {file}", why)


def based(text: Optional[str]) -> Optional[names.Name]:
    """The name that --base says."""
    if text is None:
        return None
    try:
        return names.read(text.encode("utf-8", "surrogateescape"))
    except names.NoName as why:
        raise Refused(f"--base {text}: {why}") from None


def imported(options: argparse.Namespace, twice: Twice, report: Report) -> Made:
    """What is written."""
    base, index = based(options.base), Index(twice, report)
    index.read(options.exports)
    report.step = (READING, 1)
    counted(options, report)
    report.step = (SHAPING, 0)
    made = schema.read(index.schema, report)
    found = sorted(index.objects, key=lambda one: len(one.key))
    domains = Domains(found)
    root = domains.choose(options.domain, base) or objects.root_of(found, base)
    found.sort(key=lambda one: (len(one.key), one is not root))
    taking = objects.take_all(found, root, made, domains, report)
    report.step = (DEFAULTING, 0)
    schema.mend_defaults(made, root.sid, report)
    work = second.Second(index, taking, made, domains, options.defaults, report)
    second.inherited(index, found, taking, made, work.rights)
    work.run(found)
    complete.judge(made, root, taking, work.accounts.has_members, report)
    domains.tell(root.sid, report)
    lacked = complete.mark(made, index.before, report)
    report.step = (FITTING, 0)
    kept = list(taking.kept.values())
    gone = output.fit(made, work.texts, options.limit, lacked, lambda at, name: work.place(kept[at], name), report)
    return Made(output.text_of(made, work.texts, gone, lacked), len(kept), lacked)


def say(line: str) -> None:
    sys.stderr.write(f"adsd-import: {shown(line)}\n")


def stopped(options: argparse.Namespace, report: Report, lacked: str) -> Optional[int]:
    """The status of an import that may not be written, after it was said why; None where it may."""
    if lacked and not options.partial:
        for line in report.first_misses():
            say(line)
        say(f"the export lacks {lacked}; nothing is written without --partial")
        return 4
    if report.denying is not None and not options.force:
        where, _, what, why = report.denying[1]
        say(f"{where}: {what}: {why}; {report.count(DENIES)} such in all, and nothing is written without --force")
        return 3
    return None


def put_beside(file: str, report: Report, lacked: str) -> None:
    """Writes what the export lacks beside the LDIF, or takes away what an earlier import wrote there. A stream and a device
    have no such file."""
    beside = file + incomplete.SUFFIX
    if not makes_file(file):
        return
    if lacked:
        told = [incomplete.sentence(shown(lacked)), *report.missing_lines()]
        write(beside, "".join(f"{line}\n" for line in told).encode("utf-8", "backslashreplace"))
    elif incomplete.beside(file) is not None and os.path.isfile(beside):
        os.unlink(beside)


def put(file: str, data: Iterable[bytes], report: Report, lacked: str) -> None:
    """Writes the pieces of the text, and what its export lacks beside it first, so that it never stands without that.
    Where the text can't be written, what stood beside it stands there as before."""
    beside, before = file + incomplete.SUFFIX, None
    if makes_file(file) and os.path.isfile(beside):
        with open(beside, "rb") as opened:
            before = opened.read()
    put_beside(file, report, lacked)
    try:
        write(file, data)
    except OSError:
        if before is not None:
            write(beside, before)
        elif lacked and makes_file(file):
            os.unlink(beside)
        raise


def told_by(report: Report) -> Iterator[str]:
    """The lines of the report."""
    yield from report.summary()
    yield from report.lines()


def finish(options: argparse.Namespace, report: Report, made: Optional[Made]) -> int:
    """Writes the report and then, where nothing stops it, the text; the status."""
    if made is None and options.report is None:
        return 1
    if options.report is None:
        sys.stderr.writelines(f"{line}\n" for line in told_by(report))
    else:
        write(options.report, (f"{line}\n".encode("utf-8", "backslashreplace") for line in told_by(report)))
    if made is None:
        return 1
    data, count, lacked = made
    status = stopped(options, report, lacked)
    if status is not None:
        return status
    if options.output is None:
        for piece in data:
            sys.stdout.buffer.write(piece)
        sys.stdout.buffer.flush()
    else:
        put(options.output, data, report, lacked)
    if lacked:
        say(incomplete.sentence(lacked))
    if report.untold and options.records is None:
        count_of = sum(many for _, many in report.untold)
        say(f"{count_of} records stand in files that don't say how many they have: compare it with what the tool told "
            "as it wrote them, or give --records")
    say(f"{count} objects; {report.counts()}")
    return 0


def main(arguments: List[str]) -> int:
    """Runs the command; the status."""
    options, report = words(arguments), Report()
    twice = Twice(report)
    # What is made refers to nothing that refers to it, so that nothing has to be looked for again and again.
    gc.disable()
    try:
        made: Optional[Made] = imported(options, twice, report)
        why = ""
    except Refused as refused:
        made, why = None, str(refused)
    except OSError as fault:
        say(f"{fault.filename or tempfile.gettempdir()}: {fault.strerror}")
        return 6
    finally:
        twice.close()
        gc.enable()
    try:
        status = finish(options, report, made)
    except OSError as fault:
        say(f"{fault.filename or 'output'}: {fault.strerror}")
        return 5
    if why:
        say(why if why.startswith(tuple(options.exports)) else f"{' '.join(options.exports)}: {why}")
    return status
