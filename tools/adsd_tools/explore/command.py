"""The command: words, what is said, statuses."""

import argparse
import signal
import sys
import tempfile
import threading

from adsd_tools.report import library, program
from adsd_tools.rows import store

from . import private
from .texts import told

ABOUT = """Serves a web page on a loopback address that explores the rights in a store: the tree, each list in words, who
can do what and by which entry and groups, what somebody may do and where, ranked by harm; and what-ifs: lists changed
on a copy, who gains and loses before, while and after they are passed down.

    adsd-explore corp

It prints the address, which has a secret in it, and ends at Ctrl-C. The store is copied, and only the copy is asked.
With --write, and never without, a button of the page writes a what-if to the store itself, and names first what it
will do. Rights are answers of the proved library, and what changes make is the program's. This script is not proved."""
STATUSES = """status: 0 ended; 1 the store can't be taken, or there is no library; 2 usage; 5 the port can't be had."""


class Ended(BaseException):
    """A signal asks for the end."""


class Words(argparse.ArgumentParser):
    """The words of the command. A fault is told in one line."""

    def error(self, message):
        say(message)
        sys.exit(2)


def say(line):
    sys.stderr.write(f"adsd-explore: {told(str(line))}\n")
    sys.stderr.flush()


def port(text):
    if not text.isdigit() or int(text) > 65535:
        raise argparse.ArgumentTypeError(f"{text!r} isn't a port")
    return int(text)


def parsed(arguments):
    form = Words(prog="adsd-explore", description=ABOUT, epilog=STATUSES,
                 formatter_class=argparse.RawDescriptionHelpFormatter)
    form.add_argument("store", metavar="STORE", help="the store, as `adsd` is given it")
    form.add_argument("--port", metavar="N", type=port, default=0, help="listen there (any free port, if not given)")
    form.add_argument("--write", action="store_true", help="let the page write to the store, by a button")
    return form.parse_args(arguments)


def watch():
    """Lets a signal end the command at any moment, so that no copy of the directory is left. A second one changes nothing;
    and who starts the command with one of them ignored, as nohup does, isn't ended by it."""
    numbers = [number for number in (signal.SIGHUP, signal.SIGTERM, signal.SIGINT)
               if signal.getsignal(number) is not signal.SIG_IGN]

    def end(*_):
        for number in numbers:
            signal.signal(number, signal.SIG_IGN)
        raise Ended

    for number in numbers:
        signal.signal(number, end)


def served(asked, place):
    """Serves until a signal; the status."""
    library.open_library(place)
    from .api import Api
    from .explorer import Explorer
    from .web import Server

    explorer = Explorer(asked.store, place, asked.write, say)
    try:
        try:
            server = Server(asked.port, Api(explorer))
        except OSError as fault:
            say(f"port {asked.port}: {fault.strerror}")
            return 5
        explorer.warm()
        # (a signal that another thread is told of is looked at when this one comes to its turn)
        serving, pause = threading.Thread(target=server.run, daemon=True), threading.Event()
        serving.start()
        try:
            if explorer.incomplete:
                say(explorer.incomplete)
            sys.stdout.write(f"{server.address()}\n")
            sys.stdout.flush()
            while serving.is_alive():
                pause.wait(1)
        finally:
            server.stop()
            serving.join(1)
    finally:
        explorer.close()
    return 1


def main(arguments):
    """Runs the command; the status."""
    asked = parsed(arguments)
    watch()
    try:
        private.remove_left()
        with private.Folder(tempfile.gettempdir()) as folder:
            return served(asked, folder.path)
    except (store.Broken, program.Failed) as why:
        say(f"{asked.store}: {why}")
    except library.Missing as why:
        say(f"no library: {why}")
    except OSError as fault:
        say(f"{fault.filename or asked.store}: {fault.strerror}")
    except Ended:
        return 0
    return 1
