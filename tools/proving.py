"""Proves the program's crates and builds the program, side by side as processors and memory allow: for tools/build,
which gives the repository, what it took the last time, and the crates.

Begun first is what has the longest chain of work behind it. It is told on standard error what is done and how long the
rest is likely to take: by the times of tools/times.tsv, and by how fast this run has been so far. Where a crate isn't
proved, what rt said is shown at once, nothing further is begun, and what runs beside it comes to its end. However this
process ends, all that it started ends with it; what is proved by then stays. Ends with 0 where the program is built."""

import os
import signal
import subprocess
import sys
import time

import machine
from lanes import Kept, Lanes
from plan import Costs, times_of, uses_of

PROGRAM = "adsd"
TELL = 30
# How a process ends that the system killed, most likely for memory: as a status of rt, of a shell, and of itself.
KILLED = (256 - signal.SIGKILL, 128 + signal.SIGKILL, -signal.SIGKILL)


class Stopped(Exception):
    """A signal asks for the end, or who started this has ended."""


def tell_all(text):
    try:
        sys.stderr.write(text)
        sys.stderr.flush()
    except OSError:
        # Nobody listens any more.
        pass


def say(text):
    tell_all(f"adsd: {text}\n")


def clock(seconds):
    return f"{int(seconds) // 60}:{int(seconds) % 60:02d}"


def about(seconds):
    """A time that is only estimated."""
    minutes = round(seconds / 60)
    return "some seconds" if seconds < 30 else "about a minute" if minutes < 2 else f"some {minutes} minutes"


class Guard:
    """A group for all that is started, which ends when this process does, however it ends. The lanes are then no
    repositories any more, so that rt's gate doesn't stumble over them."""

    def __init__(self, lanes):
        ends, self.held = os.pipe()
        words = ["sh", "-c", 'read _; rm -f "$0"/*/crates.txt; kill -9 0', lanes]
        self.shell = subprocess.Popen(words, stdin=ends, stdout=subprocess.DEVNULL, stderr=subprocess.DEVNULL,
                                      preexec_fn=os.setpgrp)
        os.close(ends)

    def start(self, words, folder, said):
        with open(said, "wb") as file:
            return subprocess.Popen(words, cwd=folder, stdin=subprocess.DEVNULL, stdout=file, stderr=subprocess.STDOUT,
                                    preexec_fn=lambda: os.setpgid(0, self.shell.pid))

    def end(self):
        """Ends all that runs in the group."""
        os.close(self.held)
        self.shell.wait()


class Run:
    """A crate that is being proved."""

    def __init__(self, lane, jobs, needed, process, said):
        self.lane, self.jobs, self.needed, self.process, self.said = lane, jobs, needed, process, said
        self.begun = time.monotonic()

    def took(self):
        return time.monotonic() - self.begun


class Build:
    def __init__(self, top, took, names):
        self.took, self.begun, self.parent = took, time.monotonic(), os.getppid()
        self.lanes = Lanes(top)
        self.built = os.path.join(top, "crates", PROGRAM, "out", PROGRAM)
        self.names, self.running, self.is_well, self.killed = names, {}, True, set()
        # The seconds that ended crates took, and those that they were to take.
        self.real, self.planned = 0.0, 0.0
        self.told, self.guard = self.begun, None

    def prepare(self):
        asked = subprocess.run(["rt", "version"], stdin=subprocess.DEVNULL, stdout=subprocess.PIPE, errors="replace")
        self.lanes.hold(self.names, say)
        self.lanes.clear()
        self.lanes.take_texts(uses_of(self.lanes.top), self.names)
        times = times_of(os.path.join(os.path.dirname(os.path.abspath(__file__)), "times.tsv"))
        self.costs = Costs(self.lanes.texts, self.names, asked.stdout, times)
        self.kept = Kept(self.lanes, self.costs)
        self.done = {name for name in self.names if name != PROGRAM and self.kept.stands(name)}
        self.left = set(self.names) - self.done
        self.processors, self.memory = machine.processors(), machine.memory()
        self.guard = Guard(self.lanes.place)
        self.announce()

    def announce(self):
        told = f"proving and building {len(self.names)} crates"
        if self.done:
            told += f", of which {len(self.done)} stand proved"
        seconds = self.costs.seconds_left(self.left, self.done, {}, self.processors, self.memory)
        told += f"; where it was measured, that takes {about(seconds)} on {self.processors} such processors"
        say(told.replace(" 1 such processors", " one such processor"))
        if self.took:
            say(f"the last time here it took {clock(int(self.took))}")

    def pace(self):
        """How fast it goes here: the seconds that were planned for each that passed. What runs longer than planned
        counts too."""
        real, planned = self.real, self.planned
        for name, run in self.running.items():
            if run.took() > self.costs.seconds(name, run.jobs):
                real, planned = real + run.took(), planned + self.costs.seconds(name, run.jobs)
        return planned / real if real and planned else 1.0

    def estimate(self):
        """How long the rest takes, in words."""
        pace, going, late = self.pace(), {}, []
        for name, run in self.running.items():
            still = self.costs.seconds(name, run.jobs) - pace * run.took()
            late += [name] * (still <= 0)
            going[name] = run.jobs, run.needed, max(0, still)
        seconds = self.costs.seconds_left(self.left, self.done, going, self.processors, self.memory) / pace
        if late and seconds < 1:
            return "longer than estimated"
        return f"{about(seconds)} left" + (f", {', '.join(late)} longer than estimated" if late else "")

    def tell(self, what):
        self.told = time.monotonic()
        if len(self.done) < len(self.names):
            what = f"{self.estimate()}; {what}" if self.is_well else what
        say(f"{len(self.done)} of {len(self.names)} done, {what} ({clock(time.monotonic() - self.begun)} gone)")

    def begin(self):
        """Begins a crate, where one can be begun now."""
        running = {name: (run.jobs, run.needed) for name, run in self.running.items()}
        found = self.costs.next(self.left, self.done, running, self.processors, self.memory) if self.is_well else None
        if not found or (running and not machine.has_room(self.costs.memory[found[0]])):
            return False
        name, jobs, needed = found
        lane = min(set(range(1, len(running) + 2)) - {run.lane for run in self.running.values()})
        said = os.path.join(self.lanes.place, f"{name}.said")
        if name == PROGRAM:
            # rt has no command that builds a program and doesn't run it. So it is run once without words, which does
            # nothing. Since it is removed before, it stands there afterwards exactly where it was proved and built.
            # That is done where it belongs, so that rt judges there all that it stands on.
            if os.path.lexists(self.built):
                os.remove(self.built)
            self.lanes.let_go()
            words, folder = ["rt", "run"], os.path.join(self.lanes.top, "crates", PROGRAM)
        else:
            words, folder = ["rt", "lib"], self.lanes.enter(lane, name, self.costs.below[name])
        process = self.guard.start([*words, "--jobs", str(jobs)], folder, said)
        self.running[name] = Run(lane, jobs, needed, process, said)
        self.left.remove(name)
        return True

    def end(self, name):
        """Takes what an ended crate has made."""
        run = self.running.pop(name)
        status = run.process.returncode
        if name == PROGRAM:
            is_proved = os.access(self.built, os.X_OK)
        else:
            is_proved = status == 0
            self.lanes.leave(run.lane, name)
        if is_proved:
            self.done.add(name)
            self.real += run.took()
            self.planned += self.costs.seconds(name, run.jobs)
            if name != PROGRAM:
                self.kept.keep(name)
            self.tell(f"{name} took {clock(run.took())}")
        elif status in KILLED and name not in self.killed and (self.running or run.jobs > 1):
            # Once more, with all the memory that there is.
            self.killed.add(name)
            self.costs.memory[name] = 2**63
            self.left.add(name)
            self.tell(f"{name} was killed, most likely for memory: once more, alone")
        else:
            self.is_well = False
            with open(run.said, encoding="utf-8", errors="replace") as file:
                tell_all(file.read())
            self.tell(f"{name} isn't proved" + (f"; {self.those()} to the end" if self.running else ""))

    def those(self):
        return f"{', '.join(self.running)} {'go' if len(self.running) > 1 else 'goes'} on"

    def work(self):
        pause = 0.02
        while True:
            while self.begin():
                pause = 0.02
            if not self.running:
                return self.is_well
            ended = [name for name, run in self.running.items() if run.process.poll() is not None]
            for name in ended:
                self.end(name)
            if ended:
                pause = 0.02
                continue
            if os.getppid() != self.parent:
                raise Stopped(signal.SIGTERM)
            if time.monotonic() - self.told >= TELL:
                self.tell(self.those())
            time.sleep(pause)
            pause = min(0.5, pause * 1.2)

    def close(self):
        """Ends what runs, puts back what stands in the lanes, and removes them."""
        if self.guard:
            self.guard.end()
        for run in self.running.values():
            run.process.wait()
        if self.running:
            # (what rt started ends with it, a moment later)
            time.sleep(0.2)
        for name, run in self.running.items():
            if name != PROGRAM:
                self.lanes.leave(run.lane, name)
        self.lanes.clear()


SIGNALS = (signal.SIGINT, signal.SIGTERM, signal.SIGHUP)


def stop(number, _):
    raise Stopped(number)


def main(words):
    build = Build(words[0], words[1], words[2:])
    for number in SIGNALS:
        if signal.getsignal(number) is not signal.SIG_IGN:
            signal.signal(number, stop)
    number = None
    try:
        build.prepare()
        is_built = build.work()
    except Stopped as asked:
        number = asked.args[0]
    except OSError as fault:
        say(str(fault))
        is_built = False
    finally:
        for one in SIGNALS:
            signal.signal(one, signal.SIG_IGN)
        build.close()
    if number:
        signal.signal(number, signal.SIG_DFL)
        os.kill(os.getpid(), number)
    return 0 if is_built else 1


if __name__ == "__main__":
    sys.exit(main(sys.argv[1:]))
