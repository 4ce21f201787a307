"""What the program's crates stand on, what each is likely to take, which is begun next, and how long the rest takes."""

import hashlib
import os
import sys

PARTS = ("src", "specs", "proofs")
# What each further job of a prover adds: of its speed, and of the memory that it takes.
JOB_SPEED, JOB_MEMORY = 0.5, 0.6
MOST_JOBS = 4
# Before it proves, rt sums up the texts below a crate, and those below a library once for each way that crates.txt has
# down to it. Seconds for a file, as measured on 29 November 2026.
SECONDS_A_SUM = 31e-6
# Where nothing is measured.
SECONDS_A_LINE = 0.02


def uses_of(top):
    """What each crate of crates.txt stands on, in its order, libraries of the toolchain left out."""
    with open(os.path.join(top, "crates.txt"), encoding="utf-8") as file:
        rows = [line.partition("#")[0].partition(":") for line in file]
    uses = {row[0].split()[0]: row[2].replace(",", " ").split() for row in rows if row[0].strip()}
    return {name: [one for one in named if one in uses] for name, named in uses.items()}


def in_order(uses, names):
    """These crates, each behind what it stands on."""
    ordered, left = [], list(names)
    while left:
        ready = [name for name in left if not any(one in left for one in uses[name])]
        if not ready:
            sys.exit(f"adsd: crates.txt: of these some stand on themselves: {' '.join(left)}")
        ordered += ready
        left = [name for name in left if name not in ready]
    return ordered


def files_of(folder):
    """The files that a crate is made of, in an order of their own."""
    for part in PARTS:
        for at, folders, names in os.walk(os.path.join(folder, part)):
            folders.sort()
            yield from (os.path.join(at, name) for name in sorted(names))


def times_of(path):
    """The processor seconds of each crate's proof, as far as they were measured."""
    found = {}
    if os.path.isfile(path):
        with open(path, encoding="utf-8") as file:
            for line in file:
                words = line.split()
                if len(words) == 2 and words[1].isdigit():
                    found[words[0]] = int(words[1])
    return found


class Costs:
    """The program's crates, lowest first, itself last. Of each: what it stands on, the sum of its texts and of those
    below, the seconds of its proof and of rt's sums, the bytes that its proof takes, and the longest chain of seconds
    from it to the program."""

    def __init__(self, top, names, toolchain, times):
        self.uses = uses_of(top)
        self.names = in_order(self.uses, names)
        self.below, self.sum, self.proof, self.sums, self.memory, self.behind = {}, {}, {}, {}, {}, {}
        self.lines, self.code, reads = {}, {}, {}
        for name in self.names:
            uses = self.uses[name]
            self.below[name] = set(uses).union(*[self.below[one] for one in uses])
            self.sum[name], files = self.read(os.path.join(top, "crates", name), [toolchain, name, repr(uses)])
            reads[name] = files + sum(reads[one] for one in uses)
            # (rt asks twice whether a library below is current, and of a program's a third time)
            asked = 3 if name == self.names[-1] else 2
            self.sums[name] = SECONDS_A_SUM * (2 * reads[name] + asked * sum(reads[one] for one in self.below[name]))
            others = self.lines[name] - self.code[name]
            below = sum(self.code[one] for one in self.below[name])
            self.memory[name] = 10**9 + 10**6 * self.code[name] + 200_000 * others + 80_000 * below
        known = [name for name in self.names if name in times]
        rate = sum(times[name] for name in known) / max(1, sum(self.lines[name] for name in known)) or SECONDS_A_LINE
        for name in self.names:
            self.proof[name] = times.get(name, rate * self.lines[name])
        for name in reversed(self.names):
            above = [self.behind[one] for one in self.names if name in self.uses[one]]
            self.behind[name] = self.seconds(name, 1) + max(above, default=0)

    def read(self, folder, words):
        """The sum of a crate's texts, of these words, and of what it stands on; and how many files it has. Counts its
        lines."""
        name, files = os.path.basename(folder), 0
        whole = hashlib.sha256(repr(words + [self.sum[one] for one in self.uses[name]]).encode())
        self.lines[name] = self.code[name] = 0
        for path in files_of(folder):
            with open(path, "rb") as file:
                text = file.read()
            files += 1
            self.lines[name] += text.count(b"\n")
            self.code[name] += text.count(b"\n") if path.endswith(".rt") else 0
            whole.update(repr((os.path.relpath(path, folder), len(text))).encode() + text)
        return whole.hexdigest(), files

    def seconds(self, name, jobs):
        """How long a crate takes with so many jobs, on the machine that its time was measured on."""
        return self.sums[name] + self.proof[name] / (1 + JOB_SPEED * (jobs - 1))

    def ready(self, left, done):
        """Those of `left` that stand on nothing but `done`, what has most behind it first."""
        return sorted((one for one in left if done.issuperset(self.uses[one])), key=lambda one: -self.behind[one])

    def next(self, left, done, running, processors, memory):
        """The crate that is begun now, its jobs and its bytes, or None where another has to end first. `running` has
        jobs and bytes of each that runs. One always runs; further ones do where a processor is idle and their memory is
        free. A crate gets the processors that no other waits for."""
        idle = processors - sum(jobs for jobs, _ in running.values())
        room = memory - sum(needed for _, needed in running.values())
        ready = self.ready(left, done) if idle > 0 else []
        for at, name in enumerate(ready):
            need = self.memory[name]
            if not running or need <= room:
                jobs = min(MOST_JOBS, idle // (len(ready) - at), 1 + int((room / need - 1) / JOB_MEMORY))
                jobs = max(1, jobs)
                return name, jobs, int(need * (1 + JOB_MEMORY * (jobs - 1)))
        return None

    def seconds_left(self, left, done, going, processors, memory):
        """How long the rest takes with these processors and this memory, by the same choices. `going` has of each crate
        that runs its jobs, its bytes, and the seconds that it still takes."""
        left, done, going, gone = set(left), set(done), dict(going), 0
        while left or going:
            while True:
                running = {name: (jobs, needed) for name, (jobs, needed, _) in going.items()}
                found = self.next(left, done, running, processors, memory)
                if not found:
                    break
                name, jobs, needed = found
                left.remove(name)
                going[name] = jobs, needed, gone + self.seconds(name, jobs)
            name = min(going, key=lambda one: going[one][2])
            gone = max(gone, going.pop(name)[2])
            done.add(name)
        return gone
