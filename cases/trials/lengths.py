"""Runs that are long: memory stays as it is, and what is stored for a while is given back."""

import os
import subprocess
import time

from . import program
from .starts import ROOT, TOKEN

FRAMES = 1_000_000
ANSWER = bytes.fromhex("81000100000000")
MORE_MB = 4


def streamed(store, frame, count):
    """Serves a frame so many times: the status, whether the answers are as they should be, and the most MB that the
    program was seen to hold."""
    given, said, held = os.path.join(store.folder, "given"), os.path.join(store.folder, "said"), 0.0
    program.put(given, count * frame)
    with open(given, "rb") as source, open(said, "wb") as sink:
        started = subprocess.Popen([store.program, "serve", "S"], cwd=store.folder, stdin=source, stdout=sink)
        while started.poll() is None:
            held = max(held, most_held(started.pid))
            time.sleep(0.005)
    well = program.contents(said) == min(count, FRAMES) * ANSWER
    os.remove(given)
    os.remove(said)
    return started.returncode, well, held


def most_held(process):
    """The most MB that a process has held since it began its program; its times would tell what its parent held too."""
    try:
        with open(f"/proc/{process}/status", encoding="ascii") as lines:
            found = [line.split()[1] for line in lines if line.startswith("VmHWM:")]
    except OSError:
        return 0.0
    return int(found[0]) / 1000 if found else 0.0


def tokens(judge):
    """A million token frames: each is answered, and they take no more memory than 20,000; one more is too many."""
    frame = program.frames_of([TOKEN])[0]
    judge.store.put(judge.base)
    *few, held = streamed(judge.store, frame, 20_000)
    judge.want("20,000 tokens", few, [0, True])
    *many, more = streamed(judge.store, frame, FRAMES)
    judge.want("1,000,000 tokens", many, [0, True])
    judge.want(f"MB held: {held:.1f}, and {more:.1f}", more <= held + MORE_MB, True)
    print(f"  {held:.1f} MB held over 20,000 tokens, {more:.1f} MB over 1,000,000")
    if not judge.short:
        judge.want("1,000,001 tokens", streamed(judge.store, frame, FRAMES + 1)[:2], (7, True))
    judge.want("the store", judge.store.slots(), judge.base)


def lists():
    """Two lists of 100 entries that are passed down, of one length, which differ in one mask."""
    entries = [f"(A;CI;RP;;;S-1-5-21-9-9-9-{1000 + number})" for number in range(99)]
    return ["D:" + "".join(entries) + f"(A;CI;{last};;;S-1-5-21-9-9-9-2000)" for last in ("RP", "WP")]


def rounds(judge):
    """Rounds that write one of two lists on a unit in turn, and pass it down: the number of descriptors stays the same
    from the second round on. It is looked at behind each of the first rounds, then behind each tenth or hundredth."""
    unit = f"modify 1 dn='OU=staff,{ROOT}' sd=dacl"
    lines = [f"{unit} replace:nTSecurityDescriptor='sddl:{text}'" for text in lists()]
    token, steps, *writes = program.frames_of([TOKEN, "steps 1000000", *lines])
    store, done, counts = judge.store, 0, []
    store.put(judge.base)
    for more in [1] * 10 + [10] * 9 + ([] if judge.short else [100] * 9):
        stream = token + b"".join(writes[number % 2] + steps for number in range(done, done + more))
        status, said = store.run("serve", "S", given=stream)
        judge.want(f"rounds to {done + more}", (status, program.whole_answers(said)[0]), (0, 1 + 2 * more))
        done += more
        counts.append(store.must("check", "S").split(b"\n")[1:4])
    judge.want("what check says behind each", {tuple(said) for said in counts[1:]}, {tuple(counts[1])})
    judge.want("pending and stale", counts[1][:2], [b"pending 0", b"stale 0"])
