"""Somebody local without the secret: heads that never end, drip, or are megabytes, connections that say nothing, floods of
them. The user is answered all the same, and no memory is kept for them."""

import contextlib
import http.client
import os
import socket
import threading
import time

from .web import Served

# What the user waits at most, on a machine that is busy; an answer takes some milliseconds.
SECONDS = 300
# A head may take five seconds, and whoever looks has to come to his turn.
SECONDS_HEAD, LATE = 5, 120
MOST_GROWTH_KB = 24_000
MEGABYTES, KNOWN = 4, 32


def memory(served):
    """The kilobytes that the explorer has in memory."""
    with open(f"/proc/{served.child.pid}/status", encoding="ascii") as opened:
        return next(int(line.split()[1]) for line in opened if line.startswith("VmRSS:"))


def opened(served):
    made = socket.create_connection((served.host, served.port), SECONDS)
    made.setsockopt(socket.IPPROTO_TCP, socket.TCP_NODELAY, 1)
    return made


def poured(one, data):
    """Sends as much of some bytes as the other end takes; how much that was."""
    sent, one_piece = 0, 65_536
    with contextlib.suppress(OSError):
        while sent < len(data):
            sent += one.send(data[sent : sent + one_piece])
    return sent


def ended(one, seconds):
    """Whether the other end closes a connection within some seconds, whatever it says before."""
    one.settimeout(seconds)
    try:
        while one.recv(65_536):
            pass
    except TimeoutError:
        return False
    except OSError:
        pass
    return True


def answered(tries, served, what):
    """The user's request is answered, and soon."""
    begun = time.monotonic()
    try:
        status, _, _ = served.ask(f"{served.path}api/start")
    except (OSError, http.client.HTTPException) as fault:
        status = repr(fault)
    tries.check(status == 200, f"{what}: the user's request: {status}")
    tries.check(time.monotonic() - begun < SECONDS, f"{what}: the user waited {time.monotonic() - begun:.1f} seconds")


def crowd(served, count):
    """So many connections that say nothing."""
    return [opened(served) for _ in range(count)]


def closed(many):
    for one in many:
        one.close()


def half_open(tries, served):
    """Heads of megabytes that never end, in many lines and in one, and bodies that are announced without the secret."""
    many_lines = b"GET / HTTP/1.1\r\n" + (b"X: " + b"a" * 65_000 + b"\r\n") * 99
    one_line = b"GET /" + b"a" * (MEGABYTES << 20)
    body = b"POST /api/try HTTP/1.1\r\nHost: x\r\nContent-Length: 1048576\r\n\r\n" + b"a" * (MEGABYTES << 20)
    for name, data in (("many lines", many_lines), ("a whole head", many_lines + b"\r\n"), ("one line", one_line), ("a body", body)):
        before = memory(served)
        many = crowd(served, 63)
        pouring = [threading.Thread(target=poured, args=(one, data)) for one in many]
        for one in pouring:
            one.start()
        answered(tries, served, f"half-open, {name}")
        for one in pouring:
            one.join(SECONDS)
        tries.check(not any(one.is_alive() for one in pouring), f"{name}: whoever sends for ever isn't stopped")
        held = memory(served)
        left = sum(not ended(one, LATE) for one in many)
        closed(many)
        after = memory(served)
        tries.check(held - before < MOST_GROWTH_KB, f"{name}: {held - before} kB more while they stand open")
        tries.check(after - before < MOST_GROWTH_KB, f"{name}: {after - before} kB are kept")
        tries.check(not left, f"{name}: {left} stay open")


def silent(tries, served):
    """Connections that say nothing, as many as there are places and more, before and after the user's own."""
    for count in (63, 64, 300):
        many = crowd(served, count)
        answered(tries, served, f"{count} silent")
        closed(many)
    own = http.client.HTTPConnection(served.host, served.port, timeout=SECONDS)
    own.request("GET", f"{served.path}api/start")
    own.getresponse().read()
    many = crowd(served, 300)
    answered(tries, served, "a new connection among 300 silent ones")
    try:
        own.request("GET", f"{served.path}api/start")
        status = own.getresponse().status
    except (OSError, http.client.HTTPException) as fault:
        status = repr(fault)
    tries.check(status == 200 and own.sock is not None, f"the connection that carried the secret: {status}")
    begun = time.monotonic()
    tries.check(all(ended(one, LATE) for one in many), "silent connections stay open")
    tries.check(time.monotonic() - begun < SECONDS_HEAD + LATE, "silent connections stay open for long")
    own.close()
    closed(many)


def dripping(tries, served):
    """A head that comes byte by byte has its time as a whole."""
    many, stop = crowd(served, 20), threading.Event()

    def drip():
        for letter in (b"GET /" + b"a" * 10_000):
            for one in many:
                with contextlib.suppress(OSError):
                    one.send(bytes([letter]))
            if stop.wait(0.05):
                return

    dripped = threading.Thread(target=drip)
    begun = time.monotonic()
    dripped.start()
    answered(tries, served, "dripping")
    tries.check(all(ended(one, LATE) for one in many), "a head that drips keeps its connection")
    tries.check(time.monotonic() - begun >= SECONDS_HEAD - 1, "a head has less time than it has")
    stop.set()
    dripped.join()
    closed(many)


def flooded(tries, served):
    """Connections that come without an end, each silent: the user's come to their turn."""
    stop, count = threading.Event(), [0]

    def flood():
        kept = []
        while not stop.is_set():
            with contextlib.suppress(OSError):
                kept.append(opened(served))
                count[0] += 1
            if len(kept) > 200:
                kept.pop(0).close()
        closed(kept)

    floods = [threading.Thread(target=flood) for _ in range(2)]
    own = http.client.HTTPConnection(served.host, served.port, timeout=SECONDS)
    own.request("GET", f"{served.path}api/start")
    own.getresponse().read()
    before = memory(served)
    for one in floods:
        one.start()
    good = 0
    for _ in range(50):
        own.request("GET", f"{served.path}api/children?n=1")
        good += own.getresponse().read().startswith(b'{"below"')
    stop.set()
    for one in floods:
        one.join()
    own.close()
    tries.check(good == 50 and count[0] > 50, f"{good} of 50 answers in a flood of {count[0]}")
    answered(tries, served, "after the flood")
    tries.check(memory(served) - before < MOST_GROWTH_KB, f"{memory(served) - before} kB more after a flood")


def others(tries, served):
    """Connections of another user of the machine take no place of a stranger of this user."""
    if os.geteuid():
        print("explore: this isn't root, so that no connections of another user were tried")
        return
    many, stay = crowd(served, 60), os.pipe()
    child = os.fork()
    if not child:
        try:
            os.setuid(65534)
            kept = [socket.socket() for _ in range(300)]
            for one in kept:
                one.connect((served.host, served.port))
            # (they stand until the other end of the pipe is closed)
            os.close(stay[1])
            os.read(stay[0], 1)
            os._exit(0)
        finally:
            os._exit(1)
    answered(tries, served, "another user's 300 connections")
    gone = sum(ended(one, 0.001) for one in many)
    tries.check(not gone, f"another user's connections put {gone} of this user's out")
    for one in stay:
        os.close(one)
    tries.check(os.waitpid(child, 0)[1] == 0, "another user can't connect")
    closed(many)


def kept_alive(tries, served):
    """As many connections that carried the secret as there are places stay, and one more puts the one out that is silent
    longest."""
    many = [http.client.HTTPConnection(served.host, served.port, timeout=SECONDS) for _ in range(KNOWN)]
    for one in many:
        one.request("GET", f"{served.path}api/start")
        one.getresponse().read()
    left = sum(ended(one.sock, 0.001) for one in many)
    tries.check(not left, f"{left} of {KNOWN} connections that carried the secret were put out")
    answered(tries, served, "one more than there are places")
    left = [place for place, one in enumerate(many) if ended(one.sock, 0.001)]
    tries.check(left == [0], f"put out for one more: {left}")
    closed(many)


HEADS = [(b"GET / HTTP/1.1\r\n\r\n", 404), (b"GET  / HTTP/1.1\r\n\r\n", 400), (b"\r\n\r\n", 400), (b"\0\r\n\r\n", 400),
         (b"GET / HTTP/2.0\r\n\r\n", 400), (b"GET /\r\n\r\n", 400), (b"get / HTTP/1.1\r\n\r\n", 400),
         (b"GET / HTTP/1.1\r\nHost x\r\n\r\n", 400), (b"GET / HTTP/1.1\r\n folded: x\r\n\r\n", 400),
         (b"GET / HTTP/1.1\r\nA: \x00\r\n\r\n", 400), (b"GET / HTTP/1.1\r\n" + b"A: b\r\n" * 101 + b"\r\n", 400),
         (b"GET / HTTP/1.1\r\nA: " + b" " * 16_000 + b"\x01\r\n\r\n", 400), (b"GET / HTTP/1.1\r\nA: " + b"a" * 16_384, 431),
         (b"GET / HTTP/1.1\r\nA: " + b"a" * 16_300 + b"\r\n\r\n", 404), (b"POST / HTTP/1.1\r\nContent-Length: 9\r\n\r\n", 404)]
LENGTHS = ["", "-1", "1e9", "1.0", "0x10", "\u00b2", "9" * 400, "1048577", "+1", " 1 1", "1, 1"]


def heads(tries, served):
    """Each head that is none is refused by its status, with nothing else, whatever comes behind it."""
    for data, status in HEADS:
        with opened(served) as one:
            one.sendall(data)
            said = said_of(one)
        tries.check(said.startswith(f"HTTP/1.1 {status} ".encode()) and said.endswith(b"\r\n\r\n"), f"{data[:40]}: {said[:60]}")
    host, origin = f"{served.host}:{served.port}", f"http://{served.host}:{served.port}"
    for size in LENGTHS:
        with opened(served) as one:
            one.sendall((f"POST {served.path}api/try HTTP/1.1\r\nHost: {host}\r\nOrigin: {origin}\r\nContent-Type: application/json\r\n"
                         f"Content-Length: {size}\r\n\r\n").encode("latin-1") + b"{}")
            said = said_of(one)
        tries.check(said.startswith(b"HTTP/1.1 413 "), f"Content-Length {size}: {said[:60]}")
    # A body that is short: the user's own, which is waited for, and no other's.
    with opened(served) as one:
        one.sendall((f"POST {served.path}api/try HTTP/1.1\r\nHost: {host}\r\nOrigin: {origin}\r\nContent-Type: application/json\r\n"
                     f"Content-Length: 5\r\nExpect: 100-continue\r\n\r\n").encode())
        said = b""
        with contextlib.suppress(OSError):
            said = one.recv(200)
            one.sendall(b"[")
            one.shutdown(socket.SHUT_WR)
        tries.check(said.startswith(b"HTTP/1.1 100 "), f"a body isn't asked for: {said[:60]}")
        tries.check(said_of(one).startswith(b"HTTP/1.1 408 "), "a body that is short")
    # Two requests at once are answered one after the other.
    with opened(served) as one:
        asked = f"GET {served.path}api/start HTTP/1.1\r\nHost: {host}\r\n"
        one.sendall(f"{asked}\r\n{asked}Connection: close\r\n\r\n".encode())
        said = said_of(one)
        tries.check(said.count(b"HTTP/1.1 200 ") == 2, f"two requests at once: {said[:60]}")


def said_of(one):
    """All that is said until the connection is closed."""
    made = b""
    one.settimeout(SECONDS)
    with contextlib.suppress(OSError):
        while piece := one.recv(65_536):
            made += piece
    return made


def run(tries):
    """All of it, against one explorer."""
    served = Served(tries.path("corp"))
    try:
        answered(tries, served, "before")
        for attack in (half_open, silent, dripping, flooded, others, kept_alive, heads):
            attack(tries, served)
        answered(tries, served, "after all")
    finally:
        tries.check(served.end() == (0, ""), "the explorer that was attacked didn't end well")
