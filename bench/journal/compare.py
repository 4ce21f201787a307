"""Prints a journal's appends a second beside those of sqlite3 and of bare writes: compare.py FOLDER RECORDS BYTES MICROSECONDS."""

import os
import sqlite3
import sys
import time


def bare(folder, records, bytes_each, syncs):
    """Writes the bytes to a file, synced so often for each record."""
    path = os.path.join(folder, f"bare{syncs}")
    body = b"\7" * bytes_each
    file = os.open(path, os.O_RDWR | os.O_CREAT, 0o600)
    start = time.perf_counter()
    for _ in range(records):
        os.write(file, body)
        os.fsync(file)
        for _ in range(syncs - 1):
            os.pwrite(file, b"\1", 0)
            os.fsync(file)
    seconds = time.perf_counter() - start
    os.close(file)
    return seconds


def database(folder, records, bytes_each, journal):
    """Inserts so many rows, each in a transaction of its own."""
    path = os.path.join(folder, f"{journal}.db")
    body = b"\7" * bytes_each
    base = sqlite3.connect(path, isolation_level=None)
    base.execute(f"PRAGMA journal_mode={journal}")
    base.execute("PRAGMA synchronous=FULL")
    base.execute("CREATE TABLE log (id INTEGER PRIMARY KEY, body BLOB)")
    start = time.perf_counter()
    for _ in range(records):
        base.execute("INSERT INTO log (body) VALUES (?)", (body,))
    seconds = time.perf_counter() - start
    base.close()
    return seconds


def written():
    """How many bytes this process has written so far, where the system tells."""
    try:
        with open("/proc/self/io") as file:
            return int(dict(line.split(": ") for line in file.read().splitlines())["wchar"])
    except OSError:
        return 0


def line(name, records, seconds, each):
    print(f"{name:<44}{records / seconds:>9.0f} a second{each:>9.0f} bytes each")


def main():
    folder, records, size, micros = sys.argv[1], int(sys.argv[2]), int(sys.argv[3]), int(sys.argv[4])
    # A length of eight bytes, the body, a closed gate, and the gate that is opened.
    line("gate_log, two syncs", records, micros / 1e6, size + 8 + 1 + 1)
    for name, run in [
        ("write and fsync, one sync", lambda: bare(folder, records, size, 1)),
        ("write and fsync, two syncs", lambda: bare(folder, records, size, 2)),
        (f"sqlite3 {sqlite3.sqlite_version}, FULL, rollback journal", lambda: database(folder, records, size, "delete")),
        (f"sqlite3 {sqlite3.sqlite_version}, FULL, write-ahead log", lambda: database(folder, records, size, "wal")),
    ]:
        before = written()
        seconds = run()
        line(name, records, seconds, (written() - before) / records)


main()
