"""What a replica counts, and how it is told to Prometheus: in its text format, on a port of this machine alone."""

import asyncio

BATCHES = (1, 2, 5, 10, 20, 50, 100)
LONGEST, SECONDS = 8192, 5.0


class Counts:
    """What is counted as it happens."""

    def __init__(self):
        self.entries = self.changed = self.refused = self.put = self.bytes = self.batches = 0
        self.sizes = [0] * len(BATCHES)

    def applied(self, entry, reply, changed):
        self.entries += 1
        self.changed += bool(changed)

    def batch(self, count, size):
        """So many entries, of so many bytes, were put at once."""
        self.put, self.bytes, self.batches = self.put + count, self.bytes + size, self.batches + 1
        for at, most in enumerate(BATCHES):
            self.sizes[at] += count <= most


def line(name, value, labels):
    told = ",".join(f'{key}="{escaped(text)}"' for key, text in labels.items())
    return f"adsd_replica_{name}{{{told}}} {value}\n" if told else f"adsd_replica_{name} {value}\n"


def escaped(text):
    return str(text).replace("\\", "\\\\").replace('"', '\\"').replace("\n", "\\n")


def family(name, kind, told, *values):
    """The lines of a metric: each a value, or a value and its labels."""
    head = f"# HELP adsd_replica_{name} {told}\n# TYPE adsd_replica_{name} {kind}\n"
    pairs = [(one if isinstance(one, tuple) else (one, {})) for one in values]
    return head + "".join(line(name, value, labels) for value, labels in pairs)


def batches(counts):
    """The histogram of how many entries were put at once."""
    name = "batch_entries"
    head = f"# HELP adsd_replica_{name} How many entries were put at once.\n# TYPE adsd_replica_{name} histogram\n"
    made = [line(f"{name}_bucket", count, {"le": most}) for most, count in zip(BATCHES, counts.sizes)]
    made += [line(f"{name}_bucket", counts.batches, {"le": "+Inf"}), line(f"{name}_sum", counts.put, {}),
             line(f"{name}_count", counts.batches, {})]
    return head + "".join(made)


def text(replica):
    """All that is told of a replica."""
    applying, heads, room, counts = replica.applying, replica.heads, replica.room, replica.counts
    at, age = applying.number(), heads.age(applying.number())
    head = max(heads.known.number, heads.numbers)
    members = [(one.url, one) for one in room.members]
    return "".join((
        family("info", "gauge", "Which replica this is.",
               (1, {"log": applying.position.log, "name": applying.position.name, "reads": replica.options.reads})),
        family("entry", "gauge", "The last entry that the store has.", at),
        family("head", "gauge", "The log's last entry, as far as it is known here.", head),
        family("lag_entries", "gauge", "How many entries the store is behind.", max(0, head - at)),
        family("lag_seconds", "gauge", "How old it is at most what the store has.", f"{age:.3f}"),
        family("log_answers", "gauge", "Whether the log answers.", int(not heads.is_away)),
        family("keeper", "gauge", "Whether this replica puts steps and runs.", int(replica.keeper.is_keeper())),
        family("entries_total", "counter", "Entries that the program has taken since the start.", counts.entries),
        family("entries_changing_total", "counter", "Those of them that changed the directory.", counts.changed),
        family("refused_total", "counter", "Changes that were answered without an entry.", counts.refused),
        family("put_bytes_total", "counter", "Bytes of entries that this replica put.", counts.bytes),
        batches(counts),
        family("clients", "gauge", "How many clients there are.", len(replica.sessions)),
        family("etcd_bytes", "gauge", "The size of a member's file.", *((one.size, {"member": url})
                                                                        for url, one in members)),
        family("etcd_used_bytes", "gauge", "How much of it is in use.", *((one.used, {"member": url})
                                                                          for url, one in members)),
        family("etcd_quota_bytes", "gauge", "How large it may become.", *((one.quota, {"member": url})
                                                                          for url, one in members)),
        family("etcd_alarms", "gauge", "How many alarms etcd has.", len(room.alarms)),
    ))


async def served(replica, address):
    """A server that tells them."""

    async def client(reader, writer):
        try:
            head = await asyncio.wait_for(reader.readuntil(b"\r\n\r\n"), SECONDS)
            word, _, rest = head.partition(b" ")
            good = word == b"GET" and rest.split(b" ")[0].split(b"?")[0] in (b"/metrics", b"/")
            body = (text(replica) if good else "GET /metrics\n").encode()
            status = b"200 OK" if good else b"404 Not Found"
            writer.write(b"HTTP/1.1 %s\r\nContent-Type: text/plain; version=0.0.4; charset=utf-8\r\n"
                         b"Content-Length: %d\r\nConnection: close\r\n\r\n" % (status, len(body)) + body)
            await asyncio.wait_for(writer.drain(), SECONDS)
        except (OSError, asyncio.TimeoutError, asyncio.IncompleteReadError, asyncio.LimitOverrunError):
            pass
        finally:
            writer.close()

    return await asyncio.start_server(client, *address, limit=LONGEST)
