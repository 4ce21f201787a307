"""Etcd as tests ask it, on a machine that may have much else to do."""

import time

from adsd_tools.replica.etcd import Away, Etcd

# So long one call is waited for: of the only member, and of one of several; and so long it is asked anew where no
# member answers, in seconds.
LONG, SHORT, ANEW = 30, 10, 120


class Patient(Etcd):
    """Etcd's members, which are waited for as long as a busy machine may take, and asked for what they have until one
    answers. What changes something is asked once: it may have been done."""

    def call(self, path, asked, patience=LONG):
        end = time.monotonic() + ANEW
        while True:
            try:
                return super().call(path, asked, LONG if len(self.urls) == 1 else max(patience, SHORT))
            except Away:
                if not is_question(path, asked) or time.monotonic() >= end:
                    raise
                time.sleep(0.2)


def is_question(path, asked):
    """Whether a call of etcd changes nothing."""
    done = asked.get("success", []) + asked.get("failure", [])
    return path == "kv/range" or (path == "kv/txn" and all("request_range" in one for one in done))
