"""What the bridge asks for by itself: steps of propagation while something is pending, and protection runs."""

import struct
import time

from .program import RUN, STEPS

# So long pending steps wait for clients' requests, in seconds. Then they have their turn also where requests wait.
PATIENCE = 0.2


class Upkeep:
    """When the next steps and the next run are due. With 0 steps there are none, and with 0 seconds no run."""

    def __init__(self, steps, every, log):
        self.steps, self.every, self.log = steps, every, log
        self.pending, self.made, self.waits_since = True, 0, time.monotonic()
        self.next_run = time.monotonic() + every if every else None

    def changed(self):
        """Something was changed, so that steps may be pending."""
        if not self.pending:
            self.pending, self.waits_since = True, time.monotonic()

    def run_is_due(self):
        return self.next_run is not None and time.monotonic() >= self.next_run

    def is_due(self):
        return bool(self.steps and self.pending) or self.run_is_due()

    def presses(self):
        """Whether it has its turn before clients' requests."""
        return self.is_due() and (self.run_is_due() or time.monotonic() - self.waits_since >= PATIENCE)

    def seconds_left(self):
        """How long until it may be due by itself, or None."""
        return None if self.next_run is None else max(0.0, self.next_run - time.monotonic())

    async def turn(self, program):
        """One frame of it; whether it changed the directory."""
        if self.run_is_due():
            changed, protected = struct.unpack(">II", await program.ask(RUN, 0, b""))
            self.next_run = time.monotonic() + self.every
            self.log.change(f"protection run: {changed} objects changed, {protected} protected")
            if changed:
                self.changed()
            return changed > 0
        made, left = struct.unpack(">II", await program.ask(STEPS, 0, struct.pack(">I", self.steps)))
        self.made, self.pending, self.waits_since = self.made + made, left > 0, time.monotonic()
        if not left and self.made:
            self.log.change(f"propagation: {self.made} steps made, nothing pending")
            self.made = 0
        return made > 0
