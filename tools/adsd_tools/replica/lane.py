"""Calls of the log beside the loop that serves clients, one after the other."""

import asyncio
from concurrent.futures import ThreadPoolExecutor


class Lane:
    """A thread with a connection to the log of its own."""

    def __init__(self, log):
        self.log, self.pool = log.other(), ThreadPoolExecutor(1)

    async def call(self, work, *given):
        """What some work on the log gives; Away where no member answers."""
        return await asyncio.get_running_loop().run_in_executor(self.pool, work, self.log, *given)

    def close(self):
        self.pool.shutdown(wait=False)
