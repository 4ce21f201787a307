"""Passwords are checked beside the loop that serves others, of one peer no more than some at once."""

import asyncio
import os
from collections import OrderedDict
from concurrent.futures import ThreadPoolExecutor

# So many peers are remembered.
MOST = 1024


class Checks:
    """The threads in which passwords are checked. One is always left to other peers."""

    def __init__(self):
        count = max(2, os.cpu_count() or 2)
        self.lanes, self.of_each, self.peers = ThreadPoolExecutor(count, "check"), count - 1, OrderedDict()

    async def run(self, peer, work, *given):
        """Does the work for a peer, once it is its turn."""
        turn = self.peers.setdefault(peer, asyncio.Semaphore(self.of_each))
        self.peers.move_to_end(peer)
        while len(self.peers) > MOST:
            self.peers.popitem(last=False)
        async with turn:
            return await asyncio.get_running_loop().run_in_executor(self.lanes, work, *given)
