"""Work that takes a while, beside the loop that serves others. It costs its client the place, as frames do."""

import asyncio
import time

from .shares import charge

# Work over so many bytes is done beside.
HEAVY = 262_144


async def beside(weight, work, *given):
    """Does some work over so many bytes; where it is heavy, others are served meanwhile."""
    if weight < HEAVY:
        return work(*given)
    begun = time.monotonic()
    try:
        return await asyncio.get_running_loop().run_in_executor(None, work, *given)
    finally:
        charge(time.monotonic() - begun)
