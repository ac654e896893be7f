#!/usr/bin/env python3
"""The family sum_puts of bench/run in asyncio: two workers put numbers into a buffer, which keeps their sum.

usage: buffer_asyncio.py NUMBER     puts so many numbers, and prints the sum

A cog is a lock, which a task holds while it runs, and a call is a task of its own. A worker that awaits a put lets its
cog go, and takes it again when the put has ended.
"""
import asyncio
import sys


class Keeper:
    """Keeps the sum of the numbers that are put."""

    def __init__(self):
        self.cog = asyncio.Lock()
        self.kept = 0

    async def put(self, number):
        async with self.cog:
            self.kept = self.kept + number


class Worker:
    """Puts so many numbers into a buffer, one after another."""

    def __init__(self, buffer, count):
        self.cog = asyncio.Lock()
        self.buffer = buffer
        self.count = count

    async def run(self):
        async with self.cog:
            i = 0
            while i < self.count:
                future = asyncio.create_task(self.buffer.put(i))
                if not future.done():
                    self.cog.release()
                    await future
                    await self.cog.acquire()
                i = i + 1


async def sum_of(puts):
    """What the buffer keeps after so many puts. Where they are odd, the first worker has one more."""
    buffer = Keeper()
    workers = [Worker(buffer, count) for count in ((puts + 1) // 2, puts // 2)]
    for run in [asyncio.create_task(worker.run()) for worker in workers]:
        await run
    return buffer.kept


if __name__ == "__main__":
    print(asyncio.run(sum_of(int(sys.argv[1]))))
