"""A timer that is exact to some microseconds."""
from __future__ import annotations

import asyncio
import time
import unittest

from nodes import PATIENCE
from rb_broker_redis.alarm import Alarm
from rb_broker_redis.protocol import SECOND


class AlarmTest(unittest.IsolatedAsyncioTestCase):
    async def asyncSetUp(self) -> None:
        self.rung: asyncio.Queue[int] = asyncio.Queue()
        self.alarm = Alarm(asyncio.get_running_loop(), lambda: self.rung.put_nowait(time.monotonic_ns()))

    async def next_ring(self) -> int:
        return await asyncio.wait_for(self.rung.get(), PATIENCE)

    async def test_it_rings_at_its_moment_and_not_before(self) -> None:
        async with asyncio.timeout(PATIENCE):  # a busy machine may be late
            late = SECOND
            while late >= SECOND // 1_000:  # to which a loop's own timers round up
                moment = time.monotonic_ns() + SECOND // 200
                self.alarm.set(moment)
                late = await self.next_ring() - moment
                self.assertGreaterEqual(late, 0)

    async def test_it_rings_at_once_where_its_moment_is_over(self) -> None:
        self.alarm.set(time.monotonic_ns() - SECOND)
        await self.next_ring()

    async def test_it_rings_once_and_at_the_moment_that_was_set_last(self) -> None:
        moment = time.monotonic_ns() + SECOND // 50
        for more in (SECOND, -SECOND // 100, 0):
            self.alarm.set(moment + more)
        self.assertGreaterEqual(await self.next_ring(), moment)
        self.alarm.set(time.monotonic_ns() + SECOND // 50)
        await self.next_ring()
        self.assertTrue(self.rung.empty())

    async def test_it_may_be_set_for_a_moment_that_never_comes(self) -> None:
        self.alarm.set(2**64)
        self.alarm.set(time.monotonic_ns())
        await self.next_ring()
