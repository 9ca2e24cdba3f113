"""A connection to a Redis that is lost."""
from __future__ import annotations

import asyncio
import importlib.util
import unittest

from nodes import PATIENCE
from rb_broker_redis.address import read_address
from rb_broker_redis.link import connect
from serving import HOST

class LinkTest(unittest.TestCase):
    def test_a_command_fails_if_the_connection_is_lost(self) -> None:
        with asyncio.Runner() as runner:
            runner.run(self.ask_at_a_loss())

    @unittest.skipUnless(importlib.util.find_spec("uvloop"), "there is no uvloop")
    def test_it_does_in_a_loop_of_uvloop(self) -> None:
        with asyncio.Runner(loop_factory=importlib.import_module("uvloop").new_event_loop) as runner:
            runner.run(self.ask_at_a_loss())

    async def ask_at_a_loss(self) -> None:
        """Asks before the connection is lost, and then after that."""

        async def hang_up(reader: asyncio.StreamReader, writer: asyncio.StreamWriter) -> None:
            await reader.readline()
            writer.close()

        server = await asyncio.start_server(hang_up, HOST, 0)
        port = server.sockets[0].getsockname()[1]
        link = await connect(HOST, port, read_address(f"redis://{HOST}:{port}"), 10 * PATIENCE)
        for _ in range(2):
            with self.assertRaises(ConnectionError):
                await asyncio.wait_for(link.ask("PING"), PATIENCE)
            await link.lost.wait()
        server.close()
