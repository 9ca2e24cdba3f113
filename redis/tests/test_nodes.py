"""The processes of which the days are made."""
from __future__ import annotations

import threading

from nodes import Process, wait_until
from redis_test import RoomTest

TEXT = "x" * 999_999 + "\n"  # more than a pipe takes


class GivenTest(RoomTest):
    def started(self, *words: str) -> Process:
        process = self.till_end(Process(words, self.room / "log"))
        process.start()
        return process

    def test_who_gives_does_not_wait_until_all_is_read(self) -> None:
        """A producer reads the payloads of a long day until its end, and meanwhile all goes wrong."""
        giving = threading.Thread(target=self.started("sleep", "600").give, args=(TEXT,), daemon=True)
        giving.start()
        giving.join(30)
        self.assertFalse(giving.is_alive())

    def test_all_that_is_given_comes(self) -> None:
        process = self.started("cat")
        process.give(TEXT)
        wait_until(lambda: not process.is_alive, "it does not end")
        self.assertEqual(process.said, TEXT)

    def test_what_is_given_is_lost_with_the_process(self) -> None:
        process = self.started("sleep", "600")
        process.give(TEXT)
        process.kill()
        self.assertFalse(process.is_alive)
