"""Two versions of the package at one Redis."""
from __future__ import annotations

import os
import re
import shutil
import threading
from concurrent.futures import ThreadPoolExecutor
from pathlib import Path

from gateway_test import GatewayTest
from nodes import wait_until
from rb_broker_redis import library
from rb_broker_redis.library import SOURCE, VERSION
from serving.session import Session

CLIENTS = 4
REPLY = re.compile("[A-Z]+ ")
"""What is heard may be nothing, or a fault, too."""


class VersionsTest(GatewayTest):
    def test_a_later_version_takes_nothing_from_an_earlier_one(self) -> None:
        served = self.serve("--timeout", "60s")
        talker = self.talker(served)
        self.assert_talk(talker, "OFFER 0 a = OFFERED .*", "TAKE = ITEM .*")
        later = str(int(VERSION) + 1)
        source = SOURCE.replace(f"rb_broker_{VERSION}", f"rb_broker_{later}")
        self.node.ask("FUNCTION", "LOAD", source.replace(f"VERSION = '{VERSION}'", f"VERSION = '{later}'"))
        self.assertEqual(self.node.ask("FCALL", f"rb_version_{later}", 0), later.encode())
        self.node.ask("CLIENT", "KILL", "TYPE", "normal")
        self.assert_talk(talker, "DONE 0 = DONE 0")
        self.assert_talk(self.talker(self.gateway()), "SIZE = SIZE 0")

    def test_an_upgrade_under_load_loses_and_refuses_nothing(self) -> None:
        """Gateways of two versions serve, and then the earlier one ends. Its clients go on at the later one."""
        later, package = str(int(VERSION) + 1), self.room / "later" / "rb_broker_redis"
        shutil.copytree(Path(library.__file__).parent, package)
        source = SOURCE.replace(f"rb_broker_{VERSION}", f"rb_broker_{later}")
        (package / "broker.lua").write_text(source.replace(f"VERSION = '{VERSION}'", f"VERSION = '{later}'"))
        paths = os.pathsep.join([str(package.parent), os.environ["PYTHONPATH"]])
        first, second = self.gateway("--delay", "0s"), self.gateway(PYTHONPATH=paths)
        ended = threading.Event()
        with ThreadPoolExecutor(CLIENTS) as clients:
            told = [clients.submit(self.work, it, (first.port, second.port), ended) for it in range(CLIENTS)]
            wait_until(lambda: len(self.events()) > 20 * CLIENTS, "nobody works")
            self.assertEqual(first.end(), 0)
            ended.set()
            replies = [line for it in told for line in it.result()]
        self.assertEqual({it.split(" ")[0] for it in replies}, {"OFFERED", "ITEM", "DONE"})
        offered = [it[-1] for it in self.events() if it[3] == b"offer"]
        self.assertEqual((len(offered), len({*offered})), (len(replies) // 3, len(replies) // 3))
        self.assertEqual((self.held(), second.ask("SIZE")), (0, ["SIZE 0"]))
        self.assertIn(later.encode(), self.node.ask("FCALL", f"rb_version_{later}", 0))

    def work(self, number: int, ports: tuple[int, int], ended: threading.Event) -> list[str]:
        """Offers, takes and does jobs, one after the other, until ten rounds after the first gateway has ended. Gives
        the replies; a request that got none is made again at the other gateway."""
        replies: list[str] = []
        session, rounds, left = Session(ports[0]), 0, 10
        while left:
            left -= ended.is_set()
            for request in (f"OFFER 0 {number}-{rounds}", "TAKE", "DONE {}"):
                request = request.format(replies[-1].split(" ")[1] if replies else "")
                while not REPLY.match(reply := session.heard(request)):
                    session.hang_up()
                    session = Session(ports[1])
                replies.append(reply)
            rounds += 1
        session.hang_up()
        return replies

    def test_a_queue_of_a_later_format_is_refused(self) -> None:
        self.joined()
        self.node.ask("HSET", self.queue().state, "format", 2)
        self.assert_refused(3, f"queue {self.name} has format 2, of a later version of this package, which knows format"
                            " 1", "serve", "--port", 0)
        with self.assertRaisesRegex(Exception, "^FORMAT 2 1$"):
            self.queue().request("SIZE")
