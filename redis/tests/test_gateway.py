"""Gateways as processes, with clients that wait, leave and come back."""
from __future__ import annotations

import signal
import time

from gateway_test import GatewayTest
from judging import replay_chains
from nodes import wait_until
from rb_broker_redis.address import read_address

MILLISECOND = 1_000_000


class RequestsTest(GatewayTest):
    def test_each_request_has_its_reply(self) -> None:
        talker = self.talker()
        self.assert_talk(talker, "SIZE = SIZE 0")
        word, id, expiry = talker.ask("OFFER 0 a").split()
        self.assertEqual((word, id), ("OFFERED", "0"))
        self.assertLess(abs(int(expiry) - time.time_ns()), 60 * 10**9)
        self.assert_talk(
            talker, "OFFERAT 18446744073709551615 last = OFFERED 1 18446744073709551615", f"PEEK = HEAD 0 {expiry} 1 a",
            f"POLL = ITEM 0 {expiry} 1 a", "POLL = NONE", "REMOVE 0 = REMOVED no", "REMOVE 1 = REMOVED yes",
            r"FAIL 0 = AGAIN 2 \d+", "DRAIN 64 = DRAINED 1", r"= ITEM 2 \d+ 2 a", "DONE 2 = DONE 2",
            "DONE 2 = ERR 5 not-held", "OFFER 18446744073709551615 a = ERR 3 range", "AT 5 = ERR 1 syntax",
            "AT 05 = ERR 2 number", "CLEAR = CLEARED", "QUIT = BYE", "= ")

    def test_moments_are_dates_and_never_go_back(self) -> None:
        queue = self.joined()
        queue.call("rb_calls", f"{2**63:020}", "", "0 SIZE")  # an event that is still to come
        self.assert_talk(self.talker(), f"OFFERAT {2**63} a = OFFERED 0 {2**63}", f"POLL = ITEM 0 {2**63} 1 a")

    def test_polls_that_find_nothing_need_not_be_kept(self) -> None:
        served = self.gateway("--brief-history", "--wait", "60s")
        talker = self.talker(served)
        self.assert_talk(talker, "POLL = NONE", "POLLFOR 0 = NONE", "POLLFOR 1000000 = NONE", "DRAIN 5 = DRAINED 0")
        self.assertEqual(self.events(), [])
        self.assert_talk(talker, "OFFER 0 a = OFFERED .*", "POLL = ITEM .*", "POLL = NONE", "SIZE = SIZE 0",
                         "DONE 0 = DONE 0")
        self.assertEqual([it[3] for it in self.events()], [b"offer", b"poll", b"size"])
        self.assertEqual(self.ran("archive", self.room / "archive")[0], 0)
        (path,) = (self.room / "archive").iterdir()
        self.assertEqual(replay_chains(path, 30_000_000_000, 20), 3)

    def test_how_many_events_are_kept(self) -> None:
        for options, most in (
            ((), b"1000000 drop"), (("--history-events", 500, "--history-end", "refuse"), b"500 refuse"),
            ((), b"500 refuse"), (("--history-events", 0), None), ((), None),
        ):
            self.serve(*options).end()
            self.assertEqual(self.node.ask("HGET", self.queue().state, "most"), most)


class WaitsTest(GatewayTest):
    def test_a_take_waits_until_an_element_is_due(self) -> None:
        talker = self.talker(None, "--wait", "60s")

        def lateness() -> int:
            expiry = int(talker.ask(f"OFFER {300 * MILLISECOND} a").split()[2])
            self.assert_talk(talker, "TAKE = ITEM .*")
            given = int(self.events()[-1][2])
            self.assertGreaterEqual(given, expiry)
            return given - expiry

        wait_until(lambda: lateness() < 1_000 * MILLISECOND, "no element is given when it is due")

    def test_a_wait_is_given_up(self) -> None:
        talker = self.talker(None, "--wait", "300ms")
        begun = time.monotonic()
        self.assert_talk(talker, "TAKE = STOPPED", "POLLFOR 60000000000 = STOPPED")
        self.assertGreaterEqual(time.monotonic() - begun, 0.6)

    def test_a_timed_poll_gives_up_at_its_deadline(self) -> None:
        talker = self.talker(None, "--wait", "20s")
        self.assert_talk(talker, "POLLFOR 0 = NONE", f"POLLFOR {200 * MILLISECOND} = NONE")
        words = self.events()[-1]
        self.assertGreaterEqual(int(words[1]), int(words[4]) + 200 * MILLISECOND)

    def test_who_waits_first_is_served_first(self) -> None:
        served = self.serve("--wait", "60s")
        waiting = [self.talker(served) for _ in range(20)]
        for talker in waiting:
            self.begin_wait(talker, "TAKE")
        offering = self.talker(served)
        offering.send("".join(f"OFFERAT {it} job-{it}\n" for it in range(20)))
        self.assert_talk(offering, *["= OFFERED .*"] * 20)
        for number, talker in enumerate(waiting):
            self.assert_talk(talker, f"= ITEM .* job-{number}")

    def test_nobody_polls_while_nothing_is_due(self) -> None:
        talker = self.talker(None, "--wait", "60s", "--lease", "1h")
        self.assert_talk(talker, f"OFFER {3_600_000 * MILLISECOND} a = OFFERED .*")
        self.assert_waits(talker, "TAKE")
        before = self.calls()
        self.assertTrue(talker.is_silent(1.5))
        self.assertEqual(self.calls(), before)

    def calls(self) -> int:
        """How often a function was called. A lease of an hour is renewed later."""
        with self.node.client() as client:
            return client.info("commandstats")["cmdstat_fcall"]["calls"]


class EndsTest(GatewayTest):
    def test_nothing_is_given_to_a_session_whose_lease_was_over(self) -> None:
        late, other = self.serve("--lease", "6s", "--wait", "60s"), self.serve("--lease", "6s", "--wait", "60s")
        holder, polling, waiting, heir = (self.talker(it) for it in (late, late, late, other))
        self.assert_talk(holder, "OFFER 0 a = OFFERED .*", "OFFER 0 b = OFFERED .*", "TAKE = ITEM .*")
        self.assert_talk(polling, "SIZE = SIZE 1")
        self.assert_talk(heir, "TAKE = ITEM .*")
        self.assert_waits(waiting, "TAKE")
        late.pause()
        self.assert_talk(heir, "TAKE = ITEM .* 2 a", "OFFER 0 c = OFFERED .*")
        polling.send("POLL\n")
        late.go_on()
        self.assertEqual([it.rest() for it in (holder, polling)], [[], []])
        self.assertIn(waiting.rest(), ([], ["STOPPED"]))
        self.assert_talk(heir, "TAKE = ITEM .* 1 c")
        self.assert_talk(self.talker(late), "OFFER 0 d = OFFERED .*", "POLL = ITEM .* 1 d")
        events = self.events()
        self.assertEqual([it for it in events if it[0] == events[0][0]][-1][-2:], [b"2", b"a"])

    def test_a_second_sigterm_ends_it_at_once(self) -> None:
        served = self.gateway("--grace", "60s")
        self.assert_talk(self.talker(served), "OFFER 0 a = OFFERED .*", "POLL = ITEM .*")
        waiting = self.talker(served)
        self.begin_wait(waiting, "TAKE")
        served.signal(signal.SIGTERM)
        self.assert_talk(waiting, "= STOPPED")
        self.assertEqual((served.end(), served.told), (-signal.SIGTERM, []))

    def test_policies_have_to_agree(self) -> None:
        self.serve()
        self.assert_refused(3, f"queue {self.name} has --delay 0ns --attempts 3: say the same, or nothing, or"
                            " --change-policy", "serve", "--port", 0, "--delay", "5s")
        self.assert_talk(self.talker(self.gateway()), "OFFER 0 a = OFFERED .*", "TAKE = ITEM .*", "FAIL 0 = AGAIN .*")
        changed = self.gateway("--attempts", 1, "--rate", "1h", "--change-policy")
        self.assert_talk(self.talker(changed), "TAKE = ITEM .*", "FAIL 1 = DEAD 1")

    def test_a_redis_that_keeps_no_file(self) -> None:
        said = "the Redis of queue .* has appendonly no: it may lose what was answered when it is killed"
        self.assertRegex(self.gateway().said, said)
        self.addCleanup(self.node.ask, "CONFIG", "SET", "appendonly", "no")
        self.node.ask("CONFIG", "SET", "appendonly", "yes")
        self.assertNotRegex(self.gateway().said, said)

    def test_a_redis_that_may_throw_queues_away(self) -> None:
        served = self.serve("--timeout", "60s")
        talker = self.talker(served)
        self.addCleanup(self.node.ask, "CONFIG", "SET", "maxmemory-policy", "noeviction")
        self.node.ask("CONFIG", "SET", "maxmemory-policy", "allkeys-lru")
        self.assert_refused(3, f"{read_address(self.node.url)}: its maxmemory-policy allkeys-lru may throw queues away: set noeviction"
                            " there, or say --allow-eviction", "serve", "--port", 0)
        self.assert_talk(self.talker(self.gateway("--allow-eviction")), "SIZE = SIZE 0")
        self.node.ask("CLIENT", "KILL", "TYPE", "normal")  # as where another node takes over
        wait_until(lambda: "EVICTS allkeys-lru" in served.said, "it does not say why it waits")
        talker.send("SIZE\n")
        self.assertTrue(talker.is_silent(0.3))
        self.node.ask("CONFIG", "SET", "maxmemory-policy", "noeviction")
        self.assert_talk(talker, "= SIZE 0")

    def test_a_port_that_is_in_use_is_named(self) -> None:
        port = self.serve().port
        self.assert_refused(3, f"cannot listen at 127.0.0.1:{port}: Address already in use", "serve", "--port", port)

    def test_words_are_refused_in_a_line(self) -> None:
        for words, line in (
            (["--lease", "5ms"], "--lease is at least 1s"),
            (["--bind", "0.0.0.0"], "other machines reach 0.0.0.0: serve them over TLS with --cert, or say --plain"),
            (["--key", "x"], "--key and --client-ca need --cert"),
            (["--cert", "nowhere"], "--cert, --key or --client-ca: [Errno 2] No such file or directory"),
            (["--wait", "5 s"], "argument --wait: '5 s' is no duration: write 30s or 1.5h (units are ns, us, ms, s, m, h,"
                                " d)"),
            (["--redis", "redis://:secret@127.0.0.1:1"],
             "argument --redis: a password in the command line is seen by others: write --redis @FILE, or"
             " RB_BROKER_REDIS"),
        ):
            with self.subTest(words=words):
                self.assert_refused(2, line, "serve", "--port", 0, *words)
