"""How many replicas are waited for, by what Sentinels and the primary say."""
from __future__ import annotations

import asyncio
import unittest
from unittest import mock

from rb_broker_redis.address import read_address
from rb_broker_redis.replicas import MOST_REPLICAS, Replica, Replicas, Told
from rb_broker_redis.resp import ErrorAnswer

ONE, TWO, THREE = (("127.0.0.1", port) for port in (7001, 7002, 7003))


def follows(place: tuple[str, int]) -> Replica:
    return Replica(place, is_down=False, follows=True)


def down(place: tuple[str, int]) -> Replica:
    return Replica(place, is_down=True, follows=True)


def apart(place: tuple[str, int]) -> Replica:
    """One that is up, and is no replica, or has not got all yet."""
    return Replica(place, is_down=False, follows=False)


def info(*lines: tuple[tuple[str, int], str, int, int]) -> bytes:
    """What a primary's INFO says of replicas, each with its state, what it has, and when it said that."""
    replicas = (f"slave{number}:ip={host},port={port},state={state},offset={offset},lag={lag}\r\n"
                for number, ((host, port), state, offset, lag) in enumerate(lines))
    return f"# Replication\r\nrole:master\r\n{''.join(replicas)}master_failover_state:x".encode()


def role(*offsets: tuple[tuple[str, int], int]) -> list[object]:
    """What its ROLE says of replicas, with what each has."""
    return [b"master", 9, [[host.encode(), b"%d" % port, b"%d" % offset] for (host, port), offset in offsets]]


class FakeSentinel:
    """A Sentinel that answers each question by the next of these words, and the others by the last of them. A replica
    that is down has these flags."""

    def __init__(self, *told: Told, flags: str = "s_down,slave") -> None:
        self._told, self._flags = [*told], flags

    def _next(self) -> Told:
        return self._told.pop(0) if len(self._told) > 1 else self._told[0]

    async def sentinel_get_master_addr_by_name(self, master: str) -> tuple[str, int]:
        return self._next().primary

    async def sentinel_slaves(self, master: str) -> list[dict[str, object]]:
        return [{"ip": host, "port": port, "is_sdown": is_down, "is_odown": False,
                 "flags": self._flags if is_down else "slave", "role-reported": "slave",
                 "master-link-status": "ok" if follows else "err"}
                for (host, port), is_down, follows in self._next().replicas]


class ReplicasTest(unittest.TestCase):
    def setUp(self) -> None:
        self.replicas = Replicas(read_address("redis+sentinel://a,b,c/main"))

    def assert_wanted(self, count: int | None, *told: Told) -> None:
        """So many have to have what is done, once Sentinels say this; a single one stands for three."""
        self.replicas.take(told * 3 if len(told) == 1 else told)
        self.assertEqual(self.replicas.wanted, count)

    def test_nothing_is_known_before_a_majority_has_said_it(self) -> None:
        self.replicas.take([Told(ONE, [follows(TWO)])])
        self.assertEqual((self.replicas.wanted, self.replicas.primary), (None, None))
        self.assert_wanted(2, Told(ONE, [follows(TWO), follows(THREE)]))
        self.replicas.take([Told(TWO, [down(ONE), down(THREE)])])
        self.assertEqual((self.replicas.wanted, self.replicas.primary), (2, ONE))

    def test_one_that_is_down_is_not_waited_for_until_a_sentinel_reaches_it(self) -> None:
        """That may let it take over, by what it knew of it before."""
        up, gone = Told(ONE, [follows(TWO), follows(THREE)]), Told(ONE, [follows(TWO), down(THREE)])
        self.assert_wanted(2, up)
        self.assert_wanted(2, gone, gone, up)
        self.assert_wanted(1, gone, gone)
        self.assert_wanted(1, gone)
        self.assert_wanted(2, gone, gone, Told(ONE, [follows(TWO), apart(THREE)]))
        self.assert_wanted(2, up)

    def test_never_fewer_than_a_majority_with_the_primary(self) -> None:
        self.assert_wanted(1, Told(ONE, [down(TWO), down(THREE)]))
        self.assert_wanted(1, Told(ONE, [down(TWO)]))
        self.assert_wanted(0, Told(ONE, []))

    def test_a_primary_that_does_not_know_that_it_is_replaced_answers_nothing(self) -> None:
        """It has lost the replica that takes its place, and waits for both, until the Sentinels name the new one."""
        self.assert_wanted(2, Told(ONE, [follows(TWO), follows(THREE)]))
        self.assert_wanted(2, Told(ONE, [apart(TWO), follows(THREE)]))
        promoted = Told(TWO, [apart(TWO), follows(THREE)])
        before = Told(ONE, [apart(TWO), follows(THREE)]), Told(ONE, [follows(TWO), follows(THREE)])
        self.assert_wanted(2, promoted, *before)
        self.assert_wanted(1, Told(TWO, [apart(ONE), follows(THREE)]))
        self.assertEqual(self.replicas.primary, TWO)
        self.assert_wanted(2, Told(TWO, [follows(ONE), follows(THREE)]))

    def test_nor_once_they_name_it_though_as_many_follow_as_that_one_waits_for(self) -> None:
        self.assertEqual(self.replicas.wanted_at(ONE), MOST_REPLICAS)
        for told, wanted in ((Told(ONE, [follows(TWO), follows(THREE)]), (2, MOST_REPLICAS)),
                             (Told(TWO, [apart(ONE), follows(THREE)]), (MOST_REPLICAS, 1))):
            self.replicas.take([told, told, Told(ONE, [follows(TWO), follows(THREE)])])
            self.replicas.see(role((THREE, 9)))
            self.assertEqual((self.replicas.wanted_at(ONE), self.replicas.wanted_at(TWO)), wanted)

    def test_one_that_has_just_stood_still_is_not_waited_for_either(self) -> None:
        self.assert_wanted(2, Told(ONE, [follows(TWO), follows(THREE)]))
        self.assert_wanted(1, Told(TWO, [down(ONE), follows(THREE)]))
        self.assert_wanted(1, Told(TWO, [apart(ONE), follows(THREE)]))

    def test_what_most_name_counts_though_they_are_too_few_to_replace_a_primary(self) -> None:
        self.assertIsNone(self.replicas.named)
        before, after = Told(ONE, [down(TWO), down(THREE)]), Told(TWO, [down(ONE), follows(THREE)])
        for told, named, primary in (([before], ONE, None), ([before, after, after], TWO, TWO), ([before], ONE, TWO), ([], None, TWO)):
            self.replicas.take(told)
            self.assertEqual((self.replicas.named, self.replicas.primary), (named, primary))

    def test_who_follows_the_primary_by_its_own_word_counts_though_no_sentinel_reaches_it(self) -> None:
        """Not one that is not in step, or has stood still or is cut off for a while."""
        self.assert_wanted(1, Told(ONE, [down(TWO), down(THREE)]))
        for state, lag, wanted in (("online", 0, 2), ("online", 2, 2), ("online", 3, 1), ("send_bulk", 0, 1)):
            self.replicas.follow(info((TWO, "online", 7, 1), (THREE, state, 7, lag)))
            self.assertEqual(self.replicas.wanted, wanted, (state, lag))

    def test_one_that_only_the_primary_counts_does_not_stand_for_one_that_only_sentinels_count(self) -> None:
        """The primary before has come back, and the third takes over before a Sentinel knows that the first follows."""
        self.assert_wanted(2, Told(ONE, [follows(TWO), follows(THREE)]))
        self.assert_wanted(1, Told(TWO, [apart(ONE), follows(THREE)]))
        self.replicas.follow(info((ONE, "online", 7, 0), (THREE, "online", 7, 0)))
        self.assertEqual(self.replicas.wanted, 2)
        for _ in range(2):  # the third leaves, and a Sentinel that knows why has not told the others yet
            self.replicas.take([Told(TWO, [apart(ONE), follows(THREE)])] * 2 + [Told(THREE, [apart(ONE), apart(TWO)])])
            self.replicas.follow(info((ONE, "online", 8, 0)))
            self.assertEqual(self.replicas.wanted, 2)

    def test_so_too_where_the_first_takes_over(self) -> None:
        self.assert_wanted(2, Told(ONE, [follows(TWO), follows(THREE)]))
        self.assert_wanted(1, Told(TWO, [apart(ONE), follows(THREE)]))
        self.replicas.see(role((ONE, 7), (THREE, 7)))
        self.assert_wanted(2, Told(TWO, [apart(ONE), follows(THREE)]))
        self.replicas.follow(info((THREE, "online", 8, 0)))
        self.assertEqual(self.replicas.wanted, 2)

    def test_one_that_follows_counts_from_the_first_call_on_that_the_primary_answers_with_it(self) -> None:
        told = Told(ONE, [follows(TWO), down(THREE)])
        self.assert_wanted(1, told)
        for seen, wanted in ((role((TWO, 7)), 1), (role((TWO, 8), (THREE, 5)), 2), (role((TWO, 9)), 2)):
            self.replicas.see(seen)
            self.assertEqual(self.replicas.wanted, wanted)
        self.replicas.follow(info((TWO, "online", 9, 0)))
        self.assertEqual(self.replicas.wanted, 1)

    def test_one_that_stands_still_counts_once_it_has_more(self) -> None:
        """Its connection may last for a minute."""
        self.assert_wanted(1, Told(ONE, [follows(TWO), down(THREE)]))
        self.replicas.follow(info((TWO, "online", 7, 0), (THREE, "online", 5, 3)))
        for seen, wanted in ((role((TWO, 8), (THREE, 5)), 1), (role((TWO, 9), (THREE, 6)), 2)):
            self.replicas.see(seen)
            self.assertEqual(self.replicas.wanted, wanted)

    def test_what_is_no_answer_of_a_primary_tells_nothing(self) -> None:
        self.assert_wanted(1, Told(ONE, [follows(TWO), down(THREE)]))
        for answer in (None, ErrorAnswer("NOPERM"), [b"slave", b"127.0.0.1", 7002, b"connected", 7]):
            self.replicas.see(answer)
            self.assertEqual(self.replicas.wanted, 1)

    def test_where_sentinels_have_other_names_the_greater_count_is_wanted(self) -> None:
        self.assert_wanted(2, Told(ONE, [follows(("b", 7002)), follows(("c", 7003))]))
        self.replicas.see(role((TWO, 7), (THREE, 7)))
        self.assertEqual(self.replicas.wanted, 2)
        self.assert_wanted(2, Told(ONE, [down(("b", 7002)), down(("c", 7003))]))

    def assert_looked(self, count: int, *sentinels: FakeSentinel) -> None:
        """So many have to have what the first node does, once these Sentinels were asked."""
        with mock.patch("rb_broker_redis.replicas.Sentinel", return_value=mock.Mock(sentinels=[*sentinels])):
            replicas = Replicas(read_address("redis+sentinel://a,b,c/main"))
        asyncio.run(replicas.look())
        self.assertEqual(replicas.wanted_at(ONE), count)

    def test_what_a_sentinel_says_of_two_primaries_is_not_taken_for_one_word(self) -> None:
        """It may learn of the next one while it is asked."""
        before, after = Told(ONE, [follows(TWO), follows(THREE)]), Told(TWO, [apart(ONE), follows(THREE)])
        self.assert_looked(2, *(FakeSentinel(before) for _ in range(3)))
        self.assert_looked(MOST_REPLICAS, *(FakeSentinel(before, after) for _ in range(3)))

    def test_one_that_was_chosen_to_take_over_is_waited_for_though_no_sentinel_reaches_it(self) -> None:
        told = Told(ONE, [down(TWO), follows(THREE)])
        for flags, count in (("s_down,slave", 1), ("s_down,slave,promoted", 2)):
            self.assert_looked(count, FakeSentinel(told), FakeSentinel(told), FakeSentinel(told, flags=flags))
