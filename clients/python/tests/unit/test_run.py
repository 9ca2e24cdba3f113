"""A server that has lost its run, as its clients notice; and one that goes on, of which nothing is logged."""
import unittest
from unittest.mock import Mock

from from_threads import for_both_kinds
from scripted import A, LAST, PATIENCE, WorkerCase, paragraphs, wait_for
from test_producer import ProducerCase, offer
from rb_broker_client import Greeting, InDoubtError, LostRun, NotOfferedError, Offered, Report, UnknownReplyError
from rb_broker_client.run import Run

GREETS = "AT 0 > RUN {} lost {} at {}, ERR 1 syntax"


class RunTest(unittest.TestCase):
    def test_which_sights_tell(self):
        for why, _, _, lines in paragraphs("sights.txt"):
            run = Run(log := Mock(), "a place")
            for number, sight in enumerate(" | ".join(lines).split(" | ")):
                method, *ids = sight.removesuffix(" lost").split()
                words = [*map(int, ids)]
                with self.subTest(why, number=number):
                    getattr(run, method)(*(words if method != "served" else [Greeting(*words, 0)]))
                    self.assertEqual(log.error.call_count + log.warning.call_count, sight.endswith(" lost"))
                    log.reset_mock()

    def test_what_is_in_doubt_begins_with_the_last_run_that_was_heard_of(self):
        told, heard = [], []
        run = Run(Mock(), "a place", told.append)
        run.on_greeting = heard.append
        for greeting in (Greeting(3, 0, 10), Greeting(3, 0, 10), Greeting(4, 0, 20), Greeting(7, 1, 50),
                         Greeting(1, 1, 70), Greeting(2, 2, 60)):
            run.served(greeting)
            wait_for(lambda: heard and heard[-1] == greeting)
        run.given(5)
        run.given(5)
        wait_for(lambda: len(told) == 4)
        self.assertEqual(told, [LostRun(20, 50), *[LostRun(0, 2**64 - 1)] * 3])
        self.assertEqual(len(heard), 5)

    def test_what_was_seen_long_ago_is_forgotten(self):
        """A worker of a broker that gives ids for years keeps few of them."""
        run = Run(log := Mock(), "a place")
        for number in range(5_000):
            run.given(number * 1_024)
        self.assertEqual((len(run._given), log.error.call_count), (4_096, 0))
        run.given(4_999 * 1_024)
        self.assertEqual(log.error.call_count, 1)


@for_both_kinds
class ProducerTest(ProducerCase):
    def test_a_producer_whose_next_server_begins_anew(self):
        producer = self.produce("OFFER 5 a > OFFERED 0 5; OFFER 5 b > OFFERED 1 9; > hangs up",
                                "OFFER 5 c > OFFERED 0 5; OFFER 5 d > OFFERED 1 6")
        self.assertEqual([offer(producer, it).id for it in "ab"], [0, 1])
        self.assert_session_ends()
        with self.logged() as said:
            self.assertEqual([offer(producer, it).id for it in "cd"], [0, 1])
        self.assertEqual(said.output, [
            f"ERROR:rb_broker_client.producer:the server at 127.0.0.1:{self.server.port} has lost its run: it gave id "
            "0 to a new job. What stood in its queue is gone, and ids of that run name other jobs now"])

    def test_a_producer_is_told_what_its_server_has_lost(self):
        told = []
        first, following = GREETS.format(7, 2, 5), GREETS.format(8, 3, 3_000_000_005)
        producer = self.produce(f"{first}; OFFER 5 a > OFFERED 0 5; > hangs up",
                                f"{following}; OFFER 5 b > OFFERED 1 9", on_lost_run=told.append)
        offered = offer(producer, "a")
        self.assertEqual((offered, offered.greeting), (Offered(0, 5), Greeting(7, 2, 5)))
        self.assert_session_ends()
        with self.logged("WARNING") as said:
            self.assertEqual(offer(producer, "b").greeting.run, 8)
        text = "has lost a run: what it accepted in the 3.0 seconds before its run 8 is in doubt"
        self.assertIn(text, said.output[0])
        wait_for(lambda: told)
        self.assertEqual(told, [LostRun(5, 3_000_000_005)])

    def test_what_a_run_did_not_answer_that_another_one_continues_is_offered_there(self):
        unheard, following = (f"{GREETS.format(7, 2, 5)}; OFFER 5 a > hangs up",
                              f"{GREETS.format(8, 2, 9)}; OFFER 5 a > OFFERED 0 5")
        producer = self.produce(unheard, following)
        self.assertEqual(offer(producer).greeting.run, 8)
        producer = self.produce(unheard, "AT 0 > hangs up", following)
        self.assertEqual(offer(producer), Offered(0, 5))
        producer = self.produce(unheard, f"{GREETS.format(7, 2, 5)}; > hangs up", following)
        self.assertEqual(offer(producer).greeting.run, 8, "the run that ends has served one more session")
        for other, patience in ((GREETS.format(8, 3, 9), PATIENCE), (GREETS.format(8, 2, 4), PATIENCE),
                                ("AT 0", PATIENCE), (GREETS.format(7, 2, 5), 0.3)):
            with self.subTest(other):
                producer = self.produce(unheard, other, patience=patience)
                self.assertRaises(InDoubtError, offer, producer)
                producer.close()

    def test_what_a_producer_says_that_waits(self):
        producer = self.produce("AT 0 > nothing", patience=0.5)
        told = r"all workers of the server at .* were busy for 0\.[5-9] seconds$"
        self.assertRaisesRegex(NotOfferedError, told, producer.offer, "a")


@for_both_kinds
class WorkerTest(WorkerCase):
    def test_a_worker_whose_next_server_begins_anew(self):
        for report, told, first, following in (
            (Report(done=2), "has lost its run: it gave a job of id 0 for the second time", A, A),
            (Report(again=2), "it gave id 1 to a second job that failed", "WAIT > ITEM 0 0 1 b; FAIL 0 > AGAIN 1 5",
             "WAIT > ITEM 7 0 1 b; FAIL 7 > AGAIN 1 5"),
        ):
            with self.logged() as said:
                self.assert_reports(report, f"{first}; WAIT > hangs up", f"{following}; {LAST}")
            (text,) = said.output
            self.assertIn(told, text)

    def test_a_worker_is_told_too_and_a_fault_of_that_is_logged(self):
        told = Mock(side_effect=ValueError("of the caller"))
        with self.logged("WARNING") as said:
            self.assert_reports(Report(done=2), f"{GREETS.format(7, 2, 5)}; {A}; WAIT > hangs up",
                                f"{GREETS.format(9, 3, 8)}; {A}; {LAST}", on_lost_run=told)
            wait_for(lambda: "of the caller" in said.output[-1])
        self.assertEqual((told.call_count, len(said.output)), (1, 2))

    def test_a_server_that_greets_ends_a_session_and_the_worker_goes_on_at_the_next(self):
        greets = GREETS.format(7, 2, 5)
        with self.logged("WARNING") as said:
            self.assert_reports(Report(done=3, again=1), f"{greets}; {A}; WAIT > STOPPED; > hangs up",
                                f"{greets}; WAIT > ITEM 1 0 1 a; DONE 1; WAIT > STOPPED; > hangs up",
                                f"{greets}; WAIT > ITEM 2 0 1 b; FAIL 2 > AGAIN 3 5; WAIT > ITEM 4 0 1 a; DONE 4; "
                                f"{LAST}")
        self.assertEqual([it.partition("\n")[0] for it in said.output],
                         ["WARNING:rb_broker_client.worker:attempt 1 of job b failed"])

    def test_what_is_no_greeting_is_no_reply_either(self):
        for line in ("RUN 7 lost 2", "RUN 07 lost 2 at 5", "run 7 lost 2 at 5", "RUN 7 lost 2 at 5 "):
            self.assertRaises(UnknownReplyError, self.work(f"AT 0 > {line}").run)
