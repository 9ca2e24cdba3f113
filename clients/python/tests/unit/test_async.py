"""What is of the clients of asyncio alone. The tests of the others are theirs too (`for_both_kinds`)."""
import asyncio
import contextvars
import threading
import unittest
from unittest.mock import AsyncMock, call

from scripted import A, GIVES_A, LAST, PATIENCE, WorkerCase, free_port
from rb_broker_client import AsyncBroker, AsyncProducer, AsyncWorker, Job, Offered, Report


class LoopTest(WorkerCase, unittest.IsolatedAsyncioTestCase):
    """Tasks that are cancelled, and those of jobs."""

    kind = AsyncWorker

    async def test_nothing_can_be_asked_while_the_reply_to_another_is_due(self):
        async with AsyncBroker(self.play("TAKE > nothing").port, patience=PATIENCE) as broker:
            with self.assertRaises(TimeoutError):
                await asyncio.wait_for(broker.take(), 0.05)
            with self.assertRaises(RuntimeError):
                await broker.size()

    async def test_the_next_offer_begins_another_session(self):
        server = self.play("AT 0; OFFER 5 a > nothing", "AT 0; OFFER 5 b > OFFERED 1 5")
        async with AsyncProducer(server.port, patience=PATIENCE) as producer:
            with self.assertRaises(TimeoutError):
                await asyncio.wait_for(producer.offer("a", delay=5e-9), 2)
            self.assertEqual(await producer.offer("b", delay=5e-9), Offered(1, 5))

    def make_hanging(self, steps, **options):
        """A worker whose handler ends once it is cancelled."""
        async def handle(job):
            try:
                await asyncio.sleep(10 * PATIENCE)
            finally:
                self.handled.append(job.payload)
                self.worker.stop()

        return self.work(f"{GIVES_A}; {steps}", handler=handle, **options)

    async def test_the_task_of_a_job_that_takes_longer(self):
        worker = self.make_hanging("FAIL 0 > AGAIN 1 5; QUIT", timeout=0.5)
        self.assertEqual((await worker.run(), self.handled), (Report(again=1), ["a"]))

    async def test_a_worker_ends_its_session_and_its_jobs(self):
        is_waiting = threading.Event()
        self.waits = lambda _: is_waiting.set()
        working = asyncio.ensure_future(self.make_hanging("BRIEF > waits: nothing", concurrency=2).run())
        await asyncio.to_thread(is_waiting.wait, PATIENCE)
        working.cancel()
        with self.assertRaises(asyncio.CancelledError):
            await working
        self.assertEqual(self.handled, ["a"])

    async def test_a_handler_that_is_cancelled_has_failed(self):
        cancels = AsyncMock(side_effect=asyncio.CancelledError)
        worker = self.work(f"{GIVES_A}; FAIL 0 > stops: AGAIN 1 5; QUIT", handler=cancels)
        self.assertEqual(await worker.run(), Report(again=1))

    async def test_each_job_is_a_task_of_its_own_in_the_context_of_the_worker(self):
        """What a handler sets is not seen by the next, though that begins when this one ends."""
        seen, word, tasks = [], contextvars.ContextVar("word", default="unset"), []

        async def handle(job):
            seen.append(word.get())
            tasks.append(asyncio.current_task())
            word.set("of a job")

        worker = self.work(f"{A}; {A}; {A}; {LAST}", handler=handle)
        word.set("of the worker")
        self.assertEqual(await worker.run(), Report(done=3))
        self.assertEqual((seen, len({*tasks})), (["of the worker"] * 3, 3))

    async def test_what_ends_at_once_is_told_in_one_piece_and_its_place_is_free(self):
        handle, calls = AsyncMock(return_value=None), [call(Job(id, 0, 1, it)) for id, it in enumerate("abc")]
        worker = self.work(f"{A}; DRAIN 2 > DRAINED 2, ITEM 1 0 1 b, ITEM 2 0 1 c; DONE 1; DONE 2; "
                           "DRAIN 2 > stops: DRAINED 0; QUIT", handler=handle, concurrency=2)
        self.assertEqual((await worker.run(), handle.call_args_list), (Report(done=3), calls))

    async def test_a_broker_before_it_is_connected_and_without_a_server(self):
        with self.assertRaises(RuntimeError):
            await AsyncBroker(7011).size()
        with self.assertRaises(ConnectionRefusedError):
            await AsyncBroker(free_port()).__aenter__()
