"""A program of both kinds of each client. Each type in it is right; test_building.py makes some of them wrong."""
from rb_broker_client import AsyncBroker, AsyncProducer, AsyncWorker, Broker, DeadLetters, Job, Producer, Worker


def deliver(job: Job) -> None:
    print(job.payload)


async def deliver_async(job: Job) -> None:
    print(job.payload)


def work() -> None:
    with Broker(7011) as broker:
        broker.take().done()
        job = broker.poll_for(timeout=1)
        if job is not None:
            print(job.fail())
        for it in broker.drain(5):
            it.done()
    Worker(deliver, 7011, on_dead=DeadLetters("dead.jsonl")).run()
    Worker(deliver, 7011, on_dead=deliver).run()
    with Producer(7011) as producer:
        producer.offer("a", delay=1)


async def work_async() -> None:
    async with AsyncBroker(7011) as broker:
        await (await broker.take()).done()
        for it in await broker.drain(5):
            print(await it.fail())
    await AsyncWorker(deliver_async, 7011, on_dead=DeadLetters("dead.jsonl")).run()
    await AsyncWorker(deliver_async, 7011, on_dead=deliver).run()
    async with AsyncProducer(7011) as producer:
        await producer.offer("a", delay=1)
