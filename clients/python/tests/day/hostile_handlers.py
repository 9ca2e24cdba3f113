"""Handlers of a hostile day. The workers that run them are processes of their own, and are killed at any moment."""
import asyncio
import time

HANG = 3.0  # seconds, which is longer than the timeout of the workers


def pause_of(job):
    """How long a handler takes: one in five hundred hangs in its first attempt."""
    return HANG if job.attempt == 1 and int(job.payload) % 500 == 250 else 0.001


def fail_now_and_then(job):
    """Each tenth job fails in its first attempt."""
    if job.attempt == 1 and int(job.payload) % 10 == 0:
        raise ValueError(f"{job.payload} is to fail")


def handle(job):
    time.sleep(pause_of(job))
    fail_now_and_then(job)


async def handle_async(job):
    await asyncio.sleep(pause_of(job))
    fail_now_and_then(job)
