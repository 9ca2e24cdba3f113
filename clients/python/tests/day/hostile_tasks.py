"""Tasks of a hostile day. The processes that offer them, and those that run them, are killed at any moment."""
import multiprocessing
import os
import random
import threading
import time
from concurrent.futures import ThreadPoolExecutor

from rb_broker_client import task_store, tasks
from records import process_of

ROOM, DELAYS = os.environ["TASKS_ROOM"], (0, 0, 0.2, 2)
AT_ONCE = 8  # tasks that one process offers
if os.environ["TASKS_BRIEF"]:
    tasks.STALE, task_store.STALE, task_store.UNSENT = 2.0, 2.0, 0.5
app = tasks.Tasks(f"{ROOM}/tasks.db", int(os.environ["TASKS_PORT"]), patience=1,
                  overdue=2 if os.environ["TASKS_BRIEF"] else 60)


def note(name, *words):
    """Adds a line to a file, which no kill of this process cuts."""
    with open(f"{ROOM}/{name}", "ab", buffering=0) as file:
        file.write((" ".join(map(str, words)) + "\n").encode())


@app.task(attempts=1_000, backoff=lambda failures: 0.05, timeout="2s", name="work")
def work(number):
    """One in a hundred may hang where that ends its process, and one in ten may fail."""
    run = number, process_of(os.getpid()), time.monotonic_ns()
    note("runs", "begins", *run)
    if number % 100 == 7 and multiprocessing.parent_process() and random.random() < 0.5:
        time.sleep(600)
    time.sleep(random.uniform(0, 0.02))
    if number % 10 == 0 and random.random() < 0.5:
        note("runs", "fails", *run)
        raise ValueError(number)
    note("runs", "ends", *run)


def offer(first, end, pause):
    """Offers the tasks of these numbers, several at a time, with pauses of up to so many seconds."""
    numbers, in_order = iter(range(first, end)), threading.Lock()

    def offer_next(_):
        with in_order:
            number = next(numbers)
            note("offers", "begins", number)
        work.later(random.choice(DELAYS), number)
        note("offers", "ends", number)
        time.sleep(random.uniform(0, pause))

    with ThreadPoolExecutor(AT_ONCE) as threads:
        list(threads.map(offer_next, range(first, end)))  # which raises what one has raised
