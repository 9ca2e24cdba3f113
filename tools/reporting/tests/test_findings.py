"""What looks wrong in a history: by itself, and by the last attempt that the report was told; what the program never
writes."""
import unittest
from pathlib import Path

from history_texts import RUN, offer, text_of
from reporting.findings import Finding
from reporting.tests.support import figures

MILLISECOND = 1_000_000


def attempts_of_one_job(*moments: int) -> list[str]:
    """A job that is given at these moments, and is offered again each time."""
    return [line.format(place=place, attempt=place + 1, at=at, first=moments[0]) for place, at in enumerate(moments)
            for line in ("1 {at} {at} offer {place} {at} 0 {first} {attempt} a", "1 {at} {at} take {place}")]


def failing(jobs: int, attempts: int, delay: int) -> list[str]:
    """Jobs that are offered at once, and then taken in turn by one seat that fails each."""
    lines = [offer(job, 0, f"job-{job}") for job in range(jobs)]
    queue, moment, id = [(0, job, job, 1) for job in range(jobs)], 0, jobs
    while queue:
        expiry, job, own, attempt = queue.pop(0)
        moment = max(moment, expiry)
        lines.append(f"1 {moment} {moment} take {own}")
        if attempt < attempts:
            lines.append(f"1 {moment} {moment} offer {id} {moment + delay} {job} 0 {attempt + 1} job-{job}")
            queue.append((moment + delay, job, id, attempt + 1))
            id += 1
    return lines


def at_once(jobs: str, times: int) -> str:
    return (f"{jobs} came back at once, {times} times in all: due at most 1.00 ms after failing; the delay is tiny, or"
            " the next moment of their rate had passed")


# Ten jobs of a rate whose next moment, 500, had passed when they were given at 900.
PASSED = [*(offer(job, 0) for job in range(10)), "1 900 900 drain 10 " + " ".join(map(str, range(10))),
          *(f"1 900 900 offer {10 + job} 500 {job} 0 2 a" for job in range(10))]

# Events, and all that looks wrong in them.
FINDINGS: list[tuple[list[str], list[str]]] = [
    (attempts_of_one_job(0, 5, 1_000_000), [at_once("1 job", 2)]),
    (attempts_of_one_job(0, 5), []),
    (failing(10, 2, MILLISECOND), [at_once("10 jobs", 10)]),
    (failing(10, 2, MILLISECOND + 1), []),
    (failing(9, 2, MILLISECOND), []),
    (PASSED, [at_once("10 jobs", 10), "10 elements never left the queue; 10 of them had expired at the end, the"
                                      " earliest 400 ns before"]),
    ([offer(0, 5), offer(1, 10), offer(2, 11), "1 10 10 size 3"],
     ["3 elements never left the queue; 2 of them had expired at the end, the earliest 5 ns before"]),
    ([offer(0, 5), offer(1, 9), "1 0 0 clear"], ["2 elements were discarded by 1 clear"]),
    (["1 0 0 clear"], []),
    (["1 0 0 poll none"] * 100,
     ["100.0 % of 100 polls found nothing; a take or a timed poll waits, and is one call"]),
    (["1 0 0 poll none"] * 99, []),
    ([offer(id, 5) for id in range(100)],
     ["100 elements never left the queue; 0 of them had expired at the end",
      "the queue was about as deep at the end (100) as ever (100): more came in than left"]),
    ([offer(id, 5) for id in range(99)], ["99 elements never left the queue; 0 of them had expired at the end"]),
]

NEVER_WRITTEN = Path(__file__).with_name("never_written.txt").read_text("utf-8")


class FindingsTest(unittest.TestCase):
    def test_what_looks_wrong(self) -> None:
        for events, says in FINDINGS:
            self.assertEqual([finding.says for finding in figures(text_of(*events)).findings], says)

    def test_what_the_program_never_writes(self) -> None:
        for row in NEVER_WRITTEN.splitlines()[2:]:
            fault, events = row.split(" | ")
            says = f"1 job was {fault}: this history is not one that the program wrote, or its opening is not"
            with self.subTest(row):
                origin = int(events.split(" ")[6])
                self.assertEqual(figures(text_of(*events.split(" / "))).findings[0], Finding(says, [origin]))

    def test_an_opening_that_no_run_leaves(self) -> None:
        twice = RUN.replace("keep 2 150 1 120 2 b", "keep 2 150 0 90 2 a")
        self.assertIn("1 job was in the queue twice at once: ", figures(twice).findings[0].says)
        self.assertEqual(figures(RUN).findings, [])

    def test_last_attempts(self) -> None:
        begun = (offer(0, 0), "1 0 0 take 0", "1 0 0 offer 1 5 0 0 2 a")
        for events, last, given in [
            (failing(3, 3, 1000), 3, [0, 1, 2]), (failing(3, 3, 1000), 4, []), (failing(3, 3, 1000), None, []),
            *(([*begun, end], 2, []) for end in ("1 9 9 size 1", "1 9 9 remove 1 yes", "1 9 9 clear")),
        ]:
            self.assertEqual(figures(text_of(*events), last).jobs.last_given, given)
