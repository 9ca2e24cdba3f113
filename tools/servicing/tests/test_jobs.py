"""Jobs through several runs, with workers in Perl that leave between two jobs, and with one whose sessions are cut."""
import time
from collections import Counter
from pathlib import Path

from examples.tests.processes import Worker
from rb_broker_formats.files import read_series
from servicing.opening import PROBE
from servicing.tests.process import ServiceTest, until

JOBS = 200

# Runs a job: notes it in FOLDER/delivered, but fails those that end in 7 the first time. $0 is the folder.
DELIVER = 'case $1 in *7) mkdir "$0/$1" 2> /dev/null && exit 1; esac; echo "$1" >> "$0/delivered"'


class JobsTest(ServiceTest):
    def test_nothing_is_lost_or_done_twice(self) -> None:
        """Each job is offered once, done once, and in the histories once."""
        service = self.begin("--every", "2s", "--delay", "100ms", "--calls", "20000")
        workers = [Worker(self.port, "sh", "-c", DELIVER, self.room, session="0.5") for _ in range(2)]
        payloads = [f"job-{number}" for number in range(JOBS)]
        noted = Path(self.path("delivered"))
        try:
            for payload in payloads:
                self.assertRegex(self.ask(f"OFFER 0 {payload}")[0], "^OFFERED ")
                time.sleep(0.03)
            until(lambda: noted.exists() and len(noted.read_text().splitlines()) >= JOBS, "all jobs are done")
            time.sleep(1)  # in which a job that is run twice would show
        finally:
            reports = [it.stop().lines[-1] for it in workers]
        self.assertEqual(service.stop(), 0)
        self.assertGreaterEqual(len(service.all("saved")), 3)
        for report in reports:
            self.assertTrue(report.endswith("dead 0, lost 0, unheard 0"), report)
        elements = read_series([*map(str, Path(self.path("runs")).glob("run-*.txt*"))]).elements
        offered = map(elements.element, range(len(elements)))
        told = Counter(it.payload for it in offered if it.attempt == 1 and it.payload != PROBE)
        self.assertEqual(told, Counter(payloads))
        self.assertEqual(Counter(noted.read_text().splitlines()), Counter(payloads))
        self.assertEqual(service.all("lost-run"), [])
