"""A report on a large history, with its page: 1,000,000 events within 200 MB, and 30 s of a processor."""
import os
import subprocess

from checking.testing import RoomTest, tool
from reporting import tests
from reporting.tests.large_histories import history

MOST_BYTES, MOST_OF_PAGE, MOST_SECONDS = 200 * 10**6, 5 * 10**6, 30.0


class LargeTest(RoomTest):
    def test_time_and_memory(self) -> None:
        if not tests.EVENTS:
            self.skipTest("RB_BROKER_EVENTS is 0")
        path, page = self.path("run.txt"), self.path("page.html")
        with open(path, "w", encoding="ascii") as file:
            file.writelines(history("offers", tests.EVENTS))
        report = subprocess.Popen([*tool("report"), path, "--html", page], stdout=subprocess.DEVNULL)
        _, report.returncode, used = os.wait4(report.pid, 0)
        seconds, memory = used.ru_utime + used.ru_stime, used.ru_maxrss * 1024  # Linux counts it in kibibytes
        size = os.path.getsize(page)
        print(f"{tests.EVENTS:,} events: {seconds:.1f} s of a processor, {memory / 1e6:.0f} MB, a page of"
              f" {size / 1e6:.1f} MB", flush=True)
        self.assertEqual(report.returncode, 0)
        for used_up, most in ((seconds, MOST_SECONDS), (memory, MOST_BYTES), (size, MOST_OF_PAGE)):
            self.assertLess(used_up, most)
