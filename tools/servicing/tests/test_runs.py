"""Services that run: time, ids and elements from run to run."""
import os
import re
import signal
import time
from pathlib import Path

from servicing.opening import PROBE
from servicing.tests.process import Client, ServiceTest, until


class RunsTest(ServiceTest):
    def numbers(self, reply: str) -> list[int]:
        return [int(it) for it in re.findall(r"\d+", reply.split(" ", 1)[1])]

    def test_a_job_comes_when_it_is_due_through_many_runs(self) -> None:
        with self.serving("--every", "1s", "--wait", "100ms") as service:
            offered, reply = time.monotonic(), "STOPPED"
            self.assertRegex(self.ask("OFFER 6000000000 later")[0], "^OFFERED ")
            while reply == "STOPPED" and time.monotonic() < offered + 30:
                reply = self.ask("TAKE")[0]
            passed = time.monotonic() - offered
            self.assertRegex(reply, "^ITEM [0-9]+ [0-9]+ 1 later$")
            self.assertGreaterEqual(passed, 6)
            self.assertLess(passed, 12)  # on a machine that does much else
            self.assertGreaterEqual(len(service.all("serving")), 2)

    def test_a_job_comes_when_it_is_due_though_no_service_was_there(self) -> None:
        with self.serving():
            self.ask("OFFER 4000000000 later")
        time.sleep(4)
        with self.serving():
            self.assertRegex(self.ask("POLL")[0], "^ITEM [0-9]+ [0-9]+ 1 later$")

    def test_elements_go_on_with_their_ids_and_attempts(self) -> None:
        never = 2**64 - 1
        with self.serving("--delay", "0s") as service, Client(self.port) as it:
            self.assertRegex(it.greeted().ask("OFFER 0 job"), "^OFFERED ")
            id = self.numbers(it.ask("TAKE"))[0]
            again = self.numbers(it.ask(f"FAIL {id}"))[0]
            last = self.numbers(it.ask(f"OFFERAT {never} never"))[0]
            it.ask("QUIT")
        self.assertEqual(service.all("saved")[0]["left"], "2")
        with self.serving("--delay", "0s"), Client(self.port) as it:
            self.assertRegex(it.greeted().ask("TAKE"), f"^ITEM {again} [0-9]+ 2 job$")
            self.assertEqual(it.ask(f"DONE {again}"), f"DONE {again}")
            while (head := it.ask("PEEK")).endswith(PROBE):  # which comes and goes
                time.sleep(0.02)
            self.assertEqual(head, f"HEAD {last} {never} 1 never")
            self.assertGreater(self.numbers(it.ask("OFFER 0 new"))[0], last)
            it.ask("QUIT")

    def test_a_killed_server_loses_its_run_and_says_so_once(self) -> None:
        with self.serving():
            self.offer(500)
        with self.serving("--calls", "5000", lost=1) as service:
            lost = self.numbers(self.ask("TAKE", "OFFER 0 new")[1])[0]
            os.kill(service.server, signal.SIGKILL)
            service.wait("serving", 2)
            told = service.all("lost-run")[0]
            self.assertEqual((told["run"], told["opening"], told["level"]), ("2", "500", "error"))
            self.assertIn("and the next one begins with the same 500 elements", told["text"])
            self.has_left(500)
            offered = self.numbers(self.ask("OFFER 0 other")[0])[0]
            self.assertGreaterEqual(offered, max(500 + 5000, lost + 1))
        with self.serving():
            self.has_left(501)

    def test_the_greeting_tells_of_a_lost_run(self) -> None:
        """And of the moment at which each run began, which goes on by real time."""
        told = []
        with self.serving(lost=1) as service:
            for lost in (0, 1):
                with Client(self.port) as it:
                    told.append(self.numbers(it.greeted().greeting))
                    self.assertRegex(it.greeting, f"^RUN {lost + 1} lost {lost} at [0-9]+$")
                if not lost:
                    time.sleep(0.5)
                    os.kill(service.server, signal.SIGKILL)
                    service.wait("serving", 2)
        self.assertGreater(told[1][-1], told[0][-1] + 250_000_000)

    def test_what_an_earlier_series_of_runs_has_left_is_continued(self) -> None:
        folder = Path(self.path("runs"))
        folder.mkdir()
        history = "history 3\nopen 0 0 0\n1 5 5 offer 0 1000000005 0 1000000005 1 mail\nend 1\n"
        (folder / "run-3.txt").write_text(history, encoding="ascii")
        service = self.begin()
        self.assertGreaterEqual(self.numbers(self.ask("OFFER 0 new")[0])[0], 1)
        self.has_left(2)
        self.assertEqual(service.all("serving")[0]["run"], "4")
        self.assertEqual((folder / "run-3.txt").read_text(encoding="ascii"), history)

    def test_it_begins_with_a_history_of_another_folder(self) -> None:
        history = self.file("other.txt", "history 3\nopen 0 0 0\n1 5 5 offer 0 9 0 9 1 mail\nend 1\n")
        with self.serving("--from", history):
            self.assertRegex(self.ask("TAKE", "DONE 0")[0], "^ITEM 0 9 1 mail$")
        service = self.start("--from", history)
        self.assertEqual(service.end(), 1)
        self.assertIn("--from needs an empty folder", service.lines[-1])

    def test_old_runs_are_compressed_and_dropped(self) -> None:
        with self.serving("--every", "1s", "--keep", "2") as service:
            service.wait("serving", 6)
        last = int(self.begin("--keep", "2").all("serving")[0]["run"])
        wanted = {f"run-{last - 1}.json", f"run-{last - 1}.txt.gz", f"run-{last - 2}.json", f"run-{last - 2}.txt.gz",
                  f"run-{last}.json", f"opening-{last}.txt", "id", "lock", "memory", "status"}
        until(lambda: set(os.listdir(self.path("runs"))) <= wanted, "old files are gone")
        self.assertEqual(self.record(last - 1)["end"]["why"], "asked")
