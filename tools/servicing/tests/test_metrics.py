"""The text for Prometheus, which promtool checks if it is there. The states are written by hand."""
import re
import shutil
import subprocess

from checking.testing import RoomTest
from common.program import TOP
from servicing.metrics import metrics
from servicing.state import Alert, Queue, State
from servicing.tests.support import AT, first_state, state, troubled_state

PROMTOOL = shutil.which("promtool")
ALERTS = f"{TOP}/examples/alerts.yml"


def promtool(what: str, given: str, *paths: str, does: str = "check") -> tuple[int, str]:
    """What promtool says of something that it checks or tests."""
    words = [str(PROMTOOL), does, what, *paths]
    ran = subprocess.run(words, input=given, capture_output=True, encoding="utf-8", check=False)
    return ran.returncode, ran.stdout + ran.stderr


class MetricsTest(RoomTest):
    def told(self, state: State) -> dict[str, float]:
        """The metrics of a text, which promtool takes if it is there."""
        text = metrics(state)
        if PROMTOOL:
            self.assertEqual(promtool("metrics", text), (0, ""))
        return {(name + more).replace('{port="7011"}', "").replace('port="7011",', ""): float(value)
                for name, more, value in re.findall(r"^rb_broker_(\w+)(\{.*\}) (\S+)$", text, re.M)}

    def test_all_metrics(self) -> None:
        self.assertEqual(self.told(state()), {
            "up": 1, "healthy": 1, "elements": 1204, "head_late_seconds": 3.25, "queue_time_seconds": AT - 1,
            "clients_served": 3, "clients_waiting": 1, "workers": 8, "clients_silent": 1,
            "longest_silence_seconds": 725, "clients_not_reading": 1, 'run_info{run="abc-12"}': 1,
            "offered_total": 600_000, "left_total": 590_000, "failed_total": 16_345,
            "runs_total": 12, "run_start_time_seconds": AT - 4000, "run_opening_elements": 1200, "elements_aside": 7,
            "run_calls": 400_000, "run_calls_limit": 1_000_000,
            "last_run_closed_seconds": 0.31, "last_run_cut_sessions": 0, "last_run_lost_jobs": 0, "lost_runs_total": 1,
            "lost_run_time_seconds": AT - 7600, "lost_run_lasted_seconds": 1400, "lost_run_opening_elements": 900,
            "unwritten_bytes": 0, "lost_jobs_total": 0,
        })

    def test_what_is_not_known_is_left_out(self) -> None:
        told = self.told(first_state())
        self.assertEqual(told.keys(), {"up", "healthy", "workers", "lost_runs_total", "lost_jobs_total",
                                       "offered_total", "left_total", "failed_total", "unwritten_bytes"})
        self.assertEqual((told["up"], told["healthy"]), (0, 0))
        self.assertEqual(self.told(state(queue=Queue(AT, 0, 0)))["head_late_seconds"], 0)

    def test_what_is_wrong(self) -> None:
        told = self.told(troubled_state())
        self.assertEqual([told[f'alert{{name="{it}"}}'] for it in ("many-elements", "lost-run", "disk")], [1] * 3)
        self.assertEqual([told[it] for it in ("unwritten_bytes", "up", "healthy")], [57_000_000, 0, 0])
        self.told(state(alerts=(Alert("twice", "", AT), Alert("twice", "", AT + 1))))

    def test_no_program_is_told(self) -> None:
        """They would make as many series as there are clients."""
        self.assertNotIn("python3", metrics(state()))

    def test_counters_end_in_total_and_gauges_do_not(self) -> None:
        for kind, name in re.findall(r"^# TYPE (\w+) (\w+)$", metrics(troubled_state()), re.M):
            self.assertEqual(name == "counter", kind.endswith("_total"), kind)

    def test_the_example_of_alerts(self) -> None:
        """Each metric that an alert of examples/alerts.yml names is one that is told."""
        with open(ALERTS, encoding="utf-8") as file:
            named = set(re.findall(r"\brb_broker_\w+", file.read()))
        told = set(re.findall(r"^# TYPE (\w+) ", metrics(troubled_state()), re.M))
        self.assertTrue(named and named <= told, named - told)
        if not PROMTOOL:
            self.skipTest("there is no promtool")
        status, said = promtool("rules", "", ALERTS)
        self.assertEqual(status, 0, said)
        self.assertNotEqual(promtool("metrics", "no metric\n")[0], 0, "promtool does not check")
        status, said = promtool("rules", "", f"{TOP}/tools/servicing/tests/alerts.yml", does="test")
        self.assertEqual(status, 0, said)
