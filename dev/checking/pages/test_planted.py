"""Faults that are planted in pages: each is found by the test that is named beside it."""
import os
import shutil
import subprocess
import sys
from pathlib import Path

import pytest

from checking.docs import links
from checking.pages.reading import TESTED
from checking.pages.test_words import PAGES
from common.program import TOP

PROTOCOL, HISTORY, OPERATING = (f"docs/{name}.md" for name in ("PROTOCOL", "HISTORY", "OPERATING"))
REDIS, JAVA, PYTHON = "redis/README.md", "clients/java/README.md", "clients/python/README.md"
# The page, a text that stands there, what is planted in its place, and the test.
PLANTED = [
    (OPERATING, "| `--delay TIME` | 30s |", "| `--delay TIME` | 31s |", "test_a_default_of_the_service"),
    (OPERATING, "event=not-listening", "event=not-heard", "test_the_events_of_a_service"),
    (OPERATING, "`cannot listen at port", "`cannot serve at port", "test_the_lines_of_a_service_that_ends"),
    (PROTOCOL, "`cannot start worker`", "`cannot begin worker`", "test_the_faults_of_a_run"),
    (PROTOCOL, "| 3 | `cannot read input`", "| 1 | `cannot read input`", "test_the_faults_of_a_run"),
    (PROTOCOL, "`ERR 5 not-held` | `DONE`", "`ERR 5 unheld` | `DONE`", "test_the_refusals_of_requests"),
    (PROTOCOL, "a line of 257 bytes", "a line of 256 bytes", "test_a_refusal"),
    (PROTOCOL, "OFFER 50 a      OFFERED 0 150", "OFFER 50 a      OFFERED 0 151", "test_the_dialogue_of_the_protocol"),
    (PROTOCOL, "`--workers` (1 to 16, default 4)", "`--workers` (1 to 16, default 5)", "test_a_range_of_the_protocol"),
    (PROTOCOL, "as descriptor N (3 to 1,023)", "as descriptor N (2 to 1,023)", "test_a_range_of_the_protocol"),
    (PROTOCOL, "[--attentive] [--silent N] [--since N]\n", "[--mindful] [--silent N] [--since N]\n", "test_a_synopsis"),
    (PROTOCOL, '"given":1,"left":0', '"given":0,"left":1', "test_the_end_of_a_run_with_two_clients"),
    (HISTORY, '"given":1,"left":1,', '"given":1,"left":2,', "test_the_commands_of_histories"),
    (HISTORY, "`no parent`", "`no father`", "test_the_reasons_of_replays"),
    (HISTORY, "| each call has an event |", "| each call has one event |", "test_the_kinds_of_faults_of_verify"),
    (HISTORY, "run.txt --html page.html", "run.txt --page page.html", "test_the_commands_of_reports"),
    (REDIS, "(15s, by no node's clock)", "(16s, by no node's clock)", "test_a_row_of_the_gateway"),
    (JAVA, "| `patience` | 30 s |", "| `patience` | 31 s |", "test_the_settings_in_java"),
    (PYTHON, "raises `NotOfferedError`", "raises `UnofferedError`", "test_each_name_of_a_client_is_there"),
    ("README.md", "ITEM 0 5 1 letter-17", "ITEM 0 6 1 letter-17", "test_the_first_screen"),
    ("README.md", "`deliver letter-17 attempt 1`", "`deliver letter-17 attempt 2`", "test_five_minutes_as_a_service"),
    ("README.md", "serves 127.0.0.1:7011", "serves 127.0.0.1:7012", "test_the_default_port_and_delay"),
    (PROTOCOL, "%x31-39 *19DIGIT", "%x31-39 *9DIGIT", "test_a_case"),
    (PROTOCOL, '%s"AGAIN" SP id SP expiry', '%s"AGAIN" SP id', "test_a_case"),
    (PROTOCOL, "the second `SIZE` with `--calls 1`", "the second `SIZE` with `--calls 2`", "test_a_refusal"),
    (PROTOCOL, "tools/conform python3 my_broker.py", "tools/conform my_broker.py",
     "test_another_program_that_speaks_the_protocol"),
    (HISTORY, '"reply": ["OFFERED 0 5000"]', '"reply": ["OFFERED 0 5001"]', "test_the_record_of_the_page"),
    (HISTORY, "--chains --delay 1000", "--chains --delay 100", "test_the_commands_of_histories"),
    (HISTORY, "load.jsonl            # once", "load.json             # once", "test_a_run_judged_from_outside"),
    ("docs/TESTING.md", "grep -hE '^(case|table) '", "grep -hE '^(cases|tables) '", "test_the_lists_of_tests"),
    ("docs/TESTING.md", "(`dev/check server`, and", "(`dev/check servers`, and", "test_each_part_is_there"),
    ("README.md", "| Clients | 15 that stay", "| Clients | 16 that stay", "test_the_limits_on_the_first_page"),
    ("README.md", "| Payload | 1 to 64 bytes", "| Payload | 1 to 65 bytes", "test_the_limits_on_the_first_page"),
    ("README.md", "| Calls | 1,000,000", "| Calls | 2,000,000", "test_the_limits_on_the_first_page"),
    (OPERATING, "| `--silent TIME` | 10m |", "| `--silent TIME` | 11m |", "test_a_default_of_the_service"),
    (PROTOCOL, "| 1 | `bad opening` |", "| 1 | `wrong opening` |", "test_the_faults_of_a_run"),
    (PYTHON, "`patience` is 30 seconds", "`patience` is 31 seconds", "test_the_patience_of_producers_in_python"),
    (REDIS, "| `--lease TIME` |", "| `--leases TIME` |", "test_a_row_of_the_gateway"),
    (JAVA, "| `patience` | 30 s |", "| `endurance` | 30 s |", "test_the_settings_in_java"),
    (HISTORY, "tools/report run.txt --job a", "tools/report run.txt --life a", "test_the_commands_of_reports"),
    ("docs/EXTENDING.md", "dev/cases crates/rb_cases/data/queues.rows", "dev/case crates/rb_cases/data/queues.rows",
     "test_each_file_is_there"),
    ("docs/EXTENDING.md", "rb_cases/data/scripts.case", "rb_cases/data/script.case", "test_each_file_is_there"),
    ("docs/EXTENDING.md", "`reason_to_skip`", "`reason_to_pass`", "test_each_name_is_in_the_sources"),
    ("docs/ARCHITECTURE.md", "`rb_pairing`", "`rb_pairs`", "test_each_name_is_in_the_sources"),
    ("docs/DELAYQUEUE.md", "throws `RefusedException`", "throws `RefusalException`", "test_each_name_is_in_the_sources"),
    ("docs/SCALING.md", "load run.txt --began 2026", "load run.txt --start 2026", "test_each_option_of_a_tool_is_there"),
    (REDIS, "rb_broker_redis dead --queue jobs --drop", "rb_broker_redis dead --queue jobs --forget",
     "test_each_option_of_a_tool_is_there"),
    ("docs/PERFORMANCE.md", "bench/python_worker.py --far", "bench/python_worker.py --away",
     "test_each_option_of_a_tool_is_there"),
    (PYTHON, "reminders:app --threads 4", "reminders:app --workers 4", "test_tasks_in_five_minutes"),
    (PYTHON, "letters:deliver --port 7011 --concurrency 8\n", "letters:deliver --port 7011 --concurrency 80\n",
     "test_workers_of_the_python_page"),
    (PYTHON, "delay=2.5)\n", "after=2.5)\n", "test_programs_of_the_python_page"),
    (PYTHON, "`overdue=60`", "`overdue=90`", "test_a_number"),
    (PROTOCOL, "turns last about 200 seconds", "turns last about 100 seconds", "test_a_number"),
    (OPERATING, "They end at 2^40", "They end at 2^41", "test_a_number"),
    (OPERATING, "an element `rb_broker-service`", "an element `rb_broker-probe`", "test_a_text"),
    (HISTORY, "`unchained INDEX REASON`", "`chainless INDEX REASON`", "test_the_reasons_of_replays"),
    (HISTORY, "| `take ID` |", "| `takes ID` |", "test_the_words_of_acts"),
    (PYTHON, "`tasks again reminders:app`", "`tasks retry reminders:app`", "test_the_actions_of_tasks"),
    (JAVA, "| `host` | 127.0.0.1 |", "| `host` | 127.0.0.2 |", "test_the_settings_in_java"),
    ("docs/EXTENDING.md", "`Rests::new`", "`Rests::make`", "test_each_owned_name_is_declared"),
    ("README.md", "by default some 6 minutes", "by default some 5 minutes", "test_a_number"),
    ("README.md", "93,922 with 16", "93,822 with 16", "test_the_measured_numbers_of_the_first_page"),
    ("README.md", "with Linux 5.6", "with Linux 5.4", "test_what_a_service_needs"),
    (OPERATING, "`ms`, `s`, `m`, `h` or `d`.", "`ms`, `s`, `m`, `h` or `w`.", "test_the_units_of_times"),
    (OPERATING, "| `/jobs/WORD` |", "| `/job/WORD` |", "test_the_paths_that_are_told"),
    (OPERATING, "status 1 means not healthy", "status 3 means not healthy", "test_a_path_of_the_page"),
    (OPERATING, "gzip 1.12 and", "gzip 1.10 and", "test_what_a_service_needs"),
    (OPERATING, "its folder, `/var/lib/rb_broker/7011`", "its folder, `/var/lib/rb-broker/7011`",
     "test_the_folder_of_the_unit"),
    (OPERATING, "`XDG_RUNTIME_DIR` or `/dev/shm`", "`XDG_STATE_HOME` or `/dev/shm`", "test_a_text"),
    (OPERATING, "calls every five seconds", "calls every six seconds", "test_the_greeting_costs_no_call"),
    (PROTOCOL, "1,000, which is a microsecond", "1,000, which is a millisecond", "test_the_defaults_of_jobs"),
    (PROTOCOL, "a second is `1000000000`", "a second is `1000000`", "test_a_number"),
    (PROTOCOL, "`AT 40` gets `NOW 100`", "`AT 40` gets `NOW 40`", "test_a_reply_in_a_sentence"),
    (PROTOCOL, "`POLLFOR 0` gets `NONE`", "`POLLFOR 0` gets `STOPPED`", "test_a_reply_in_a_sentence"),
    (PROTOCOL, "`REMOVE` gets `REMOVED no`", "`REMOVE` gets `REMOVED yes`", "test_a_reply_while_jobs_are_held"),
    (PROTOCOL, "64 KiB of replies are gathered", "128 KiB of replies are gathered", "test_a_number"),
    (HISTORY, "a history: its first fault. | 1 |", "a history: its first fault. | 2 |", "test_the_statuses_of_replays"),
    (JAVA, "--delay 5000000000 --turns 50", "--delay 5000000000 --turn 50", "test_a_command_of_the_program"),
    (JAVA, "--workers 8 --sessions 1000", "--workers 80 --sessions 1000", "test_a_command_of_the_program"),
    (PYTHON, "With `attempts=20`", "With `attempts=10`", "test_a_number"),
    (PYTHON, "tasks (`RB_BROKER_TASKS=N`)", "tasks (`RB_BROKER_JOBS=N`)", "test_a_number_that_a_setting_changes"),
    (REDIS, "or port 6379 of this machine", "or port 6380 of this machine", "test_a_number"),
    (REDIS, "gets `ERR 5 not-held`", "gets `ERR 5 unheld`", "test_each_refusal_is_one_of_the_protocol"),
    (REDIS, "Python 3.11, redis-py 4.3.4", "Python 3.11, redis-py 4.2.4", "test_what_a_gateway_needs"),
    ("docs/SCALING.md", "gets `ERR 5 not-held`", "gets `ERR 6 not-held`", "test_each_refusal_is_one_of_the_protocol"),
    ("docs/SCALING.md", "same time | 16 |", "same time | 32 |", "test_a_number"),
    ("CONTRIBUTING.md", "logic dac8208d650f15bf", "logic dac8208d650f15be", "test_the_kit_that_a_build_needs"),
]
LINKS = [
    (OPERATING, "(PROTOCOL.md#served-sessions)", "(PROTOCOL.md#served-session)"),
    ("README.md", "(docs/HEADLINE.md)", "(docs/HEADLINES.md)"),
    ("README.md", "(docs/PROVED.md#the-guarantee)", "(docs/PROVED.md#a-guarantee)"),
    (REDIS, "(#several-queues-as-one)", "(#many-queues-as-one)"),
    ("docs/SCALING.md", "(OPERATING.md#trying-a-load)", "(OPERATING.md#trying-some-load)"),
    (OPERATING, "(service.png)", "(services.png)"),
    ("CONTRIBUTING.md", "(docs/TESTING.md#wrong-bodies)", "(docs/TESTING.md#bad-bodies)"),
    (JAVA, "(../../docs/PROTOCOL.md#a-payload-as-a-key)", "(../../docs/PROTOCOL.md#payloads-as-keys)"),
]


def plant(top: Path, name: str, old: str, new: str) -> None:
    """Copies the pages into a folder, one with another text."""
    for page in PAGES:
        (top / page).parent.mkdir(parents=True, exist_ok=True)
        shutil.copy(Path(TOP, page), top / page)
    text = (top / name).read_text("utf-8")
    assert old in text
    (top / name).write_text(text.replace(old, new), "utf-8")


@pytest.mark.skipif(TESTED in os.environ, reason="faults are planted in the pages of the checkout")
@pytest.mark.parametrize(("name", "old", "new", "test"), PLANTED, ids=[new for _, _, new, _ in PLANTED])
def test_a_planted_fault(tmp_path: Path, name: str, old: str, new: str, test: str) -> None:
    plant(tmp_path, name, old, new)
    [file] = [path for path in Path(__file__).parent.glob("test_*.py") if f"def {test}(" in path.read_text("utf-8")]
    words = [sys.executable, "-B", "-m", "pytest", "-rf", "-k", test, file]
    ran = subprocess.run(words, env={**os.environ, TESTED: str(tmp_path)}, capture_output=True, text=True, check=False)
    assert ran.returncode == 1 and f"::{test}" in ran.stdout, ran.stdout


@pytest.mark.parametrize(("name", "old", "new"), LINKS)
def test_a_planted_link(tmp_path: Path, name: str, old: str, new: str) -> None:
    for is_planted in (False, True):
        plant(tmp_path, name, old, new if is_planted else old)
        faults = filter(None, links.find(tmp_path))
        assert any(fault.startswith(f"{name}:") and new[1:-1] in fault for fault in faults) is is_planted
