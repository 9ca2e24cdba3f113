"""The package as a command, over scripted servers."""
import io
import json
import shlex
from unittest.mock import patch

import rb_broker_client
from scripted import ScriptedTest, free_port, table
from rb_broker_client import Report
from rb_broker_client.__main__ import _delay, _until_signals, main
from rb_broker_client.durations import nanoseconds

def handle(job):
    """A handler that the tests name, and that never runs."""


async def handle_async(job):
    """The same for a worker of asyncio."""


def run(*words, lines=""):
    """Runs the command in this process. Its status, and what it wrote to standard output and standard error."""
    said, errors = io.StringIO(), io.StringIO()
    with patch.multiple("sys", stdin=io.StringIO(lines), stdout=said, stderr=errors):
        try:
            status = main([str(it) for it in words])
        except SystemExit as ended:
            status = ended.code
    return status, said.getvalue(), errors.getvalue()


class CommandTest(ScriptedTest):
    def test_what_is_asked_and_told(self):
        two = "OFFER 2000000000 a > OFFERED 0 5; OFFER 2000000000 b > OFFERED 1 6"
        drains = "DRAIN 64 > DRAINED 1, ITEM 0 5 1 a; DONE 0; DRAIN 64 > DRAINED 1, ITEM 1 6 3 b; DONE 1; DRAIN 64 > "
        for words, lines, steps, *told in (
            ("offer 2.5s a", "", "OFFER 2500000000 a > OFFERED 17 5000000123", "OFFERED 17 5000000123"),
            ("offer 2s a b", "", two, "OFFERED 0 5", "OFFERED 1 6"),
            ("offer 2s", "a\nb\n", two, "OFFERED 0 5", "OFFERED 1 6"),
            ("offer 2s", "a\r\nb", two, "OFFERED 0 5", "OFFERED 1 6"),
            ("size", "", "SIZE > SIZE 3; QUIT", "SIZE 3"),
            ("peek", "", "PEEK > HEAD 0 150 2 a; QUIT", "HEAD 0 150 2 a"),
            ("peek", "", "PEEK > NONE; QUIT", "NONE"),
            ("clear", "", "CLEAR > CLEARED; QUIT", "CLEARED"),
            ("remove 3 9", "", "REMOVE 3 > REMOVED yes; REMOVE 9 > REMOVED no; QUIT", "REMOVED yes", "REMOVED no"),
            ("drain", "", f"{drains}DRAINED 0; QUIT", "ITEM 0 5 1 a", "ITEM 1 6 3 b"),
            ("drain 65", "", "DRAIN 64 > DRAINED 1, ITEM 0 5 1 a; DONE 0; DRAIN 64 > DRAINED 0; QUIT", "ITEM 0 5 1 a"),
            ("drain 1", "", "DRAIN 1 > DRAINED 1, ITEM 0 5 1 a; DONE 0; QUIT", "ITEM 0 5 1 a"),
        ):
            with self.subTest(words=words):
                server = self.play(f"AT 0; {steps}")
                ran = run(*words.split(), "--port", server.port, lines=lines)
                self.assertEqual(ran, (0, "".join(f"{it}\n" for it in told), ""))

    def test_delays(self):
        for word, delay in {
            "0s": 0, "0.5s": 5 * 10**8, "250ns": 250, "3us": 3_000, "5ms": 5 * 10**6,
            "007s": 7 * 10**9, "2m": 120 * 10**9, "1.5h": 5_400 * 10**9, "1d": 86_400 * 10**9,
        }.items():
            self.assertEqual(nanoseconds(_delay(word)), delay, word)

    def test_what_is_not_done(self):
        for words, steps, told in (
            ("offer 0s a", "OFFER 0 a > ERR 3 range", "ERR 3 range"), ("size", "SIZE > ERR 6 full", "ERR 6 full"),
            ("offer 0s a --patience 100ms", "OFFER 0 a > hangs up", "OFFER 0 a was accepted or not: .*"),
            ("offer 0s a --patience 100ms", None, "OFFER 0 a was not accepted: .*Connection refused"),
            ("size", None, ".*Connection refused"),
        ):
            port = self.play(f"AT 0; {steps}").port if steps else free_port()
            status, said, errors = run(*words.split(), "--port", port)
            self.assertEqual((status, said), (1, ""))
            self.assertRegex(errors, f"^rb_broker_client: 127.0.0.1:{port}: {told}\n$")

    def test_words_that_are_wrong(self):
        rows = [it.split(" | ") for it in table("command.txt").splitlines()]
        wrong = [shlex.split(f"{first} {it}") for first, *rest in rows for it in rest or [""]]
        for words in ([], ["offer", "0s", "a\nCLEAR", "--port", "1"], *wrong):
            with self.subTest(words=words):
                status, said, errors = run(*words)
                self.assertEqual((status, said), (2, ""))
                self.assertRegex(errors, r"(?m)^(rb_broker_client: |python3 -m rb_broker_client.*: error: )[^\n]+\n\Z")

    def test_a_time_needs_its_unit(self):
        says = r"error: argument {}: 30 has no unit: write 30s \(units are ns, us, ms, s, m, h, d\)\n\Z"
        for words, option in (("size --patience 30", "--patience"), ("offer 30 a", "DELAY"),
                              ("worker test_command:handle --timeout 30", "--timeout")):
            with self.subTest(words=words):
                status, said, errors = run(*words.split(), "--port", 1)
                self.assertEqual((status, said), (2, ""))
                self.assertRegex(errors, says.format(option))

    def test_a_module_without_a_name_in_it(self):
        for words, what in (("worker json --port 1", "FUNCTION"), ("tasks run json", "APP")):
            says = f"error: argument MODULE:{what}: json is a module: write json:{what}\n\\Z"
            self.assertRegex(run(*words.split())[2], says)

    def test_what_functions_print_is_there_at_once(self):
        """Though the output is a file."""
        written = io.BytesIO()

        def work():
            print("deliver")
            self.assertEqual(written.getvalue(), b"deliver\n")
            return Report(done=1)

        with patch("sys.stdout", io.TextIOWrapper(written)), patch("signal.signal"), patch("logging.basicConfig"):
            self.assertRegex(_until_signals(lambda: None, work), "^done 1, ")

    def test_a_record(self):
        server = self.play("AT 0; SIZE > SIZE 3; QUIT")
        self.assertEqual(run("size", "--port", server.port, "--record", self.path)[0], 0)
        lines = map(json.loads, self.path.read_text("ascii").splitlines())
        self.assertEqual([(it["request"], it["reply"]) for it in lines],
                         [("AT 0", ["ERR 1 syntax"]), ("SIZE", ["SIZE 3"]), ("QUIT", ["BYE"])])

    def test_help(self):
        commands = ("worker", "offer", "size", "peek", "drain", "remove", "clear", "dead")
        for words in (("--help",), *((it, "--help") for it in commands)):
            status, said, errors = run(*words)
            self.assertEqual((status, errors), (0, ""))
            self.assertIn(f"usage: python3 -m rb_broker_client {'' if words[0] == '--help' else words[0]}", said)
            self.assertEqual(f"\nexample: python3 -m rb_broker_client {words[0]} " in said, words[0] in commands)
        self.assertTrue(all(f"\n    {it}" in run("--help")[1] for it in commands))

    def test_the_version(self):
        self.assertEqual(run("--version"), (0, f"rb_broker_client {rb_broker_client.__version__}\n", ""))
