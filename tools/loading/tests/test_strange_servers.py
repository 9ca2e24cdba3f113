"""Ports with no broker, and words with which nothing is begun."""
import json
import socket
import threading

from checking.testing import RoomTest, call_tool, run_tool


def load(*words: object) -> tuple[int, list[str], str]:
    """Runs the tool: its status, the lines that it prints, and standard error."""
    run = run_tool("load", *words)
    return run.returncode, run.stdout.splitlines(), run.stderr


class StrangeServerTest(RoomTest):
    def listen(self, answer: bytes | None) -> int:
        """A port at which the first request gets this answer and the end of the connection, or no answer at all. The
        first one asks whether a worker serves the client, and is refused."""
        listener = socket.create_server(("127.0.0.1", 0))
        self.addCleanup(listener.close)

        def serve() -> None:
            connection, _ = listener.accept()
            self.addCleanup(connection.close)
            connection.recv(1000)
            if answer is not None:
                connection.sendall(answer)
                connection.close()

        threading.Thread(target=serve, daemon=True).start()
        port: int = listener.getsockname()[1]
        return port

    def test_a_port_with_nobody(self) -> None:
        with socket.create_server(("127.0.0.1", 0)) as listener:
            port = listener.getsockname()[1]
        status, lines, errors = load("--port", port, "--seconds", 1)
        told = f"load: no connection to 127.0.0.1:{port}: Connection refused\n"
        self.assertEqual((status, lines, errors), (1, [], told))

    def test_servers_that_are_no_broker(self) -> None:
        for answer, told in [
            (b"HTTP/1.1 400 Bad Request\r\n", "errors 1: 1 of 'HTTP/1.1 400 Bad Request\\r' is no reply"),
            (b"ERR 1 syntax\nOFFERED soon\n", "errors 1: 1 of 'OFFERED soon' is no reply"),
            (b"", "errors 1: 1 of the server closed the connection"),
            (b"ERR 1 syntax\n", "errors 1: 1 of the server closed the connection"),
            (b"x" * 100_000, f"errors 1: 1 of '{'x' * 40}' is no reply"),
            (None, "errors 1: 1 of no reply at the end"),
        ]:
            with self.subTest(answer=answer):
                status, lines, errors = load("--port", self.listen(answer), "--clients", 1, "--seconds", 0.2)
                self.assertEqual((status, errors), (1, ""))
                self.assertEqual(lines[-1], told)

    def test_a_record_of_a_request_without_a_reply(self) -> None:
        path = self.path("load.jsonl")
        load("--port", self.listen(None), "--clients", 1, "--seconds", 0.2, "--record", path)
        with open(path, encoding="ascii") as file:
            told = [json.loads(line) for line in file]
        told = [(line["request"], line["received"], line["reply"]) for line in told]
        self.assertEqual(told, [("AT 0", None, [])])

    def test_a_record_that_can_not_be_written(self) -> None:
        status, lines, errors = load("--port", self.listen(None), "--record", self.path("none/load.jsonl"))
        self.assertEqual((status, lines), (1, []))
        self.assertRegex(errors, r"^load: .*No such file or directory.*\n$")

    def test_words_that_are_refused(self) -> None:
        for words in ("", "--port 0", "--port 65536", "--port x", "--port 1 --clients 0", "--port 1 --rate 0",
                      "--port 1 --rate nan", "--port 1 --delay 5", "--port 1 --delay -1s",
                      f"--port 1 --delay {2**64}ns", "--port 1 --fail 1.5", "--port 1 --seconds 0", "--port 1 more"):
            with self.subTest(words=words):
                status, lines, errors = call_tool("load", *words.split())
                self.assertEqual((status, lines), (2, b""))
                self.assertIn("tools/load: error: ", errors)
