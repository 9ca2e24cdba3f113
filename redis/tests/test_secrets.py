"""Passwords, and TLS between clients, gateways and the Redis."""
from __future__ import annotations

import argparse
import contextlib
import shutil
import tempfile
import unittest
from pathlib import Path
from unittest import mock

from encryption import Certificates  # of the tests of clients/python
from gateway_test import GatewayTest
from gateways import Gateway
from nodes import Node, Process, free_port, wait_until
from rb_broker_redis.address import read_address
from rb_broker_redis.ending import Failed
from rb_broker_redis.words import address_in
from serving import HOST
from talker import Talker

PASSWORD = "open-sesame"


class PasswordTest(GatewayTest):
    @classmethod
    def setUpClass(cls) -> None:
        super().setUpClass()
        cls.node.ask("CONFIG", "SET", "requirepass", PASSWORD)

    def setUp(self) -> None:
        super().setUp()
        self.url = f"redis://:{PASSWORD}@{HOST}:{self.node.port}"

    def assert_serves_in_secret(self, served: Gateway) -> None:
        self.assert_talk(self.talker(served), "SIZE = SIZE 0")
        words = Path(f"/proc/{served.pid}/cmdline").read_text()
        self.assertEqual(served.end(), 0)
        self.assertNotIn(PASSWORD, words + served.said)

    def test_a_file_has_the_password(self) -> None:
        file = self.room / "redis.url"
        file.write_text(f"{self.url}\n")
        self.assert_serves_in_secret(self.gateway(redis=f"@{file}"))
        self.assert_serves_in_secret(self.gateway(redis="", RB_BROKER_REDIS=f"@{file}"))

    def test_the_environment_has_the_password(self) -> None:
        self.assert_serves_in_secret(self.gateway(redis="", RB_BROKER_REDIS=self.url))

    def test_sentinels_have_a_password_of_their_own(self) -> None:
        port, conf = free_port(), self.room / "sentinel.conf"
        conf.write_text(f"port {port}\nbind {HOST}\ndir {self.room}\nrequirepass sesame\n"
                        f"sentinel monitor main {HOST} {self.node.port} 1\nsentinel auth-pass main {PASSWORD}\n")
        sentinel = self.till_end(Process(["redis-sentinel", str(conf)], self.room / "sentinel.log"))
        sentinel.start()
        file = self.room / "redis.url"
        file.write_text(f"redis+sentinel://:{PASSWORD}@{HOST}:{port}/main?sentinel_password=sesame")
        wait_until(lambda: self.ran("dead", "--redis", f"@{file}") == (0, [], ""), "no Sentinel names the node", 10)
        self.assert_talk(self.talker(self.gateway(redis=f"@{file}")), "SIZE = SIZE 0")

    def test_a_wrong_environment_is_named(self) -> None:
        for wrong, why in (("localhost", "this is no address of a Redis"), ("@nowhere", "No such file or directory")):
            with self.subTest(wrong), mock.patch.dict("os.environ", RB_BROKER_REDIS=wrong):
                with self.assertRaisesRegex(Failed, f"^RB_BROKER_REDIS: .*{why}"):
                    address_in(argparse.Namespace(redis=None))

    def test_a_wrong_password_is_not_told(self) -> None:
        file = self.room / "redis.url"
        file.write_text(self.url.replace(PASSWORD, "open-barley"))
        status, lines, errors = self.ran("serve", "--port", 0, "--redis", f"@{file}")
        self.assertEqual((status, lines), (3, []))
        self.assertIn("WRONGPASS", errors)
        self.assertNotIn("barley", errors)

    def test_an_address_that_is_printed_has_no_password(self) -> None:
        address = read_address(self.url)
        self.assertEqual(address.password, PASSWORD)
        self.assertNotIn(PASSWORD, f"{address} {address!r}")
        for url in ("redis://:secret@127.0.0.1:x", "http://:secret@h", "redis+sentinel://:secret@h:1"):
            with self.subTest(url=url), self.assertRaises(ValueError) as caught:
                read_address(url)
            self.assertNotIn("secret", str(caught.exception))


@unittest.skipUnless(shutil.which("openssl"), "there is no openssl, with which certificates are made")
class TlsTest(GatewayTest):
    @classmethod
    def setUpClass(cls) -> None:
        super().setUpClass()
        cls.keys = Certificates(cls.enterClassContext(tempfile.TemporaryDirectory(prefix="rb-test-")))

    def talker_over_tls(self, served: Gateway, name: str | None = None) -> Talker:
        """A client that knows the authority, with a certificate of its own if it has a name."""
        return self.talker(served, tls=self.keys.client(name=name))

    def served_by_tls(self, *words: object) -> Gateway:
        return self.serve("--cert", self.keys.path("server"), "--key", self.keys.key("server"), *words)

    def test_clients_are_served_over_tls(self) -> None:
        served = self.served_by_tls()
        talker = self.talker_over_tls(served)
        self.assert_talk(talker, "OFFER 0 a = OFFERED .*")
        talker.send("TAKE\nDONE 0\nQUIT\n")
        self.assert_talk(talker, "= ITEM .*", "= DONE 0", "= BYE", "= ")
        self.assertEqual(served.end(), 0)

    def test_only_clients_of_the_authority_are_let_in(self) -> None:
        served = self.served_by_tls("--client-ca", self.keys.path("ca"))
        self.assert_talk(self.talker_over_tls(served, "client"), "SIZE = SIZE 0")
        for name in (None, "stranger"):
            with self.subTest(name=name), self.assertRaises(OSError):
                if self.talker_over_tls(served, name).ask("SIZE") == "":
                    raise ConnectionError

    def test_a_client_without_tls_gets_no_reply(self) -> None:
        served = self.served_by_tls()
        talker = self.talker(served)
        talker.send("SIZE\n")
        with contextlib.suppress(ConnectionError):
            self.assertNotIn(b"SIZE 0", talker.socket.recv(100))
        self.assert_talk(self.talker_over_tls(served), "SIZE = SIZE 0")

    def test_the_redis_is_reached_over_tls(self) -> None:
        port, keys = free_port(), self.keys
        self.till_end(Node(self.room / "node", [
            "--appendonly", "no", "--tls-port", port, "--tls-cert-file", keys.path("server"),
            "--tls-key-file", keys.key("server"), "--tls-ca-cert-file", keys.path("ca")]))
        trust = f"ssl_ca_certs={keys.path('ca')}&ssl_certfile={keys.path('client')}&ssl_keyfile={keys.key('client')}"
        served = self.serve("--redis", f"rediss://{HOST}:{port}?{trust}")
        self.assert_talk(self.talker(served), "SIZE = SIZE 0")
        for host, options, why in ((HOST, "", "certificate verify failed"), ("localhost", trust, "Hostname mismatch"),
                                   (HOST, "ssl_certfile=nowhere", "No such file or directory")):
            for words in (["serve", "--port", 0], ["dead"]):
                with self.subTest(words=words, why=why):
                    status, _, errors = self.ran(*words, "--redis", f"rediss://{host}:{port}?{options}")
                    self.assertEqual((status, why in errors), (3, True), errors)

    def test_plain_is_said_loudly(self) -> None:
        self.assertIn("PLAIN: whoever reaches 127.0.0.1:", self.serve("--plain").said)
