"""Clients of a server behind TLS: certificates that are right, of another authority, expired, and left out."""
import asyncio
import logging
import re
import shutil
import ssl
import subprocess
import tempfile
import textwrap
import types
import unittest
from contextlib import closing
from pathlib import Path

from encryption import Certificates
from scripted import free_port
from rb_broker_client import AsyncBroker, Broker, NotOfferedError, Offered, Pauses, Producer, Report, Request, Worker
from server import PATIENCE, TOP, Crew, ServedTest
from serving.delaying import DelayingProxy
from serving.server import started

JOBS = 200
REFUSED = "(?i)alert|reset|closed|broken pipe|EOF"
ONE_TRY = Pauses(2 * PATIENCE, 2 * PATIENCE)  # after which there is no time for another


@unittest.skipUnless(shutil.which("openssl"), "there is no openssl")
class TlsTest(ServedTest):
    """The proxy is of Python's ssl."""

    @classmethod
    def setUpClass(cls):
        cls.certificates = Certificates(cls.enterClassContext(tempfile.TemporaryDirectory()))

    def protect(self, certificate="server"):
        """A port with TLS that leads to a server."""
        server = self.serve("--workers", 4, "--sessions", 1_000, "--calls", 100_000, "--turns", 50)
        return self.proxy(server.port, certificate)

    def proxy(self, port, certificate):
        return self.enterContext(closing(DelayingProxy(port, 0, self.certificates.server(certificate))))

    def words(self, authority="ca", name="client"):
        """What the command is given that trusts this authority, and shows this certificate."""
        path, key = self.certificates.path, self.certificates.key
        shows = ["--cert", path(name), "--key", key(name)] if name is not None else []
        return ["--tls", "--ca", path(authority), *shows]

    def test_jobs_from_their_offers_to_their_ends(self):
        proxy, tls = self.protect(), self.certificates.client()
        crew = Crew(self, proxy, 2, lambda job: True, concurrency=8, tls=tls)
        self.produce(proxy.port, JOBS, tls=tls)
        self.wait_until(lambda: len(crew.done()) == JOBS)
        self.assertEqual(crew.stop(), Report(done=JOBS))
        self.assertEqual(sorted(crew.done()), sorted(map(str, range(JOBS))))

    def test_a_piece_of_any_size(self):
        """The replies fill more than one record of TLS."""
        port, count = self.protect().port, 20_000
        with Broker(port, patience=PATIENCE, tls=self.certificates.client()) as broker:
            answers = broker.ask_all([Request.offer_at(str(it), expires_at_ns=it) for it in range(count)])
            self.assertEqual(answers, [Offered(it, it) for it in range(count)])
            self.assertEqual(len(broker.drain(64)), 64)
            broker.quit()

    def test_the_command(self):
        proxy, words = self.protect(), self.words()
        worker = self.start_worker(proxy.port, "builtins:print", *words, stderr=subprocess.DEVNULL)
        self.assertRegex(self.assert_done(proxy, "offer", "0s", "letter", *words), r"\AOFFERED 0 [0-9]+\n\Z")
        self.assertIn("letter", worker.stdout.readline())
        self.assert_exits(worker, "done 1, again 0, dead 0, lost 0, unheard 0\n")
        status, _, errors = self.command(proxy.port, "size", *words[:-1], self.certificates.key("stranger"))
        self.assertEqual(status, 2)
        self.assertRegex(errors, "(?i)^rb_broker_client: --ca, --cert or --key can't be used: .*key values mismatch")

    def refuse(self, port, text, encrypts=True, **certificates):
        """Each kind of client is refused, and says why. It trusts and shows these certificates, if it encrypts."""
        tls = self.certificates.client(**certificates) if encrypts else None

        async def ask():
            async with AsyncBroker(port, patience=PATIENCE, tls=tls) as broker:
                await broker.size()

        self.assertRaisesRegex(OSError, text, lambda: asyncio.run(ask()))
        with self.assertRaisesRegex(OSError, text), Broker(port, patience=PATIENCE, tls=tls) as broker:
            broker.size()
        with Producer(port, patience=PATIENCE, pauses=ONE_TRY, tls=tls) as producer:
            self.assertRaisesRegex(NotOfferedError, text, producer.offer, "letter")
        status, said, errors = self.command(port, "size", *(self.words(**certificates) if encrypts else []))
        self.assertEqual((status, said), (1, ""))
        self.assertRegex(errors, rf"\Arb_broker_client: 127\.0\.0\.1:{port}: [^\n]+\n\Z")
        self.assertRegex(errors, text)

    def test_who_is_refused_and_why(self):
        """By which certificate of the server, for which reason, and what the client trusts and shows."""
        for served, text, shown in (
            ("server", "CERTIFICATE_VERIFY_FAILED", {"authority": "other"}),
            ("expired", "certificate has expired", {}),
            ("server", REFUSED, {"name": None}),  # a client without a certificate
            ("server", REFUSED, {"name": "stranger"}),  # and one with that of another authority
            ("server", "(?i)closed|reset|broken pipe", {"encrypts": False}),
        ):
            with self.subTest(served=served, shown=shown):
                self.refuse(self.protect(served).port, text, **shown)
        self.refuse(self.serve("--workers", 4, "--sessions", 100).port, "(?i)wrong.version|EOF|record")

    def test_a_worker_logs_why_and_tries_again(self):
        worker = Worker(lambda job: None, self.protect("expired").port, tls=self.certificates.client())
        with self.assertLogs("rb_broker_client", logging.DEBUG) as said:
            self.begin_worker(worker)
            self.wait_until(lambda: len(said.records) > 2)
            self.assert_stops(worker, Report())
        levels, texts = zip(*((it.levelno, it.getMessage()) for it in said.records))
        self.assertEqual(levels, (logging.WARNING, *[logging.DEBUG] * (len(texts) - 1)))
        for it in texts:
            self.assertRegex(it, "^no server at 127.0.0.1:[0-9]+: .*certificate has expired")

    def test_the_name_must_be_right(self):
        with self.assertRaisesRegex(ssl.SSLCertVerificationError, "(?i)hostname mismatch|IP address mismatch"):
            Broker(self.protect().port, "localhost", tls=self.certificates.client())


@unittest.skipUnless(shutil.which("stunnel"), "there is no stunnel")
class StunnelTest(TlsTest):
    """The proxy is stunnel, with the settings of docs/OPERATING.md, but for ports and files. It knows the client, and a
    client's authority is nothing to it."""

    def proxy(self, port, certificate):
        listens, shown, settings = free_port(), Path(self.room, "shown.pem"), Path(self.room, "stunnel.conf")
        parts = self.certificates.path(certificate), self.certificates.key(certificate)
        shown.write_text("".join(Path(it).read_text(encoding="ascii") for it in parts), encoding="ascii")
        page = Path(TOP, "docs", "OPERATING.md").read_text(encoding="utf-8")
        text = textwrap.dedent(re.search(r"(?m)^    \[rb_broker\]\n(?:    .+\n)+", page)[0])
        for told, here in (("accept = 7012", f"accept = 127.0.0.1:{listens}"), ("127.0.0.1:7011", f"127.0.0.1:{port}"),
                           ("/etc/stunnel/server.pem", str(shown)),
                           ("/etc/stunnel/clients.pem", self.certificates.path("client"))):
            self.assertEqual(text.count(told), 1, text)
            text = text.replace(told, here)
        settings.write_text(f"foreground = yes\npid =\n{text}", encoding="ascii")
        process = self.enterContext(started(["stunnel", settings], stderr=subprocess.DEVNULL))
        self.addCleanup(process.kill)
        listening = f":{listens:04X} 00000000:0000 0A "
        self.wait_until(lambda: listening in Path("/proc/net/tcp").read_text(encoding="ascii"))
        return types.SimpleNamespace(port=listens)
