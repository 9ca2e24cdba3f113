"""Other users of the machine, who may connect to the port and to nothing else of a service."""
import os
import shutil
import subprocess
import unittest
from pathlib import Path
from unittest import mock

from servicing.tests.process import SYSTEMS_PYTHON, Service, ServiceTest

OTHER, ROOT = 65534, 0

# Connects to every socket that is there, by whatever name: asks for a command that leaves a proof, as a keeper that an
# earlier service had would have run it, and a page for the status. Prints each answer.
ATTACK = r"""
import json, os, socket, sys
words = json.dumps({"do": "start", "run": 1, "words": ["/usr/bin/touch", sys.argv[1]]}).encode()
names = {line.split()[7] for line in open("/proc/net/unix") if len(line.split()) > 7 and sys.argv[2] in line}
for name in [*("\0" + it[1:] if it.startswith("@") else it for it in names), *sys.argv[3:]]:
    for kind, asked in (socket.SOCK_SEQPACKET, words), (socket.SOCK_STREAM, b"GET /health HTTP/1.0\r\n\r\n"):
        try:
            link = socket.socket(socket.AF_UNIX, kind)
            link.settimeout(5)
            link.connect(name)
            socket.send_fds(link, [asked], [os.memfd_create("given") for _ in range(3)])
            print(link.recv(1000).decode().partition("\r\n")[0], end="")
        except OSError:
            pass
"""


@unittest.skipIf(os.geteuid() or not shutil.which("setpriv"), "it takes root and setpriv to be another user")
@unittest.skipUnless(os.path.exists(SYSTEMS_PYTHON), f"there is no {SYSTEMS_PYTHON}")
class OthersTest(ServiceTest):
    def attack(self, user: int, *paths: str) -> tuple[str, bool]:
        """What a user is told at all sockets, and whether a command of theirs ran."""
        proof = Path(self.path("proof"))
        words = ["setpriv", f"--reuid={user}", f"--regid={user}", "--clear-groups", SYSTEMS_PYTHON, "-c", ATTACK]
        id = Path(self.path("runs/id")).read_text("ascii").strip()
        ran = subprocess.run([*words, str(proof), id, *paths], capture_output=True, check=True, cwd="/", text=True)
        return ran.stdout, proof.exists()

    def open_to_all(self, *names: str) -> list[str]:
        """Takes every guard of the file system away. Returns the paths."""
        os.chmod(self.room, 0o777)
        paths = [self.path(it) for it in names]
        for it in paths:
            os.chmod(it, 0o777)
        return paths

    def listening(self, service: Service) -> set[str]:
        """The last part of the name of each Unix socket that the service has."""
        links = (os.readlink(it.path) for it in os.scandir(f"/proc/{service.process.pid}/fd"))
        own = {it[8:-1] for it in links if it.startswith("socket:")}
        lines = (it.split() for it in Path("/proc/net/unix").read_text("ascii").splitlines()[1:])
        return {it[7].rpartition("/")[2] for it in lines if it[6] in own and len(it) > 7}

    def test_nobody_else_is_heard(self) -> None:
        """There is one socket, at which root is told the status, and others nothing though every guard of the file
        system is gone. None has an abstract name."""
        service = self.begin()
        os.chmod(self.room, 0o777)
        status = self.path("runs/status")
        self.assertEqual(os.stat(status).st_mode & 0o777, 0o600)
        self.assertEqual(self.attack(OTHER, status), ("", False))
        self.open_to_all("runs", "runs/status")
        self.assertEqual(self.attack(OTHER, status), ("", False))
        self.assertEqual(self.attack(ROOT, status), ("HTTP/1.0 200 OK", False))
        self.assertEqual(self.listening(service), {"status"})
        service.kill()
        self.assertEqual([self.attack(it, status) for it in (OTHER, ROOT)], [("", False)] * 2)

    def test_what_waits_in_memory(self) -> None:
        """The runtime directory has to be the user's own, too, and a link in it leads nowhere."""
        for mode, owner in ((0o777, ROOT), (0o700, OTHER)):
            os.mkdir(self.path(f"run-{mode}"))
            os.chmod(self.path(f"run-{mode}"), 0o700)
            own = self.path(f"run-{mode}/rb_broker")
            os.mkdir(own)
            os.chmod(own, mode)
            os.chown(own, owner, -1)
            with mock.patch.dict(os.environ, XDG_RUNTIME_DIR=self.path(f"run-{mode}")):
                service = self.start()
                self.assertEqual(service.end(), 1)
            self.assertIn(f"service: {own} ", service.lines[-1])

    def test_a_folder_that_others_have_a_hand_in(self) -> None:
        """Nothing is served from it, and the line says what to do. What others may only read is no matter."""
        with self.serving():
            self.offer(1)
        folder, record = self.path("runs"), self.path("runs/run-1.json")
        os.symlink(folder, self.path("link"))
        for path, user, mode, where, says in (
            (folder, OTHER, 0o700, folder, f"{folder} belongs to user {OTHER}: it has to be this user's own"),
            (folder, ROOT, 0o770, folder, f"{folder} can be written by other users: chmod go-w {folder}"),
            (folder, ROOT, 0o702, folder, f"{folder} can be written by other users: chmod go-w {folder}"),
            (record, OTHER, 0o600, folder, f"{record} belongs to user {OTHER}: it has to be this user's own"),
            (record, ROOT, 0o620, folder, f"{record} can be written by other users: chmod go-w {record}"),
            (self.path("link"), OTHER, 0o700, self.path("link"),
             f"{self.path('link')} belongs to user {OTHER}: it has to be this user's own"),
        ):
            before = os.stat(path).st_mode
            os.chown(path, user, -1, follow_symlinks=False)
            os.chmod(path, mode)
            service = self.start(folder=where)
            self.assertEqual((service.end(), service.lines), (1, [f"service: {says}"]))
            os.chown(path, ROOT, -1, follow_symlinks=False)
            os.chmod(path, before)
        os.chmod(folder, 0o755)
        with self.serving(folder=self.path("link")):
            self.has_left(1)

    def test_what_is_no_file(self) -> None:
        """A link leads elsewhere, and a pipe would keep the service waiting."""
        with self.serving():
            pass
        path = self.path("runs/run-1.txt")
        os.rename(path, self.path("elsewhere"))
        for make in (lambda: os.mkfifo(path), lambda: os.symlink(self.path("elsewhere"), path)):
            make()
            service = self.start()
            self.assertEqual((service.end(), service.lines), (1, [f"service: {path} is no regular file: remove it"]))
            os.unlink(path)
