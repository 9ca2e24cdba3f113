"""What tests with servers need."""
import subprocess

from checking.testing import RoomTest
from serving.server import Server


class ServingTest(RoomTest):
    """A test with a folder of its own, and with servers that are ended behind it if they have not ended."""

    def serve(self, *options: object, port: int | None = None) -> Server:
        """A server with these options, at this port or at one that nobody else uses. It can be drained if it is
        attended."""
        server = Server(options, port=port, stdin=subprocess.PIPE if "--until-input-ends" in options else None)
        self.addCleanup(server.kill)
        return server
