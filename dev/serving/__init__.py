"""The program as a server, and a client's session, for all tests that need some."""

HOST = "127.0.0.1"

# Seconds that a client waits for a reply, on a machine that does much else.
PATIENCE = 180
