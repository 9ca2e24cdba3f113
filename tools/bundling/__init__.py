"""The parts of tools/package."""


class Fault(Exception):
    """What keeps a package from being made, in one line for the user."""
