"""The tests of tools/verify, which `dev/check verify` runs. What they expect follows from docs/HISTORY.md and
docs/PROTOCOL.md, from runs that were written by hand, and from runs of a simulated queue that were changed on purpose.
"""
