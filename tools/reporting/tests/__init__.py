"""The tests of tools/report, which `dev/check report` runs. The values that they expect follow from docs/HISTORY.md,
docs/PROTOCOL.md and the README, or from what a history says, counted by hand.
"""
import os
import shutil

BROWSERS = ("chromium", "chromium-browser", "google-chrome")
BROWSER: str | None = next(filter(None, map(shutil.which, BROWSERS)), None)
EVENTS = int(os.environ.get("RB_BROKER_EVENTS", 1_000_000))  # of a large history, or 0 if these are left out
