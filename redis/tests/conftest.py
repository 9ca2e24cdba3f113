"""Where the tests of the broker on Redis find the modules of the packages and of other tests, also in processes of their
own."""
import os
import sys
from pathlib import Path

import pytest

HERE = Path(__file__).resolve().parent
TOP = HERE.parents[1]
CLIENT = TOP / "clients/python"
PATHS = [str(it) for it in (HERE.parent / "src", HERE, CLIENT / "src", TOP / "dev", TOP / "tools")]
sys.path[:0] = PATHS
sys.path += [str(CLIENT / "tests" / it) for it in ("served", "day")]
os.environ.update({"PYTHONPATH": os.pathsep.join(PATHS), "PYTHONDONTWRITEBYTECODE": "1"})

LONGEST = ["test_lost", "test_hostile_day", "test_cluster"]


def pytest_collection_modifyitems(items: list[pytest.Item]) -> None:
    """Lets the longest begin first: of several processes, none is left alone with them at the end."""
    items.sort(key=lambda it: LONGEST.index(it.path.stem) if it.path.stem in LONGEST else len(LONGEST))
