"""The pages of this repository, compared."""
from pathlib import Path

import pytest

from checking.docs import COMPARED
from common.program import TOP


@pytest.mark.parametrize("part", COMPARED)
def test_pages(part: str) -> None:
    found = [*COMPARED[part].find(Path(TOP))]
    assert found and not [fault for fault in found if fault]
