"""Where the tests find the package, in processes of their own too, and the modules that they share by their names."""
import os
import sys
from pathlib import Path

HERE = Path(__file__).resolve().parent
PACKAGE = str(HERE.parent / "src")
sys.path[:0] = [PACKAGE, *(str(HERE / it) for it in ("unit", "served", "day"))]
os.environ.update({"PYTHONPATH": PACKAGE, "PYTHONDONTWRITEBYTECODE": "1"})
