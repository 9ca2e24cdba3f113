"""Where the packages of clients and of gateways lie: `import common.paths` lets the commands of a checkout, or of the
system's package, find them."""
import sys

import common.interrupting  # noqa: F401
from common.program import TOP

sys.path[1:1] = [f"{TOP}/clients/python/src", f"{TOP}/redis/src"]
