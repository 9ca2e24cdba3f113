"""Where what the commands in this folder share with the tools lies: `import paths` lets Python find it."""
import os
import sys

sys.path.insert(1, f"{os.path.dirname(os.path.dirname(os.path.realpath(__file__)))}/tools")
import common.paths  # noqa: E402, F401
