"""What the merge refuses before it proves anything."""
import subprocess

from common.program import TOP


def test_the_repository_has_no_symbolic_link() -> None:
    """`rt ci` ends with status 2 at one ("is a link: put the file or folder itself here")."""
    listed = subprocess.run(["git", "-C", TOP, "ls-files", "--stage"], capture_output=True, text=True, check=True)
    assert listed.stdout and not [line for line in listed.stdout.splitlines() if line.startswith("120000 ")]
