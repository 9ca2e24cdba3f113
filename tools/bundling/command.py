"""Makes a Debian package of rb_broker: tools/package [--program PATH] [--output FOLDER], from any folder.

The package contains the program, manual pages, a systemd unit for a service at each port, the tools, the examples,
the Python packages of clients and of gateways to Redis, and the documents for users. Its sources are in packaging/. The
tool packs the program byte for byte as it is; without --program, ./broker first builds it if it has to. The version is
the repository's: its tag, or else the time and the name of the last commit. The same files make the same package.

The tool needs git and debhelper, which it looks for before all else, and no network. It prints the path of the
package, rb-broker.deb, which it writes over one made before. `dpkg-deb -f rb-broker.deb Version` says which it is.

Exit status: 0 if the package was made, 2 if it was not; one line on standard error then says why.
"""
import sys
from pathlib import Path

from common.program import built_program
from common.words import parser_of
from bundling import Fault
from bundling.debian import look_ahead, make_package


def main() -> int:
    parser = parser_of("tools/package", __doc__)
    parser.add_argument("--program", metavar="PATH", help="the program to pack (default: that of ./broker)")
    parser.add_argument("--output", metavar="FOLDER", default=".", type=Path,
                        help="the folder of the package (default: this folder)")
    given = parser.parse_args()
    try:
        look_ahead(given.output)
        print(make_package(Path(built_program(given.program)), given.output))
        return 0
    except (Fault, OSError) as fault:
        print(f"package: {fault}", file=sys.stderr)
        return 2
