"""What the tests of the clients share: the program that they run, and a port for it."""

import os
import socket
import sys
from typing import List, Optional

TOP = os.path.dirname(os.path.dirname(os.path.abspath(__file__)))


def program_of(words: List[str], without: str) -> Optional[str]:
    """The program that is given, else that of the variable MTCD, else the built one. Where there is none, what is left out then is told."""
    built = os.path.join(TOP, "crates", "mtcd", "out", "mtcd")
    program = words[0] if words else os.environ.get("MTCD") or (built if os.access(built, os.X_OK) else None)
    if program is None:
        print("%s: crates/mtcd/out/mtcd isn't built, so %s" % (os.path.basename(sys.argv[0]), without), file=sys.stderr)
    return program


def free_port() -> int:
    """A port of this machine at which nothing listens."""
    with socket.socket() as probe:
        probe.bind(("127.0.0.1", 0))
        return probe.getsockname()[1]
