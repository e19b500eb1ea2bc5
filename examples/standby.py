#!/usr/bin/env python3
"""A second machine that follows a primary, and takes over when that ends.

Usage: examples/standby.py SETUP PORT [PROGRAM]

SETUP is the file of the lines that the primary was given up to `begin`, PORT that at which it serves, and PROGRAM what to run, bin/mtcd unless
it is given. Entries are asked of the primary by `history`, from the version that is followed so far on, and handed to `PROGRAM standby`. At each
version at which the primary tells its list, the standby's list is compared with it. When the primary ends, the standby's own list is printed;
what the primary entered and wasn't asked for by then is lost.
"""

import json
import pathlib
import subprocess
import sys
import time

HERE = pathlib.Path(__file__).resolve().parent
sys.dont_write_bytecode = True
sys.path.insert(0, str(HERE.parent / "clients"))

import mtcd  # noqa: E402  (the folder has to be on the path first)


def patiently(ask, line):
    """Asks again where memory was wanted."""
    while True:
        reply = ask(line)
        if reply != '{"no":"memory"}':
            return reply


class Standby:
    """The program that follows, by its standard streams."""

    def __init__(self, program, setup):
        self.program = subprocess.Popen([program, "standby"], stdin=subprocess.PIPE, stdout=subprocess.PIPE, text=True)
        self.version = 0
        for line in setup:
            if '"done"' not in self.ask(line):
                sys.exit("standby.py: the standby can't be set up by " + line)

    def ask(self, line):
        return patiently(self.ask_once, line)

    def ask_once(self, line):
        self.program.stdin.write(line + "\n")
        self.program.stdin.flush()
        return self.program.stdout.readline().rstrip("\n")

    def follow(self, entry):
        reply = self.ask(json.dumps(entry, separators=(",", ":")))
        if json.loads(reply).get("entered") != self.version + 1:
            sys.exit("standby.py: entry %d is not followed: %s" % (self.version, reply))
        self.version += 1

    def list(self):
        return self.ask('{"do":"list"}')


def catch_up(primary, standby, version):
    """Follows the primary up to a version."""
    while standby.version < version:
        upto = min(standby.version + mtcd.MOST_ENTRIES, version)
        told = patiently(primary.ask_line, '{"do":"history","from":%d,"to":%d}' % (standby.version, upto))
        for entry in json.loads(told)["entries"]:
            standby.follow(entry)


def compare(primary, standby):
    """Asks the primary for its list, follows it up to that version, and compares. Says whether there was anything to follow."""
    told = patiently(primary.ask_line, '{"do":"list"}')
    version = json.loads(told)["version"]
    begins = version == 0 or version > standby.version
    catch_up(primary, standby, version)
    if standby.list() != told:
        sys.exit("standby.py: the lists differ at version %d" % version)
    if begins:
        print("standby.py: the lists are the same at version %d" % version, file=sys.stderr, flush=True)
    return begins


def main():
    setup = pathlib.Path(sys.argv[1]).read_text().splitlines()
    program = sys.argv[3] if len(sys.argv) > 3 else str(HERE.parent / "bin" / "mtcd")
    standby = Standby(program, setup)
    try:
        primary = mtcd.Client(port=int(sys.argv[2]))
    except mtcd.Ended as fault:
        sys.exit("standby.py: %s" % fault)
    try:
        while True:
            if not compare(primary, standby):
                time.sleep(0.05)
    except mtcd.Ended:
        pass
    print(standby.list())
    standby.ask('{"do":"bye"}')
    return standby.program.wait()


if __name__ == "__main__":
    sys.exit(main())
