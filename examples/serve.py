#!/usr/bin/env python3
"""A feed and two positions on one picture. Prints each line with who sends it, and its reply.

Usage: examples/serve.py [PORT]
"""

import os
import sys

sys.dont_write_bytecode = True
sys.path.insert(0, os.path.join(os.path.dirname(os.path.abspath(__file__)), "..", "clients"))

import mtcd  # noqa: E402  (the folder has to be on the path first)

PORT = int(sys.argv[1]) if len(sys.argv) > 1 else 7700


def link(name):
    """A connection, by the name of who speaks on it."""
    return mtcd.Client(port=PORT, log=lambda line, reply: print("%-6s> %s\n%-6s< %s" % (name, line, name, reply)))


def main():
    feed, north, south = link("feed"), link("north"), link("south")
    feed.hello("feed")
    north.hello("position")
    south.hello("position")
    feed.plan("DDD1", "JA1", ["Q0", "Q1"], 0, 350)
    probe = north.probe("DDD1", level=360)
    feed.ask(do="external", call="JJJ1", from_=0, to=1200, x=144000, y=0, z=2160000, vx=-480)
    south.list()
    try:
        north.accept(probe.probe)
    except mtcd.Refused:
        pass  # as stale: the picture has changed since
    south.tentative("DDD1", level=360)
    north.list()
    south.withdraw("DDD1")
    for client in (feed, north, south):
        client.bye()
        client.close()


try:
    main()
except mtcd.Ended as fault:
    sys.exit("serve.py: %s" % fault)
