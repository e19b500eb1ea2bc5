"""Two minutes of a busy centre: a region of 600 by 600 nautical miles with 144 fixes, and a thousand flights.

A flight is planned over two to five fixes from one side to the other, at a level of its direction. A fifth climb, a fiftieth are not approved. None
reaches its second fix in these minutes.
"""

import itertools
import math
import random
import types

SECONDS = 120
FLIGHTS = 1_000
MILE = 3_600
AIRLINES = ("AFR", "BAW", "DLH", "KLM", "SAS", "EZY", "RYR")
TYPES = {
    "JA1": [[245, 400, 2200, 2000], [410, 450, 1500, 2000]],
    "JB2": [[245, 420, 2600, 2400], [430, 480, 1800, 2400]],
    "TP3": [[250, 300, 1200, 1500]],
}
SHARES = ("JA1", "JA1", "JB2", "JB2", "JB2", "TP3")


def name_of(fix):
    i, j = fix
    return "%s%s%d" % (chr(65 + i), chr(65 + j), (i * 7 + j) % 10)


class Centre:
    """The flights of the centre, and how many probes each of its fifteen positions has made."""

    def __init__(self, draw):
        self.draw = draw
        self.fixes = {(i, j): tuple((50 * at - 296 + draw.randrange(15)) * MILE for at in (i, j)) for i in range(12) for j in range(12)}
        self.flights = []
        self.probes = [0] * 16

    def begin(self):
        """The lines that begin the picture, and the plans."""
        fixes = [{"do": "fix", "name": name_of(fix), "x": x, "y": y} for fix, (x, y) in self.fixes.items()]
        kinds = [{"do": "type", "name": name, "bands": bands} for name, bands in TYPES.items()]
        return fixes + kinds + [{"do": "begin"}] + [self.plan(101 + number) for number in range(FLIGHTS)]

    def plan(self, number):
        draw = self.draw
        call, route, kind = "%s%d" % (draw.choice(AIRLINES), number), self.route(), draw.choice(SHARES)
        is_east = self.fixes[route[-1]][0] >= self.fixes[route[0]][0]
        level = draw.choice(range(210 if is_east else 200, 250 if kind == "TP3" else 420, 20))
        at = draw.randrange(60, 600)
        line = {"do": "plan", "call": call, "type": kind, "route": [name_of(fix) for fix in route], "at": at, "level": level}
        if draw.random() < 0.2:
            line["from"] = max(100, level - draw.choice((40, 80, 120)))
        if draw.random() < 0.02:
            line["rvsm"] = False
        ends = self.fixes[route[0]], self.fixes[route[1]]
        seconds = math.isqrt(sum((b - a) ** 2 for a, b in zip(*ends))) // TYPES[kind][-1][1] + 1
        due = at + draw.randrange(1, 9)
        self.flights.append(types.SimpleNamespace(call=call, at=at, ends=ends, seconds=seconds, level=level, due=due, is_quiet="from" in line))
        return line

    def route(self):
        """Fixes of two sides, and one to three near the straight line between them."""
        draw = self.draw
        side, here, there = draw.randrange(4), draw.randrange(12), draw.randrange(12)
        ends = (((0, here), (11, there)), ((11, here), (0, there)), ((here, 0), (there, 11)), ((here, 11), (there, 0)))[side]
        parts = draw.randrange(2, 5)
        near = [[round(a + (b - a) * part / parts) + draw.randrange(-1, 2) for a, b in zip(*ends)] for part in range(1, parts)]
        between = [(min(11, max(0, i)), min(11, max(0, j))) for i, j in near]
        return [fix for fix, _ in itertools.groupby([ends[0], *between, ends[1]])]

    def second(self, now):
        """What the feed tells, four lists, and in two seconds of three what a position asks."""
        reports, is_wide = self.reports(now)
        settle = [{"do": "settle"}] if is_wide or now % 5 == 0 else []
        return [{"do": "tick", "now": now}] + reports + settle + [{"do": "list"}] * 4 + (self.asked() if now % 3 else [])

    def reports(self, now):
        """A report of each level flight that is due, every 8 seconds, and whether one is wide, which is its flight's last."""
        lines, is_wide = [], False
        for flight in self.flights:
            if flight.due == now:
                flight.due += 8
                if not flight.is_quiet:
                    lines.append(self.report(flight, now))
                    is_wide |= flight.is_quiet
        return lines, is_wide

    def report(self, flight, now):
        """A report near where the flight's plan has it. One in a thousand is wide, 2.5 nautical miles off in each direction."""
        draw = self.draw
        x, y = (a + (b - a) * (now - flight.at) // flight.seconds + draw.randrange(-900, 901) for a, b in zip(*flight.ends))
        if draw.random() < 0.001:
            x, y = x + draw.choice((-9_000, 9_000)), y + draw.choice((-9_000, 9_000))
            flight.is_quiet = True
        return {"do": "report", "call": flight.call, "at": now, "x": x, "y": y, "z": 6_000 * flight.level + draw.randrange(-3_000, 3_001)}

    def asked(self):
        """What a position asks on a picture that it takes: a probe that it may accept, advice, or a tentative clearance that it withdraws."""
        draw = self.draw
        who, call, what = draw.randrange(1, 16), draw.choice(self.flights).call, draw.random()
        if what < 0.6:
            self.probes[who] += 1
            lines = [{"do": "probe", "call": call, "level": 10 * draw.randrange(20, 42), "who": who}]
            if draw.random() < 0.4:
                lines.append({"do": "accept", "probe": self.probes[who], "who": who})
        elif what < 0.8:
            lines = [{"do": "advise", "call": call, "who": who}]
        else:
            lines = [{"do": "tentative", "call": call, "level": 10 * draw.randrange(20, 42), "who": who},
                     {"do": "withdraw", "call": call, "force": True, "who": who}]
        return [{"do": "take", "who": who}] + lines


def busy(seed):
    """The lines up to the first tick, and those of the seconds."""
    centre = Centre(random.Random(seed))
    return centre.begin(), [line for now in range(1, SECONDS + 1) for line in centre.second(now)] + [{"do": "bye"}]
