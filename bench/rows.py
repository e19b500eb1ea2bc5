"""The rows of bench/instructions: of each its name, the lines before its work, those of the work, and of how many parts the work is.

One seed makes the same lines.
"""

import random

from centre import busy
from measuring import fix, tables

LIST = {"do": "list"}
MOVED = {"do": "tick", "now": 600}
TAKE = {"do": "take"}


def call_of(number):
    return "L%04d" % number


def level(draw):
    return 300 + 10 * draw.randrange(10)


def lanes():
    """A hundred lanes from west to east, ten nautical miles apart."""
    ends = [(name % number, x, 36_000 * number - 1_782_000) for number in range(100) for name, x in (("W%02d", -1_800_000), ("E%02d", 1_800_000))]
    return [{"do": "fix", "name": name, "x": x, "y": y} for name, x, y in ends]


def on_lanes():
    """A planned flight on each lane, at a level that no other flight is near."""
    routes = [["W%02d" % lane, "E%02d" % lane] for lane in range(100)]
    return [{"do": "plan", "call": "Z%02d" % lane, "type": "JA1", "route": route, "at": 0, "level": 200} for lane, route in enumerate(routes)]


def plans(draw, count):
    """Planned flights over three fixes each, at ten levels, which take off within ten minutes."""
    return [
        {"do": "plan", "call": call_of(number), "type": "JA1", "route": [fix(place) for place in draw.sample(range(64), 3)],
         "at": draw.randrange(600), "level": level(draw)}
        for number in range(count)
    ]


def externals(draw, count):
    lines = []
    for number in range(count):
        x, y, high = draw.randrange(-1_000_000, 1_000_000), draw.randrange(-1_000_000, 1_000_000), 290 + 10 * draw.randrange(12)
        lines += [{"do": "external", "call": "X%04d" % number, "from": 0, "to": 3600, "x": x, "y": y, "z": 6_000 * high,
                   "vx": draw.randrange(-480, 481), "vy": draw.randrange(-480, 481), "gr": 2}, LIST]
    return lines


def of_levels(draw, word, flights, count):
    """Lines with this word, of flights and levels that are drawn."""
    return [{"do": word, "call": call_of(draw.randrange(flights)), "level": level(draw)} for _ in range(count)]


def feed(draw, flights):
    """Ten seconds, each with a hundred reports far off, a hundred clearances, what is due by them, and a list."""
    lines = []
    for now in range(600, 610):
        lines.append({"do": "tick", "now": now})
        lines += [{"do": "report", "call": call_of(draw.randrange(flights)), "at": now, "x": draw.randrange(-400_000, 400_000),
                   "y": draw.randrange(-400_000, 400_000), "z": 2_100_000} for _ in range(100)]
        lines += of_levels(draw, "clear", flights, 100) + [{"do": "settle"}, LIST]
    return lines


def acceptances(is_late):
    """Each flight on a lane probed, accepted, and reported, the report behind the acceptance or before it."""
    lines = []
    for lane in range(100):
        accept = {"do": "accept", "probe": lane + 1}
        report = {"do": "report", "call": "Z%02d" % lane, "at": 600, "x": 0, "y": 0, "z": 1_200_000}
        lines += [TAKE, {"do": "probe", "call": "Z%02d" % lane, "level": 210}] + ([report, accept] if is_late else [accept, report])
    return lines


def come_and_go(draw):
    """Flights filed by turns, of which the oldest is dropped once there are 900."""
    lines = []
    for number, plan in enumerate(plans(draw, 3_000)):
        if number >= 900:
            lines.append({"do": "drop", "call": call_of((number - 900) % 1_000)})
        lines.append(dict(plan, call=call_of(number % 1_000)))
    return lines


def of_all(now, flights):
    """A tick, and a report of each flight at one place."""
    return [{"do": "tick", "now": now}] + [{"do": "report", "call": call_of(number), "at": now, "x": 0, "y": 0, "z": 2_100_000} for number in range(flights)]


def marks(draw):
    """Tentative clearances, each withdrawn."""
    return [line for mark in of_levels(draw, "tentative", 1_000, 150) for line in (mark, {"do": "withdraw", "call": mark["call"]})]


def areas(draw):
    lines = []
    for number in range(64):
        x, y = draw.randrange(-400_000, 300_000), draw.randrange(-400_000, 300_000)
        lines.append({"do": "area", "name": "A%02d" % number, "corners": [[x, y], [x + 90_000, y], [x + 90_000, y + 60_000], [x, y + 90_000]],
                      "bottom": 290, "top": 340, "from": 0, "to": 7200})
    return lines


def of_a_day(draw, start, filed):
    """The rows of what a long day adds, on a thousand plans at second 600 or on plans of their own."""
    lines = come_and_go(draw)
    yield "flights that come and go, 900 at once, a line", start, lines, len(lines)
    tried = start + plans(draw, 900) + on_lanes() + [MOVED, TAKE] + [{"do": "probe", "call": "Z%02d" % lane, "level": 210} for lane in range(60)]
    for now in range(601, 645):
        tried += of_all(now, 900)
    yield "acceptances behind 40,000 reports, each", tried, [{"do": "accept", "probe": number + 1} for number in range(60)], 60
    moved = start + filed + [MOVED]
    yield "tentative clearances, marked and withdrawn, a pair", moved, marks(draw), 150
    yield "reports on 1,000 plans, each", moved, [line for now in range(601, 606) for line in of_all(now, 1_000)], 5_000
    yield "questions of a flight on 1,000 plans, each", moved, [{"do": "flight", "call": call_of(draw.randrange(1_000))} for _ in range(2_000)], 2_000
    slices = [{"do": "history", "from": 40 * (number % 20), "to": 40 * (number % 20) + 64} for number in range(200)]
    yield "slices of the history, 64 entries each", moved, slices, 200
    fenced = start[:-1] + areas(draw) + start[-1:] + plans(draw, 1_000) + [MOVED]
    yield "areas of 1,000 flights and 64 areas, each", fenced, [{"do": "areas"}] * 5, 5


def rows(seed):
    draw = random.Random(seed)
    start = tables(lanes())
    filed = plans(draw, 400)
    yield "file 400 plans, each", start, filed, 400
    yield "one list of 400 plans", start + filed, [LIST], 1
    yield "probes on 400 plans, each", start + filed + [MOVED, TAKE], of_levels(draw, "probe", 400, 200), 200
    yield "externals, a list after each, a pair", start, externals(draw, 150), 150
    yield "ticks with lists on 400 plans, a pair", start + filed, [line for now in range(600, 650) for line in ({"do": "tick", "now": now}, LIST)], 50
    yield "refused drops, each", start, [{"do": "drop", "call": "ZZZ%d" % (number % 10)} for number in range(10_000)], 10_000
    filed = plans(draw, 1_000)
    yield "file 1,000 plans, each", start, filed, 1_000
    taken = start + filed + [MOVED, TAKE]
    yield "probes on 1,000 plans, each", taken, of_levels(draw, "probe", 1_000, 500), 500
    yield "advice on 1,000 plans, each", taken, [{"do": "advise", "call": call_of(draw.randrange(1_000))} for _ in range(200)], 200
    changes = feed(draw, 1_000)
    yield "feed on 1,000 plans, a line", start + filed, changes, len(changes)
    moved = start + plans(draw, 900) + on_lanes() + [MOVED]
    yield "acceptances at once, with probe and report, each", moved, acceptances(False), 100
    yield "acceptances after a report of the flight, each", moved, acceptances(True), 100
    begun, seconds = busy(seed)
    yield "two minutes of a busy centre, a line", begun, seconds, len(seconds)
    half = seconds.index({"do": "tick", "now": 61})
    yield "a second of a busy centre, after a minute", begun + seconds[:half], seconds[half:], 60
    yield from of_a_day(draw, start, filed)
