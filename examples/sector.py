"""A made sector with traffic: fixes on a network of routes, restricted areas, types of aircraft, and flights that fly.

Nothing here is a real place or flight. Positions are 1/3600 of a nautical mile, heights 1/60 of a foot, speeds knots, rates feet a minute, times
seconds, as the protocol has them; so a speed is units a second.
"""

import heapq
import math
import random

MILE = 3600
LEVEL = 6000
HALF = 150 * MILE  # the sector is 300 by 300 nautical miles
INNER_FIXES = 40
BORDER_FIXES = 5  # on each side
FLOWS = 18
NOISE, HEIGHT_NOISE = 0.04 * MILE, 1200
APART_AT_ENTRY = 240  # seconds between two flights that enter by one fix at one level
START_OF_DESCENT = 100 * MILE  # the distance to go at which an arrival is to be cleared down

# Bands: top, speed, climb, descent.
TYPES = {
    "A320": [[100, 290, 2400, 1500], [240, 390, 2200, 2000], [390, 450, 1500, 2200]],
    "B738": [[100, 290, 2600, 1500], [240, 400, 2300, 2000], [410, 455, 1600, 2300]],
    "A333": [[100, 300, 1800, 1400], [240, 410, 1700, 1800], [410, 466, 1100, 2000]],
    "B77W": [[100, 300, 1900, 1400], [240, 420, 1800, 1900], [430, 472, 1200, 2100]],
    "E190": [[100, 270, 2300, 1500], [240, 370, 2000, 1900], [390, 445, 1400, 2000]],
    "AT76": [[250, 265, 1200, 1500]],
    "C56X": [[100, 250, 2800, 1800], [430, 432, 1900, 2400]],
}
SHARES = {"A320": 28, "B738": 26, "A333": 10, "B77W": 9, "E190": 14, "AT76": 7, "C56X": 6}
OPERATORS = ["AVL", "BRK", "CYN", "DLM", "ERN", "FJD", "GLC", "HVN", "ISL", "JUN", "KST", "LUX"]
AREA_SIDES = 7
RULES = {"gh": 8, "rmax": 4500, "gv": 50, "wmax": 15000}  # margins of traffic that is reported well


def names_of(draw, count):
    """So many names that can be spoken, all different."""
    found = set()
    while len(found) < count:
        found.add("".join(draw.choice(letters) for letters in ("BDGKLMNPRSTV", "AEIOU", "DGKLMNRSTV", "AEIOU", "KLMNRSTX")))
    names = sorted(found)
    draw.shuffle(names)
    return names


def distance(a, b):
    return math.hypot(b[0] - a[0], b[1] - a[1])


def places_of(draw):
    """Where the fixes are: those of the border, side by side, and then those inside, well apart."""
    border = []
    for side in range(4):
        for number in range(BORDER_FIXES):
            along = -HALF + 2 * HALF * (number + 0.5 + draw.uniform(-0.25, 0.25)) / BORDER_FIXES
            border.append([(along, -HALF), (HALF, along), (-along, HALF), (-HALF, -along)][side])
    inner = []
    while len(inner) < INNER_FIXES:
        tried = [(draw.uniform(-0.88, 0.88) * HALF, draw.uniform(-0.88, 0.88) * HALF) for _ in range(12)]
        inner.append(max(tried, key=lambda one: min(distance(one, other) for other in border + inner)))
    return [(round(x), round(y)) for x, y in border + inner]


def edges_of(places):
    """The pairs of fixes, not both of the border, with no third one within the circle over them."""
    edges = []
    for a in range(4 * BORDER_FIXES, len(places)):
        for b in range(a):
            middle = ((places[a][0] + places[b][0]) / 2, (places[a][1] + places[b][1]) / 2)
            half = distance(places[a], places[b]) / 2
            if all(c in (a, b) or distance(places[c], middle) >= half for c in range(len(places))):
                edges.append((b, a))
    return edges


def turn(a, b, c):
    """The angle by which one turns at b, from a to c."""
    angle = math.atan2(c[1] - b[1], c[0] - b[0]) - math.atan2(b[1] - a[1], b[0] - a[0])
    return abs(math.remainder(angle, 2 * math.pi))


def way(places, near, start, end):
    """The way of least length and turns over the network, or None."""
    seen, heap = set(), [(0.0, start, start, (start,))]
    while heap:
        cost, before, here, path = heapq.heappop(heap)
        if here == end:
            return path
        if (before, here) in seen:
            continue
        seen.add((before, here))
        for there in near[here]:
            if there not in path:
                bend = turn(places[before], places[here], places[there]) if before != here else 0.0
                if bend < 1.6:
                    more = distance(places[here], places[there]) + 30 * MILE * bend * bend
                    heapq.heappush(heap, (cost + more, here, there, path + (there,)))
    return None


class Sector:
    """The fixes by name, the edges of the network, the flows of traffic as routes with their weights, the airfields and the restricted areas."""

    def __init__(self, seed):
        draw = random.Random(seed)
        places = places_of(draw)
        names = names_of(draw, len(places))
        self.fixes = dict(zip(names, places))
        edges = edges_of(places)
        near = [[] for _ in places]
        for a, b in edges:
            near[a].append(b)
            near[b].append(a)
        border = range(4 * BORDER_FIXES)
        inner = sorted(range(4 * BORDER_FIXES, len(places)), key=lambda one: distance(places[one], (0, 0)))
        fields = [inner[2], next(one for one in inner[6:] if distance(places[one], places[inner[2]]) > 110 * MILE)]
        self.airfields = [names[one] for one in fields]
        self.flows = []
        while len(self.flows) < 2 * FLOWS:
            a, b = draw.sample(border, 2)
            if distance(places[a], places[b]) > 220 * MILE and a // BORDER_FIXES != b // BORDER_FIXES:
                path = way(places, near, a, b)
                self.add_flow("over", names, path, draw.choice([1, 2, 4]))
                self.add_flow("over", names, path and path[::-1], draw.choice([1, 2, 4]))
        for field in fields:
            self.add_field(draw, names, places, near, field)
        self.edges = sorted({tuple(sorted(pair)) for _, route, _ in self.flows for pair in zip(route, route[1:])})
        self.areas = [self.area(draw, "AR1", (-0.45, 0.4), 26 * MILE, 0, 340), self.area(draw, "AR2", (0.5, -0.35), 20 * MILE, 280, 460)]

    def add_field(self, draw, names, places, near, field):
        """Arrivals and departures of an airfield, each on ways of their own."""
        far = [one for one in range(4 * BORDER_FIXES) if distance(places[one], places[field]) > 90 * MILE]
        ends = draw.sample(far, 8)
        arrivals = [way(places, near, one, field) for one in ends[:4]]
        used = {pair for path in arrivals if path for pair in zip(path[1:], path)}
        rest = [[there for there in near[here] if (here, there) not in used] for here in range(len(places))]
        for path in arrivals:
            self.add_flow("arrival", names, path, draw.choice([2, 3]))
        for one in ends[4:]:
            self.add_flow("departure", names, way(places, rest, field, one), draw.choice([2, 3]))

    def add_flow(self, purpose, names, path, weight):
        """A way that flights take."""
        if path and len(path) > 2:
            self.flows.append((purpose, [names[one] for one in path], weight))

    @staticmethod
    def area(draw, name, middle, radius, bottom, top):
        """A restricted area, its corners counterclockwise on a circle."""
        first = draw.uniform(0, 1)
        angles = [2 * math.pi * (number + 0.3 * draw.random() + first) / AREA_SIDES for number in range(AREA_SIDES)]
        corners = [[round(middle[0] * HALF + radius * math.cos(one)), round(middle[1] * HALF + radius * math.sin(one))] for one in angles]
        return {"name": name, "corners": corners, "bottom": bottom, "top": top}

    def setup(self):
        """The lines that set a picture up."""
        lines = [dict({"do": "rule"}, **RULES)]
        lines += [{"do": "fix", "name": name, "x": x, "y": y} for name, (x, y) in self.fixes.items()]
        lines += [{"do": "type", "name": name, "bands": bands} for name, bands in TYPES.items()]
        lines += [{"do": "area", **area} for area in self.areas]
        return lines + [{"do": "begin"}]

    def map(self):
        """What a page can draw beneath the traffic."""
        return {
            "fixes": [[name, x, y] for name, (x, y) in self.fixes.items()],
            "edges": self.edges,
            "airfields": self.airfields,
            "areas": self.areas,
        }


def band_of(kind, z):
    """The band of a type that holds a height."""
    return next((band for band in TYPES[kind] if z <= band[0] * LEVEL), TYPES[kind][-1])


class Aircraft:
    """A flight as it is flown, which is a little different from how it is predicted."""

    def __init__(self, sector, draw, call, kind, purpose, route, at, start_level, level):
        self.sector, self.draw = sector, draw
        self.call, self.kind, self.purpose, self.route = call, kind, purpose, route
        self.at, self.start_level, self.level = at, start_level, level
        self.rvsm = level < 290 or draw.random() < 0.95
        self.x, self.y = sector.fixes[route[0]]
        self.z = start_level * LEVEL
        self.next = 1
        self.pace, self.vigour = draw.uniform(0.99, 1.01), draw.uniform(0.94, 1.06)
        self.time = at
        self.stray = 0.0  # the angle by which it flies beside its way
        self.stray_until = 0
        self.descends = False

    def plan(self):
        """The line that files it."""
        fields = {"do": "plan", "call": self.call, "type": self.kind, "route": self.route, "at": self.at}
        fields["from"] = self.start_level
        return dict(fields, level=self.level, rvsm=self.rvsm)

    def report(self):
        """The line that says where it is, as a sensor sees it."""
        x, y = self.x + self.draw.gauss(0, NOISE), self.y + self.draw.gauss(0, NOISE)
        z = min(max(self.z + self.draw.gauss(0, HEIGHT_NOISE), 0), 600 * LEVEL)
        return {"do": "report", "call": self.call, "at": self.time, "x": round(x), "y": round(y), "z": round(z)}

    def has_arrived(self):
        return self.next >= len(self.route)

    def to_go(self):
        """How far it is to the end of its route."""
        rest = [(self.x, self.y)] + [self.sector.fixes[name] for name in self.route[self.next :]]
        return sum(distance(a, b) for a, b in zip(rest, rest[1:]))

    def is_to_descend(self):
        """Whether an arrival has come to where it is to leave its level; it says so once."""
        if self.purpose != "arrival" or self.descends or self.to_go() > START_OF_DESCENT * self.level / 350:
            return False
        self.descends = True
        return True

    def take(self, entry):
        """Flies a clearance that was entered."""
        if "level" in entry:
            self.level = entry["level"]
        elif entry["direct"] in self.route[self.next + 1 :]:
            self.next = self.route.index(entry["direct"], self.next + 1)

    def fly(self, time):
        """Flies on to a second."""
        if self.time >= self.stray_until:
            self.stray = 0.0
            if self.draw.random() < 0.0015:
                self.stray = self.draw.choice([-1, 1]) * self.draw.uniform(0.3, 0.5)
                self.stray_until = self.time + self.draw.randint(70, 150)
        seconds = time - self.time
        self.time = time
        _, speed, climb, descent = band_of(self.kind, self.z)
        self.z += min(max(self.level * LEVEL - self.z, -descent * self.vigour * seconds), climb * self.vigour * seconds)
        rest = speed * self.pace * seconds
        while rest > 0 and not self.has_arrived():
            fix = self.sector.fixes[self.route[self.next]]
            far = distance((self.x, self.y), fix)
            step = min(rest, far)
            if far > 0:
                angle = math.atan2(fix[1] - self.y, fix[0] - self.x) + (self.stray if far > 12 * MILE else 0.0)
                self.x += step * math.cos(angle)
                self.y += step * math.sin(angle)
            if step == far:
                self.next += 1
            rest -= step


class Traffic:
    """Flights that enter, fly and leave, so that as many as wanted are in the air."""

    def __init__(self, sector, seed, wanted, now):
        self.sector, self.draw, self.wanted = sector, random.Random(seed + 1), wanted
        self.flying = {}
        self.entered = {}  # by fix and level, when the last flight entered
        for _ in range(10 * wanted):
            if len(self.flying) < wanted:
                self.enter(now, early=True)

    def call(self):
        while True:
            call = self.draw.choice(OPERATORS) + str(self.draw.randint(12, 999)) + self.draw.choice(["", "", "", "A", "K", "X"])
            if call not in self.flying:
                return call

    def is_apart(self, flight):
        """Whether a flight that enters is well apart from each other one."""
        others = self.flying.values()
        return all(distance((flight.x, flight.y), (one.x, one.y)) > 15 * MILE or abs(flight.z - one.z) > 15 * LEVEL for one in others)

    def enter(self, now, early=False):
        """A flight more, at the beginning of its route, or at the start anywhere on it; None where its way in isn't free now."""
        draw = self.draw
        purpose, route, _ = draw.choices(self.sector.flows, weights=[flow[2] for flow in self.sector.flows])[0]
        kind = draw.choices(list(SHARES), weights=list(SHARES.values()))[0]
        ceiling = TYPES[kind][-1][0]
        first, last = self.sector.fixes[route[0]], self.sector.fixes[route[-1]]
        east = last[0] >= first[0]
        levels = [level for level in range(170 if ceiling < 260 else 290, min(ceiling, 410) + 1, 10) if (level // 10) % 2 == east]
        level = draw.choice(levels)
        start = {"departure": draw.choice([50, 60, 70]), "arrival": level}.get(purpose, level)
        if purpose == "over" and draw.random() < 0.2:
            start = min(max(level + draw.choice([-40, -20, 20]), 150), ceiling)
        length = sum(distance(self.sector.fixes[a], self.sector.fixes[b]) for a, b in zip(route, route[1:]))
        at = now - int(draw.random() * length / (TYPES[kind][-1][1] * 1.02)) if early else now
        slot = (route[0], start if purpose != "departure" else 0)
        if any(abs(at - other) < APART_AT_ENTRY for other in self.entered.get(slot, [])):
            return None
        flight = Aircraft(self.sector, draw, self.call(), kind, purpose, route, at, start, level)
        while flight.time < now:
            flight.fly(min(flight.time + 8, now))
        if flight.has_arrived() or not self.is_apart(flight):
            return None
        self.entered[slot] = [other for other in self.entered.get(slot, []) if other > now - 3600] + [at]
        self.flying[flight.call] = flight
        return flight
