"""Places by name, from files of navigation data.

A file has rows of latitude, longitude and name, as those of flight simulators, with more behind them; or it is a CSV whose head line has a column for
each: lat, latitude or latitude_deg; lon, long, longitude or longitude_deg; ident, fix or name, the first of these that is there. Degrees are decimal.
"""

import csv
import math
import re
from typing import Callable, Dict, Iterator, List, Optional, Tuple

Place = Tuple[float, float]  # latitude and longitude, in degrees

COLUMNS = (("lat", "latitude", "latitude_deg"), ("lon", "long", "longitude", "longitude_deg"), ("ident", "fix", "name"))
HEADS, LAST_ROW = ("I", "A"), "99"  # of a simulator's file: its first line, which another one follows, and its last


def apart(one: Place, other: Place) -> float:
    """A measure that grows with the distance of two places: the square of the chord between them."""
    (a, b), (c, d) = (tuple(map(math.radians, place)) for place in (one, other))
    return 2 - 2 * (math.sin(a) * math.sin(c) + math.cos(a) * math.cos(c) * math.cos(b - d))


def place_of(lat: str, lon: str) -> Place:
    """A place; a ValueError says what is wrong."""
    found = []
    for text, what, most in ((lat, "the latitude", 90), (lon, "the longitude", 180)):
        if not re.fullmatch(r"[+-]?[0-9]{1,3}(\.[0-9]*)?", text):
            raise ValueError("%s is no number" % what)
        if not -most <= float(text) <= most:
            raise ValueError("%s is out of bounds" % what)
        found.append(float(text))
    return found[0], found[1]


def rows_of_table(lines: List[str]) -> Iterator[Tuple[int, List[str]]]:
    """The rows of a simulator's file: their numbers and words."""
    words = [line.split() for line in lines]
    start = 2 if words and words[0] in [[head] for head in HEADS] else 0
    for place in range(start, len(words)):
        if words[place] and words[place] != [LAST_ROW]:
            yield place + 1, words[place]


def rows_of_csv(lines: List[str]) -> Iterator[Tuple[int, List[str]]]:
    """The rows of a CSV: their numbers, and the three columns that are read."""
    reader = csv.reader(lines)
    head = [column.strip().lower() for column in next(reader)]
    places = [next((head.index(name) for name in names if name in head), None) for names in COLUMNS]
    if None in places:
        raise ValueError("the head line has no column %s" % COLUMNS[places.index(None)][0])
    for row in reader:
        if row:
            yield reader.line_num, [row[place].strip() if place < len(row) else "" for place in places]


class NamedPlaces:
    """The places of each name, in upper case."""

    def __init__(self) -> None:
        self.places: Dict[str, List[Place]] = {}

    def read(self, lines: List[str], tell: Callable[[int, str], None]) -> None:
        """Takes the rows of a file. A row that is broken is told by its number, with what is wrong; a head line that is raises a ValueError."""
        rows = rows_of_csv(lines) if "," in next((line for line in lines if line.strip()), "") else rows_of_table(lines)
        for number, row in rows:
            try:
                if len(row) < 3 or not row[2]:
                    raise ValueError("it isn't latitude, longitude and name")
                self.places.setdefault(row[2].upper(), []).append(place_of(row[0], row[1]))
            except ValueError as fault:
                tell(number, str(fault))

    def nearest(self, name: str, about: Optional[Place]) -> Optional[Place]:
        """The place of a name; of several, the one nearest to another place. None where there is none, or several and no other place."""
        found = self.places.get(name, [])
        if len(set(found)) > 1:
            return min(found, key=lambda place: apart(place, about)) if about else None
        return found[0] if found else None
