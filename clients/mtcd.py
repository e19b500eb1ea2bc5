"""A client of mtcd for Python, in its standard library alone.

    import mtcd

    with mtcd.Client("127.0.0.1", 7700) as client:
        client.hello("position")
        for conflict in client.list().conflicts:
            print(conflict.pair, conflict.first, conflict.last)
        for hit in client.clear_if_free("EA00", level=360).conflicts:
            print("not cleared, for", hit.call, hit.first, hit.last)

Units, as docs/PROTOCOL.md has them: `x` and `y` are 1/3600 of a nautical mile, east and north; `z` is 1/60 of a foot, so flight level n is at
6,000 n; `vx` and `vy` are knots and `vz` is feet a minute, which are units a second; levels are hundreds of feet; times are whole seconds of the
picture. A version is the number of entries of the history.

A command that the server refuses raises `Refused`. Where no server is, or it ends, `Ended` is raised, which is a ConnectionError.
"""

from __future__ import annotations

import dataclasses
import json
import socket
import time
from typing import Callable, Dict, Iterable, Iterator, List, NamedTuple, Optional, Tuple

UNITS_PER_MILE = 3600
UNITS_PER_FOOT = 60
UNITS_PER_LEVEL = 6000
MOST_ENTRIES = 64  # that one `history` gives
MOST_AT_ONCE = 64  # lines of `ask_all` that are sent before their replies are read


class Refused(Exception):
    """A command was refused: `word` says why, and `reply` is the whole reply."""

    def __init__(self, line: str, reply: dict):
        self.line = line
        self.reply = reply
        self.word: str = reply["no"]
        super().__init__("%s is refused: %s" % (line, json.dumps(reply, separators=(",", ":"))))


class Ended(ConnectionError):
    """No server is there, or it has ended the session."""


class Conflict(NamedTuple):
    """A published conflict: separation is lost in the seconds `first` to `last`; `kinds` has `a` or `t` (tentative) for each of the pair."""

    pair: Tuple[str, str]
    first: int
    last: int
    kinds: str


class Hit(NamedTuple):
    """A conflict that a clearance would have, with another flight, in the seconds `first` to `last`."""

    call: str
    first: int
    last: int


class Conflicts(NamedTuple):
    """What is published at a version, in order of the first second."""

    conflicts: List[Conflict]
    version: int


class Probe(NamedTuple):
    """A clearance that was tried, from second `eff` on: `probe` is its number, by which it is accepted."""

    conflicts: List[Hit]
    eff: int
    probe: int
    version: int


class Cleared(NamedTuple):
    """What came of a clearance that was to be entered while it is free: its version, or None where it had these conflicts; from second `eff` on."""

    entered: Optional[int]
    conflicts: List[Hit]
    eff: int


class Advised(NamedTuple):
    """A clearance that is free: either a level or the name of a fix, and the number by which it is accepted."""

    level: Optional[int]
    direct: Optional[str]
    probe: int


class Advice(NamedTuple):
    """The free clearances of a flight, from second `eff` on."""

    call: str
    advice: List[Advised]
    eff: int
    version: int


class Row(NamedTuple):
    """A trajectory at the start of a second, and its gains in that second; `r` and `w` are its margins, `leg` the place in the route flown to."""

    x: int
    y: int
    z: int
    r: int
    w: int
    vx: int
    vy: int
    vz: int
    gr: int
    gw: int
    leg: int


class Tentative(NamedTuple):
    """A tentative clearance: its level, the number of its owner's seat, and the first second of its trajectory."""

    level: int
    owner: int
    start: int


class FlightView(NamedTuple):
    """A flight at a second: its trajectory covers `start <= k < end`, and `row` is None where it doesn't cover the second asked for.

    `level` is the cleared level, None for an external flight."""

    call: str
    due: bool
    start: int
    end: int
    level: Optional[int]
    row: Optional[Row]
    tentative: Optional[Tentative]
    version: int


class Reported(NamedTuple):
    """An entered report: its version, and the flags that hold of it."""

    version: int
    verdict: List[str]


class Calls(NamedTuple):
    """Callsigns in the order of filing, at a version."""

    calls: List[str]
    version: int


class Entries(NamedTuple):
    """Entries of the history, each a dict, and the version now."""

    entries: List[dict]
    version: int


@dataclasses.dataclass(frozen=True)
class Filed:
    """A flight as the history tells it.

    `filed` is its entry of `plan` or `external`, `level` the level that it is cleared to (None for an external flight), `report` its last entry of
    `report`, and `tentative` the entry of its tentative clearance."""

    call: str
    planned: bool
    filed: dict
    level: Optional[int]
    report: Optional[dict] = None
    tentative: Optional[dict] = None


@dataclasses.dataclass(frozen=True)
class Picture:
    """The picture at a version: the moment in seconds, the flights by callsign in the order of filing, and the published conflicts.

    `entries` are those that came since the picture before it."""

    version: int = 0
    moment: int = 0
    flights: Dict[str, Filed] = dataclasses.field(default_factory=dict)
    conflicts: List[Conflict] = dataclasses.field(default_factory=list)
    entries: List[dict] = dataclasses.field(default_factory=list)

    def after(self, entries: List[dict], conflicts: List[Conflict]) -> "Picture":
        """The picture that these entries leave, with its published conflicts."""
        flights, moment = dict(self.flights), self.moment
        for entry in entries:
            if entry["do"] == "tick":
                moment = entry["now"]
            elif entry["do"] in ("plan", "external"):
                flights[entry["call"]] = Filed(entry["call"], entry["do"] == "plan", entry, entry.get("level"))
            elif entry["do"] == "drop":
                flights.pop(entry["call"], None)
            elif entry["call"] in flights:
                flights[entry["call"]] = _altered(flights[entry["call"]], entry)
        return Picture(self.version + len(entries), moment, flights, conflicts, entries)


def _altered(flight: Filed, entry: dict) -> Filed:
    """A flight after an entry that speaks of it."""
    do = entry["do"]
    if do == "report":
        return dataclasses.replace(flight, report=entry)
    if do in ("clear", "accept"):
        return dataclasses.replace(flight, level=entry.get("level", flight.level))
    if do == "tentative":
        return dataclasses.replace(flight, tentative=entry)
    if do == "withdraw":
        return dataclasses.replace(flight, tentative=None)
    if do == "commit" and flight.tentative:
        return dataclasses.replace(flight, level=flight.tentative.get("level", flight.level), tentative=None)
    return flight


def text_of(fields: dict) -> str:
    """The line of a command: a compact object, its keys in the order given. A field named by a word of Python ends in `_`, as `from_`."""
    return json.dumps({name.rstrip("_"): value for name, value in fields.items()}, separators=(",", ":"))


def _given(**fields: object) -> dict:
    """The fields that are there."""
    return {name: value for name, value in fields.items() if value is not None}


class Client:
    """A session of a server over TCP.

    `wait` is how many seconds a server may take to be there, `timeout` how many a reply may take (None: any). `log` is called with each line and its
    reply, both without their line ends. It may be used in `with`, whose end says `bye`."""

    def __init__(self, host: str = "127.0.0.1", port: int = 7700, *, wait: float = 10.0, timeout: Optional[float] = None,
                 log: Optional[Callable[[str, str], None]] = None):
        self._log = log
        self._socket = _connected(host, port, wait)
        self._socket.settimeout(timeout)
        self._socket.setsockopt(socket.IPPROTO_TCP, socket.TCP_NODELAY, 1)
        self._replies = self._socket.makefile("rb")

    def __enter__(self) -> "Client":
        return self

    def __exit__(self, kind: object, value: object, trace: object) -> None:
        if kind is None:
            try:
                self.bye()
            except Ended:
                pass
        self.close()

    def close(self) -> None:
        """Closes the connection without a word, which ends the session."""
        self._replies.close()
        self._socket.close()

    # ---- lines

    def ask_line(self, line: str) -> str:
        """Sends a line and gives its reply as it stands, both without their line ends."""
        self._send([line])
        return self._receive(line)

    def ask(self, **fields: object) -> dict:
        """Sends a command by its fields, `do` first, and gives its reply; raises `Refused` with the word of a refusal."""
        return _accepted(text_of(fields), self.ask_line(text_of(fields)))

    def ask_all(self, commands: Iterable[dict]) -> List[dict]:
        """Sends many commands, up to 64 before their replies are read, and gives the replies in their order, refusals among them."""
        lines = [text_of(command) for command in commands]
        replies = []
        for place in range(0, len(lines), MOST_AT_ONCE):
            part = lines[place : place + MOST_AT_ONCE]
            self._send(part)
            replies.extend(json.loads(self._receive(line)) for line in part)
        return replies

    def _send(self, lines: List[str]) -> None:
        try:
            self._socket.sendall("".join(line + "\n" for line in lines).encode())
        except socket.timeout as fault:
            raise Ended("the server takes no line") from fault
        except OSError as fault:
            raise Ended("the server has ended the session") from fault

    def _receive(self, line: str) -> str:
        try:
            reply = self._replies.readline()
        except socket.timeout as fault:
            raise Ended("the server doesn't answer") from fault
        except (OSError, ValueError) as fault:
            raise Ended("the server has ended the session") from fault
        if not reply.endswith(b"\n"):
            raise Ended("the server has ended the session")
        text = reply[:-1].decode()
        if self._log:
            self._log(line, text)
        return text

    # ---- any role

    def hello(self, role: str) -> None:
        """Takes a role: `feed` or `position`."""
        self.ask(do="hello", role=role)

    def list(self) -> Conflicts:
        """The published conflicts, in the 1,200 seconds from the moment on."""
        return _conflicts(self.ask(do="list"))

    def check(self) -> Conflicts:
        """The same as `list`, made from nothing by the server."""
        return _conflicts(self.ask(do="check"))

    def flight(self, call: str, sec: Optional[int] = None) -> FlightView:
        """What is known of a flight at a second, by default the moment."""
        told = self.ask(do="flight", call=call, **_given(sec=sec))
        row, mark = told["row"], told["tentative"]
        return FlightView(told["call"], told["due"], told["start"], told["end"], told["level"], Row(*row) if row else None,
                          Tentative(mark["level"], mark["owner"], mark["start"]) if mark else None, told["version"])

    def due(self) -> Calls:
        """The flights that are due for a new trajectory."""
        told = self.ask(do="due")
        return Calls(told["calls"], told["version"])

    def settle(self) -> Calls:
        """Renews the flights that are due, and gives those that are due then."""
        told = self.ask(do="settle")
        return Calls(told["left"], told["version"])

    def history(self, start: int, end: int) -> Entries:
        """The entries `start <= i < end`, counted from 0; `end` is at most 64 above `start`."""
        told = self.ask(do="history", from_=start, to=end)
        return Entries(told["entries"], told["version"])

    def entries(self, start: int, end: int) -> List[dict]:
        """The entries `start <= i < end`, however many."""
        found: List[dict] = []
        while start + len(found) < end:
            place = start + len(found)
            part = self.history(place, min(end, place + MOST_ENTRIES)).entries
            if not part:
                break
            found.extend(part)
        return found

    def bye(self) -> None:
        """Ends the session."""
        self.ask(do="bye")

    def follow(self, every: float = 1.0) -> Iterator[Picture]:
        """Yields the picture now, and then each changed one; looks each `every` seconds of the clock."""
        picture = Picture()
        first = True
        while True:
            told = self.list()
            if first or told.version != picture.version:
                picture = picture.after(self.entries(picture.version, told.version), told.conflicts)
                first = False
                yield picture
            time.sleep(every)

    # ---- the role `feed`

    def plan(self, call: str, type_: str, route: List[str], at: int, level: int, *, start_level: Optional[int] = None,
             rvsm: Optional[bool] = None) -> int:
        """Files a flight along fixes: at second `at` it is at the first one at `start_level` (by default `level`), cleared to `level`."""
        optional = _given(from_=start_level)
        return self.ask(do="plan", call=call, type=type_, route=route, at=at, **optional, level=level, **_given(rvsm=rvsm))["entered"]

    def external(self, call: str, start: int, end: int, x: int, y: int, z: int, *, vx: int = 0, vy: int = 0, vz: int = 0, **margins: object) -> int:
        """Files a flight that flies straight on in the seconds `start <= k < end`; `margins` are `r`, `gr`, `w`, `gw` and `rvsm`."""
        return self.ask(do="external", call=call, from_=start, to=end, x=x, y=y, z=z, vx=vx, vy=vy, vz=vz, **margins)["entered"]

    def drop(self, call: str) -> int:
        """Takes a flight out."""
        return self.ask(do="drop", call=call)["entered"]

    def report(self, call: str, at: int, x: int, y: int, z: int) -> Reported:
        """Reports where a planned flight was at second `at`."""
        told = self.ask(do="report", call=call, at=at, x=x, y=y, z=z)
        return Reported(told["entered"], told["verdict"])

    def tick(self, now: int) -> int:
        """Moves the moment."""
        return self.ask(do="tick", now=now)["entered"]

    def renew(self, call: str) -> int:
        """Begins the trajectory of a flight that is due anew, from its last report."""
        return self.ask(do="renew", call=call)["entered"]

    # ---- the role `position`: of `level` and `direct` exactly one stands; `eff` is the second from which it holds, by default the moment

    def probe(self, call: str, *, level: Optional[int] = None, direct: Optional[str] = None, eff: Optional[int] = None) -> Probe:
        """Tries a clearance, and gives the conflicts that it would have."""
        told = self.ask(do="probe", call=call, **_given(level=level, direct=direct, eff=eff))
        return Probe([_hit(hit) for hit in told["conflicts"]], told["eff"], told["probe"], told["version"])

    def accept(self, probe: int) -> int:
        """Enters a clearance that was tried or advised, if it is free still; else it is refused as `stale`. It holds from the probe's `eff` on: what
        was probed a while ago is entered as if the flight had begun it then."""
        return self.ask(do="accept", probe=probe)["entered"]

    def clear_if_free(self, call: str, *, level: Optional[int] = None, direct: Optional[str] = None) -> Cleared:
        """Tries a clearance anew, from the moment on, and enters it at once if it is free."""
        probe = self.probe(call, level=level, direct=direct)
        if probe.conflicts:
            return Cleared(None, probe.conflicts, probe.eff)
        try:
            return Cleared(self.accept(probe.probe), [], probe.eff)
        except Refused as refusal:
            if refusal.word != "stale":
                raise
            return Cleared(None, [_hit(refusal.reply["conflict"])], probe.eff)

    def clear(self, call: str, *, level: Optional[int] = None, direct: Optional[str] = None, eff: Optional[int] = None) -> int:
        """Clears a flight, whatever follows from it."""
        return self.ask(do="clear", call=call, **_given(level=level, direct=direct, eff=eff))["entered"]

    def advise(self, call: str) -> Advice:
        """The clearances of a flight that are free."""
        told = self.ask(do="advise", call=call)
        found = [Advised(one.get("level"), one.get("direct"), one["probe"]) for one in told["advice"]]
        return Advice(told["call"], found, told["eff"], told["version"])

    def tentative(self, call: str, *, level: Optional[int] = None, direct: Optional[str] = None, eff: Optional[int] = None) -> int:
        """Marks a clearance as tentative."""
        return self.ask(do="tentative", call=call, **_given(level=level, direct=direct, eff=eff))["entered"]

    def withdraw(self, call: str, *, force: Optional[bool] = None) -> int:
        """Takes a flight's tentative clearance away; another seat's only with `force`."""
        return self.ask(do="withdraw", call=call, **_given(force=force))["entered"]

    def commit(self, call: str) -> int:
        """Makes a flight's tentative clearance what it is cleared to."""
        return self.ask(do="commit", call=call)["entered"]


def _connected(host: str, port: int, wait: float) -> socket.socket:
    """A connection to a server, as soon as it is there."""
    until = time.monotonic() + wait
    while True:
        try:
            return socket.create_connection((host, port))
        except OSError as fault:
            if time.monotonic() >= until:
                raise Ended("no server answers at %s, port %d: %s" % (host, port, fault.strerror or fault)) from fault
            time.sleep(0.05)


def _accepted(line: str, text: str) -> dict:
    """A reply that is no refusal."""
    reply = json.loads(text)
    if "no" in reply:
        raise Refused(line, reply)
    return reply


def _hit(told: dict) -> Hit:
    """A conflict that `probe` and a stale acceptance tell."""
    return Hit(told["with"], told["first"], told["last"])


def _conflicts(told: dict) -> Conflicts:
    """What `list` and `check` tell."""
    found = [Conflict((one["pair"][0], one["pair"][1]), one["first"], one["last"], one["kinds"]) for one in told["conflicts"]]
    return Conflicts(found, told["version"])
