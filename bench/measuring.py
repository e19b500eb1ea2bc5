"""What the scripts of this folder share: numbers and planned flights by a fixed rule, and runs of a built program over lines of JSON."""

import json
import os
import re
import shutil
import subprocess
import sys
import tempfile
import time

TOP = os.path.dirname(os.path.dirname(os.path.abspath(__file__)))
PROGRAM = os.path.join(TOP, "crates", "mtcd", "out", "mtcd")
REPEATS = 5


def draws(seed=1):
    """Numbers of a generator modulo 2^64: its upper 31 bits."""
    state = seed
    while True:
        state = (state * 6364136223846793005 + 1442695040888963407) % 2 ** 64
        yield state >> 33


def text(lines, separators=None):
    """The bytes of a script."""
    return b"".join(json.dumps(line, separators=separators).encode() + b"\n" for line in lines)


def fix(place):
    """The name of one of 64 fixes, eight by eight."""
    return "F%d%d" % divmod(place, 8)


def tables(others=()):
    """64 fixes, 32 nautical miles apart, and others, a type, and the line that begins."""
    fixes = [
        {"do": "fix", "name": fix(place), "x": -403_200 + 115_200 * (place // 8), "y": -403_200 + 115_200 * (place % 8)} for place in range(64)
    ]
    return fixes + list(others) + [{"do": "type", "name": "JA1", "bands": [[245, 400, 2000, 2000], [410, 480, 2100, 2100]]}, {"do": "begin"}]


def route(fixes, draw):
    """So many fixes, no two neighbours the same."""
    places = [next(draw) % 64]
    while len(places) < fixes:
        place = next(draw) % 64
        if place != places[-1]:
            places.append(place)
    return [fix(place) for place in places]


def plans(count, fixes, climb, asked=()):
    """Planned flights over so many fixes each, in level flight or with a climb of 100 flight levels."""
    draw = draws()
    lines = tables()
    setup = len(lines)
    for number in range(count):
        names = route(fixes, draw)
        level = 300 + 10 * (next(draw) % 10)
        lines.append({
            "do": "plan", "call": "L%04d" % number, "type": "JA1", "route": names,
            "at": next(draw) % 1200, "from": level - 100 if climb else level, "level": level,
        })
    return text(lines + list(asked)), len(lines) - setup


def build():
    """Builds the program, where it isn't built."""
    subprocess.run([os.path.join(TOP, "bin", "mtcd"), "replay"], stdin=subprocess.DEVNULL, check=True)


def build_added(folder, crate, patch, below="", borrowed=(), commit="HEAD", words=()):
    """Builds the crate that a patch adds to a clone of this repository in that folder, and gives the path of its program.

    Below are the crates that it stands on. Borrowed files are those of the crate of bench/containers.patch.
    """
    clone = os.path.join(folder, "clone")
    added, containers = (os.path.join(clone, "crates", name) for name in (crate, "containers"))
    subprocess.run(["git", "clone", "--quiet", TOP, clone], check=True)
    subprocess.run(["git", "-C", clone, "checkout", "--quiet", commit], check=True)
    for name in [patch, "containers.patch"] if borrowed else [patch]:
        subprocess.run(["git", "-C", clone, "apply", os.path.join(TOP, "bench", name)], check=True)
    for name in borrowed:
        shutil.move(os.path.join(containers, "src", name), os.path.join(added, "src", name))
    if borrowed:
        shutil.rmtree(containers)
    if below:
        with open(os.path.join(clone, "crates.txt"), "a") as crates:
            crates.write("%s: %s\n" % (crate, below))
    print("bench: building %s" % crate, file=sys.stderr)
    subprocess.run(["rt", "run", *words], cwd=added, stdin=subprocess.DEVNULL, stdout=sys.stderr, check=True)
    return os.path.join(added, "out", crate)


def run(data, program=PROGRAM):
    """The seconds of one run, and what it wrote."""
    begin = time.perf_counter()
    with subprocess.Popen([program, "replay"], stdin=subprocess.PIPE, stdout=subprocess.PIPE) as process:
        written, _ = process.communicate(data)
        seconds = time.perf_counter() - begin
    if process.returncode != 0:
        sys.exit("%s answered the status %d" % (program, process.returncode))
    return seconds, written


def spent(data, program=PROGRAM, word="replay"):
    """The seconds of a processor that one run takes, so that other work on the machine counts less."""
    with subprocess.Popen([program, word], stdin=subprocess.PIPE, stdout=subprocess.DEVNULL) as process:
        process.stdin.write(data)
        process.stdin.close()
        _, status, usage = os.wait4(process.pid, 0)
        process.returncode = os.waitstatus_to_exitcode(status)
    if process.returncode != 0:
        sys.exit("%s answered the status %d" % (program, process.returncode))
    return usage.ru_utime + usage.ru_stime


def instructions(data=b"", program=PROGRAM, words=("replay",), profile="/dev/null"):
    """The instructions of user code of one run by valgrind's callgrind, which don't move with the load of the machine, and what it wrote."""
    command = ["valgrind", "--tool=callgrind", "--callgrind-out-file=" + profile, program, *words]
    with tempfile.TemporaryFile() as script:
        script.write(data)
        script.seek(0)
        done = subprocess.run(command, stdin=script, capture_output=True, check=True)
    return int(re.search(rb"Collected : (\d+)", done.stderr).group(1)), done.stdout


def least(data, repeats=REPEATS, word="replay"):
    """The seconds of a processor of the cheapest of some runs."""
    return min(spent(data, word=word) for _ in range(repeats))
