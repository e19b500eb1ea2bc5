"""Parts of the page that are tested by themselves, without the page: each line has what it is to give, worked out by hand."""

import json
import sys

# Modules, an expression of them, and its value.
PARTS = [
    ("words", "words.span_of(36911, 37040, 36821)", "in 1:30 (10:15:11 to 10:17:20)"),
    ("words", "words.span_of(36911, 37040, 36911)", "now (10:15:11 to 10:17:20)"),
    ("words", "words.name_of({ call: 'EA00', level: 60 })", "EA00 to FL060"),
    # a renewal by a report that comes 119 seconds after the trajectory's begin is a deviation, one by a report after 120 seconds isn't
    ("picture motion", "deviated(0, null, 119)", 119),
    ("picture motion", "deviated(0, null, 120)", None),
    # a clearance begins the trajectory anew, at its second, but not before it began
    ("picture motion", "deviated(0, { do: 'clear', level: 360, eff: 50 }, 169)", 169),
    ("picture motion", "deviated(0, { do: 'accept', level: 360, eff: 50, v: 1 }, 170)", None),
    ("picture motion", "deviated(100, { do: 'clear', level: 360, eff: 50 }, 219)", 219),
    # two head on, a mile apart in the plane and a thousand feet in height, are closest after 100 seconds
    ("course", "course.closest(flown([0, 0, 6000], 480), flown([96000, 3600, 66000], -480), 0, 200)", {"sec": 100, "apart": 3600, "high": 60000}),
    # of two labels of one place both have one, in places of their own
    ("labels", "placed(2)", [[0, 2], [1, 2]]),
]

HELPERS = """
  const base = { call: 'AAA1', who: 0 };
  const deviated = (at, clearance, reported) => {
    picture.forget();
    picture.take({ ...base, do: 'plan', at, level: 350, route: ['Q0', 'Q1'], type: 'JA1' });
    if (clearance) picture.take({ ...base, ...clearance });
    picture.take({ ...base, do: 'report', at: reported, x: 0, y: 0, z: 2100000 });
    picture.take({ ...base, do: 'renew' });
    const { deviated } = picture.picture.flights.get('AAA1');
    return deviated === -Infinity ? null : deviated;
  };
  const flown = ([x, y, z], vx) => ({ course: { rows: [0, 200].map((sec) => ({ sec, row: [x + vx * sec, y, z, 0, 0, vx, 0, 0, 0, 0, 1] })) } });
  const placed = (count) => {
    const thing = () => ({ x: 200, y: 200, radius: 6, most: 2, must: true, label: { slot: 0, lines: 0 }, size_of: () => [60, 28] });
    const things = Array.from({ length: count }, thing);
    labels.place_labels(things, 400, 400, []);
    return things.map((one) => [one.label.slot, one.label.lines]);
  };
"""


def parts(page, address):
    """Imports the modules into a page that is none of theirs."""
    page.ask("Page.navigate", url=address + "style.css")
    page.until("another page", "document.readyState", "complete")
    for names, expression, wanted in PARTS:
        imports = ", ".join("import('%s%s.js')" % (address, name) for name in names.split())
        made = "Promise.all([%s]).then(([%s]) => { %s return %s; })" % (imports, ", ".join(names.split()), HELPERS, expression)
        seen = page.value(made)
        print("%s: %s" % (expression, json.dumps(seen)))
        if seen != wanted:
            sys.exit("that isn't %s" % json.dumps(wanted))
    page.without_faults(["404"])  # the file server has no icon
