"""What a controller does with the page, step by step; examples/position-check runs them."""

import json
import os
import signal
import sys
import threading
import time
import urllib.parse

from served import Relay

HERE = os.path.dirname(os.path.abspath(__file__))
ROWS = "document.querySelectorAll('#conflicts tbody tr').length"
GONE = "document.getElementById('gone').textContent"
ANSWER = "(document.querySelector('#answer p') || { textContent: '' }).textContent"
WHOLE_ANSWER = "[...document.querySelectorAll('#answer p')].map((one) => one.textContent).join(' | ')"
STATE = "document.getElementById('state').textContent"
FAULT = "document.getElementById('state').className"
FOCUS = "document.activeElement.id"
OFFER = "(document.querySelector('#offers button') || { textContent: '' }).textContent"
VEIL = "document.getElementById('veil').hidden ? '' : document.getElementById('veil').textContent"
AGE = "document.getElementById('age').hidden ? '' : document.getElementById('age').textContent"


def notes_of(call):
    """The notes of a flight in the list."""
    return "[...document.querySelectorAll('#flights tbody tr')].find((one) => one.cells[0].textContent === '%s').cells[6].textContent" % call


def label_of(call):
    return "plan.view.flying.find((one) => one.key === '%s').texts.join(' / ')" % call


def has(expression, text):
    return "(%s).includes(%s)" % (expression, json.dumps(text))


def flights():
    with open(os.path.join(HERE, "traffic.jsonl")) as file:
        return [json.loads(line) for line in file if '"plan"' in line]


def go_to(page, call):
    """A flight by keys alone."""
    page.key("/")
    page.type(call)
    page.key("Enter")
    page.until("the slash, %s and Enter pick it" % call, "picture.picked.subject", call)
    page.until("the level is in focus, its text selected", FOCUS + " + getSelection().toString().length", "where3")


def begin(page, served, address, query=""):
    """Forty flights, and the page, through a relay."""
    feed = served.feed()
    feed.ask_all(flights())
    relay = Relay(served.port)
    page.open(address + query)
    page.value("document.getElementById('address').value = 'ws://127.0.0.1:%d'" % relay.address())
    page.click("connect")
    page.until("flights", "document.getElementById('count').textContent", "40")
    page.until("conflicts in the list", ROWS, 6)
    page.until("drawn flights", "plan.view.flying.length", 40)
    page.until("drawn conflicts", "plan.view.conflicts.length", 6)
    return feed, relay


def leave(page, expected=()):
    page.click("connect")
    page.until("left", STATE, "disconnected")
    page.without_faults(expected)


# ---- clearances, marks and keys


def desk(page, served, address, pictures):
    feed, relay = begin(page, served, address)
    first = "document.querySelector('#conflicts tbody tr').cells"
    page.until("the first conflict", "[%s[1], %s[2], %s[3]].map((one) => one.textContent).join()" % (first, first, first),
               "EA00 \u2013 WA00,18:07,00:18:07 to 00:19:22")
    page.until("its levels and crossing angle", "[%s[4], %s[5]].map((one) => one.textContent).join()" % (first, first), "350 350,180\u00b0")
    levels(page, feed)
    keys(page, feed)
    probe_anew(page, feed)
    marks(page, feed, relay, pictures)
    profile(page, feed)
    gone(page, feed)
    relay.cut()
    page.until("no session is left: told", has(STATE, "no server is there, or its sessions are used up"))
    page.until("and tried ever more sparsely", has(STATE, "trying again in 8 s"))
    leave(page, ["WebSocket"])
    feed.bye()
    feed.close()


def levels(page, feed):
    """What is no level isn't sent."""
    go_to(page, "EA00")
    page.key("Backspace")
    for wrong in ("", "35x", "1234"):
        page.fill("where", wrong)
        for name in ("probe", "tentative"):
            page.value("desk.clear_answer()")
            page.click(name)
            page.until("%r as a level" % wrong, ANSWER, "give a level: one to three digits")
    version = feed.list().version
    if version != 40 or page.value("link.link.waiting.some((one) => one.word === 'tentative')"):
        sys.exit("something was entered: version %d" % version)
    print("nothing was entered: version 40")


def keys(page, feed):
    """Keys alone: a flight, a level, a probe, an acceptance."""
    go_to(page, "EA00")
    page.key("Enter")
    page.until("a level that isn't free", WHOLE_ANSWER, "EA00 to FL350 would lose separation with | WA00 in 18:07 (00:18:07 to 00:19:22) | "
               "A probe tests neither areas nor tentative marks.")
    page.until("there is nothing to accept", "document.getElementById('accept').disabled")
    page.key("ArrowUp")
    page.until("the level, ten up", "document.getElementById('where').value", "360")
    page.key("Enter")
    page.until("one that is", WHOLE_ANSWER, "EA00 to FL360 is free of conflicts with what is flown, from 00:00:00 | "
               "A probe tests neither areas nor tentative marks.")
    page.key("ArrowDown")
    page.until("another level than the one probed isn't accepted", "document.getElementById('accept').disabled")
    page.key("ArrowUp")
    page.key("Enter")
    page.until("Enter accepts it", ANSWER, "EA00 is cleared to FL360 from 00:00:00")
    page.until("conflicts after that", ROWS, 5)
    page.until("the one that went", GONE, "EA00 \u2013 WA00 solved by me")
    page.value("document.getElementById('probe').focus()")
    page.value("document.getElementById('accept').disabled = false")
    page.key("Tab")
    page.until("next behind Probe", FOCUS, "accept")
    page.key("Home")
    page.until("Home shows all", "plan.view.follows === false")
    page.key("Escape")
    page.until("Escape leaves", "picture.picked.calls.length + document.activeElement.id", "0plan")


def probe_anew(page, feed):
    """An answer goes after half a minute of traffic, and what is accepted is probed anew."""
    go_to(page, "EA02")
    page.fill("where", "360")
    page.click("probe")
    page.until("free", has(ANSWER, "EA02 to FL360 is free"))
    feed.tick(31)
    page.until("the answer is cleared after 31 seconds of traffic", ANSWER, "")
    page.click("probe")
    page.until("probed at 31", has(ANSWER, "EA02 to FL360 is free of conflicts with what is flown, from 00:00:31"))
    feed.external("XX1", 31, 1231, -525120, -360000, 2160000, vx=480)
    page.click("accept")
    page.until("another came there: the acceptance is a new probe", has(ANSWER, "EA02 to FL360 would lose separation with"))
    version = feed.list().version
    feed.drop("XX1")
    page.click("probe")
    page.until("free again", has(ANSWER, "EA02 to FL360 is free"))
    feed.tick(50)
    page.until("the moment", "picture.picture.moment", 50)
    page.click("accept")
    page.until("it holds from the new probe", ANSWER, "EA02 is cleared to FL360 from 00:00:50")
    entries = list(feed.entries(version, feed.list().version))
    if [one["do"] for one in entries] != ["drop", "tick", "accept"] or entries[-1]["eff"] != 50:
        sys.exit("that is something else: %s" % entries)
    page.until("conflicts after that", ROWS, 4)


def marks(page, feed, relay, pictures):
    """Marks have owners, also after a reconnection; a commit is named before."""
    go_to(page, "EA01")
    page.fill("where", "360")
    page.click("tentative")
    page.until("a mark in its label", has(label_of("EA01"), "T360"))
    page.until("whose it is", notes_of("EA01"), "tentative FL360, mine")
    relay.cut()
    page.until("cut off", has(STATE, "trying again"))
    page.until("told as a fault", FAULT, "bad")
    page.until("the veil", VEIL, "FROZEN 00:00:50")
    page.until("what enters is disabled", "document.getElementById('acts').disabled && document.getElementById('offered').disabled")
    page.until("conflicts stay", ROWS, 4)
    page.until("connected again", STATE, "connected as a position")
    page.until("without a veil", VEIL, "")
    page.until("flights that were known", "picture.picture.flights.size", 40)
    page.until("whose the mark is now", notes_of("EA01") + ".replace(/seat [0-9]+/, 'seat N')", "tentative FL360, of seat N (mine before)")
    page.click("withdraw")
    page.until("its withdrawal is refused", ANSWER, "Refused: another seat owns the tentative clearance")
    page.until("and offered", OFFER + ".replace(/seat [0-9]+/, 'seat N')", "Withdraw the mark of seat N: EA01 to FL360")
    page.click_on("document.querySelector('#offers button')")
    page.until("withdrawn", has(ANSWER, "Withdrawn is the mark of seat"))
    page.until("no mark in its label", has(label_of("EA01"), "T360"), False)
    page.fill("where", "390")
    page.click("tentative")
    page.until("a mark with a conflict", "document.getElementById('marks').textContent", "1")
    new = "[...document.querySelector('#conflicts tr.new').cells].slice(0, 2).map((one) => one.textContent).join()"
    page.until("it is new", new, "NEW,EA01 T \u2013 UA01")
    page.click_on("document.querySelector('#conflicts tr.new')")
    page.until("until it is clicked", "document.querySelector('#conflicts tr.new')", None)
    version = feed.list().version
    page.click("commit")
    page.until("a commit is named", has(WHOLE_ANSWER, "Commit EA01 to FL390? The mark is mine. | with UA01 in "))
    if pictures:
        page.picture(os.path.join(pictures, "commit.png"))
    if feed.list().version != version:
        sys.exit("it was entered before it was confirmed")
    page.click_on("document.querySelectorAll('#offers button')[1]")
    page.until("and kept", WHOLE_ANSWER + " + document.querySelectorAll('#offers button').length", "0")
    page.click("withdraw")
    page.until("withdrawn", has(ANSWER, "EA01 to FL390"))
    page.fill("where", "360")
    page.click("tentative")
    page.until("the other mark", has(label_of("EA01"), "T360"))
    page.click("commit")
    page.until("a commit without conflicts", has(WHOLE_ANSWER, "Commit EA01 to FL360? The mark is mine. | It has no conflict."))
    page.click_on("document.querySelector('#offers button')")
    page.until("committed", ANSWER, "EA01 is cleared to FL360")
    page.until("conflicts after that", ROWS, 3)


def profile(page, feed):
    """The profile of a picked conflict, and a level that is probed by a click there."""
    feed.tick(60)
    page.until("the countdown", "document.querySelector('#conflicts tbody tr').cells[2].textContent", "17:07")
    page.value("document.querySelector('#conflicts tbody tr').focus()")
    page.key("Enter")
    page.until("Enter on a conflict picks its flight", "picture.picked.calls.join()", "EA03,WA03")
    page.until("the profile has both", "picture.picked_flights().every((one) => one.course && one.course.rows.length > 1)")
    page.until("the closest approach", has("document.getElementById('closest').textContent", "closest 0."))
    page.until("free clearances, a row a flight", "document.querySelectorAll('#free li').length", 2)
    page.until("the nearest level first", "document.querySelector('#free li button').textContent", "FL360")
    y = page.value(
        "(() => { const { low, high, area } = profile.profile.scale; const place = document.getElementById('profile').getBoundingClientRect();"
        " return place.top + area.bottom - ((340 - low) / (high - low)) * (area.bottom - area.top); })()"
    )
    page.click_at(400, y)
    page.until("a click on level 340 probes it", has(ANSWER, "EA03 to FL340 is free of conflicts with what is flown, from 00:01:00"))
    page.value("document.getElementById('profile').focus()")
    page.key("ArrowUp")
    page.until("a level chosen by key", "profile.profile.cursor !== null")
    page.key("Escape")
    page.until("Escape picks none", "document.getElementById('side').hidden")
    page.value("document.getElementById('low').value = 380; document.getElementById('low').oninput()")
    page.until("flights at level 380 and above", "document.querySelectorAll('#flights tbody tr').length", 10)
    page.value("document.getElementById('low').value = 0; document.getElementById('low').oninput()")
    page.click("larger")
    page.until("larger text", "getComputedStyle(document.body).fontSize + ' ' + parseFloat(labels.font_of(false)).toFixed(2)", "14.95px 12.65")
    page.click("smaller")
    page.click_on("document.querySelector('#folds summary')")
    page.until("the list of flights folds", "document.getElementById('folds').open", False)
    page.click_on("document.querySelector('#folds summary')")


def gone(page, feed):
    """Conflicts that another seat solves, that begin, and that pass."""
    feed.hello("position")
    feed.clear("EA05", level=360)
    feed.hello("feed")
    page.until("solved by another seat", has(GONE + ".replace(/seat [0-9]+/, 'seat N')", "EA05 \u2013 WA05 solved by seat N"))
    feed.tick(1100)
    page.until("lost now", "[...document.querySelectorAll('#conflicts tr.now')].map((one) => one.cells[2].textContent).join()", "now,now")
    feed.tick(1163)
    page.until("passed", has(GONE, "EA04 \u2013 WA04 passed"))
    page.until("conflicts after that", ROWS, 0)


# ---- areas, and flights that are reported off their path

AREA = {"name": "AR1", "corners": [[-300000, -308000], [-200000, -308000], [-200000, -268000], [-300000, -268000]], "bottom": 300, "top": 400}


def watch(page, served, address, pictures):
    map_drawn = {"fixes": [], "edges": [], "airfields": [], "areas": [AREA]}
    query = "?map=" + urllib.parse.quote("data:application/json," + urllib.parse.quote(json.dumps(map_drawn)))
    feed, _ = begin(page, served, address, query)
    go_to(page, "EA03")
    page.until("its course enters the area", has("document.getElementById('closest').textContent", "EA03 enters AR1 in 8:2"))
    page.key("Enter")
    page.until("the level probed does too", has(WHOLE_ANSWER, "it would enter AR1 at 00:08:2"))
    page.fill("where", "290")
    page.click("probe")
    page.until("a level below doesn't", WHOLE_ANSWER, "EA03 to FL290 is free of conflicts with what is flown, from 00:00:00 | "
               "It enters no area of the map. A probe doesn't test tentative marks.")
    page.key("Escape")
    deviation(page, feed, pictures)
    leave(page)
    feed.bye()
    feed.close()


def deviation(page, feed, pictures):
    """EA04 is reported on its path three times and then four miles beside it; EA05 once, when its trajectory is of age; EA06 a thousand feet low."""

    def report(call, lane, at, off=0, z=2100000):
        return feed.report(call, at, -540000 + 480 * at, -504000 + 72000 * lane + off, z).verdict

    for at in (8, 16, 24, 32):
        feed.tick(at)
        flags = report("EA04", 4, at, 14400 if at == 32 else 0)
        report("EA06", 6, at, 0, 2040000)
    if flags != ["lateral"]:
        sys.exit("the report is flagged as %s" % flags)
    page.until("a deviation in its label", has(label_of("EA04"), "EA04 DEV"))
    page.until("and in its notes", notes_of("EA04"), "DEV at 00:00:32")
    page.until("a height off the cleared level", has(notes_of("EA06"), "at 340, off the cleared level 350"))
    page.until("and in its label", has(label_of("EA06"), "340\u2260350"))
    page.until("reported lately: filled", disc("EA04"), True)
    page.until("never reported: hollow", disc("EA10"), False)
    if pictures:
        page.picture(os.path.join(pictures, "deviation.png"))
    feed.tick(53)
    page.until("not reported for 21 seconds: hollow", disc("EA04"), False)
    feed.tick(93)
    page.until("a minute later it isn't told any more", has(label_of("EA04"), "DEV"), False)
    feed.tick(120)
    flags = report("EA05", 5, 120)
    if flags != ["aged"]:
        sys.exit("the report is flagged as %s" % flags)
    page.until("a renewal by age", "picture.picture.flights.get('EA05').begin", 120)
    page.until("is none", has(label_of("EA05"), "DEV") + " || " + has(notes_of("EA05"), "DEV"), False)


def disc(call):
    """Whether the symbol of a flight is filled: the colour in its middle isn't that of the ground."""
    return (
        "(() => { const one = plan.view.flying.find((one) => one.key === '%s');"
        " const [r, g, b] = document.getElementById('plan').getContext('2d').getImageData(Math.round(one.x), Math.round(one.y), 1, 1).data;"
        " return r + g + b > 200; })()" % call
    )


# ---- a server that is frozen, one that is killed, and one whose sessions are used up


class Ticker:
    """Moves the moment each half second until it is stopped."""

    def __init__(self, feed, now):
        self.feed, self.now, self.stops = feed, now, threading.Event()
        self.thread = threading.Thread(target=self.run, daemon=True)
        self.thread.start()

    def run(self):
        while not self.stops.wait(0.5):
            self.now += 1
            self.feed.tick(self.now)

    def stop(self):
        self.stops.set()
        self.thread.join(60)


def link(page, served, address, pictures):
    feed, _ = begin(page, served, address)
    page.click("connect")
    page.fill("address", "ws://127.0.0.1:%d" % served.port)
    page.click("connect")
    page.until("connected straight", STATE, "connected as a position")
    ticker = Ticker(feed, 0)
    page.until("ticks come: no bar", "picture.picture.moment > 3 && (%s)" % AGE, "")
    ticker.stop()
    took = page.until("no tick for five seconds is told", has(AGE, "no tick has come since 00:00:"))
    print("after %.1f s" % took)
    ticker = Ticker(feed, ticker.now)
    page.until("a tick ends that", AGE, "")
    time.sleep(3)
    served.signal(signal.SIGSTOP)
    took = page.until("a frozen server is told", has(AGE, "the server hasn't answered since"))
    print("after %.1f s" % took)
    if took > 5:
        sys.exit("that is more than five seconds")
    page.until("what enters is disabled", "document.getElementById('acts').disabled")
    go_to(page, "EA09")
    page.key("Enter")
    page.until("and isn't sent by a key either", ANSWER, "Not sent: the server doesn't answer")
    page.until("the connection is given up", has(STATE, "the server doesn't answer"))
    page.until("a veil", "(%s).startsWith('FROZEN 00:00:')" % VEIL)
    page.until("told as a fault", FAULT, "bad")
    if pictures:
        page.picture(os.path.join(pictures, "veil.png"))
    page.until("the conflicts stay", ROWS, 6)
    time.sleep(4)
    served.signal(signal.SIGCONT)
    page.until("it goes on", STATE, "connected as a position")
    page.until("without a veil", VEIL, "")
    page.until("the list is asked as ever: a pause isn't a list too long", "asking.single.on", False)
    page.until("the conflicts", ROWS, 6)
    page.until("nor would one be, with six pairs", "asking.is_too_long('list')", False)
    page.value("asking.one_by_one(true)")
    for turn in range(3):
        page.until("flight by flight, known pairs stay", "picture.picture.conflicts.length + ' ' + asking.single.on", "6 true")
        time.sleep(1)
    page.value("asking.one_by_one(false)")
    ticker.stop()
    page.without_faults(["WebSocket"])
    served.kill()
    took = page.until("a killed server: a veil", "(%s).startsWith('FROZEN 00:00:')" % VEIL)
    print("after %.1f s" % took)
    page.until("why", has(STATE, "no server is there, or its sessions are used up"))
    page.until("what enters is disabled", "document.getElementById('acts').disabled")
    page.until("it is tried ever more sparsely", has(STATE, "trying again in 8 s"))
    feed.close()
    leave(page, ["WebSocket"])
    page.fill("address", "nowhere")
    page.click("connect")
    page.until("why the page left is told as a fault", FAULT, "bad")
    page.without_faults(["WebSocket"])
