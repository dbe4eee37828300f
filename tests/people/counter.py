#!/usr/bin/env python3
"""Clicks through examples/counter.html in a headless Chromium, behind the example proxy: search, book, confirm, exchange, refund,
a reload, and a train whose places are coloured leg by leg; and looks whether the page fits screens of 390 and 1,280 pixels.

  tests/people/counter.py PROGRAM [--pictures FOLDER]

It needs chromium and nginx (`apt-get install chromium nginx`), and fails where they aren't there. With --pictures it writes what the page
shows, as 390.png and 1280.png.
"""
import argparse
import base64
import json
import os
import pathlib
import shutil
import subprocess
import sys
import tempfile
import time

from proxy import Proxy

ROOT = pathlib.Path(__file__).resolve().parents[2]
FLAGS = "--headless=new --no-sandbox --disable-gpu --disable-dev-shm-usage --no-first-run --ignore-certificate-errors --remote-debugging-pipe --hide-scrollbars".split()
WIDTH, HEIGHT = 1280, 1150
NARROW = 390
# The train from HARBOUR to CAPITAL goes on to SUMMIT: seven stops, six legs, 184 places.
LEGS, PLACES = 6, 184


class Browser:
    """A Chromium that is spoken to through two pipes, with messages that end with a zero byte."""

    def __init__(self, folder):
        to_read, self.to_write = os.pipe()
        self.from_read, to_answer = os.pipe()

        def wire():
            # Chromium reads at 3 and answers at 4. Neither end may lie where the other goes.
            first, second = os.dup(to_read), os.dup(to_answer)
            while first < 5 or second < 5:
                first, second = (os.dup(first) if first < 5 else first), (os.dup(second) if second < 5 else second)
            os.dup2(first, 3)
            os.dup2(second, 4)

        words = [shutil.which("chromium"), *FLAGS, "--user-data-dir=%s" % folder, "--window-size=%d,%d" % (WIDTH, HEIGHT), "about:blank"]
        self.process = subprocess.Popen(words, preexec_fn=wire, close_fds=False, stdin=subprocess.DEVNULL, stdout=subprocess.DEVNULL, stderr=subprocess.DEVNULL, start_new_session=True)
        os.close(to_read)
        os.close(to_answer)
        self.number, self.held, self.session, self.said = 0, b"", None, []
        target = self.ask("Target.createTarget", url="about:blank")["targetId"]
        self.session = self.ask("Target.attachToTarget", targetId=target, flatten=True)["sessionId"]
        for name in ("Page", "Runtime", "Log", "Network"):
            self.ask(name + ".enable")
        self.resize(WIDTH)

    def resize(self, width):
        self.ask("Emulation.setDeviceMetricsOverride", width=width, height=HEIGHT, deviceScaleFactor=1, mobile=width == NARROW)

    def ask(self, method, **words):
        self.number += 1
        message = {"id": self.number, "method": method, "params": words, **({"sessionId": self.session} if self.session else {})}
        os.write(self.to_write, json.dumps(message).encode() + b"\0")
        while True:
            while b"\0" not in self.held:
                piece = os.read(self.from_read, 1 << 20)
                if not piece:
                    raise SystemExit("counter: chromium has ended")
                self.held += piece
            text, self.held = self.held.split(b"\0", 1)
            answer = json.loads(text)
            if answer.get("id") == self.number:
                if "error" in answer:
                    raise SystemExit("counter: %s: %s" % (method, answer["error"]))
                return answer["result"]
            self.said.append(answer)

    def value(self, script):
        found = self.ask("Runtime.evaluate", expression=script, awaitPromise=True, returnByValue=True)
        if "exceptionDetails" in found:
            raise SystemExit("counter: %s: %s" % (script, found["exceptionDetails"]))
        return found["result"].get("value")

    def until(self, script, seconds=30):
        for _ in range(seconds * 10):
            found = self.value(script)
            if found:
                return found
            time.sleep(0.1)
        raise SystemExit("counter: it never comes: %s\n%s" % (script, self.value("document.body.innerText")[:2000]))

    def click(self, script):
        """A click of the mouse in the middle of the element that the script names."""
        at = self.value("(() => { const e = %s; e.scrollIntoView({block: 'center'}); const r = e.getBoundingClientRect(); return [r.x + r.width / 2, r.y + r.height / 2]; })()" % script)
        for kind in ("mousePressed", "mouseReleased"):
            self.ask("Input.dispatchMouseEvent", type=kind, x=at[0], y=at[1], button="left", clickCount=1)

    def write(self, name, text):
        self.click("by('%s')" % name)
        self.value("by('%s').select()" % name)
        self.ask("Input.insertText", text=text)

    def outside(self, home):
        """What the page asked of others than the host that it came from, and what went wrong in it."""
        for event in self.said:
            words = event.get("params", {})
            if event.get("method") == "Network.requestWillBeSent" and not words["request"]["url"].startswith((home, "data:")):
                yield "it asked for " + words["request"]["url"]
            if event.get("method") == "Runtime.exceptionThrown":
                yield "exception " + json.dumps(words["exceptionDetails"])[:300]

    def refused(self):
        """What was answered with a refusal."""
        answers = [event["params"]["response"] for event in self.said if event.get("method") == "Network.responseReceived"]
        return ["%d of %s" % (answer["status"], answer["url"]) for answer in answers if answer["status"] >= 400]

    def close(self):
        self.session = None
        self.ask("Browser.close")
        self.process.wait(timeout=60)


def button(text, inside="document"):
    return "[...%s.querySelectorAll('button')].find(b => b.textContent.startsWith(%s))" % (inside, json.dumps(text))


def cells(kind=""):
    return "document.querySelectorAll('#map i%s').length" % (kind and "." + kind)


def begin(proxy, browser):
    """The page is open, has the operator's trains, and shows a train of the first offer."""
    browser.ask("Page.navigate", url="https://localhost:%d/counter.html" % proxy.port)
    browser.until("document.readyState === 'complete' && trains?.runs.length === 288")
    find(proxy, browser)


def find(proxy, browser):
    # The catalogue is that of the day after tomorrow, where the page begins with tomorrow.
    browser.write("earliest", proxy.day + "T06:00:00Z")
    browser.click("by('find')")
    browser.until("by('offers').children.length > 0 && %s > 0" % cells(), 60)


def sell(proxy, browser):
    """Two bookings of this counter, and one of another retailer on the same train."""
    if browser.value(cells()) != LEGS * PLACES:
        yield "the map has %s places and legs" % browser.value(cells())
    if browser.value(cells("sold")) or browser.value(cells("mine")):
        yield "places are sold before any was booked"
    # Another retailer sells on the same train meanwhile: its places turn red by themselves.
    other = json.dumps({"run": browser.value("shown.run"), "class": "SECOND", "count": 8, "from": "DUNES", "to": "SUMMIT"})
    proxy.ask("south", "POST", "/reservations", other.encode())
    browser.until(cells("sold") + " === 8 * 5", 20)
    browser.click(button("Book", "by('offers')"))
    browser.until("by('B000001')?.innerText.includes('PREBOOKED')")
    # Two adults and a child on the three legs from HARBOUR to CAPITAL.
    browser.until(cells("mine") + " === 3 * 3", 20)
    browser.click(button("Confirm", "by('B000001')"))
    browser.until("by('B000001').innerText.includes('CONFIRMED')")
    if proxy.day + " 1005 HARBOUR 06:04 – CAPITAL 06:52, second class" not in browser.value("by('B000001').innerText"):
        yield "no day, times and class: %s" % browser.value("by('B000001').innerText")
    browser.click("by('together')")
    browser.click(button("Book", "by('offers')"))
    browser.until("by('B000002')?.innerText.includes('PREBOOKED')")
    browser.until(cells("mine") + " === 2 * 3 * 3", 20)
    seats = browser.value("bookings.get('B000002').reservations.filter(r => r.train === 1005).map(r => r.place)")
    if [seat - seats[0] for seat in seats] != [0, 1, 2]:
        yield "side by side is %s" % seats


def look_at(browser, width, pictures):
    """The page fits the width, and nothing in it but the lists that scroll by themselves is wider."""
    browser.resize(width)
    browser.value("window.scrollTo(0, 0)")
    time.sleep(2)
    wide = browser.value("document.documentElement.scrollWidth")
    if wide > width:
        yield "at %d pixels the page is %d wide" % (width, wide)
    if pictures:
        shot = {"clip": {"x": 0, "y": 0, "width": width, "height": browser.value("document.documentElement.scrollHeight"), "scale": 1}}
        data = browser.ask("Page.captureScreenshot", format="png", captureBeyondViewport=True, **shot)["data"]
        (pictures / ("%d.png" % width)).write_bytes(base64.b64decode(data))


def reload(proxy, browser):
    """The bookings are there after a reload; one that isn't what was kept is told and dropped."""
    browser.ask("Page.reload")
    browser.until("document.readyState === 'complete' && by('B000001')?.innerText.includes('CONFIRMED') && by('B000002')?.innerText.includes('PREBOOKED')")
    browser.value("localStorage.setItem(store(), localStorage.getItem(store()).replace('\"confirmableUntil\":\"', '\"confirmableUntil\":\"1'))")
    browser.ask("Page.reload")
    browser.until("document.readyState === 'complete' && by('said').innerText.startsWith('B000001: no longer a booking of this counter')")
    if browser.value("!!by('B000001') || !by('B000002')"):
        yield "the bookings after a reload are %s" % browser.value("by('bookings').innerText")
    browser.write("id", "B000001")
    browser.click(button("Look", "by('look')"))
    browser.until("by('B000001')?.innerText.includes('CONFIRMED')")
    find(proxy, browser)


def trade(browser):
    """The one booking is exchanged for another offer, and that is refunded; the other one is released."""
    browser.click(button("Exchange", "by('B000001')"))
    browser.until("by('offers').innerText.includes('Exchange')")
    browser.click(button("Exchange", "by('offers').children[1]"))
    browser.until("!!(%s)" % button("Take", "by('offers')"))
    # The same price, so the exchange fee of 3.00 alone.
    if "Take 3.00 EUR" not in browser.value("by('offers').innerText"):
        yield "the exchange costs %s" % browser.value("by('said').innerText")
    browser.click(button("Take", "by('offers')"))
    browser.until("by('B000001').innerText.includes('EXCHANGED') && by('B000003')?.innerText.includes('CONFIRMED')")
    browser.click(button("Release", "by('B000002')"))
    browser.until("by('B000002').innerText.includes('RELEASED')")
    browser.click(button("Refund", "by('B000003')"))
    browser.until("!!(%s)" % button("Pay back", "by('B000003')"))
    browser.click(button("Pay back", "by('B000003')"))
    browser.until("by('B000003').innerText.includes('REFUNDED')")
    # What was sold here is free again, and what the other retailer sold stands.
    browser.click("by('offers').querySelector('button.train')")
    browser.until(cells("mine") + " === 0 && " + cells("sold") + " === 8 * 5", 20)


def refusals(browser):
    browser.write("origin", "NOWHERE")
    browser.click("by('find')")
    browser.until("by('said').innerText.includes('UnknownStation (origin)')")
    browser.write("key", "east")
    browser.click("by('find')")
    browser.until("by('said').innerText.includes('401 NoRetailer')")


def without_trains(proxy, browser):
    """Where the operator has put no file of trains there, the page says so, and still sells."""
    (proxy.folder / "for_retailers.json").rename(proxy.folder / "away.json")
    browser.write("key", "north")
    # The key counts once the field is left.
    browser.click("by('train')")
    browser.ask("Page.reload")
    browser.until("document.readyState === 'complete' && by('said').innerText.includes('has no for_retailers.json')")
    browser.write("earliest", proxy.day + "T06:00:00Z")
    browser.click("by('find')")
    browser.until("by('offers').children.length > 0")
    browser.click(button("Book", "by('offers')"))
    browser.until("by('B000004')?.innerText.includes('PREBOOKED')")
    (proxy.folder / "away.json").rename(proxy.folder / "for_retailers.json")


def walk(proxy, browser, pictures):
    """The clicks; what is wrong with what they show is answered."""
    begin(proxy, browser)
    yield from sell(proxy, browser)
    for width in (NARROW, WIDTH):
        yield from look_at(browser, width, pictures)
    yield from reload(proxy, browser)
    yield from trade(browser)
    # Up to here the page has asked for nothing that is refused: it guesses no stops, and there is no icon to miss.
    yield from browser.refused()
    refusals(browser)
    without_trains(proxy, browser)
    yield from browser.outside("https://localhost:%d/" % proxy.port)


def main():
    words = argparse.ArgumentParser(description=__doc__, formatter_class=argparse.RawDescriptionHelpFormatter)
    words.add_argument("program", type=pathlib.Path)
    words.add_argument("--pictures", type=pathlib.Path)
    given = words.parse_args()
    for name in ("chromium", "nginx"):
        if not shutil.which(name):
            words.error("it needs %s: apt-get install chromium nginx" % name)
    # Chromium's last files may come while its folder goes, and none of them is wanted.
    profile = tempfile.mkdtemp()
    with tempfile.TemporaryDirectory() as folder:
        proxy = Proxy(given.program.resolve(), pathlib.Path(folder), workers=8)
        browser = None
        try:
            browser = Browser(profile)
            found = list(walk(proxy, browser, given.pictures))
        finally:
            if browser:
                browser.close()
            shutil.rmtree(profile, ignore_errors=True)
            proxy.close()
    for fault in found:
        print("counter: " + fault)
    print("counter: two bookings, a confirmation, an exchange, a release, a refund, three reloads and two refusals clicked, at two widths: %d wrong" % len(found))
    return 1 if found else 0


sys.exit(main())
