#!/usr/bin/env python3
"""A retailer that searches, books, confirms, collects, refunds, exchanges and releases, and prints what it did.

  examples/client.py --port N --origin CODE --destination CODE [--earliest MOMENT] [--key KEY]
                     [--host NAME] [--tls] [--cacert FILE] [--trains FILE] [--keep FILE]
  examples/client.py --port N --origin CODE --destination CODE --timetable
  examples/client.py --program PATH --catalogue FILE --earliest MOMENT --origin CODE --destination CODE

The first form speaks to a host that listens, or to a proxy before it, over one connection at a time. The second prints
the offers of a day that are worth showing, and books nothing. The third starts PATH itself, as `PATH replay FILE
--start MOMENT`, and speaks to it through pipes, so that it needs no host. Without --earliest the search begins now.

It is a program to begin from, and does what a retailer's program has to do:

- one connection for one key, opened anew where it was lost or has been idle for some seconds;
- a time limit for connecting and one for an answer;
- a pause before it asks again, longer each time, where nothing listens, after 500 and 503, and where no answer came;
- where no answer came (a lost connection, or a proxy's 502 or 504 without JSON) it doesn't know whether the request
  was carried out, and does what is right for that request: it looks for a booking whose answer was lost, and sends
  anything else again. `WrongState` with the state that it wanted says that the first one was carried out, and so does
  `UnknownBooking` where the booking was to end;
- a new search where an offer is too old or has no place left;
- of a day's offers it drops those without places and those that another one beats (--timetable);
- it keeps bookings over its own end (--keep), and compares each with what the host shows before it uses its id again;
- with the operator's list of trains (--trains) it prints a ticket with day, times and class.

It ends with status 0 where all was done, and with 1 and a line that says why where it was refused, nothing answered,
or a kept booking is another one now.
"""
import argparse
import datetime
import http.client
import json
import pathlib
import random
import ssl
import subprocess
import sys
import time
import urllib.request

CONNECT_SECONDS = 5
# Longer than the 60 seconds of the example proxy, so that it gives up first and says so.
ANSWER_SECONDS = 65
# The host ends an idle connection by itself; one that was idle for so long is closed by this side before.
IDLE_SECONDS = 4
TRIES = 6
FIRST_PAUSE_SECONDS = 0.25
ASK_AGAIN = {"Contended", "NoMemory"}
SEARCH_AGAIN = {"NoPlace", "OfferTooOld", "UnknownOffer"}
PROXY_GAVE_UP = {502, 503, 504}
# A booking that has ended may be unknown soon after, since its row serves another one.
ENDED = {"RELEASED", "REFUNDED"}
# The most offers that one search answers.
MOST_OFFERS = 16
# Ids that are looked at for a booking whose answer was lost: so many before the newest one that is known, since each
# of the host's workers may have kept one row back, and so many after it, since others book too.
LOOK_BACK, LOOK_AHEAD = 16, 200


class Refused(Exception):
    """An answer that is a problem."""

    def __init__(self, problem):
        super().__init__(problem["code"])
        self.problem = problem


class NotSent(Exception):
    """No connection: the request was not sent, and may be sent whatever it is."""


class NoAnswer(Exception):
    """The request was sent and no answer of the host came: whether it was carried out isn't known."""


class Unusable(Exception):
    """Something that is kept or was read doesn't fit the host; the text says what."""


class Pipes:
    """What http.client needs of a socket, over a process's standard input and output."""

    def __init__(self, words):
        self.process = subprocess.Popen(words, stdin=subprocess.PIPE, stdout=subprocess.PIPE)

    def makefile(self, mode):
        return open(self.process.stdout.fileno(), mode, closefd=False)

    def sendall(self, data):
        self.process.stdin.write(data)
        self.process.stdin.flush()

    def settimeout(self, seconds):
        pass

    def close(self):
        self.process.stdin.close()
        self.process.wait()


class Link:
    """One connection at a time to the host, opened where it is needed."""

    def __init__(self, new_connection):
        self.new_connection, self.connection, self.used = new_connection, None, 0.0

    def exchange(self, method, path, data, fields):
        """The status and the body of an answer."""
        if self.connection and time.monotonic() - self.used > IDLE_SECONDS:
            self.close()
        if not self.connection:
            try:
                self.connection = self.new_connection()
            except OSError as error:
                raise NotSent("no connection: %s" % error) from error
        try:
            self.connection.request(method, path, body=data, headers=fields)
            answer = self.connection.getresponse()
            body = answer.read()
        except (OSError, http.client.HTTPException) as error:
            self.close()
            raise NoAnswer("%s: %s" % (type(error).__name__, error)) from error
        self.used = time.monotonic()
        if answer.will_close:
            self.close()
        return answer.status, body

    def close(self):
        if self.connection:
            self.connection.close()
        self.connection = None


def money(amount):
    """An amount in minor units as a text: -550 with scale 2 is -5.50."""
    whole, rest = divmod(abs(amount["amount"]), 10 ** amount["scale"])
    sign = "-" if amount["amount"] < 0 else ""
    return "%s%d.%0*d %s" % (sign, whole, amount["scale"], rest, amount["currency"])


def moment_of(text):
    """A moment of RFC 3339, which an answer has with Z."""
    return datetime.datetime.fromisoformat(text.replace("Z", "+00:00"))


def text_of(moment):
    return moment.astimezone(datetime.timezone.utc).strftime("%Y-%m-%dT%H:%M:%SZ")


def later(text, seconds):
    return text_of(moment_of(text) + datetime.timedelta(seconds=seconds))


# Offers


def passengers_of(wish):
    return wish["adults"] + wish["children"]


def departure(offer):
    return offer["segments"][0]["depart"]


def arrival(offer):
    return offer["segments"][-1]["arrive"]


def bookable(offers, passengers):
    """Those with a place for each passenger on each train, as the search saw it."""
    return [offer for offer in offers if all(segment["free"] >= passengers for segment in offer["segments"])]


def is_no_worse(one, other):
    """It leaves no earlier, arrives no later, has no more trains and costs no more."""
    return (
        departure(one) >= departure(other)
        and arrival(one) <= arrival(other)
        and len(one["segments"]) <= len(other["segments"])
        and one["price"]["amount"] <= other["price"]["amount"]
    )


def useful(offers):
    """Those that no other one beats; of several that are equal in all of it, the first."""
    kept = []
    for offer in offers:
        if not any(is_no_worse(other, offer) for other in kept):
            kept = [other for other in kept if not is_no_worse(offer, other)] + [offer]
    return kept


# Bookings


def number_of(booking_id):
    """The number in an id: 42 in B000042 and in B000042-3."""
    return int(booking_id[1:].split("-")[0])


def rides(parts):
    return sorted((part["run"], part["from"], part["to"]) for part in parts)


def is_of(booking, offer, passengers):
    """Whether it may be what a request to book the offer has made: its trains, stops and price, and not confirmed."""
    wanted = [segment for segment in offer["segments"] for _ in range(passengers)]
    return (
        booking["status"] == "PREBOOKED"
        and booking["price"] == offer["price"]
        and rides(booking["reservations"]) == rides(wanted)
    )


def is_same(kept, shown):
    """Whether the host shows the booking that was kept, and not another one that has its id now.

    Its limit, its price and its number of places never change. An operator may have moved passengers to other places.
    """
    return (
        kept["confirmableUntil"] == shown["confirmableUntil"]
        and kept["price"] == shown["price"]
        and len(kept["reservations"]) == len(shown["reservations"])
    )


class Retailer:
    def __init__(self, link, key):
        self.link, self.key, self.rows = link, key, []
        # By id: each booking as it was answered last.
        self.kept = {}

    def once(self, method, path, body=None):
        """One request and its answer; a problem is raised."""
        data = json.dumps(body).encode() if body is not None else b""
        fields = {"Retailer-Key": self.key, "Content-Length": str(len(data))}
        status, text = self.link.exchange(method, path, data, fields)
        try:
            read = json.loads(text)
        except ValueError:
            # Not the host: its answers are JSON without exception.
            if status in PROXY_GAVE_UP:
                raise NoAnswer("%d of a proxy" % status) from None
            raise Refused({"code": "%d, no JSON" % status, "status": status}) from None
        if status >= 300:
            raise Refused(read)
        return status, read

    def row(self, step, method, path, status, state, what):
        self.rows.append((step, "%s %s" % (method, path), status, state, what))

    def ask(self, step, method, path, body=None, says=lambda answer: "", wanted=None, repeats=True):
        """A request that is made again where that may help; what came of it is a row of the table.

        `wanted` is the state in which the request leaves its booking; `repeats` is false for what may not be carried
        out twice.
        """
        unsure, why = False, None
        for turn in range(TRIES):
            pause(turn)
            try:
                status, read = self.once(method, path, body)
            except Refused as refused:
                problem, why = refused.problem, refused
                if unsure and wanted and problem["code"] == "WrongState" and problem.get("detail") == wanted:
                    return self.done_before(step, method, path, wanted)
                if unsure and wanted in ENDED and problem["code"] == "UnknownBooking":
                    said = "ended by the request before, whose answer was lost, and gone by now"
                    self.row(step, method, path, problem["status"], wanted, said)
                    return None
                self.row(step, method, path, problem["status"], problem["code"], problem.get("detail", ""))
                if problem["code"] not in ASK_AGAIN:
                    raise
            except NotSent as error:
                why = error
                self.row(step, method, path, "", "not sent", error)
            except NoAnswer as error:
                unsure, why = True, error
                self.row(step, method, path, "", "no answer", error)
                if not repeats:
                    raise
            else:
                booking = read.get("booking", read)
                if "reservations" in booking:
                    self.kept[booking["id"]] = booking
                self.row(step, method, path, status, booking.get("status", ""), says(read))
                return read
        raise why

    def done_before(self, step, method, path, wanted):
        """What a request whose answer was lost has done: the booking as it is now, or the one that replaced it."""
        self.row(step, method, path, 409, wanted, "done by the request before, whose answer was lost")
        booking = self.ask("look", "GET", "/".join(path.split("/")[:3]))
        if "successor" in booking:
            new = self.ask("look at the new", "GET", "/bookings/%s" % booking["successor"], says=booked)
            return {"booking": new, "difference": booking["endAmount"], "replaced": booking["id"]}
        return booking

    def search(self, wish):
        return self.ask("search", "POST", "/offers", wish, found)["offers"]

    def day(self, wish, latest):
        """All offers from the wish's earliest departure to the latest that its searches show, one after another.

        Each further search begins a second after the last departure shown. So it passes over trips that leave
        before that and arrive no earlier than the last of that search.
        """
        offers = []
        while wish["earliest"] <= latest:
            some = self.search({**wish, "latest": latest})
            offers += some
            if len(some) < MOST_OFFERS:
                break
            wish = {**wish, "earliest": later(max(map(departure, some)), 1)}
        return offers

    def book(self, wish):
        """Books the first offer that has its places; searches anew where what was found is gone.

        Where the answer is lost, the booking may stand, under an id that nobody was told. It is looked for at once, and
        where it isn't found, once more when the next booking's id shows how far the host has come.
        """
        lost = None
        for _ in range(TRIES):
            offers = bookable(self.search(wish), passengers_of(wish))
            if not offers:
                why = "no offer with places from %(origin)s to %(destination)s after %(earliest)s" % wish
                raise Unusable(why)
            try:
                booking = self.ask("book", "POST", "/bookings", {"offerId": offers[0]["id"]}, booked, repeats=False)
            except NoAnswer:
                lost = offers[0]
                booking = self.find_lost(lost, passengers_of(wish))
                if booking:
                    return booking
            except Refused as refused:
                if refused.problem["code"] not in SEARCH_AGAIN:
                    raise
            else:
                if lost:
                    self.give_back_lost(lost, passengers_of(wish))
                return booking
        raise Unusable("nothing could be booked in %d searches" % TRIES)

    def find_lost(self, offer, passengers):
        """The booking that a request to book the offer has made, where it stands near the newest id that is known.

        Another program's new booking by the same key looks just like it. So only one program of a key may look at a
        time, while no other one waits for an answer.
        """
        newest = max(map(number_of, self.kept), default=0)
        ids = ["B%06d" % number for number in range(max(0, newest - LOOK_BACK), newest + LOOK_AHEAD)]
        ids = [booking_id for booking_id in ids if booking_id not in self.kept]
        for booking_id in ids:
            booking = self.look(booking_id)
            if booking and is_of(booking, offer, passengers):
                self.kept[booking_id] = booking
                self.row("look for it", "GET", "/bookings/" + booking_id, 200, booking["status"], booked(booking))
                return booking
        self.row("look for it", "GET", "/bookings/%s to %s" % (ids[0], ids[-1]), "", "", "it isn't there")
        return None

    def look(self, booking_id):
        """The booking, or None where this retailer has none of that id. It is no row of the table."""
        for turn in range(TRIES):
            pause(turn)
            try:
                return self.once("GET", "/bookings/" + booking_id)[1]
            except Refused as refused:
                if refused.problem["code"] == "UnknownBooking":
                    return None
                if refused.problem["code"] not in ASK_AGAIN:
                    raise
            except (NotSent, NoAnswer):
                pass
        raise NoAnswer("no answer to %d looks" % TRIES)

    def give_back_lost(self, offer, passengers):
        """Releases a lost booking that shows only now, since another one was made in its place."""
        booking = self.find_lost(offer, passengers)
        if booking:
            self.release(booking)

    def recall(self, booking):
        """Looks whether the host still has a booking that was kept, before anything is asked of its id."""
        shown = self.look(booking["id"])
        if shown and not is_same(booking, shown):
            raise Unusable("%s is another booking now: the host began anew. Forget all ids" % booking["id"])
        self.row("kept", "GET", "/bookings/" + booking["id"], "", shown["status"] if shown else "UnknownBooking", "")
        del self.kept[booking["id"]]
        if shown:
            self.kept[booking["id"]] = shown

    def confirm(self, booking):
        path = "/bookings/%s/fulfillments" % booking["id"]
        return self.ask("confirm", "POST", path, says=lambda b: "before " + b["confirmableUntil"], wanted="CONFIRMED")

    def release(self, booking):
        path = "/bookings/%s" % booking["id"]
        self.ask("release", "DELETE", path, says=lambda b: "ended at " + b["endedAt"], wanted="RELEASED")


def pause(turn):
    """Half to one and a half of a time that doubles from try to try; none before the first."""
    if turn:
        time.sleep(FIRST_PAUSE_SECONDS * 2 ** (turn - 1) * random.uniform(0.5, 1.5))


def found(answer):
    offers = answer["offers"]
    return "%d offers%s" % (len(offers), ", the first " + money(offers[0]["price"]) if offers else "")


def booked(booking):
    places = ["%d:%d/%d" % (place["train"], place["coach"], place["place"]) for place in booking["reservations"]]
    return "%s %s, places %s" % (booking["id"], money(booking["price"]), " ".join(places))


def quoted(quote):
    return "%s until %s" % (money(quote.get("amount", quote.get("difference"))), quote["validUntil"])


def paid_back(booking):
    return "paid back " + money(booking["endAmount"])


def life(retailer, wish):
    """A booking for the whole wish, from its search to its refund."""
    booking = retailer.book(wish)
    retailer.confirm(booking)
    path = "/bookings/%s" % booking["id"]
    retailer.ask("collect", "PATCH", path + "/fulfillments", {"status": "FULFILLED"}, wanted="FULFILLED")
    quote = retailer.ask("ask for refund", "POST", path + "/refund-offers", says=quoted)
    accept = path + "/refund-offers/" + quote["id"]
    retailer.ask("refund", "PATCH", accept, {"status": "CONFIRMED"}, paid_back, wanted="REFUNDED")


def exchange(retailer, wish):
    """A booking of the first trip, exchanged for the next one that has a place."""
    booking = retailer.book(wish)
    retailer.confirm(booking)
    taken = booking["reservations"][0]["run"]
    offers = bookable(retailer.search(wish), passengers_of(wish))
    # Where there is no other train, other places of the same one.
    offer = next((offer for offer in offers if offer["segments"][0]["run"] != taken), offers[0])
    ids = {"bookingId": booking["id"], "offerId": offer["id"]}
    quote = retailer.ask("ask for exchange", "POST", "/exchange-offers", ids, quoted)
    path = "/bookings/%s" % booking["id"]
    accept, body = path + "/exchange-operations", {"exchangeOfferId": quote["id"]}
    done = retailer.ask("exchange", "POST", accept, body, lambda e: booked(e["booking"]), wanted="EXCHANGED")
    retailer.ask("look at the old", "GET", path, says=lambda b: "replaced by " + b["successor"])
    return done["booking"]


# What is printed


def table(titles, rows):
    """Lines of columns of which the last may be as long as it likes."""
    # Ids of quotes are long, and are shortened here.
    rows = [tuple(shortened(text) for text in row[:-1]) + (str(row[-1]),) for row in rows]
    widths = [max(len(row[n]) for row in [titles] + rows) for n in range(len(titles) - 1)]
    rule = tuple("-" * width for width in widths) + ("----",)
    for row in [titles, rule] + rows:
        cells = [text.ljust(width) for text, width in zip(row, widths)]
        print("  ".join(cells + [row[-1]]).rstrip())


def shortened(text):
    text = str(text)
    return text if len(text) <= 60 else text[:57] + "..."


def timetable(retailer, wish, latest):
    """The offers of a day that are worth showing: with places for all, and not beaten by another one."""
    offers = retailer.day(wish, latest)
    shown = useful(bookable(offers, passengers_of(wish)))
    rows = []
    for offer in sorted(shown, key=departure):
        trains = ["%d %s-%s" % (part["train"], part["from"], part["to"]) for part in offer["segments"]]
        free = min(part["free"] for part in offer["segments"])
        rows.append((departure(offer), arrival(offer), money(offer["price"]), free, ", ".join(trains)))
    table(("departs", "arrives", "price", "free", "trains"), rows)
    print("%d of %d offers, in %d searches" % (len(rows), len(offers), len(retailer.rows)))


def trains_of(source, context):
    """The operator's list of trains: its catalogue without the keys, as a file or at an address of the web."""
    try:
        if source.startswith(("https://", "http://")):
            with urllib.request.urlopen(source, timeout=ANSWER_SECONDS, context=context) as answer:
                trains = json.load(answer)
        else:
            trains = json.loads(pathlib.Path(source).read_text())
    except (OSError, ValueError) as error:
        raise Unusable("%s can't be read as a list of trains: %s" % (source, error)) from error
    if not isinstance(trains, dict) or "runs" not in trains:
        raise Unusable("%s is no list of trains: it has no runs" % source)
    return trains


def stop_of(run, station):
    return next((stop for stop in run["stops"] if stop["station"] == station), None)


def class_of(run, place):
    """The class of a place, by the group that it stands in."""
    for coach in run["coaches"]:
        if coach["coach"] == place["coach"]:
            if any(group["first"] <= place["place"] <= group["last"] for group in coach["places"]):
                return coach["class"]
    return None


def leg_of(trains, place):
    """The run, the two stops and the class of a place that is booked."""
    run = trains["runs"][place["run"]] if place["run"] < len(trains["runs"]) else None
    if run is None or run["train"] != place["train"]:
        raise Unusable("the list of trains is another host's: its run %(run)d is not train %(train)d" % place)
    begin, end = stop_of(run, place["from"]), stop_of(run, place["to"])
    if not begin or not end or not class_of(run, place):
        raise Unusable("the list of trains is another host's: train %(train)d has no such stop or place there" % place)
    return run, begin, end, class_of(run, place)


def ticket(booking, trains):
    """The lines of a ticket. Day and times are those of the list, in its own time zone."""
    yield "Ticket %s, %s, %s" % (booking["id"], booking["status"], money(booking["price"]))
    for place in booking["reservations"]:
        _, begin, end, travel_class = leg_of(trains, place)
        depart = begin.get("depart", begin.get("arrive"))
        arrive = end.get("arrive", end.get("depart"))
        yield "  %s  train %d  %s %s - %s %s  %s class, coach %d, place %d" % (
            depart[:10], place["train"], clock(depart), place["from"], clock(arrive), place["to"],
            travel_class.lower(), place["coach"], place["place"],
        )


def clock(text):
    """Hours, minutes and the offset of a moment: 08:00Z."""
    return text[11:16] + text[len(text.rstrip("Zz")) if text[-1] in "Zz" else -6:]


# The command


def context_of(given):
    return ssl.create_default_context(cafile=given.cacert) if given.tls or given.cacert else None


def connections(given):
    """What makes a connection, by the words of the command."""
    return piped(given) if given.program else dialled(given)


def piped(given):
    started = []

    def connect():
        if started:
            raise OSError("the program %s is gone, and its bookings with it" % given.program)
        started.append(given.program)
        connection = http.client.HTTPConnection("pipes")
        connection.sock = Pipes([given.program, "replay", given.catalogue, "--start", given.earliest])
        return connection

    return connect


def dialled(given):
    context = context_of(given) if given.tls else None

    def connect():
        if context:
            connection = http.client.HTTPSConnection(given.host, given.port, timeout=CONNECT_SECONDS, context=context)
        else:
            connection = http.client.HTTPConnection(given.host, given.port, timeout=CONNECT_SECONDS)
        connection.connect()
        connection.sock.settimeout(ANSWER_SECONDS)
        return connection

    return connect


def read_kept(path):
    """The bookings that an earlier run has kept, by their ids."""
    file = pathlib.Path(path)
    try:
        return {booking["id"]: booking for booking in json.loads(file.read_text())} if file.exists() else {}
    except (OSError, ValueError, TypeError, KeyError) as error:
        raise Unusable("%s has no bookings that can be read: %s" % (path, error)) from error


def write_kept(path, retailer):
    alive = [booking for booking in retailer.kept.values() if not booking["settled"]]
    pathlib.Path(path).write_text(json.dumps(alive, indent=1) + "\n")


def do_all(retailer, wish, given):
    """What the words of the command ask for."""
    if given.timetable:
        return timetable(retailer, wish, given.latest or later(given.earliest, 86_400))
    trains = trains_of(given.trains, context_of(given)) if given.trains else None
    if given.keep:
        retailer.kept = read_kept(given.keep)
        for booking in list(retailer.kept.values()):
            retailer.recall(booking)
    try:
        life(retailer, wish)
        booking = exchange(retailer, {**wish, "adults": 1, "children": 0})
        retailer.release(retailer.book(wish))
    finally:
        # A program that sells writes each booking down when its answer comes.
        if given.keep:
            write_kept(given.keep, retailer)
    return list(ticket(booking, trains)) if trains else []


def words_of_command():
    words = argparse.ArgumentParser(description=__doc__, formatter_class=argparse.RawDescriptionHelpFormatter)
    words.add_argument("--host", default="127.0.0.1")
    words.add_argument("--port", type=int)
    words.add_argument("--tls", action="store_true", help="speak TLS, as to the example proxy")
    words.add_argument("--cacert", help="certificates to trust with --tls, instead of the system's")
    words.add_argument("--program")
    words.add_argument("--catalogue")
    words.add_argument("--key", default="north")
    words.add_argument("--origin", required=True)
    words.add_argument("--destination", required=True)
    words.add_argument("--earliest", default=text_of(datetime.datetime.now(datetime.timezone.utc)))
    words.add_argument("--latest", help="the last departure of --timetable, else a day after --earliest")
    words.add_argument("--timetable", action="store_true", help="print the offers of a day, and book nothing")
    words.add_argument("--trains", help="the operator's list of trains, a file or an address, for a ticket at the end")
    words.add_argument("--keep", help="a file that keeps bookings from one run to the next")
    given = words.parse_args()
    if not given.port and not given.program:
        words.error("--port or --program is wanted")
    if given.program and not given.catalogue:
        words.error("--program wants --catalogue")
    for name in ("earliest", "latest"):
        if getattr(given, name):
            try:
                setattr(given, name, later(getattr(given, name), 0))
            except (ValueError, TypeError):
                words.error("--%s wants a moment with its offset, as 2026-06-01T08:00:00Z" % name)
    return given


def main():
    given = words_of_command()
    link = Link(connections(given))
    retailer = Retailer(link, given.key)
    wish = {"origin": given.origin, "destination": given.destination, "earliest": given.earliest}
    wish.update({"class": "SECOND", "adults": 2, "children": 1})
    lines, why = [], None
    try:
        lines = do_all(retailer, wish, given) or []
    except Refused as refused:
        why = "refused: %s" % json.dumps(refused.problem)
    except (NotSent, NoAnswer) as error:
        why = "given up after %d tries: %s" % (TRIES, error)
    except (Unusable, OSError, ValueError) as error:
        why = str(error)
    link.close()
    if not given.timetable or why:
        table(("step", "request", "answer", "state", "what"), retailer.rows)
    print("\n".join(lines), end="\n" if lines else "")
    return "client: " + why if why else 0


if __name__ == "__main__":
    sys.exit(main())
