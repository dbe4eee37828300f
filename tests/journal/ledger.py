"""What clients were answered of bookings, and whether the bookings that a journal leaves can be so.

An answer is a promise: the booking is there from then on as it was told, or has gone forward by a command that was sent and not answered, or
by its limit. What was sent and never answered may have been done or not.
"""
import threading
from dataclasses import dataclass, replace

from world import LETTERS, Lines, name_of, row_of

RANKS = {"P": 1, "C": 2, "F": 3, "r": 4, "e": 4, "f": 4, "x": 4}
STEPS = {"confirm": ("P", "C"), "release": ("P", "r"), "expire": ("P", "e"), "fulfil": ("C", "F"),
         "refund": ("CF", "f"), "exchange": ("CF", "x")}
MAKING = ("reserve", "book", "exchange")
NOBODY = "0"


@dataclass(frozen=True)
class Told:
    """How far a booking has gone by the answers; what of it is fixed, and its end, where they were told."""
    letter: str
    base: tuple = None
    end: tuple = None

    def merged(self, other: "Told") -> "Told":
        further, less = (other, self) if RANKS[other.letter] > RANKS[self.letter] else (self, other)
        end = further.end or (less.end if less.letter == further.letter else None)
        return replace(further, base=further.base or less.base, end=end)


def line_told(fields: list) -> Told:
    """The same of a line of an export."""
    count = int(fields[7])
    return Told(fields[3], tuple(fields[4:8 + count]), tuple(fields[8 + count:]) or None)


def reachable(letter: str, kinds: set) -> set:
    """The letters that a booking may come to from this one by commands of these kinds, each done or not."""
    letters = {letter}
    for _ in STEPS:
        letters |= {to for kind in kinds for begins, to in [STEPS[kind]] if letters & set(begins)}
    return letters


class Ledger:
    """What all clients were answered, from the first host on."""

    def __init__(self, own: dict):
        self.lines, self.lock = Lines(own), threading.Lock()
        self.told, self.made, self.old, self.faults = {}, set(), set(), []
        self.expired, self.answers, self.newest, self.rows = 0, 0, 0, own["rows"]

    def is_ample(self) -> bool:
        """No row can have been given away yet, since half of them were never used."""
        return 2 * len(self.made) < self.rows

    def fault(self, what: str):
        with self.lock:
            self.faults.append(what)

    def tell(self, name: str, told: Told):
        with self.lock:
            self.told[name] = self.told[name].merged(told) if name in self.told else told

    def tell_booking(self, retailer: int, booking: dict):
        told = Told(LETTERS[booking["status"]], self.lines.base(retailer, booking), self.lines.end(booking))
        self.check(booking["id"], told)
        self.tell(booking["id"], told)

    def check(self, name: str, told: Told):
        """What is fixed of a booking never changes, also not from host to host."""
        before = self.told.get(name)
        if before and before.base and before.base != told.base:
            self.fault("%s was told as %s and then as %s" % (name, before, told))

    def make(self, retailer: int, booking: dict):
        """A booking that was made just now: no id comes twice."""
        name = booking["id"]
        with self.lock:
            if name in self.made or name in self.old:
                self.faults.append("%s was given to two bookings" % name)
            self.made.add(name)
            self.newest = row_of(name)[0]
        self.tell_booking(retailer, booking)

    def judge(self, lines: dict, pending: list, late: int):
        """Holds the lines of a journal's export, by row, against all that was told. `pending` has the commands without an answer, each as its
        kind, its booking's name or None, and its retailer; bookings whose limit is before `late` may have expired."""
        kinds = {}
        for kind, name, _ in pending:
            kinds.setdefault(name, set()).add(kind)
        for name, told in self.told.items():
            row, generation = row_of(name)
            found = lines.get(row)
            own = kinds.get(name, set()) & set(STEPS)
            if told.letter == "P" and (told.base is None or int(told.base[1]) < late):
                own = own | {"expire"}
            fault = fault_of(told, found, generation, reachable(told.letter, own))
            if fault:
                self.fault("%s, told as %s: %s" % (name, told, fault))
        self.count_expired(lines)
        self.count_strangers(lines, pending)

    def count_expired(self, lines: dict):
        """As long as no row was given away, each booking that a sweep counted is there as expired."""
        there = sum(fields[3] == "e" for fields in lines.values())
        if there < self.expired and self.is_ample():
            self.fault("sweeps told of %d expired bookings, and %d are there" % (self.expired, there))

    def count_strangers(self, lines: dict, pending: list):
        """Bookings that nobody was answered come of commands without an answer."""
        strangers = {}
        for row, fields in lines.items():
            name = name_of(row, int(fields[2]))
            if name not in self.told and fields[4] != NOBODY:
                strangers.setdefault(int(fields[4]), []).append(name)
        for retailer, names in strangers.items():
            most = sum(kind in MAKING and own == retailer for kind, _, own in pending)
            if len(names) > most:
                self.fault("retailer %d has %d bookings that came of %d commands: %s" % (retailer, len(names), most, names[:5]))

    def adopt(self, lines: dict):
        """The next host begins with these lines, so that what they say is told. Bookings whose rows were given away can't come back: what their
        rows have now is told, and no generation of a row comes before that."""
        gone = [name for name in self.told if (place := row_of(name))[0] in lines and int(lines[place[0]][2]) > place[1]]
        for name in gone:
            del self.told[name]
        for row, fields in lines.items():
            if fields[4] != NOBODY:
                name = name_of(row, int(fields[2]))
                self.tell(name, line_told(fields))
                self.old.add(name)


def fault_of(told: Told, fields: list, generation: int, letters: set):
    """What is wrong with the line of a booking's row, None where nothing is."""
    if fields is None or int(fields[2]) < generation:
        return "it is lost"
    if int(fields[2]) > generation:
        return None if any(RANKS[letter] == 4 for letter in letters) else "its row was given away"
    found = line_told(fields)
    if found.letter not in letters:
        return "it is %s" % found.letter
    if told.base and told.base != found.base:
        return "it is another booking, %s" % (found.base,)
    if told.end and told.end != found.end:
        return "it ended as %s" % (found.end,)
    return None
