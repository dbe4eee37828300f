#!/usr/bin/env python3
"""The booking machine with a gate and cuts, by chance and step by step, with a crash at any moment: every restart is right.

  tests/journal/machine.py [--runs N] [--seed N] [--wrong NAME]

Five desks and a sweeper book, confirm, collect, release, refund, exchange and show on few places and rows. Each step of the machine is one move
on one word, allowed by its rules, and chance says who moves. A committer closes the gate, waits until nobody is inside, looks at the marked rows
one by one, and opens it; then the cut is written and kept. Answers wait for their cut. At any move the machine stops; of the cuts a beginning
is left, which has all that are kept. The fold of these cuts has to be the text of the machine's state at the last of them, and an export that
opens books. What was answered has to be there or to have gone forward, and the next machine goes on with it, a few times in each run (2,000).

Then the same with one thing wrong (`--wrong` tries one of them alone), of which each has to be found: `gate` (cuts are taken with others inside),
`answers` (they don't wait), `shows` (answers that only tell of bookings don't wait), `marks` (a turn marks no row), `commands` (a record for each
command in place of cuts).
"""
import argparse
import random
import sys
from dataclasses import dataclass, field

PLACES, LEGS, ROWS, DESKS, LIVES = 4, 4, 8, 5, 3
RANKS = {"P": 1, "C": 2, "F": 3, "G": 4, "E": 4}
TURNS = {("P", "C"), ("C", "F"), ("P", "G"), ("C", "G"), ("F", "G")}
WRONG = ["gate", "answers", "shows", "marks", "commands"]


@dataclass
class Booking:
    """M: in the making, P, C, F: live, G: ending, E: ended."""
    generation: int
    phase: str
    owner: int
    items: list = field(default_factory=list)
    kind: str = "-"
    successor: tuple = None


class Machine:
    """Words of places and rows. Each call is one move, which the rules have to allow."""

    def __init__(self, lines: dict, wrong: str):
        self.words, self.rows, self.marks, self.wrong = [0] * PLACES, [None] * ROWS, set(range(ROWS)), wrong
        for row, (generation, phase, items, kind, successor) in lines.items():
            self.rows[row] = Booking(generation, phase, 0, list(items), kind, successor)
            for place, mask in items if phase in "PCF" else ():
                self.words[place] |= mask

    def standing(self, row: int) -> tuple:
        """What word 0 shows."""
        booking = self.rows[row]
        return (booking.generation, booking.phase) if booking else (0, "-")

    def start(self, desk: int, row: int, seen: tuple) -> bool:
        if self.standing(row) != seen:
            return False
        assert seen == (0, "-") or seen[1] == "E"
        self.rows[row] = Booking(0 if seen[1] == "-" else seen[0] + 1, "M", desk)
        self.marks.add(row)
        return True

    def take(self, desk: int, row: int, place: int, mask: int) -> bool:
        assert (self.rows[row].phase, self.rows[row].owner) == ("M", desk)
        if self.words[place] & mask:
            return False
        self.words[place] |= mask
        self.rows[row].items.append((place, mask))
        return True

    def give(self, desk: int, row: int, item: tuple):
        booking = self.rows[row]
        assert booking.owner == desk and booking.phase in "MG" and self.words[item[0]] & item[1] == item[1]
        self.words[item[0]] &= ~item[1]
        if booking.phase == "M":
            booking.items.remove(item)

    def seal(self, desk: int, row: int, phase: str):
        booking = self.rows[row]
        assert (booking.phase, booking.owner) == ("M", desk) and booking.items
        booking.phase = phase
        self.marks.add(row)

    def turn(self, desk: int, row: int, seen: tuple, phase: str, kind: str = "-", successor: tuple = None) -> bool:
        if self.standing(row) != seen:
            return False
        booking = self.rows[row]
        assert (seen[1], phase) in TURNS
        booking.phase = phase
        if phase == "G":
            booking.owner, booking.kind, booking.successor = desk, kind, successor
        if self.wrong != "marks":
            self.marks.add(row)
        return True

    def close(self, desk: int, row: int):
        booking = self.rows[row]
        assert (booking.phase, booking.owner) == ("G", desk)
        booking.phase = "E"
        if self.wrong != "marks":
            self.marks.add(row)

    def line(self, row: int):
        """The row's line, where it has one: a booking in the making stands there only for those before it, as one that was released."""
        booking = self.rows[row]
        if booking is None or (booking.phase == "M" and booking.generation == 0):
            return None
        if booking.phase == "M":
            return (booking.generation, "E", ((0, 1),), "stub", None)
        return (booking.generation, booking.phase, tuple(booking.items), booking.kind, booking.successor)

    def lines(self) -> dict:
        return {row: line for row in range(ROWS) if (line := self.line(row))}


class Desk:
    """A member that carries commands out. A generator yields between two moves, and `True` where it waits."""

    def __init__(self, number: int, run: "Run"):
        self.number, self.run, self.rng, self.machine, self.kept = number, run, run.rng, run.machine, None

    def hold(self):
        """A row with places, or None."""
        row = self.kept
        self.kept = None
        for phase in "-E" if row is None else "":
            for at in range(ROWS):
                yield
                seen = self.machine.standing(at)
                yield
                if row is None and seen[1] == phase and self.machine.start(self.number, at, seen):
                    row = at
        if row is None:
            return None
        first = self.rng.randrange(LEGS)
        mask = sum(1 << leg for leg in range(first, self.rng.randrange(first, LEGS) + 1))
        wanted = self.rng.choice((1, 1, 2))
        for place in self.rng.sample(range(PLACES), PLACES):
            yield
            if len(self.machine.rows[row].items) < wanted:
                self.machine.take(self.number, row, place, mask)
        if len(self.machine.rows[row].items) < wanted:
            yield from self.abandon(row)
            return None
        return row

    def abandon(self, row: int):
        for item in reversed(list(self.machine.rows[row].items)):
            yield
            self.machine.give(self.number, row, item)
        self.kept = row

    def finish(self, row: int):
        for item in self.machine.rows[row].items:
            yield
            self.machine.give(self.number, row, item)
        yield
        self.machine.close(self.number, row)

    def book(self, _name):
        row = yield from self.hold()
        if row is None:
            return []
        yield
        self.machine.seal(self.number, row, "P")
        return [(row, self.machine.rows[row].generation, "P")]

    def advance(self, name, phases):
        yield
        won = self.machine.turn(self.number, name[0], (name[1], phases[0]), phases[1])
        return [(*name, phases[1])] if won else self.refused(name)

    def refused(self, name):
        """The answer tells of the phase that the row shows."""
        generation, phase = self.machine.standing(name[0])
        return [(*name, "E" if phase == "G" else phase)] if generation == name[1] and phase in "PCFGE" else []

    def leave(self, name, phases, kind):
        yield
        phase = self.machine.standing(name[0])[1]
        if phase not in phases or not self.machine.turn(self.number, name[0], (name[1], phase), "G", kind):
            return self.refused(name)
        yield from self.finish(name[0])
        return [(*name, "E")]

    def exchange(self, name):
        row = yield from self.hold()
        if row is None:
            return []
        new = (row, self.machine.rows[row].generation)
        yield
        phase = self.machine.standing(name[0])[1]
        if row == name[0] or phase not in "CF" or not self.machine.turn(self.number, name[0], (name[1], phase), "G", "x", new):
            yield from self.abandon(row)
            return self.refused(name)
        yield
        self.machine.seal(self.number, row, "C")
        yield from self.finish(name[0])
        return [(*new, "C"), (*name, "E")]

    def show(self, name):
        yield
        return self.refused(name)

    def sweep(self, _name):
        """Some prebooked bookings come to their limit."""
        ended = []
        for row in range(ROWS):
            yield
            generation, phase = self.machine.standing(row)
            if phase == "P" and self.rng.random() < 0.3:
                yield
                if self.machine.turn(self.number, row, (generation, "P"), "G", "e"):
                    yield from self.finish(row)
                    ended.append((row, generation, "E"))
        return ended

    def command(self):
        """One command from the gate to its answer, which waits for its cut."""
        kinds = {"book": self.book, "confirm": lambda name: self.advance(name, "PC"), "fulfil": lambda name: self.advance(name, "CF"),
                 "release": lambda name: self.leave(name, "P", "r"), "refund": lambda name: self.leave(name, "CF", "f"),
                 "exchange": self.exchange, "show": self.show, "sweep": self.sweep}
        kind = self.rng.choice(["book"] * 4 + ["confirm", "confirm", "fulfil", "release", "refund", "exchange", "exchange", "show", "show", "show"])
        kind = "sweep" if self.number == DESKS else kind
        name = self.rng.choice(self.run.names()) if kind not in ("book", "sweep") else None
        gate = self.run.gate
        if kind == "show":
            told = yield from self.show(name)
            return gate.tell(), told
        while gate.closed:
            yield True
        gate.inside += 1
        told = yield from kinds[kind](name)
        yield
        return gate.leave(told), told


class Gate:
    """Who is inside, and the cuts: how many were taken, how many are kept."""

    def __init__(self, run: "Run"):
        self.run, self.closed, self.inside, self.changed, self.taken = run, False, 0, True, 0

    def leave(self, told: list) -> int:
        self.inside -= 1
        self.changed = True
        if self.run.wrong == "commands":
            lines = {row: line for row, _, _ in told if (line := self.run.machine.line(row))}
            self.run.written.append((lines, None))
            return len(self.run.written)
        return self.taken + 1

    def tell(self) -> int:
        if self.run.wrong == "shows":
            return 0
        if self.run.wrong == "commands":
            return len(self.run.written)
        return self.taken + 1 if self.changed or self.inside else self.taken

    def commit(self):
        """The committer: cut after cut."""
        while True:
            while not self.changed:
                yield True
            self.closed = True
            while self.inside and self.run.wrong != "gate":
                yield True
            self.changed, lines = False, {}
            self.taken += 1
            for row in range(ROWS):
                if row in self.run.machine.marks:
                    self.run.machine.marks.discard(row)
                    yield
                    if line := self.run.machine.line(row):
                        lines[row] = line
            state = self.run.machine.lines() if self.run.wrong != "gate" else None
            self.closed = False
            yield
            self.run.written.append((lines, state))
            yield


class Run:
    """One machine from its start to its end."""

    def __init__(self, rng: random.Random, wrong: str, lines: dict, told: dict):
        self.rng, self.wrong, self.machine, self.told = rng, wrong, Machine(lines, wrong), told
        self.written, self.kept, self.waiting = [], 0, []
        self.gate = Gate(self)
        if wrong == "commands":
            self.written.append((dict(lines), None))
        self.members = [[Desk(number, self), None] for number in range(DESKS + 1)]

    def names(self) -> list:
        """Bookings to ask for, now and then one that nobody was answered."""
        guessed = [(row, booking.generation) for row, booking in enumerate(self.machine.rows) if booking]
        return guessed if self.rng.random() < 0.3 and guessed else list(self.told) or [(0, 0)]

    def move(self, committer, slow: list):
        """One move of somebody, or of the disk."""
        chance = self.rng.random()
        if chance < 0.25 and committer:
            next(committer)
        elif chance < 0.4 and self.kept < len(self.written):
            self.kept = self.rng.randrange(self.kept, len(self.written)) + 1
        else:
            self.step(self.rng.choices(self.members, slow)[0])
        self.release()

    def step(self, member: list):
        desk, work = member
        member[1] = work or desk.command()
        try:
            next(member[1])
        except StopIteration as done:
            member[1] = None
            self.waiting.append(done.value)

    def release(self):
        """The answers whose cut is kept go to whom they belong."""
        free = [told for after, told in self.waiting if after <= self.kept or self.wrong == "answers"]
        self.waiting = [(after, told) for after, told in self.waiting if after > self.kept and self.wrong != "answers"]
        for row, generation, phase in (entry for told in free for entry in told):
            before = self.told.get((row, generation), "P")
            self.told[row, generation] = max(before, phase, key=RANKS.get)

    def crash(self) -> tuple:
        """The fold of what is left, and the state at its last cut where that is known."""
        left = self.written[:self.rng.randrange(self.kept, len(self.written) + 1)]
        lines = {}
        for cut, _ in left:
            lines.update(cut)
        return lines, left[-1][1] if left else None


def faults_of(lines: dict, state, told: dict):
    """What is wrong with what a crash left."""
    if state is not None and lines != state:
        yield "the fold isn't the text of the state"
    live = [(place, mask) for _, phase, items, _, _ in lines.values() if phase in "PCF" for place, mask in items]
    if any(one[0] == other[0] and one[1] & other[1] for at, one in enumerate(live) for other in live[:at]):
        yield "a place is sold twice"
    for row, (generation, phase, _, kind, successor) in lines.items():
        if phase == "G":
            yield "a booking is ending"
        if kind == "x" and (successor[0] not in lines or lines[successor[0]][0] < successor[1]):
            yield "an exchange has no new booking"
    for (row, generation), phase in told.items():
        found = lines.get(row)
        if found is None or found[0] < generation or (found[0] == generation and RANKS[found[1]] < RANKS[phase]):
            yield "an answer is lost"


def story(seed: int, wrong: str) -> tuple:
    """A few machines after each other: the faults of the first restart that has some, and how many bookings were told."""
    rng, lines, told = random.Random(seed), {}, {}
    for _ in range(LIVES):
        run = Run(rng, wrong, lines, told)
        committer = run.gate.commit() if wrong != "commands" else None
        slow = [rng.random() ** 3 + 0.02 for _ in run.members]
        for _ in range(rng.randrange(40, 700)):
            run.move(committer, slow)
        left, state = run.crash()
        lines = left or lines
        faults = set(faults_of(lines, state, told))
        if faults:
            return faults, len(told)
        told.update({(row, line[0]): line[1] for row, line in lines.items() if line[3] != "stub"})
    return set(), len(told)


def tried(runs: int, seed: int, wrong: str) -> tuple:
    found, told = {}, 0
    for number in range(seed, seed + runs):
        faults, count = story(number, wrong)
        told += count
        for fault in faults:
            found[fault] = found.get(fault, 0) + 1
    return found, told


def main() -> int:
    parser = argparse.ArgumentParser(description=__doc__, formatter_class=argparse.RawDescriptionHelpFormatter)
    parser.add_argument("--runs", type=int, default=2_000)
    parser.add_argument("--seed", type=int, default=1)
    parser.add_argument("--wrong", choices=WRONG)
    given = parser.parse_args()
    if given.wrong:
        print(tried(given.runs, given.seed, given.wrong))
        return 0
    found, told = tried(given.runs, given.seed, "")
    missed = []
    for wrong in WRONG:
        faults, _ = tried(max(given.runs // 5, 100), given.seed, wrong)
        print("  %s: %s" % (wrong, ", ".join("%s %d" % entry for entry in sorted(faults.items())) or "nothing found"))
        missed += [] if faults else [wrong]
    print("%d runs of %d machines, %d bookings told, %d wrong restarts%s; %d of %d wrong machines found"
          % (given.runs, LIVES, told, sum(found.values()), " (%s)" % found if found else "", len(WRONG) - len(missed), len(WRONG)))
    return 1 if found or missed or not told else 0


if __name__ == "__main__":
    sys.exit(main())
