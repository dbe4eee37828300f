#!/usr/bin/env python3
"""Explains a recorded history of many clients, or says which answer can't be explained.

  tests/history/checker.py HISTORY.json..

It searches one order of the deciding points of all calls. A point lies between the begin and the end of its call; a call whose client was
gone before its answer has no end, and may have been done at any time or never. What needs no order is tried before, in `calls.py`. It
prints the order, and of each call that found no place what was in its way. What an order explains, rule by rule (spans lie on one side of
the border between the halves):

ROWS. Each row is free, or its present booking is being made, lives (prebooked, confirmed, fulfilled), is ending, or has ended.
- A booking of an answer 201 has two points: it starts its row, and it is sealed. It starts the least free row in generation 0. Where none
  is free it starts the next generation of a row whose booking has ended, the least one, but for lower rows that at some moment of the call
  had a booking that hadn't ended. From the start on the booking before it is unknown.
- A call that is refused because too few places were free, or an exchange whose turn is lost, starts its row too, and that row stays with
  the worker of its connection: the next booking of that connection is made in it, or of one that came after the connection was closed.
  Nobody else has it.
- Rows full: the worker keeps no row, and row after row had, at some moment of the call, a booking that hadn't ended.

PLACES, leg by leg.
- What is sold stays sold: where a booking is sealed, none that lives has a place of it on a leg of it.
- A booking holds its places for sure from its seal to the turn that ends it. It may hold them from its start on, and until its end is
  settled, which is a point of its own.
- A call may hold places that it doesn't get. While it has a row and isn't sealed it may hold, of a segment that it failed at, one place
  fewer than it wanted, and of another segment all that it wanted; one that wants places side by side may hold one after another.
- A place that a call may hold is passed over by others. So a booking's places are the first ones that are free: each candidate before
  them was one that some other booking or call may have held at some moment between this call's start and its seal. Where places side by
  side are wanted, each stretch before the one that was taken has a place that was so.
- No place: for some segment, of the candidates all but fewer than were wanted were so.
- Contended: of a candidate, other calls may have taken or given back a place eight times in this call.
- A list of places says of each in turn that it is free where, at some moment, no living booking surely held it; and that it isn't where
  something may have held it. A search counts so.

BOOKINGS. A confirmation, a collection, a release and a refund have one point, the turn, which needs the phase before it; the last two have
a second one, where the end is settled. An exchange turns the old booking, then seals the new one, then settles the old one's end; the new
one's places aren't the old one's. A booking that is shown, quoted or refused has one point at which it stands as the answer says. A sweep
looks at row after row and counts. The host itself ends a prebooked booking at any moment later than its limit.

AT THE END each row is as the export says.

A history that isn't decided within the bounds below is refused too. `storms.py` plays another storm in its place, and bears few of them.
"""
import itertools
import json
import random
import sys
import time
from collections import Counter, namedtuple

from calls import KINDS_OF_BOOKINGS, SECOND, Call, History, Refused, Row, Values, is_wished, write_booking_id
from bookings import Item
from export import booking_line, stub
from scripts import (DONE, FREE, HOST, IDLE, LIVE, MAKING, PREBOOKED, Moment, Standing, changed, ending, is_finishable, script_of)

FIRST_STATES, MOST_STATES, MOST_SECONDS = 4_000, 200_000, 30  # the seconds are of the processor
NEVER = 1 << 80


# The search


class Undecided(Refused):
    """Whether the history has an order wasn't found within the bounds."""


class Search:
    """One order of all points, found by going back wherever it leads nowhere. What was found to lead nowhere isn't tried again."""

    def __init__(self, history: History):
        self.history = history
        self.calls = history.calls
        self.first = tuple(Standing(0, FREE, None, None) for _ in range(history.catalogue.rows))
        self.places = {run.number: [place.number for place in history.catalogue.places_of(run.number)] for run in history.catalogue.runs}
        self.labels = {place.number: (place.coach, place.label) for place in history.catalogue.places}
        self.scripts = [script_of(self, call) for call in self.calls]
        self.ends = [NEVER if call.end is None else call.end for call in self.calls]
        self.least_end = list(itertools.accumulate(reversed(self.ends + [NEVER]), min))[::-1]
        self.gone = [call for call in self.calls if not call.answered]
        self.next_made = dict(self.rows_made_next())
        self.seen, self.states, self.deepest, self.blocked = set(), 0, -1, Counter()
        self.until, self.chance = time.process_time() + MOST_SECONDS, None

    # What the facts allow

    def rows_made_next(self):
        """For the number of each call the row of the booking that its connection made next, where it made one."""
        following = {}
        for call in reversed(self.calls):
            if call.connection in following:
                yield call.number, following[call.connection]
            if call.kind in KINDS_OF_BOOKINGS and call.status == 201:
                following[call.connection] = call.made[0]

    def may_end(self, row: Row, status: str, call: Call, moment: int = None, successor: Row = None) -> bool:
        """The booking may be ended so by this call: nothing else is known of its end, and no other call ended it."""
        ender = self.history.enders.get(row)
        if ender is not None and ender is not call:
            return False
        known = self.history.ends.get(row)
        if known is None:
            return True
        if known.status != status or moment is not None and known.moment != moment or known.successor != successor:
            return False
        return call.answered or known.moment >= call.begin // SECOND

    def may_have_from(self, holder: int, call: Call) -> bool:
        """The row was kept for this connection, which was closed in this call or before, and this one had none of its own before."""
        before = [other for other in self.calls[:call.number] if other.connection == call.connection and other.kind in KINDS_OF_BOOKINGS]
        had_row = any(other.status == 201 or other.problem in ("NoPlace", "Contended") for other in before)
        return self.may_be_served_after(holder, call) and not had_row

    def may_keep(self, row: Row, call: Call) -> bool:
        """The call may start the row though it doesn't seal it: its worker does later, or keeps it to the end."""
        made = self.next_made.get(call.number)
        if made is not None:
            return row == made
        if call.answered and call.connection not in self.history.closed:
            said = self.history.last.get(row.number)
            return row.generation == 0 if said is None else said.retailer == 0 and said.row == row
        if row not in self.history.values:
            return True
        maker = self.history.makers.get(row)
        makers = [maker] if maker else [other for other in self.gone if other.kind in KINDS_OF_BOOKINGS]
        return any(other.connection == call.connection or self.may_be_served_after(call.connection, other) for other in makers)

    def may_be_served_after(self, connection: int, call: Call) -> bool:
        """The worker of the connection may serve this call on another one: it was closed before the call was over."""
        return connection != call.connection and self.history.closed.get(connection, NEVER) <= self.ends[call.number]

    def choices(self, call: Call, row: Row) -> list:
        """What a booking may be whose answer nobody has read."""
        known = self.history.values.get(row)
        least = call.begin // SECOND + self.history.catalogue.terms.confirm_seconds
        retailer = self.history.retailer(call)
        if known is not None:
            fits = known.retailer == retailer and known.limit >= least and is_wished(call.wish, known) and row not in self.history.makers
            return [known] if fits else []
        wish, found = call.wish, []
        for picks in itertools.product(*(itertools.combinations(one, wish.passengers) for one in wish.candidates)):
            items = tuple(Item(place, segment.span) for segment, pick in zip(wish.segments, picks) for place, _mask in pick)
            found.append(Values(retailer, least, wish.total, items, self.history.mask_of(items), sure=False))
        return found

    def stretches(self, candidates: tuple, count: int) -> list:
        """Neighbours of the candidates in one coach at numbers that rise by one."""
        places = [place for place, _mask in candidates]
        runs = [places[at:at + count] for at in range(len(places) - count + 1)]
        return [run for run in runs if all(self.labels[place] == (self.labels[run[0]][0], self.labels[run[0]][1] + at)
                                           for at, place in enumerate(run))]

    def changes(self, call: Call) -> int:
        """How often others may take or give back a place in this call: each booking and each end takes part once a place."""
        return sum(2 * other.wish.passengers if other.wish else 1 for other in self.calls
                   if other is not call and other.begin < self.ends[call.number] and self.ends[other.number] > call.begin)

    # The order

    def settle(self, rows: tuple, pending: dict) -> tuple:
        """The pending calls after all that they read at this moment. One that is done is no longer pending."""
        while True:
            moment = Moment(rows, pending, self)
            after = {}
            for number, locals_ in pending.items():
                found = frozenset(one for local in locals_ for one in self.scripts[number].reads(local, moment))
                if found != {DONE}:
                    after[number] = found
            if after == pending:
                return pending, moment
            pending = after

    def run(self) -> list:
        """The points in their order, each with the state after it; or Refused. A try that finds none in some states begins anew, and
        tries what may come next in another order of chance: an early choice that leads nowhere is else seen only after all later ones.
        """
        most = FIRST_STATES
        while True:
            stack = self.attempt(self.states + most)
            if stack is not None:
                return stack
            if self.states > MOST_STATES or time.process_time() > self.until:
                last = self.calls[min(self.deepest, len(self.calls) - 1)]
                raise Undecided("not decided: %d states were tried, up to %s" % (self.states, last))
            self.chance = random.Random(most)
            most *= 2

    def attempt(self, most: int) -> list:
        """The points, where they are found before there were so many states; or Refused, where all ways were gone to their ends."""
        moment = Moment(self.first, {}, self)
        stack = [Frame(None, None, {}, moment, self.moves(0, self.first, {}, moment))]
        while stack:
            following = next(stack[-1].moves, None)
            if following is None:
                stack.pop()
                continue
            point, at, rows, pending = following
            pending, moment = self.settle(rows, pending)
            key = (at, rows, frozenset(pending.items()))
            if key in self.seen:
                continue
            self.seen.add(key)
            self.states += 1
            stack.append(Frame(point, key, pending, moment, self.moves(at, rows, pending, moment)))
            if at == len(self.calls) and self.is_end(rows, pending):
                return stack
            if self.states >= most:
                self.seen -= {frame.key for frame in stack}
                return None
        raise Refused(self.reason())

    def moves(self, at: int, rows: tuple, pending: dict, moment: Moment):
        """What may come next, in the order in which it is tried."""
        if self.chance is None:
            return self.all_moves(at, rows, pending, moment)
        found = list(self.all_moves(at, rows, pending, moment))
        if self.chance.random() < 0.5:
            self.chance.shuffle(found)
        return iter(found)

    def all_moves(self, at: int, rows: tuple, pending: dict, moment: Moment):
        """The next call begins, a call makes a point, the host ends a booking, or a call without an answer is done."""
        yield from self.advance(at, rows, pending)
        late = []
        for number in sorted(pending, key=lambda one: self.ends[one]):
            for local in pending[number]:
                found = self.scripts[number].moves(local, moment)
                moved = [((number, label), at, after, {**pending, number: frozenset([then])}) for label, after, then in found]
                if local == IDLE:
                    late += moved
                else:
                    yield from moved
        yield from self.host_ends(at, rows, pending)
        yield from late

    def advance(self, at: int, rows: tuple, pending: dict):
        """The next call begins, and those that ended before it are over."""
        is_last = at == len(self.calls)
        over = [number for number in pending if is_last or self.ends[number] < self.calls[at].begin]
        waiting = [number for number in over if not any(is_finishable(local) for local in pending[number])]
        if at > self.deepest:
            self.deepest, self.blocked = at, Counter()
        if at == self.deepest:
            self.blocked.update(waiting)
        if waiting or is_last:
            return
        left = {number: locals_ for number, locals_ in pending.items() if number not in over}
        yield None, at + 1, rows, {**left, at: frozenset([self.scripts[at].begin()])}

    def host_ends(self, at: int, rows: tuple, pending: dict):
        """The host's own sweeps."""
        for number, standing in enumerate(rows):
            if standing.phase == ending("EXPIRED") and standing.holder == HOST:
                closed = changed(rows, number, standing._replace(phase="EXPIRED", holder=None))
                yield (None, "settles the end of row %d" % number), at, closed, pending
            if standing.phase != PREBOOKED:
                continue
            row = Row(number, standing.generation)
            known = self.history.ends.get(row)
            if row in self.history.enders or known is not None and known.status != "EXPIRED":
                continue
            moment = known.moment if known else standing.values.limit + 1
            left = self.at_least(at, pending, moment * SECOND)
            if left is not None and (not standing.values.sure or moment > standing.values.limit):
                turned = changed(rows, number, standing._replace(phase=ending("EXPIRED"), holder=HOST))
                yield (None, "expires %s" % write_booking_id(row)), at, turned, left

    def at_least(self, at: int, pending: dict, moment: int):
        """The pending calls that are left at this moment of the clock, or None where one has to be done before."""
        if self.least_end[at] < moment:
            return None
        over = [number for number in pending if self.ends[number] < moment]
        if any(not any(is_finishable(local) for local in pending[number]) for number in over):
            return None
        return {number: locals_ for number, locals_ in pending.items() if number not in over}

    def is_end(self, rows: tuple, pending: dict) -> bool:
        """All calls are done, and the rows are those of the export."""
        if not all(any(is_finishable(local) for local in locals_) for locals_ in pending.values()):
            return False
        return all(self.is_exported(number, standing) for number, standing in enumerate(rows))

    def is_exported(self, number: int, standing: Standing) -> bool:
        said = self.history.last.get(number)
        if standing.phase == FREE or standing.phase == MAKING and standing.generation == 0:
            return said is None
        if said is None or said.row.generation != standing.generation:
            return False
        if standing.phase == MAKING:
            return booking_line(said) == booking_line(stub(said.row))
        return said.retailer != 0 and said.phase.value == standing.phase and standing.values.mask == self.history.mask_of(said.items)

    def reason(self) -> str:
        """What no order came beyond."""
        if not self.blocked:
            return "no order leads to the export %r" % self.history.export
        worst = min(self.blocked, key=lambda number: (-self.blocked[number], self.ends[number]))
        return "no order explains %s" % self.calls[worst]


# A point (the number of its call, or None where the host makes it, and what it does), the state after it, and what may come next.
Frame = namedtuple("Frame", "point key pending moment moves")


# What came of it


def explained(search: Search, stack: list) -> list:
    """For each call that found no place, what was in its way at each candidate: a text of the call, and the kinds of what was there."""
    found = []
    for call in search.calls:
        if call.problem in ("NoPlace", "Contended"):
            ways = {place: set() for one in call.wish.candidates for place, _mask in one}
            for frame in stack:
                if any(local[0] in ("held", "over") for local in frame.pending.get(call.number, ())):
                    gather(search, call, frame, ways)
            found.append((call, ways))
    return found


def gather(search: Search, call: Call, frame: Frame, ways: dict):
    """Adds what was in the way of the call at this moment."""
    masks = {place: mask for one in call.wish.candidates for place, mask in one}
    for number, standing in enumerate(frame.moment.rows):
        if standing.phase in LIVE or standing.phase.startswith("to "):
            row = write_booking_id(Row(number, standing.generation))
            kind = "sold" if standing.phase in LIVE else "ending"
            for place, mask in masks.items():
                if mask & standing.values.mask:
                    ways[place].add((kind, row))
    for number, holding in frame.moment.holders.items():
        for place, mask in masks.items():
            if number != call.number and mask & holding.firm:
                ways[place].add(("being sold", "call %d" % number))
            elif number != call.number and any(mask & group for group, _most in holding.groups):
                ways[place].add(("given back", "call %d" % number))


KINDS = ("sold", "ending", "being sold", "given back")


def kind_needed(ways: dict, call: Call) -> str:
    """The least likely kind of hold without which the refusal isn't explained."""
    for most in range(1, len(KINDS) + 1):
        for one in call.wish.candidates:
            free = [place for place, _mask in one if not any(kind in KINDS[:most] for kind, _who in ways[place])]
            if len(free) < call.wish.passengers:
                return KINDS[most - 1]
    return "given back"


def check(record: dict) -> tuple:
    """The search that explained the history, and its points; or Refused."""
    search = Search(History(record))
    return search, search.run()


def main() -> int:
    status = 0
    for name in sys.argv[1:]:
        with open(name, encoding="utf-8") as file:
            record = json.load(file)
        try:
            search, stack = check(record)
        except Refused as refused:
            print("%s: %s" % (name, refused))
            status = 1
            continue
        for frame in stack:
            if frame.point:
                print("%s %s" % ("the host" if frame.point[0] is None else "call %d" % frame.point[0], frame.point[1]))
        for call, ways in explained(search, stack):
            print(call)
            for place, who in ways.items():
                print("  place %d: %s" % (place, "; ".join("%s %s" % (what, kind) for kind, what in sorted(who)) or "free"))
        print("%s: %d calls explained, %d states" % (name, len(search.calls), search.states))
    return status


if __name__ == "__main__":
    sys.exit(main())
