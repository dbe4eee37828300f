"""What each call of a history may do: the points that it has to make, what it may read between them, and what it may hold.

The rules stand in `checker.py` in words. A script is a call with the order that is searched (`search`, the checker's); a local state says
how far the call has come, and is a tuple whose first member is its name.
"""
import itertools
from collections import namedtuple

from calls import ENDED, KINDS_OF_BOOKINGS, SECOND, Call, Row, Values, write_booking_id

# A row's present booking. `holder` is the connection that makes it, or the call that ends it (HOST where the host does).
Standing = namedtuple("Standing", "generation phase values holder")
FREE, MAKING, PREBOOKED, HOST = "Free", "Making", "PREBOOKED", -1
LIVE = ("PREBOOKED", "CONFIRMED", "FULFILLED")
DONE, IDLE = ("done",), ("idle",)


def ending(status: str) -> str:
    """The phase of a booking that is on its way to this end."""
    return "to " + status


def shown(phase: str) -> str:
    """The status that a phase is shown with."""
    return phase[3:] if phase.startswith("to ") else phase


def is_busy(standing: Standing) -> bool:
    """A row that can't be started: its booking is being made, lives, or is ending."""
    return standing.phase != FREE and standing.phase not in ENDED


def is_finishable(local: tuple) -> bool:
    """A call may end here: all its points are made, or it was never done."""
    return local[0] in ("done", "over", "idle")


# What calls may hold

# Places that a call surely comes to hold (`firm`), and groups of places of which it may hold so many.
Holding = namedtuple("Holding", "firm groups")
NOTHING = Holding(0, ())
ANY = 1_000


def groups_of(call: Call, got_all: bool) -> tuple:
    """What a call that isn't sealed may hold: of each segment, and of the last one that it came to fewer than it wanted. Which one that
    was isn't known, so a segment that others follow may have been had in full."""
    wish, groups = call.wish, []
    for at, candidates in enumerate(wish.candidates):
        mask = sum(mask for _place, mask in candidates)
        is_last = at + 1 == len(wish.candidates)
        count = wish.passengers - (is_last and not got_all)
        if wish.together and wish.passengers > 1:
            count = ANY
        if count:
            groups.append((mask, count))
    return tuple(groups)


def count_explained(masks: list, softs: list) -> int:
    """How many of these places calls may hold that may hold only so many."""
    total = 0
    for holding in softs:
        for group, most in holding.groups:
            total += min(most, sum(1 for mask in masks if mask & group))
    return min(total, len(masks))


class Moment:
    """What stands between two points: the rows, and what is held."""

    def __init__(self, rows: tuple, pending: dict, search):
        self.rows = rows
        self.sure = self.maybe = self.busy = 0
        for number, standing in enumerate(rows):
            if standing.phase in LIVE:
                self.sure |= standing.values.mask
            if standing.phase in LIVE or standing.phase.startswith("to "):
                self.maybe |= standing.values.mask
            if is_busy(standing):
                self.busy |= 1 << number
        self.holders = {}
        for number, locals_ in pending.items():
            holding = search.scripts[number].holding(locals_)
            if holding is not NOTHING:
                self.holders[number] = holding

    def held(self, own: int) -> tuple:
        """The bits of places that others hold or come to hold, and the calls that may hold some of others."""
        firm, softs = self.maybe, []
        for number, holding in self.holders.items():
            if number != own:
                firm |= holding.firm
                if holding.groups:
                    softs.append(number)
        return firm, frozenset(softs)

    def held_by_any(self) -> int:
        """The bits of all places that something may hold."""
        bits = self.maybe
        for holding in self.holders.values():
            bits |= holding.firm
            for mask, _most in holding.groups:
                bits |= mask
        return bits


# The scripts


class Script:
    """One call. `reads` gives where reading at this moment may lead, `moves` the points that change something."""

    def __init__(self, search, call: Call):
        self.search, self.call, self.history = search, call, search.history

    def begin(self) -> tuple:
        return ("wait",)

    def reads(self, local: tuple, moment: Moment) -> list:
        return [local]

    def moves(self, _local: tuple, _moment: Moment) -> list:
        return []

    def holding(self, _locals) -> Holding:
        """What it may hold in one of these local states."""
        return NOTHING

    def groups(self) -> tuple:
        """The places of which it may hold so many, where it may hold any."""
        return ()

    def standing(self, rows: tuple, row: Row):
        """What the row shows of this booking of the call's retailer, or None."""
        if row is None or row.number >= len(rows):
            return None
        standing = rows[row.number]
        if standing.generation != row.generation or standing.phase in (FREE, MAKING):
            return None
        return standing if standing.values.retailer == self.history.retailer(self.call) else None


class Looks(Script):
    """A call that changes nothing, and is decided by one look at its booking."""

    def reads(self, local, moment):
        return [DONE] if local == DONE or self.is_so(self.standing(moment.rows, self.call.row)) else [local]

    def is_so(self, standing) -> bool:
        call, problem = self.call, self.call.problem
        if problem == "UnknownBooking":
            return standing is None
        if standing is None:
            return False
        if problem == "WrongState":
            return shown(standing.phase) == call.answer["detail"] and not self.suits(standing.phase)
        if problem == "TooLate":
            return standing.phase == PREBOOKED and (not standing.values.sure or standing.values.limit < call.moments[0])
        if problem == "QuoteWrong":
            return True
        if call.kind == "show":
            settled = standing.phase in ENDED
            return shown(standing.phase) == call.answer["status"] and settled == call.answer["settled"]
        return standing.phase == ("FULFILLED" if call.code.fulfilled else "CONFIRMED")

    def suits(self, phase: str) -> bool:
        """The phase is one that the command takes."""
        return phase in phases_of(self.call)


def phases_of(call: Call) -> tuple:
    """The phases that a command takes."""
    if call.kind in ("accept_refund", "accept_exchange"):
        return ("FULFILLED",) if call.code.fulfilled else ("CONFIRMED",)
    return {"confirm": ("PREBOOKED",), "release": ("PREBOOKED",), "fulfil": ("CONFIRMED",)}.get(call.kind, ("CONFIRMED", "FULFILLED"))


class Lists(Script):
    """A list of places: one look at each, in turn."""

    def begin(self):
        return ("list", 0)

    def reads(self, local, moment):
        if local == DONE:
            return [local]
        places, at = self.call.answer["places"], local[1]
        firm = moment.held_by_any()
        while at < len(places):
            mask = self.history.mask(self.search.places[self.call.code.run][at], self.call.code.span)
            is_free = places[at]["free"]
            if is_free and mask & moment.sure or not is_free and not mask & firm:
                break
            at += 1
        return [DONE] if at == len(places) else [("list", at)]


class Counts(Script):
    """A search: one look at each candidate of each segment."""

    def begin(self):
        return ("count", 0, 0)

    def reads(self, local, moment):
        if local == DONE:
            return [local]
        _name, free, taken = local
        firm = moment.held_by_any()
        bit = 1
        for _segment, candidates, _count in self.call.made:
            for _place, mask in candidates:
                free |= 0 if mask & moment.sure else bit
                taken |= bit if mask & firm else 0
                bit <<= 1
        return [DONE] if self.is_counted(free, taken) else [("count", free, taken)]

    def is_counted(self, free: int, taken: int) -> bool:
        at = 0
        for _segment, candidates, count in self.call.made:
            bits = [1 << (at + index) for index in range(len(candidates))]
            at += len(candidates)
            least = sum(1 for bit in bits if not taken & bit)
            most = sum(1 for bit in bits if free & bit)
            if not least <= count <= most:
                return False
        return True


class Full(Script):
    """Rows full: row after row can't be started, and the worker keeps none."""

    def begin(self):
        return ("full", 0)

    def reads(self, local, moment):
        if local == DONE or kept_by(moment.rows, self.call.connection) is not None:
            return [local]
        at = local[1]
        while at < len(moment.rows) and is_busy(moment.rows[at]):
            at += 1
        return [DONE] if at == len(moment.rows) else [("full", at)]


def kept_by(rows: tuple, connection: int):
    """The row that the connection's worker is making, or keeps."""
    for number, standing in enumerate(rows):
        if standing.phase == MAKING and standing.holder == connection:
            return number
    return None


def changed(rows: tuple, number: int, standing: Standing) -> tuple:
    return rows[:number] + (standing,) + rows[number + 1:]


class Turns(Script):
    """A turn of a booking that was won, and where it ends it the point at which that is settled."""

    def begin(self):
        return ("turn",) if self.call.answered else IDLE

    def reads(self, local, _moment):
        return [local]

    def moves(self, local, moment):
        row, call = self.call.row, self.call
        if local[0] == "close":
            return [self.closes(moment.rows, row, call.number)]
        if local == DONE:
            return []
        standing = self.standing(moment.rows, row)
        if standing is None or standing.phase not in phases_of(call):
            return []
        if call.kind in ("confirm", "fulfil"):
            phase = "CONFIRMED" if call.kind == "confirm" else "FULFILLED"
            if call.kind == "confirm" and standing.values.sure and standing.values.limit < call.begin // SECOND:
                return []
            return [("turns to " + phase, changed(moment.rows, row.number, standing._replace(phase=phase)), DONE)]
        status = "RELEASED" if call.kind == "release" else "REFUNDED"
        if not self.search.may_end(row, status, call):
            return []
        turned = standing._replace(phase=ending(status), holder=call.number)
        return [("turns to " + status, changed(moment.rows, row.number, turned), ("close",))]

    def closes(self, rows: tuple, row: Row, holder: int) -> tuple:
        standing = rows[row.number]
        return "settles the end", changed(rows, row.number, standing._replace(phase=shown(standing.phase), holder=None)), DONE


class Sweeps(Script):
    """A sweep: what it may have come to at each row, in turn, so that the counts are those of the answer."""

    def __init__(self, search, call):
        super().__init__(search, call)
        answer = call.answer if call.answered else None
        kinds = itertools.product(("none", "waiting", "lost", "expired"), repeat=len(search.first))
        nows = call.now if call.answered else [None]
        self.vectors = [(now, kind) for kind in kinds for now in nows if answer is None or is_counted_so(kind, answer)]

    def begin(self):
        return ("sweep", None, 0, 0) if self.call.answered else IDLE

    def reads(self, local, moment):
        if local[0] == "sweep" and local[1] is None:
            return [one for vector in range(len(self.vectors)) for one in self.reads(("sweep", vector, 0, 0), moment)]
        while local[0] == "sweep":
            now, kinds = self.vectors[local[1]]
            if local[2] == len(kinds):
                return [DONE]
            following = self.read_row(local, moment.rows[local[2]], kinds[local[2]], now)
            if following == local:
                return [local]
            local = following
        return [local]

    def read_row(self, local, standing, kind, now):
        _name, vector, row, part = local
        prebooked = standing.phase == PREBOOKED
        following = ("sweep", vector, row + 1, 0)
        if kind == "none" and not prebooked:
            return following
        if kind == "waiting" and prebooked and (not standing.values.sure or standing.values.limit >= now):
            return following
        if kind == "lost" and part == 0 and prebooked and standing.values.limit < now:
            return ("sweep", vector, row, 1)
        if kind == "lost" and part == 1 and not prebooked:
            return following
        return local

    def moves(self, local, moment):
        if local == IDLE:
            return []  # what a sweep without an answer ended, the host may have ended as well
        if local[0] != "sweep":
            return []
        _name, vector, number, part = local
        now, kinds = self.vectors[vector]
        standing = moment.rows[number]
        if kinds[number] != "expired":
            return []
        row = Row(number, standing.generation)
        if part == 1:
            settled = standing._replace(phase="EXPIRED", holder=None)
            return [("settles the end", changed(moment.rows, number, settled), ("sweep", vector, number + 1, 0))]
        is_late = standing.phase == PREBOOKED and standing.values.limit < now
        if not is_late or not self.search.may_end(row, "EXPIRED", self.call, now):
            return []
        turned = standing._replace(phase=ending("EXPIRED"), holder=self.call.number)
        return [("turns %s to EXPIRED" % write_booking_id(row), changed(moment.rows, number, turned), ("sweep", vector, number, 1))]


def is_counted_so(kinds: tuple, answer: dict) -> bool:
    return all(kinds.count(kind) == answer[kind] for kind in ("expired", "lost", "waiting"))


class Makes(Script):
    """A call that makes a booking, or tries to: a reservation, an offer's booking, an exchange.

    Its local states: `start`; `look` (an exchange that has its check before it); `seek` with the rows that could not be started so far;
    `held` with the row, and the places and calls that were in the way so far; `turned` with the row and the booking to be sealed; `made`;
    and `over`: refused, with what it held not yet given back.

    Its result is what the answer says: a booking was made, places were short, an exchange's turn (or its check) was lost, or any of these,
    where there is no answer.
    """

    def __init__(self, search, call):
        super().__init__(search, call)
        self.result = result_of(call)
        self.trades = call.kind == "accept_exchange"
        self.soft = Holding(0, groups_of(call, self.result in ("any", "lost")))
        self.firm = NOTHING
        if self.result == "made":
            both = groups_of(call, False) if call.wish.together and call.wish.passengers > 1 else ()
            self.firm = Holding(call.made[1].mask, both)
        self.looks = Looks(search, call)

    def begin(self):
        return ("start",) if self.call.answered else IDLE

    # What it reads

    def reads(self, local, moment):
        if local[0] == "start":
            return self.reads(("look",), moment) if self.trades else self.enter(moment)
        if local[0] == "look":
            if self.may_turn(moment.rows):
                return self.enter(moment) + [local] * (self.result == "lost")
            is_lost = self.result == "lost" and self.looks.is_so(self.standing(moment.rows, self.call.row))
            return [local] + [DONE] * is_lost
        if local[0] == "seek":
            return [("seek", local[1] | moment.busy)]
        if local[0] == "held":
            return self.read_held(local, moment)
        return [local]

    def enter(self, moment) -> list:
        row = kept_by(moment.rows, self.call.connection)
        if row is None:
            return [("seek", moment.busy)]
        return self.read_held(("held", row, 0, frozenset()), moment)

    def read_held(self, local, moment):
        _name, row, firm, softs = local
        more, calls_ = moment.held(self.call.number)
        firm, softs = firm | more & self.call.wish.mask, softs | self.in_the_way(calls_)
        here, over = ("held", row, firm, softs), ("over", row)
        if self.result == "short":
            return [over if self.is_refused(firm, softs) else here]
        if self.result == "lost":
            return [over if self.looks.is_so(self.standing(moment.rows, self.call.row)) else here]
        if self.result == "any" and (self.is_refused(firm, softs) or self.trades and not self.may_turn(moment.rows)):
            return [here, over]
        return [here]

    def may_turn(self, rows: tuple) -> bool:
        """The old booking of an exchange stands as its code says."""
        old = self.standing(rows, self.call.row)
        return old is not None and old.phase in phases_of(self.call)

    def in_the_way(self, numbers) -> frozenset:
        """Those of the calls that may hold one of the places that are wanted here."""
        wanted = self.call.wish.mask
        return frozenset(number for number in numbers if any(mask & wanted for mask, _most in self.search.scripts[number].groups()))

    def groups(self) -> tuple:
        return self.soft.groups if self.result != "made" else self.firm.groups

    def held_by(self, softs) -> list:
        return [Holding(0, self.search.scripts[number].groups()) for number in softs]

    def is_refused(self, firm: int, softs: frozenset) -> bool:
        """For some segment too few candidates surely were free."""
        if self.call.problem == "Contended":
            return self.search.changes(self.call) >= 8
        for candidates in self.call.wish.candidates:
            open_ = [mask for _place, mask in candidates if not mask & firm]
            if len(open_) - count_explained(open_, self.held_by(softs)) < self.call.wish.passengers:
                return True
        return False

    # What it holds

    def holding(self, locals_):
        names = {local[0] for local in locals_}
        if self.result == "made":
            return self.firm if names & {"held", "turned"} else NOTHING
        return self.soft if self.soft.groups and names & {"held", "over", "turned"} else NOTHING

    # What it changes

    def moves(self, local, moment):
        name, rows = local[0], moment.rows
        if name == "idle":
            return [("is done after all", rows, ("look",) if self.trades else self.enter(moment)[0])]
        if name == "seek":
            return self.starts(local, rows)
        if name == "held" and self.trades and self.result in ("made", "any"):
            return self.turns(local, moment)
        if name == "held" and self.result in ("made", "any"):
            return self.seals(local[1], rows, self.ready(local, moment), DONE)
        if name == "turned":
            return self.seals(local[1], rows, [local[2]] if not self.is_taken(local[2], rows) else [], ("made", local[1]))
        if name == "made":
            old = rows[self.call.row.number]
            return [("settles the old end", changed(rows, self.call.row.number, old._replace(phase="EXCHANGED", holder=None)), DONE)]
        return []

    def starts(self, local, rows) -> list:
        """The rows that it may start now, or have from a connection that was closed before."""
        found, connection = [], self.call.connection
        for number, standing in enumerate(rows):
            is_kept = standing.phase == MAKING and self.search.may_have_from(standing.holder, self.call)
            if is_kept and self.may_make(number, standing.generation):
                held = changed(rows, number, standing._replace(holder=connection))
                found.append(("has the row %d of a connection before" % number, held, ("held", number, 0, frozenset())))
        free = [number for number, standing in enumerate(rows) if standing.phase == FREE]
        startable = free[:1] or [number for number, standing in enumerate(rows) if standing.phase in ENDED
                                 and all(local[1] >> lower & 1 for lower in range(number))]
        for number in startable:
            generation = 0 if free else rows[number].generation + 1
            if self.may_make(number, generation):
                started = changed(rows, number, Standing(generation, MAKING, None, connection))
                found.append(("starts %s" % write_booking_id(Row(number, generation)), started, ("held", number, 0, frozenset())))
        return found

    def may_make(self, number: int, generation: int) -> bool:
        """The row in this generation is sealed by this call, or by one that the same worker may serve later, or by none."""
        row = Row(number, generation)
        if self.result == "made":
            return self.call.made[0] == row
        return self.search.may_keep(row, self.call)

    def turns(self, local, moment) -> list:
        """The exchange's turn of the old booking, with all new places taken, for each that the new booking may have."""
        rows, row = moment.rows, local[1]
        if not self.may_turn(rows):
            return []
        old = self.standing(rows, self.call.row)
        new = Row(row, rows[row].generation)
        if not self.search.may_end(self.call.row, "EXCHANGED", self.call, None, new):
            return []
        turned = changed(rows, self.call.row.number, old._replace(phase=ending("EXCHANGED"), holder=self.call.number))
        return [("turns the old one to EXCHANGED", turned, ("turned", row, values)) for values in self.ready(local, moment)]

    def seals(self, row: int, rows: tuple, choices: list, following: tuple) -> list:
        phase, generation = "CONFIRMED" if self.trades else PREBOOKED, rows[row].generation
        what = "seals %s" % write_booking_id(Row(row, generation))
        return [(what, changed(rows, row, Standing(generation, phase, values, None)), following) for values in choices]

    def ready(self, local, moment) -> list:
        """The values that the booking may be sealed with now: its places are free, and all before them were held by others."""
        _name, row, firm, softs = local
        found = Row(row, moment.rows[row].generation)
        if self.result == "made":
            choices = [self.call.made[1]] if self.call.made[0] == found else []
        else:
            choices = self.search.choices(self.call, found)
        return [values for values in choices if not self.is_taken(values, moment.rows) and self.is_first(values, firm, softs)]

    def is_taken(self, values: Values, rows: tuple) -> bool:
        return any(standing.phase in LIVE and standing.values.mask & values.mask for standing in rows)

    def is_first(self, values: Values, firm: int, softs: frozenset) -> bool:
        """No free place, or stretch, stands before those of the booking."""
        wish, held = self.call.wish, self.held_by(softs)
        for at, candidates in enumerate(wish.candidates):
            own = [item.place for item in values.items[at * wish.passengers:(at + 1) * wish.passengers]]
            if not self.is_first_of(candidates, own, firm, held):
                return False
        return True

    def is_first_of(self, candidates: tuple, own: list, firm: int, held: list) -> bool:
        wish = self.call.wish
        before = [mask for place, mask in candidates if place < max(own) and place not in own and not mask & firm]
        in_order = count_explained(before, held) == len(before)
        if not wish.together:
            return in_order
        stretches = self.search.stretches(candidates, wish.passengers)
        masks = dict(candidates)

        def is_spoilt(stretch) -> bool:
            return any(masks[place] & firm or count_explained([masks[place]], held) for place in stretch)

        if own in stretches and all(is_spoilt(one) for one in stretches[:stretches.index(own)]):
            return True
        return in_order and all(is_spoilt(one) for one in stretches)


def result_of(call: Call) -> str:
    if not call.answered:
        return "any"
    if call.problem is None:
        return "made"
    return "short" if call.problem in ("NoPlace", "Contended") else "lost"


class Gone(Script):
    """A call that changes nothing, and whose answer nobody has read."""

    def begin(self):
        return DONE


class FullTrades(Full):
    """An exchange for which no row could be started: its check came before."""

    def begin(self):
        return ("look",)

    def reads(self, local, moment):
        if local[0] == "look":
            standing = self.standing(moment.rows, self.call.row)
            if standing is None or standing.phase not in phases_of(self.call):
                return [local]
            local = ("full", 0)
        return super().reads(local, moment)


def script_of(search, call: Call) -> Script:
    """The script of a call, by what it asked and was answered."""
    if call.kind in KINDS_OF_BOOKINGS and call.problem == "RowsFull":
        return FullTrades(search, call) if call.kind == "accept_exchange" else Full(search, call)
    if call.kind in KINDS_OF_BOOKINGS and call.problem != "QuoteWrong":
        return Makes(search, call)
    if call.kind in ("confirm", "fulfil", "release", "accept_refund") and not call.problem:
        return Turns(search, call)
    if call.kind == "sweep":
        return Sweeps(search, call)
    if not call.answered:
        return Gone(search, call)
    return {"places": Lists, "offers": Counts}.get(call.kind, Looks)(search, call)
