"""The plan of an amendment: its lines, how the new catalogue has to stand to the old one, and the new catalogue of a
plan.
"""
import copy
import re
from dataclasses import dataclass, field

from rail_texts import CANCELLED_DAY, CLOSED_DAY, PLANNED, Refusal, same_day

FORMS = [
    ("cancel", r"cancel run (\d+)", "cancel run N"),
    ("move", r"move run (\d+) to (\d+(?: \d+)*)", "move run N to N .."),
    ("refund", r"refund run (\d+)", "refund run N"),
    ("replace", r"replace coach (\d+) of run (\d+) by (\d+(?: \d+)*)", "replace coach C of run N by C .."),
    ("block", r"block places (\d+)-(\d+) of coach (\d+) of run (\d+)", "block places A-B of coach C of run N"),
    ("close", r"close run (\d+)", "close run N"),
    ("open", r"open run (\d+)", "open run N"),
]


@dataclass
class Plan:
    """What a plan says. Runs are numbers; `replaced` has for each run and coach the coaches that take its passengers.
    """
    cancelled: set = field(default_factory=set)
    closed: set = field(default_factory=set)
    opened: set = field(default_factory=set)
    refunded: set = field(default_factory=set)
    moved: dict = field(default_factory=dict)
    replaced: dict = field(default_factory=dict)
    blocked: list = field(default_factory=list)

    def shut(self):
        return self.cancelled | self.closed


# Reading


def read_plan(data):
    """The plan of the bytes. Each line that is wrong by itself is a line of the Refusal."""
    try:
        texts = data.decode("utf-8").splitlines()
    except UnicodeDecodeError:
        raise Refusal("plan: no text in UTF-8") from None
    plan, wrong = Plan(), []
    for number, text in enumerate(texts, 1):
        words = " ".join(text.split("#")[0].split())
        if words:
            wrong += ["plan line %d: %s" % (number, why) for why in _add_line(plan, words)]
    if wrong:
        raise Refusal(*wrong)
    return plan


def _add_line(plan, words):
    """Adds what the line says to the plan; answers why it is wrong."""
    for name, form, _ in FORMS:
        found = re.fullmatch(form, words, re.ASCII)
        if found:
            return _ADD[name](plan, *([int(word) for word in group.split()] for group in found.groups()))
    return ['"%s" is no line of a plan. Lines are: %s' % (words, "; ".join(shown for _, _, shown in FORMS))]


def _add_move(plan, run, targets):
    if run[0] in plan.moved:
        return ["run %d is moved twice" % run[0]]
    plan.moved[run[0]] = targets
    return ["run %d is moved to itself" % run[0]] if run[0] in targets else []


def _add_replace(plan, coach, run, by):
    if (run[0], coach[0]) in plan.replaced:
        return ["coach %d of run %d is replaced twice" % (coach[0], run[0])]
    plan.replaced[run[0], coach[0]] = by
    return []


def _add_block(plan, first, last, coach, run):
    plan.blocked.append((run[0], coach[0], first[0], last[0]))
    return ["the last place is before the first"] if last[0] < first[0] else []


def _add_run(name):
    def add(plan, run):
        getattr(plan, name).add(run[0])
        return []
    return add


_ADD = {"cancel": _add_run("cancelled"), "refund": _add_run("refunded"), "close": _add_run("closed"),
        "open": _add_run("opened"), "move": _add_move, "replace": _add_replace, "block": _add_block}


# What the lines say together, and of which runs


def contradictions(plan, runs):
    """What is wrong with the lines beside each other, and the runs that aren't there."""
    named = plan.shut() | plan.opened | plan.refunded | set(plan.moved) | {run for run, _ in plan.replaced}
    for run in sorted(named | {block[0] for block in plan.blocked} | {to for tos in plan.moved.values() for to in tos}):
        if run >= runs:
            yield "there is no run %d: the last one is %d" % (run, runs - 1)
    for run in sorted(plan.cancelled & plan.closed):
        yield "run %d is cancelled and closed" % run
    for run in sorted(plan.opened & plan.shut()):
        yield "run %d is opened, and cancelled or closed" % run
    for run in sorted(set(plan.moved) - plan.cancelled):
        yield "run %d is moved and not cancelled, so it would be sold again: add `cancel run %d`" % (run, run)
    for run in sorted(plan.refunded - plan.cancelled - {run for run, _ in plan.replaced}):
        yield "run %d is refunded, and is neither cancelled nor has a coach that is replaced" % run
    for run, targets in sorted(plan.moved.items()):
        for to in sorted(set(targets) & plan.shut()):
            yield "run %d is moved to run %d, which is cancelled or closed" % (run, to)
    for (run, coach), by in sorted(plan.replaced.items()):
        if run in plan.cancelled:
            yield "run %d is cancelled, and a coach of it is replaced" % run
        for other in sorted(set(by) - {coach}):
            if (run, other) in plan.replaced:
                yield "coach %d of run %d takes passengers, and is replaced itself" % (other, run)


# How the new catalogue stands to the old one


def misfits(old, new, plan):
    """Why the new catalogue is not the old one with what the plan changes. None where it is."""
    if old.currency != new.currency:
        yield "the currency is %s in OLD and %s in NEW" % (old.currency, new.currency)
    if len(new.runs) < len(old.runs):
        yield "NEW has %d runs and OLD %d: a run may be cancelled or closed, but its number stays" % (
            len(new.runs), len(old.runs))
    for one, other in zip(old.runs, new.runs):
        yield from _run_misfits(one, other, plan)
    for run, coach, first, last in plan.blocked:
        if any(new.runs[run].place_of(coach, number) is None for number in range(first, last + 1)):
            yield "coach %d of run %d has no places %d to %d in NEW" % (coach, run, first, last)
    for run in sorted(plan.shut() | plan.opened | {run for run, _ in plan.replaced}):
        if run >= len(old.runs):
            yield "run %d is not in OLD" % run


def _run_misfits(one, other, plan):
    number = one.number
    if one.train != other.train or one.codes() != other.codes():
        yield "run %d is train %d %s in OLD, and train %d %s in NEW" % (
            number, one.train, "-".join(one.codes()), other.train, "-".join(other.codes()))
        return
    yield from _day_misfits(one, other, plan)
    if any(run == number for run, _ in plan.replaced):
        yield from _coach_misfits(one, other, plan)
    for place in one.places():
        seat = one.seat(place)
        if (number, seat.coach) in plan.replaced:
            continue
        there = other.place_of(seat.coach, seat.number)
        if there is None or other.seat(there) != seat:
            words = "not there" if there is None else other.seat(there).words()
            yield "run %d: coach %d seat %d is %s in OLD and %s in NEW; is `replace coach %d of run %d by ..` meant?" \
                % (number, seat.coach, seat.number, seat.words(), words, seat.coach, number)
            return


def _day_misfits(one, other, plan):
    number = one.number
    if number in plan.cancelled and other.day() != CANCELLED_DAY:
        yield "run %d is cancelled, and its times in NEW are not on %s: `amend --catalogue` writes them" % (
            number, CANCELLED_DAY)
    elif number in plan.closed and other.day() != CLOSED_DAY and not same_day(one, other):
        yield "run %d is closed, and its times in NEW are neither on %s nor on the day they were" % (number, CLOSED_DAY)
    elif number in plan.opened and other.is_shut():
        yield "run %d is opened, and its times in NEW are those of a run that is shut" % number
    elif number in plan.opened and one.real_stops() and one.real_stops()[0].depart.day() != other.day():
        yield "run %d is %s in OLD and of %s in NEW" % (number, one.title(), other.day())
    elif number not in plan.shut() | plan.opened and not same_day(one, other):
        yield "run %d is %s in OLD and of %s in NEW" % (number, one.title(), other.day())


def _coach_misfits(one, other, plan):
    """Of a run with a replaced coach. A plan that was carried out already names coaches that are gone from both."""
    for (run, coach), by in sorted(plan.replaced.items()):
        if run != one.number:
            continue
        for there in by:
            if not any(seat.coach == there for seat in other.seats):
                yield "run %d has no coach %d in NEW" % (run, there)
        if one.seats != other.seats and not any(seat.coach == coach for seat in one.seats):
            yield "run %d has no coach %d in OLD" % (run, coach)


# The new catalogue of a plan


def amended_tree(old, plan):
    """The old catalogue with the runs that the plan cancels or closes on the days of such runs, and those that it opens
    at the times they had.

    Coaches are as they were. What a run's times were stays in it as `planned`.
    """
    tree = copy.deepcopy(old.tree)
    for number in sorted(plan.shut()):
        run = tree["runs"][number]
        if not old.runs[number].is_shut():
            run[PLANNED] = run["stops"]
        run["stops"] = _shut_stops(run["stops"], CANCELLED_DAY if number in plan.cancelled else CLOSED_DAY)
    for number in sorted(plan.opened):
        if old.runs[number].is_shut() and old.runs[number].planned:
            tree["runs"][number]["stops"] = tree["runs"][number].pop(PLANNED)
    return tree


def _shut_stops(stops, day):
    """The stations, minute after minute of the day."""
    shut = []
    for at, stop in enumerate(stops):
        text = "%sT%02d:%02d:00Z" % (day, at // 60, at % 60)
        made = {"station": stop["station"]}
        made.update({"arrive": text} if at > 0 else {})
        made.update({"depart": text} if at < len(stops) - 1 else {})
        shut.append(made)
    return shut
