"""Which places are free on which legs, and which of them a group of passengers gets. amend uses it."""
from rail_texts import Item

STRETCH, ONE_COACH, ANYWHERE = range(3)


class Taken:
    """The legs that are taken at each place, as bits."""

    def __init__(self):
        self.legs = {}

    def is_free(self, place, start, end):
        return not self.legs.get(place, 0) & Item(place, start, end).mask()

    def take(self, rides):
        for ride in rides:
            self.legs[ride[0]] = self.legs.get(ride[0], 0) | Item(*ride).mask()

    def give(self, rides):
        for ride in rides:
            self.legs[ride[0]] &= ~Item(*ride).mask()

    def free_stretches(self, place, legs):
        """The longest stretches of the place that nobody has, in order."""
        free, found = [self.is_free(place, leg, leg + 1) for leg in range(legs)] + [False], []
        start = None
        for leg, is_free in enumerate(free):
            if is_free and start is None:
                start = leg
            elif not is_free and start is not None:
                found.append((start, leg))
                start = None
        return found


def is_stretch(seats):
    """They are one coach's, each with a number one above the one before."""
    return all((b.coach, b.number) == (a.coach, a.number + 1) for a, b in zip(seats, seats[1:]))


def shape_of(seats):
    """How close the seats are. One alone is as close as can be."""
    ordered = sorted(seats)
    if len(seats) == 1:
        return ANYWHERE
    return STRETCH if is_stretch(ordered) else ONE_COACH if len({seat.coach for seat in seats}) == 1 else ANYWHERE


def common_traits(seats):
    """What all the seats have, so what the passengers asked for and perhaps more."""
    return frozenset.intersection(*(seat.traits for seat in seats))


def same_numbers(run, coach, seats, span, taken):
    """The places of the coach that have the numbers of these seats, where they have their class and common traits too
    and are free; else None.
    """
    places, common = [run.place_of(coach, seat.number) for seat in seats], common_traits(seats)
    if None in places or len(set(places)) < len(places):
        return None
    fit = all(run.seat(place).kind == seat.kind and run.seat(place).traits >= common and taken.is_free(place, *span)
              for place, seat in zip(places, seats))
    return places if fit else None


def places_for(run, coaches, seats, span, taken):
    """Places on the run for passengers who had these seats, all of one class, or None where there are too few.

    They are as close together as the seats were, or else as close as possible; and then with the traits that all seats
    had, where possible. `coaches` are those that count; None stands for all.
    """
    common, kind = common_traits(seats), seats[0].kind
    free = [place for place in run.places()
            if run.seat(place).kind == kind and (coaches is None or run.seat(place).coach in coaches)
            and taken.is_free(place, *span)]
    wished = [place for place in free if run.seat(place).traits >= common]
    for shape in range(shape_of(seats), ANYWHERE):
        for pool in (wished, free):
            found = (pick_stretch if shape == STRETCH else pick_one_coach)(run, pool, set(wished), len(seats))
            if found is not None:
                return found
    return wished_first(free, set(wished), len(seats)) if len(free) >= len(seats) else None


def pick_stretch(run, places, _wished, count):
    for first in range(len(places) - count + 1):
        some = places[first:first + count]
        if is_stretch([run.seat(place) for place in some]):
            return some
    return None


def pick_one_coach(run, places, wished, count):
    by_coach = {}
    for place in places:
        by_coach.setdefault(run.seat(place).coach, []).append(place)
    return next((wished_first(some, wished, count) for some in by_coach.values() if len(some) >= count), None)


def wished_first(places, wished, count):
    """So many of the places, in rising number: the least that are wished, and where these are too few the least of the
    others.
    """
    return sorted(sorted(places, key=lambda place: place not in wished)[:count])
