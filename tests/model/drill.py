"""The drill's line. Request k asks for one place on the leg (seed + k * k) mod 8, and nothing is given back, so each leg
is sold as often as it is asked, but at most once for each place."""

LEGS = 8


def line(seed: int, workers: int, size: int, places: int) -> bytes:
    total = workers * size
    legs = [(seed + number * number) % LEGS for number in range(total)]
    sold = sum(min(legs.count(leg), places) for leg in range(LEGS))
    return b"requests %d sold %d refused %d busy 0 double 0\n" % (total, sold, total - sold)
