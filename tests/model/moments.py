"""Moments: whole seconds since 1970-01-01T00:00:00Z, up to the end of 2099.

The reader takes an RFC 3339 text in the wider form of the instant reader that the host uses: a date with or without
dashes, then `T`, `t` or a space, then hours that minutes, seconds and a fraction may follow, then `Z` or an offset,
then annotations in brackets.
"""
import datetime
import enum

FIRST_MOMENT = 0
LAST_MOMENT = 4_102_444_799
DIGITS = "0123456789"
LETTERS = "abcdefghijklmnopqrstuvwxyz"
DAY_SECONDS = 86_400


class MomentFault(enum.Enum):
    NOT_A_MOMENT = 1
    OUT_OF_YEARS = 2


class NotAMoment(Exception):
    """The text isn't an instant."""


def later(moment: int, seconds: int) -> int:
    """So many seconds later, but at most the last moment."""
    return min(moment + seconds, LAST_MOMENT)


def write_moment(moment: int) -> str:
    """`YYYY-MM-DDThh:mm:ssZ` in UTC."""
    day = datetime.datetime(1970, 1, 1) + datetime.timedelta(seconds=moment)
    return day.strftime("%Y-%m-%dT%H:%M:%SZ")


def read_moment(text: str):
    """The moment, or a MomentFault. A fraction of a second is cut off downwards."""
    try:
        seconds = InstantReader(text).instant()
    except NotAMoment:
        return MomentFault.NOT_A_MOMENT
    if not FIRST_MOMENT <= seconds <= LAST_MOMENT:
        return MomentFault.OUT_OF_YEARS
    return seconds


def is_leap(year: int) -> bool:
    return year % 4 == 0 and (year % 100 != 0 or year % 400 == 0)


def days_in_month(year: int, month: int) -> int:
    if month == 2:
        return 29 if is_leap(year) else 28
    return 30 if month in (4, 6, 9, 11) else 31


def days_before_year(year: int) -> int:
    """Days from the first day of the year 0 to that of this year; years before 0 count down."""
    return 365 * year + (year + 3) // 4 - (year + 99) // 100 + (year + 399) // 400


def day_number(year: int, month: int, day: int) -> int:
    """Days since 1970-01-01."""
    in_year = sum(days_in_month(year, before) for before in range(1, month)) + day - 1
    return days_before_year(year) + in_year - days_before_year(1970)


class InstantReader:
    """Reads one text from its front."""

    def __init__(self, text: str):
        self.text = text
        self.at = 0

    def peek(self) -> str:
        return self.text[self.at:self.at + 1]

    def takes(self, characters: str) -> bool:
        """Goes past the next character where it is one of these."""
        if self.peek() and self.peek() in characters:
            self.at += 1
            return True
        return False

    def need(self, characters: str):
        if not self.takes(characters):
            raise NotAMoment()

    def has_two_digits(self) -> bool:
        pair = self.text[self.at:self.at + 2]
        return len(pair) == 2 and pair[0] in DIGITS and pair[1] in DIGITS

    def two_digits(self, low: int, high: int) -> int:
        if not self.has_two_digits():
            raise NotAMoment()
        number = int(self.text[self.at:self.at + 2])
        self.at += 2
        if not low <= number <= high:
            raise NotAMoment()
        return number

    def instant(self) -> int:
        """The whole seconds of the text, rounded downwards."""
        days = self.date()
        self.need("Tt ")
        seconds_of_day = self.time_of_day()
        offset = self.offset()
        self.annotations()
        if self.at != len(self.text):
            raise NotAMoment()
        seconds = days * DAY_SECONDS + seconds_of_day - offset
        if not -377_705_023_201 <= seconds <= 253_402_207_200:
            raise NotAMoment()
        return seconds

    def date(self) -> int:
        """The day's number. The year has four digits, or a sign and six; both dashes stand or none."""
        year = self.year()
        dashes = self.takes("-")
        month = self.two_digits(1, 12)
        if dashes:
            self.need("-")
        elif self.peek() == "-":
            raise NotAMoment()
        day = self.two_digits(1, 31)
        if day > days_in_month(year, month):
            raise NotAMoment()
        return day_number(year, month, day)

    def year(self) -> int:
        sign = self.peek() if self.peek() and self.peek() in "+-" else ""
        if sign:
            self.at += 1
            self.two_digits(0, 0)
        year = self.two_digits(0, 99) * 100 + self.two_digits(0, 99)
        if sign == "-" and year == 0:
            raise NotAMoment()
        return -year if sign == "-" else year

    def another_part(self, colons: bool) -> bool:
        """Whether a further part of a time or an offset follows: after a colon, or at once where colons don't stand."""
        return self.takes(":") if colons else self.has_two_digits()

    def fraction(self) -> str:
        """The digits of a fraction, at most nine, or none where no dot or comma stands."""
        if not self.takes(".,"):
            return ""
        start = self.at
        while self.at - start < 9 and self.takes(DIGITS):
            pass
        if self.at == start:
            raise NotAMoment()
        return self.text[start:self.at]

    def time_of_day(self) -> int:
        """Hours, then perhaps minutes, then perhaps seconds, of which 60 is read as 59, and a fraction."""
        hour = self.two_digits(0, 23)
        colons = self.peek() == ":"
        if not self.another_part(colons):
            return hour * 3600
        minute = self.two_digits(0, 59)
        if not self.another_part(colons):
            return hour * 3600 + minute * 60
        second = min(self.two_digits(0, 60), 59)
        self.fraction()
        return hour * 3600 + minute * 60 + second

    def offset(self) -> int:
        """Seconds east of UTC. A fraction of half a second or more counts as a second; it ends at 25:59:59."""
        if self.takes("Zz"):
            return 0
        sign = self.peek()
        self.need("+-")
        total = self.two_digits(0, 25) * 3600
        colons = self.peek() == ":"
        if self.another_part(colons):
            total += self.two_digits(0, 59) * 60
            if self.another_part(colons):
                total += self.two_digits(0, 59)
                if self.fraction()[:1] >= "5":
                    total += 1
        if total > 93_599:
            raise NotAMoment()
        return -total if sign == "-" else total

    def annotations(self):
        """A time zone in brackets may come first, and then `[name=value]` of which none is critical."""
        is_first = True
        while self.peek() == "[":
            start = self.at
            self.at += 1
            is_critical = self.takes("!")
            if is_first and self.peek() and self.peek() in "+-":
                self.annotated_offset()
            elif not (is_first and self.annotated_zone()):
                self.at = start + (2 if is_critical else 1)
                self.annotated_value()
                if is_critical:
                    raise NotAMoment()
            is_first = False

    def annotated_offset(self):
        self.need("+-")
        self.two_digits(0, 25)
        colons = self.peek() == ":"
        if self.another_part(colons):
            self.two_digits(0, 59)
            if self.peek() == ":":
                raise NotAMoment()
        self.need("]")

    def annotated_zone(self) -> bool:
        """A zone's name, its parts set apart by slashes. False where an equals sign follows the first part."""
        name_start = LETTERS + LETTERS.upper() + "_."
        name_rest = name_start + DIGITS + "+-"
        self.need(name_start)
        while self.takes(name_rest):
            pass
        if self.peek() == "=":
            return False
        while self.takes("/"):
            self.need(name_start)
            while self.takes(name_rest):
                pass
        self.need("]")
        return True

    def annotated_value(self):
        self.need(LETTERS + "_")
        while self.takes(LETTERS + DIGITS + "_-"):
            pass
        self.need("=")
        value = LETTERS + LETTERS.upper() + DIGITS
        while True:
            self.need(value)
            while self.takes(value):
                pass
            if not self.takes("-"):
                break
        self.need("]")
