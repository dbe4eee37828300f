"""Random spellings: one value can be written as JSON in many ways, and one moment as many texts."""
import copy
import random
import re
from dataclasses import dataclass

import moments


@dataclass(frozen=True)
class Raw:
    """A piece of JSON text that is written as it stands, right or wrong."""
    text: str


@dataclass(frozen=True)
class Twice:
    """A member that stands twice: first the one value, then the other, which counts."""
    before: object
    value: object


JUNK = [None, True, False, 0, 1, -1, 7, 10 ** 10, 2 ** 64, 1.5, "", "x", "BASEL", [], ["WINDOW"], {}, Raw("-0"), Raw("1.0"),
        Raw("1e0"), Raw("0.0"), Raw("10E-1"), Raw("18446744073709551616"), Raw("-9223372036854775809"), Raw("2E0")]

BROKEN = ["", " ", "{", "}", "[", "nul", "{\"a\":1,}", "[1,]", "{a:1}", "{'a':1}", "01", "+1", "1.", ".5", "1e", "-", "NaN",
          "Infinity", "-Infinity", "1e400", "-1e400", "\"\\x\"", "\"\\ud800\"", "\"\\udc00\\ud800\"", "\"\\u12\"", "\"a",
          "\"\t\"", "{} {}", "{}x", "/*c*/{}", "{\"a\":1 \"b\":2}", "{\"a\"}", "\ufeff{}", "{\"x\":\"\\ud83d\"}", "{\"x\":\"\\udc00\"}", "{\"x\":1e999}",
          "[" * 128 + "]" * 128, "{\"x\":" + "[" * 127 + "]" * 127 + "}", "true false", "9" * 400, "{\"x\":\"\x00\"}"]

WHOLE_BUT_ODD = ["[]", "[[1]]", "null", "true", "1", "-0", "1e2", "\"x\"", "{}", " {} ", "\t\r\n{}\n", "{\"x\":\"\\ud83d\\ude00\"}",
                 "[" * 127 + "]" * 127, "{\"x\":" + "[" * 126 + "]" * 126 + "}", "{\"\":null}", "{\"x\":0e400}", "{\"x\":1e-400}",
                 "{\"x\":\"\x7f\u00e9\"}"]


def junk(rng: random.Random):
    """A value that is out of place almost everywhere; a copy, since lists and objects may be changed afterwards."""
    return copy.deepcopy(rng.choice(JUNK))


def chance(rng: random.Random, share: float) -> bool:
    return rng.random() < share


def json_text(rng: random.Random, value, plain: bool) -> str:
    """One text of the value; a plain one has no blanks, keeps the order of members and escapes nothing needlessly."""
    if isinstance(value, Raw):
        return value.text
    if isinstance(value, Twice):
        return json_text(rng, value.value, plain)
    if isinstance(value, dict):
        return object_text(rng, value, plain)
    if isinstance(value, list):
        items = [blank(rng, plain) + json_text(rng, item, plain) + blank(rng, plain) for item in value]
        return "[" + ",".join(items) + ("" if items else blank(rng, plain)) + "]"
    if isinstance(value, str):
        return string_text(rng, value, plain)
    for constant, text in ((None, "null"), (True, "true"), (False, "false")):
        if value is constant:
            return text
    return repr(value)


def object_text(rng: random.Random, value: dict, plain: bool) -> str:
    names = list(value)
    if not plain:
        rng.shuffle(names)
    members = []
    for name in names:
        if isinstance(value[name], Twice):
            members.append(member_text(rng, name, value[name].before, plain))
        members.append(member_text(rng, name, value[name], plain))
    return "{" + ",".join(members) + ("" if members else blank(rng, plain)) + "}"


def member_text(rng: random.Random, name: str, value, plain: bool) -> str:
    parts = [blank(rng, plain) for _ in range(4)]
    return parts[0] + string_text(rng, name, plain) + parts[1] + ":" + parts[2] + json_text(rng, value, plain) + parts[3]


def blank(rng: random.Random, plain: bool) -> str:
    return "" if plain or chance(rng, 0.8) else rng.choice([" ", "\n", "\t", "\r\n", "  "])


def string_text(rng: random.Random, text: str, plain: bool) -> str:
    escaped = ""
    for character in text:
        if character in "\"\\" or character < " ":
            escaped += "\\u%04x" % ord(character)
        elif not plain and ord(character) < 0x10000 and chance(rng, 0.04):
            escaped += "\\u%04x" % ord(character)
        elif character == "/" and not plain and chance(rng, 0.5):
            escaped += "\\/"
        else:
            escaped += character
    return "\"" + escaped + "\""


def moment_text(rng: random.Random, moment: int, plain: bool) -> str:
    """One of the spellings that are read as this moment."""
    if plain or chance(rng, 0.5):
        return moments.write_moment(moment)
    offset = rng.choice([0, 0, 7_200, -3_600, 19_800, 3_661, -3_661, -93_599, 86_400])
    local = moment + offset
    if not 0 <= local <= moments.LAST_MOMENT:
        offset, local = 0, moment
    date, time = moments.write_moment(local)[:10], moments.write_moment(local)[11:19]
    second = time[6:]
    if second == "59" and chance(rng, 0.5):
        time = time[:6] + "60"
    if second == "00" and chance(rng, 0.4):
        time = time[:5]
        if time.endswith(":00") and chance(rng, 0.3):
            time = time[:2]
    elif chance(rng, 0.3):
        time += rng.choice([".", ","]) + rng.choice(["0", "5", "999999999", "000000001"])
    if chance(rng, 0.1) and "." not in time and "," not in time:
        time = time.replace(":", "")
    if chance(rng, 0.1):
        date = rng.choice([date.replace("-", ""), "+00" + date])
    zone = rng.choice(["", "", "", "[UTC]", "[Europe/Zurich]", "[!Etc/GMT+5]", "[+02:00]", "[u-ca=iso8601]", "[UTC][a=b-c]"])
    return date + rng.choice(["T", "T", "t", " "]) + time + offset_text(rng, offset) + zone


def offset_text(rng: random.Random, offset: int) -> str:
    if offset == 0 and chance(rng, 0.6):
        return rng.choice(["Z", "Z", "z"])
    sign = "-" if offset < 0 or (offset == 0 and chance(rng, 0.5)) else "+"
    size = abs(offset)
    hours, minutes, seconds = size // 3600, size // 60 % 60, size % 60
    colon = rng.choice([":", ":", ""])
    text = sign + "%02d" % hours
    if minutes or seconds or chance(rng, 0.7):
        text += colon + "%02d" % minutes
        if seconds or chance(rng, 0.2):
            if seconds and chance(rng, 0.4):
                return text + colon + "%02d" % (seconds - 1) + rng.choice([".5", ",500000000", ".9", ",999999999"])
            text += colon + "%02d" % seconds + rng.choice(["", "", ".4", ",499999999"])
    return text


def wrong_moment_text(rng: random.Random, moment: int) -> str:
    """A text that is no moment, or nearly one, or one out of the years."""
    text = moments.write_moment(moment)
    return rng.choice([
        "", "Z", text[:10], text[:19], text[:16], text + " ", " " + text, text.replace("T", "_"), text + "[", text + "[]",
        text + "[!u-ca=iso8601]", text + "[UTC][UTC]", text[:10] + "T24:00:00Z", text[:10] + "T23:60:00Z",
        text[:10] + "T23:59:61Z", "2026-02-29T00:00:00Z", "2024-02-29T00:00:00Z", "2100-02-29T00:00:00Z", "2026-13-01T00:00:00Z",
        "2026-00-01T00:00:00Z", "2026-06-00T00:00:00Z", "2026-06-31T00:00:00Z", "1969-12-31T23:59:59Z",
        "1969-12-31T23:59:59.999Z", "1970-01-01T00:00:00+00:01", "1969-12-31T23:59:59-01:00", "2100-01-01T00:00:00Z",
        "2099-12-31T23:59:59.9Z", "2100-01-01T00:00:00+00:01", "9999-12-31T23:59:59Z", "-000001-01-01T00:00:00Z",
        "-000000-01-01T00:00:00Z", "+002026-06-01T08:00:00Z", "2026-6-1T08:00:00Z", "2026-0601T08:00:00Z",
        "202606-01T08:00:00Z", "2026-06-01T0800:00Z", "2026-06-01T08:0000Z", "2026-06-01T8:00:00Z", "2026-06-01T08:Z",
        "2026-06-01T08:00:00.Z", "2026-06-01T08:00:00.1234567890Z", "2026-06-01T08:00.5Z", "2026-06-01T08:00:00+26:00",
        "2026-06-01T08:00:00+25:59:59.5", "2026-06-01T08:00:00+25:59:59", "2026-06-01T08:00:00+2:00", "2026-06-01T08:00:00+02:60",
        "2026-06-01T08:00:00+02:00:00.9", "2026-06-01T08:00:00+02:0000", "2026-06-01T08:00:00+0200:00", "2026-06-01T08Z",
        "20260601T08Z", "20260601T080000Z", "2026-06-01T08:00:00Z[Europe//Zurich]", "2026-06-01T08:00:00Z[.a/_b]",
        "2026-06-01T08:00:00Z[+02:00:00]", "2026-06-01T08:00:00Z[u-ca=]", "2026-06-01T08:00:00Z[U-ca=x]",
        "2026-06-01T08:00:00Z[u-ca=iso8601][UTC]", "2026-06-01T08:00:00\u22121:00", "\uff12026-06-01T08:00:00Z",
        "2026-W23-1T08:00:00Z", "1780293600",
    ])


def with_changed_number(rng: random.Random, text: str) -> str:
    """The text with one of its numbers replaced by one that looks alike when it is cut to some bits, or is spelled otherwise."""
    numbers = list(re.finditer("[0-9]+", text))
    if not numbers:
        return text
    found = rng.choice(numbers)
    number = int(found.group()[:30])
    other = rng.choice([str(number + 2 ** bits) for bits in (8, 16, 32, 63, 64)] + ["0" + found.group(), "00", "", "9" * 25, "+0", "0x0"])
    return text[:found.start()] + other + text[found.end():]


def changed_text(rng: random.Random, text: str) -> str:
    """The text with one character put in, left out or replaced, or a leading zero or a sign."""
    if not text:
        return rng.choice(["0", "x"])
    if chance(rng, 0.4):
        return with_changed_number(rng, text)
    at = rng.randrange(len(text))
    letter = rng.choice("0123456789-_.OBRXCFpm+ \u00e9/aZ")
    return rng.choice([
        text[:at] + letter + text[at:], text[:at] + text[at + 1:], text[:at] + letter + text[at + 1:], text + letter,
        text[:at], text[0] + "0" + text[1:], text.lower(), text + text, " " + text, text[:1] + "+" + text[1:], text + "\n",
    ])
