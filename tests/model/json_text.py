"""JSON texts: a strict reader and a compact writer.

A text that is read gives None, True, False, an int, a float, a str, a list or a dict. A number is an int exactly where
it is written without fraction and exponent, isn't `-0`, and lies in the 64 bits of a signed or an unsigned number.
Every other number is a float, and one that is too large for a float is refused.
"""
import json
import math
import re

DEEPEST = 127
BLANKS = re.compile("[ \t\n\r]*")
DIGITS = "0123456789"
SHORT_ESCAPES = {'"': '"', "\\": "\\", "/": "/", "b": "\b", "f": "\f", "n": "\n", "r": "\r", "t": "\t"}


class NotJson(Exception):
    """The bytes aren't one JSON text in UTF-8."""


def read_json(data: bytes):
    """The value of the text, or NotJson. Nothing but blanks may stand round the value."""
    try:
        text = data.decode("utf-8")
    except UnicodeDecodeError:
        raise NotJson("not UTF-8") from None
    reader = Reader(text)
    value = reader.value(0)
    reader.skip_blanks()
    if reader.at != len(text):
        raise NotJson("something follows the value")
    return value


def write_json(value) -> bytes:
    """The compact text, with the members of an object in the order of their names' bytes."""
    return json.dumps(value, separators=(",", ":"), sort_keys=True, ensure_ascii=False).encode("utf-8")


def is_whole(value) -> bool:
    """A number that was written whole. True and False are no numbers."""
    return type(value) is int


def is_text(value) -> bool:
    return type(value) is str


class Reader:
    """Reads one text from its front."""

    def __init__(self, text: str):
        self.text = text
        self.at = 0

    def peek(self) -> str:
        """The next character, or the empty text at the end."""
        return self.text[self.at:self.at + 1]

    def expect(self, word: str):
        if not self.text.startswith(word, self.at):
            raise NotJson("%r is missing" % word)
        self.at += len(word)

    def skip_blanks(self):
        self.at = BLANKS.match(self.text, self.at).end()

    def value(self, depth: int):
        """One value; depth counts the lists and objects round it."""
        self.skip_blanks()
        first = self.peek()
        if first == "{":
            return self.members(depth + 1)
        if first == "[":
            return self.items(depth + 1)
        if first == '"':
            return self.string()
        for word, meaning in (("null", None), ("true", True), ("false", False)):
            if first == word[0]:
                self.expect(word)
                return meaning
        return self.number()

    def members(self, depth: int) -> dict:
        """An object. Of a member that stands twice the last one counts."""
        if depth > DEEPEST:
            raise NotJson("too deep")
        self.expect("{")
        found = {}
        self.skip_blanks()
        if self.peek() == "}":
            self.at += 1
            return found
        while True:
            self.skip_blanks()
            name = self.string()
            self.skip_blanks()
            self.expect(":")
            found[name] = self.value(depth)
            self.skip_blanks()
            if self.peek() == "}":
                self.at += 1
                return found
            self.expect(",")

    def items(self, depth: int) -> list:
        if depth > DEEPEST:
            raise NotJson("too deep")
        self.expect("[")
        found = []
        self.skip_blanks()
        if self.peek() == "]":
            self.at += 1
            return found
        while True:
            found.append(self.value(depth))
            self.skip_blanks()
            if self.peek() == "]":
                self.at += 1
                return found
            self.expect(",")

    def string(self) -> str:
        """A text in quotes. Control characters have to be escaped, and a surrogate needs its other half."""
        self.expect('"')
        parts = []
        while True:
            character = self.peek()
            if not character or character < " ":
                raise NotJson("a text has no end, or a control character")
            self.at += 1
            if character == '"':
                return "".join(parts)
            parts.append(self.escape() if character == "\\" else character)

    def escape(self) -> str:
        """What follows a backslash."""
        letter = self.peek()
        self.at += 1
        if letter in SHORT_ESCAPES and letter:
            return SHORT_ESCAPES[letter]
        if letter != "u":
            raise NotJson("no such escape")
        high = self.four_hex_digits()
        if 0xDC00 <= high <= 0xDFFF:
            raise NotJson("a surrogate alone")
        if not 0xD800 <= high <= 0xDBFF:
            return chr(high)
        self.expect("\\u")
        low = self.four_hex_digits()
        if not 0xDC00 <= low <= 0xDFFF:
            raise NotJson("a surrogate alone")
        return chr(0x10000 + (high - 0xD800) * 0x400 + (low - 0xDC00))

    def four_hex_digits(self) -> int:
        digits = self.text[self.at:self.at + 4]
        if len(digits) != 4 or any(digit not in "0123456789abcdefABCDEF" for digit in digits):
            raise NotJson("four digits of base 16 are missing")
        self.at += 4
        return int(digits, 16)

    def digits(self) -> str:
        start = self.at
        while self.peek() and self.peek() in DIGITS:
            self.at += 1
        return self.text[start:self.at]

    def number(self):
        start = self.at
        if self.peek() == "-":
            self.at += 1
        whole = self.digits()
        if not whole or (whole[0] == "0" and len(whole) > 1):
            raise NotJson("a number begins badly")
        is_written_whole = True
        if self.peek() == ".":
            self.at += 1
            is_written_whole = False
            if not self.digits():
                raise NotJson("a fraction without digits")
        if self.peek() in ("e", "E"):
            self.at += 1
            is_written_whole = False
            if self.peek() in ("+", "-"):
                self.at += 1
            if not self.digits():
                raise NotJson("an exponent without digits")
        written = self.text[start:self.at]
        if is_written_whole and written != "-0" and len(written) <= 20:
            number = int(written)
            if -2 ** 63 <= number < 2 ** 64:
                return number
        number = float(written)
        if math.isinf(number):
            raise NotJson("a number past every float")
        return number
