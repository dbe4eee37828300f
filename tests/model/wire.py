"""The wire: the whole requests that a list of bytes spells, what is left after them, and the bytes of answers."""
import enum
import json
import re
from dataclasses import dataclass

from json_text import write_json

LARGEST_HEAD = 16_384
MOST_LINES = 64
LARGEST_BODY = 262_144
MOST_REQUESTS = 65_536

TOKEN = re.compile(rb"[A-Za-z0-9!#$%&'*+.^_`|~-]+")
TARGET = re.compile(rb"[^\x00-\x20\x7f]+")
FIELD_VALUE = re.compile(rb"[^\x00-\x08\x0a-\x1f\x7f]*")
LENGTH = re.compile(rb"[0-9]{1,10}")

REASONS = {
    200: "OK", 201: "Created", 400: "Bad Request", 401: "Unauthorized", 403: "Forbidden", 404: "Not Found",
    405: "Method Not Allowed", 409: "Conflict", 410: "Gone", 413: "Content Too Large",
    431: "Request Header Fields Too Large", 500: "Internal Server Error", 501: "Not Implemented",
    503: "Service Unavailable", 507: "Insufficient Storage",
}

PROBLEMS = {
    "BadHead": (400, "Bad head"),
    "HeadTooLarge": (431, "Head too large"),
    "BodyTooLarge": (413, "Body too large"),
    "Coding": (501, "Coding not supported"),
    "BadLength": (400, "Bad length"),
    "NotBuilt": (501, "Not built"),
    "NoRetailer": (401, "No retailer"),
    "OtherRetailer": (403, "Other retailer"),
    "NoRoute": (404, "No route"),
    "NoMethod": (405, "No method"),
    "NotJson": (400, "Not JSON"),
    "BadField": (400, "Bad field"),
    "UnknownStation": (404, "Unknown station"),
    "UnknownOffer": (404, "Unknown offer"),
    "OfferTooOld": (410, "Offer too old"),
    "UnknownBooking": (404, "Unknown booking"),
    "QuoteWrong": (404, "Quote wrong"),
    "WrongState": (409, "Wrong state"),
    "TooLate": (410, "Too late"),
    "RowsFull": (507, "Rows full"),
    "NoPlace": (409, "No place"),
    "Contended": (503, "Contended"),
    "NoMemory": (500, "No memory"),
}


class Rest(enum.Enum):
    """What stands after the last whole request. The last five are faults, and each is answered."""
    END = "End"
    CLOSED = "Closed"
    CUT = "Cut"
    BAD_HEAD = "BadHead"
    HEAD_TOO_LARGE = "HeadTooLarge"
    BODY_TOO_LARGE = "BodyTooLarge"
    CODING = "Coding"
    BAD_LENGTH = "BadLength"


FAULTS = (Rest.BAD_HEAD, Rest.HEAD_TOO_LARGE, Rest.BODY_TOO_LARGE, Rest.CODING, Rest.BAD_LENGTH)


@dataclass(frozen=True)
class Request:
    method: bytes
    path: bytes
    key: bytes
    body: bytes
    last: bool


@dataclass(frozen=True)
class Head:
    method: bytes
    target: bytes
    version: bytes
    fields: list

    def values(self, name: bytes) -> list:
        """The values of every line of that name, in order; names are compared without regard to case."""
        return [value for found, value in self.fields if found.lower() == name]


def read_requests(data: bytes) -> tuple:
    """The list of the whole requests, and the rest."""
    requests, at = [], 0
    while True:
        found = read_request(data, at, len(requests) + 1)
        if isinstance(found, Rest):
            return requests, found
        request, at = found
        requests.append(request)
        if request.last:
            return requests, Rest.CLOSED


def read_request(data: bytes, at: int, number: int):
    """The request that begins there and the place after it, or the rest."""
    head_end = find_head_end(data, at)
    if isinstance(head_end, Rest):
        return head_end
    head = read_head(data[at:head_end])
    if head is None:
        return Rest.BAD_HEAD
    if head.values(b"transfer-encoding"):
        return Rest.CODING
    lengths = head.values(b"content-length")
    if any(not LENGTH.fullmatch(length) for length in lengths) or len({int(length) for length in lengths}) > 1:
        return Rest.BAD_LENGTH
    length = int(lengths[0]) if lengths else 0
    if length > LARGEST_BODY:
        return Rest.BODY_TOO_LARGE
    if len(data) < head_end + length:
        return Rest.CUT
    keys = head.values(b"retailer-key")
    last = number == MOST_REQUESTS or head.version == b"HTTP/1.0" or asks_to_close(head)
    body = data[head_end:head_end + length]
    request = Request(head.method, head.target.split(b"?")[0], keys[0] if keys else None, body, last)
    return request, head_end + length


def find_head_end(data: bytes, start: int):
    """The place after the first empty line after a line that isn't empty, or the rest where the head has no end.

    A line ends in LF, and it is empty where it has no byte before that or a CR alone. The head is too large where
    16,384 bytes are there without its end, or 65 lines that aren't empty stand after the request line before its end.
    """
    at, lines = start, 0
    while True:
        line_feed = data.find(b"\n", at, start + LARGEST_HEAD)
        if line_feed < 0:
            break
        is_empty = data[at:line_feed] in (b"", b"\r")
        at = line_feed + 1
        if is_empty and lines > 0:
            return at
        if not is_empty:
            lines += 1
        if lines > 1 + MOST_LINES:
            return Rest.HEAD_TOO_LARGE
    if len(data) - start >= LARGEST_HEAD:
        return Rest.HEAD_TOO_LARGE
    return Rest.END if lines == 0 and at == len(data) else Rest.CUT


def read_head(data: bytes):
    """The parts of a whole head, or None where it isn't one.

    A request line is a token, a space, a target of visible bytes in UTF-8, a space and the version; a field is a token,
    a colon and a value without control bytes but tabs. Each line ends in LF or CR LF.
    """
    lines = [line[:-1] if line.endswith(b"\r") else line for line in data.split(b"\n")[:-1]]
    while not lines[0]:
        lines = lines[1:]
    parts = lines[0].split(b" ")
    if len(parts) != 3:
        return None
    method, target, version = parts
    if not TOKEN.fullmatch(method) or not TARGET.fullmatch(target) or version not in (b"HTTP/1.0", b"HTTP/1.1"):
        return None
    try:
        target.decode("utf-8")
    except UnicodeDecodeError:
        return None
    fields = []
    for line in lines[1:-1]:
        name, colon, value = line.partition(b":")
        if not colon or not TOKEN.fullmatch(name) or not FIELD_VALUE.fullmatch(value):
            return None
        fields.append((name, value.strip(b" \t")))
    return Head(method, target, version, fields)


def asks_to_close(head: Head) -> bool:
    """A Connection line holds the word close, among words set apart by commas, in any case."""
    words = [word for value in head.values(b"connection") for word in value.split(b",")]
    return any(word.strip(b" \t").lower() == b"close" for word in words)


def write_answer(status: int, is_problem: bool, body: bytes, last: bool) -> bytes:
    """Head and body of one answer."""
    kind = "application/problem+json" if is_problem else "application/json"
    head = "HTTP/1.1 %d %s\r\nContent-Type: %s\r\nContent-Length: %d\r\n" % (status, REASONS[status], kind, len(body))
    if last:
        head += "Connection: close\r\n"
    return (head + "\r\n").encode("ascii") + body


def write_problem(code: str, detail: str, last: bool) -> bytes:
    status, title = PROBLEMS[code]
    body = {"code": code, "status": status, "title": title}
    if detail is not None:
        body["detail"] = detail
    return write_answer(status, True, write_json(body), last)


def write_fault(fault: Rest) -> bytes:
    """The answer to a fault of the wire, which ends its connection."""
    return write_problem(fault.value, None, True)


def split_answers(output: bytes) -> list:
    """Status and body of each answer."""
    answers, at = [], 0
    while at < len(output):
        body = output.index(b"\r\n\r\n", at) + 4
        lines = output[at:body].split(b"\r\n")
        length = next(int(line.split(b": ")[1]) for line in lines if line.startswith(b"Content-Length: "))
        answers.append((int(lines[0][9:12]), json.loads(output[body:body + length])))
        at = body + length
    return answers
