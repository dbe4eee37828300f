"""The small host: one run with numbered places, one route, and a plain list of what was given."""
import wire
from catalogue import Span
from json_text import NotJson, is_whole, read_json, write_json

MOST_LEGS = 126
MOST_PLACES = 1_200
MOST_RESERVATIONS = 1_024


class TinyHost:
    def __init__(self, legs: int, places: int):
        self.legs = legs
        self.places = places
        self.given = []

    def answer(self, request: wire.Request) -> bytes:
        if (request.method, request.path) != (b"POST", b"/reservations"):
            return wire.write_problem("NotBuilt", None, request.last)
        try:
            body = read_json(request.body)
        except NotJson:
            return wire.write_problem("NotJson", None, request.last)
        members = body if isinstance(body, dict) else {}
        start, end = members.get("from"), members.get("to")
        if not is_whole(start) or not 0 <= start < self.legs:
            return wire.write_problem("BadField", "from", request.last)
        if not is_whole(end) or not start < end <= self.legs:
            return wire.write_problem("BadField", "to", request.last)
        if len(self.given) >= MOST_RESERVATIONS:
            return wire.write_problem("RowsFull", None, request.last)
        place = self.least_free(Span(start, end))
        if place is None:
            return wire.write_problem("NoPlace", None, request.last)
        self.given.append((place, Span(start, end)))
        return wire.write_answer(201, False, write_json({"from": start, "place": place, "to": end}), request.last)

    def least_free(self, span: Span):
        """The least place that is free on all legs, or None."""
        taken = {place for place, given in self.given if given.meets(span)}
        return next((place for place in range(self.places) if place not in taken), None)


def serve(legs: int, places: int, data: bytes) -> tuple:
    """The bytes of all answers to one connection, and its rest."""
    requests, rest = wire.read_requests(data)
    host = TinyHost(legs, places)
    answers = [host.answer(request) for request in requests]
    if rest in wire.FAULTS:
        answers.append(wire.write_fault(rest))
    return b"".join(answers), rest
