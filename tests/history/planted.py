#!/usr/bin/env python3
"""Wrong histories, each of which the checker has to refuse, and right ones that it has to take.

  tests/history/planted.py

Two storms were recorded (`recorded_exchanges.json`, `recorded_resets.json`), which have an order; each line of PLANTED changes what one
call was answered, or what is said of one booking, so that they have none. The stories of `stories.py` are short and written by hand.
"""
import copy
import json
import pathlib
import sys

import checker
from calls import SECOND, Refused
from stories import STORIES
import wire

HERE = pathlib.Path(__file__).resolve().parent
EXCHANGES, RESETS = "recorded_exchanges.json", "recorded_resets.json"


def recorded(name: str) -> dict:
    return json.loads((HERE / name).read_text(encoding="utf-8"))


# Changes of a record


def problem(number: int, code: str, detail: str = None):
    """The call is answered by this problem."""
    def change(record: dict):
        status, title = wire.PROBLEMS[code]
        answer = {"code": code, "status": status, "title": title}
        if detail:
            answer["detail"] = detail
        record["calls"][number].update(status=status, answer=answer)
    return change


def member(number: int, name: str, value):
    """A member of the call's answer is another one."""
    def change(record: dict):
        record["calls"][number]["answer"][name] = value
    return change


def free(number: int, at: int, is_free: bool):
    """A place of the call's list is free, or isn't."""
    def change(record: dict):
        record["calls"][number]["answer"]["places"][at]["free"] = is_free
    return change


def counted(number: int, count: int):
    """The first segment of the first offer has so many free places."""
    def change(record: dict):
        record["calls"][number]["answer"]["offers"][0]["segments"][0]["free"] = count
    return change


def seated(name: str, coach: int, place: int):
    """Every answer says that the booking has this place."""
    def change(record: dict):
        for call in record["calls"]:
            said = (call["answer"] or {}).get("booking", call["answer"] or {})
            if said.get("id") == name and "reservations" in said:
                said["reservations"][0].update(coach=coach, place=place)
    return change


def answered_as(number: int, other: int):
    """The call is answered what another one was."""
    def change(record: dict):
        said = record["calls"][other]
        record["calls"][number].update(status=said["status"], answer=said["answer"])
    return change


def exported(old: str, new: str):
    def change(record: dict):
        assert record["export"].count(old) == 1
        record["export"] = record["export"].replace(old, new)
    return change


def left_out(number: int):
    """The call's request was never whole."""
    def change(record: dict):
        del record["calls"][number]
    return change


def later(number: int, seconds: int):
    """The call was made and answered so much later."""
    def change(record: dict):
        for name in ("begin", "end"):
            record["calls"][number][name] += seconds * SECOND
    return change


# The record, its change, why no order explains it, and how the checker's word begins.
PLANTED = [
    (EXCHANGES, seated("B000001-1", 1, 1), "place 1 is sold on a leg on which a booking that lives has it", "no order explains call 18 "),
    (EXCHANGES, seated("B000001-2", 1, 3), "places 1 and 2 were free, and nothing could hold them", "no order explains call 24 "),
    (EXCHANGES, seated("B000000-1", 1, 2), "the exchange's new place is the old booking's", "no order explains call 16 "),
    (EXCHANGES, problem(47, "NoPlace"), "both rows' bookings live, so no row could be had for it", "no order explains call 47 "),
    (EXCHANGES, problem(33, "RowsFull"), "a row's booking had ended, and nobody else asked for one", "no order explains call 33 "),
    (EXCHANGES, answered_as(21, 11), "its row was given to the next booking before", "no order explains call 21 "),
    (EXCHANGES, member(40, "status", "CONFIRMED"), "its collection was answered before it was shown", "no order explains call 40 "),
    (EXCHANGES, problem(40, "UnknownBooking"), "the booking lives", "no order explains call 40 "),
    (EXCHANGES, free(25, 1, False), "nothing holds a place on that leg", "no order explains call 25 "),
    (EXCHANGES, free(43, 0, True), "a collected booking has that place", "no order explains call 43 "),
    (EXCHANGES, counted(41, 2), "no booking has a place on that leg", "no order explains call 41 "),
    (EXCHANGES, member(42, "waiting", 0), "a prebooked booking waits, and was neither turned nor late", "no order explains call 42 "),
    (EXCHANGES, problem(35, "WrongState", "REFUNDED"), "it ended by exchange", "no order explains call 35 "),
    (EXCHANGES, exported("row 0 4 F", "row 0 4 C"), "its collection was answered", "no order leads to the export"),
    (RESETS, problem(44, "WrongState", "EXPIRED"), "its limit is a quarter of an hour away", "no order explains call 44 "),
    (RESETS, left_out(42), "half a request was done: nobody else could have released it", "no order explains call 43 "),
    (RESETS, problem(3, "NoPlace"), "both rows were started before by others, one of whom keeps his", "no order explains call 3 "),
    (RESETS, problem(15, "RowsFull"), "its worker keeps a row since it was refused", "no order explains call 1 "),
    (RESETS, later(9, 3), "by then the row had been given away", "no order explains call 59 "),
]


def is_refused(record: dict) -> str:
    """What the checker says, or nothing where it finds an order."""
    try:
        checker.check(record)
    except Refused as refused:
        return str(refused)
    return ""


def wrong_lines():
    """What is otherwise than it has to be."""
    for name in (EXCHANGES, RESETS):
        if said := is_refused(recorded(name)):
            yield "%s was refused: %s" % (name, said)
    for name, change, why, told in PLANTED:
        record = copy.deepcopy(recorded(name))
        change(record)
        said = is_refused(record)
        if not said.startswith(told):
            yield "%s, where %s: %s" % (name, why, said or "the checker found an order")
    for told, story, why in STORIES:
        said = is_refused(story.record())
        if bool(said) != bool(why) or said.startswith("not decided"):
            yield "%s, where %s: %s" % (told, why or "nothing is wrong", said or "the checker found an order")


def refused() -> int:
    """How many wrong histories were refused, or None where the checker was wrong about one."""
    lines = list(wrong_lines())
    for line in lines:
        print(line)
    return None if lines else len(PLANTED) + sum(why is not None for _told, _story, why in STORIES)


if __name__ == "__main__":
    found = refused()
    print("the checker was wrong" if found is None else "%d wrong histories refused" % found)
    sys.exit(found is None)
