#!/usr/bin/env python3
"""Writes examples/k1.json for another day.

  examples/k1.py [--day YYYY-MM-DD] > CATALOGUE

Without --day the output is examples/k1.json, whose trains leave on 2026-06-01. A host sells what has not departed yet, so a host that runs by
the system's clock wants a day to come. Moments are in UTC.
"""
import argparse
import datetime
import pathlib

DAY = "2026-06-01"


def main():
    words = argparse.ArgumentParser(description=__doc__, formatter_class=argparse.RawDescriptionHelpFormatter)
    words.add_argument("--day", default=DAY, type=datetime.date.fromisoformat)
    text = (pathlib.Path(__file__).parent / "k1.json").read_text()
    print(text.replace(DAY, words.parse_args().day.isoformat()), end="")


main()
