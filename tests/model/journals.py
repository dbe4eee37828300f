"""The bookings that a journal leaves for a catalogue."""
import pathlib
import sys

from catalogue import Catalogue, TravelClass
from export import read_export

sys.path.append(str(pathlib.Path(__file__).resolve().parent.parent / "journal"))
import text  # noqa: E402  (the form of a journal, from its rules)

LARGEST_JOURNAL = 4_294_967_295


def print_of(catalogue: Catalogue) -> bytes:
    """The sum of what places mean: each run's train and stations, each place's run, coach, number and class."""
    lines = ["rail-print 1"]
    lines += ["run %d %s" % (run.train, " ".join(stop.station for stop in run.stops)) for run in catalogue.runs]
    lines += [" %d %d %d %s" % (place.run, place.coach, place.label, "F" if place.travel_class is TravelClass.FIRST else "S")
              for place in catalogue.places]
    return text.digest("".join(line + "\n" for line in lines).encode("ascii"))


def recovered(catalogue: Catalogue, data: bytes) -> bytes:
    """The export that a journal of the catalogue folds to, with which its books open."""
    found = text.read(data)
    if found.print != print_of(catalogue):
        raise text.JournalFault("journal fault 4")
    read_export(catalogue, found.export())
    return found.export()
