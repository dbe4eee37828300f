#!/usr/bin/env python3
"""Random edits of real journals, and journals whose lines make a refused export: a named refusal, or what the untouched cuts say.

  tests/journal/edits.py PROGRAM [--edits N] [--exports N] [--seed N] [--save FOLDER]

`recover` reads each text (10,000 edits and 2,000 exports). Its status, output and note have to be those that the rules of the form and the model
come to; it never changes the file. An edit changes bytes, cuts, lines or numbers, with the sums of the changed cut left as they are or made
right again. The exports are those that the model's random changes give, written as the lines of a journal's one cut. --save keeps the texts
that failed.
"""
import argparse
import collections
import concurrent.futures
import os
import random
import re
import sys
import tempfile

import text
import world
from expected import NOTE, recovered, sold
from world import catalogue, catalogue_bytes

from catalogue import read_catalogue  # noqa: E402  (of the model, whose path world adds)
from random_exports import changed_export  # noqa: E402

CUTS, JOURNALS = 30, 4
NUMBERS = [b"0", b"1", b"2", b"00", b"01", b"", b"-1", b"255", b"256", b"65536", b"262144", b"262145", b"4294967296",
           b"18446744073709551615", b"18446744073709551616", b"99999999999999999999999"]
SOLD = b"row 0 0 P 1 4000000000 600 1 0.0.1\n"
# The lines of a journal's one cut, and the fault of the export that they make.
REFUSED = [
    ([b"row 0 x\n"], "export fault 1"),
    ([b"row 0 0 P 1 4000000000 600 1 0.0.9\n"], "export fault 3"),
    ([SOLD, b"row 1 0 C 1 4000000000 600 2 1.0.1 0.0.2\n"], "export fault 4"),
    ([b"row 0 1 x 1 4000000000 600 1 0.0.1 p0 1 0.0\n"], "export fault 5"),
]


class Edits:
    """Changes of a journal's text."""

    def __init__(self, rng: random.Random, data: bytes):
        self.rng, self.data, self.journal = rng, data, text.read(data)

    def text(self) -> bytes:
        return self.rng.choice([self.byte, self.byte, self.span, self.number, self.cuts, self.lines, self.lines, self.head, self.noise])()

    def spot(self) -> int:
        """A byte, more often one near the end or the beginning."""
        size = len(self.data)
        return self.rng.choice([self.rng.randrange(size), self.rng.randrange(max(size - 300, 0), size), self.rng.randrange(min(size, 200))])

    def byte(self) -> bytes:
        at, kind = self.spot(), self.rng.randrange(3)
        other = bytes([self.rng.choice([self.rng.randrange(256), 0, 10, 32, 48, 57])])
        return self.data[:at] + [other + self.data[at + 1:], self.data[at + 1:], other + self.data[at:]][kind]

    def span(self) -> bytes:
        """A part that is left out, stands twice, or stands elsewhere too."""
        begin, to = self.spot(), self.spot()
        part = self.data[begin:begin + self.rng.choice([1, 10, 100, 1_000])]
        kind = self.rng.randrange(3)
        if kind == 0:
            return self.data[:begin] + self.data[begin + len(part):]
        return self.data[:to] + part + self.data[to + (len(part) if kind == 1 else 0):]

    def number(self) -> bytes:
        found = self.rng.choice(list(re.finditer(rb"(?<![0-9a-f])[0-9]+(?![0-9a-f])", self.data)))
        return self.data[:found.start()] + self.rng.choice(NUMBERS) + self.data[found.end():]

    def cuts(self) -> bytes:
        """Cuts that are left out, stand twice, change places, or stand after a torn end."""
        cuts = [self.data[cut.start:cut.end] for cut in self.journal.cuts]
        at, kind = self.rng.randrange(len(cuts)), self.rng.randrange(4)
        if kind == 0:
            del cuts[at]
        elif kind == 1:
            cuts.insert(self.rng.randrange(len(cuts)), cuts[at])
        elif kind == 2:
            cuts.append(cuts.pop(at))
        else:
            cuts[at] = cuts[at][:self.rng.randrange(len(cuts[at]))]
        return self.data[:self.journal.cuts[0].start] + b"".join(cuts)

    def lines(self) -> bytes:
        """A cut with other lines, whose own sum is right, and those of the cuts after it too, or not."""
        bodies = [cut.body.splitlines(keepends=True) for cut in self.journal.cuts]
        at = self.rng.randrange(len(bodies))
        bodies[at] = self.changed_lines(bodies[at])
        written = text.journal(self.journal.places, self.journal.rows, self.journal.print, bodies)
        return written if self.rng.random() < 0.7 else written[:text.read(self.data).cuts[at].start + 300] + self.data[self.journal.cuts[at].end:]

    def changed_lines(self, lines: list) -> list:
        lines, kind = list(lines), self.rng.randrange(5)
        if not lines or kind == 0:
            return lines + [self.rng.choice([b"row 255 0 P 1 1 1 1 0.0.1\n", b"row 256 0 P 1 1 1 1 0.0.1\n", b"row \n", b"\n", b"row 3 x\n", b"row 4"])]
        at = self.rng.randrange(len(lines))
        if kind == 1:
            lines[at] = self.rng.choice([b"", b"row", lines[at][:-1], lines[at] * 2])
        elif kind == 2:
            lines.reverse()
        else:
            fields = lines[at][:-1].split(b" ")
            fields[self.rng.randrange(len(fields))] = self.rng.choice(NUMBERS + [b"P", b"x", b"r", b"-", b"0.0"])
            lines[at] = b" ".join(fields) + b"\n"
        return lines

    def head(self) -> bytes:
        """Another first line, with the sums that follow from it or not."""
        places, rows, own = self.journal.places, self.journal.rows, self.journal.print
        places, rows, own = self.rng.choice([(places + 1, rows, own), (places, rows - 1, own), (places, 262_145, own), (places, 2 * rows, own),
                                             (places, rows, own[::-1]), (places, rows, own.upper()), (places, rows, own[:-1]), (0, 0, own)])
        if self.rng.random() < 0.3:
            return text.head(places, rows, own) + self.data[self.journal.cuts[0].start:]
        return text.journal(places, rows, own, [cut.body.splitlines(keepends=True) for cut in self.journal.cuts])

    def noise(self) -> bytes:
        part = self.data[self.rng.randrange(len(self.data)):][:self.rng.choice([0, 1, 20, 500])]
        return self.rng.choice([part, bytes(len(part)), self.data + part, part + self.data, self.data.replace(b"\n", b"\r\n")])


def own_print(other: bytes) -> bytes:
    """A print that isn't this one."""
    return (b"1" if other.startswith(b"0") else b"0") + other[1:]


class Trial:
    def __init__(self, program: str, folder: str, seed: int, save: str):
        own = catalogue(256)
        world.write(folder, "k.json", catalogue_bytes(own))
        self.program, self.folder, self.rng, self.save = program, folder, random.Random(seed), save
        self.model, self.faults, self.met = read_catalogue(catalogue_bytes(own)), [], collections.Counter()
        self.journals = []
        for number in range(JOURNALS):
            self.journals.append(sold(program, folder, own, CUTS, seed + number))
            os.remove(os.path.join(folder, world.JOURNAL))
        self.print = text.read(self.journals[0]).print

    def edit(self) -> bytes:
        return Edits(self.rng, self.rng.choice(self.journals)).text()

    def export(self) -> bytes:
        """A journal with the lines of an export that was changed."""
        changed = changed_export(self.rng, text.read(self.rng.choice(self.journals)).export())
        lines = changed.splitlines(keepends=True)[1:-1]
        journal = text.read(self.journals[0])
        return text.journal(journal.places, journal.rows, self.print, [lines])

    def refused(self) -> list:
        """A text for each fault, with its note."""
        journal, last = text.read(self.journals[0]), text.read(self.journals[0]).cuts[-1]

        def made(lines, rows=journal.rows, own=self.print):
            return text.journal(journal.places, rows, own, [lines])

        texts = [(made(lines), fault) for lines, fault in REFUSED]
        texts += [(made([SOLD], journal.rows - 1), "export fault 2"), (made([SOLD], own=own_print(self.print)), "journal fault 4")]
        texts += [(made([SOLD, SOLD]), "journal fault 2 at line 2 of cut 1"), (b"x" + self.journals[0], "journal fault 1")]
        whole = self.journals[0]
        return texts + [(whole[:last.start - 1] + whole[last.start:], "journal fault 3 at cut %d" % (last.number - 1))]

    def try_refused(self, case: tuple):
        data, fault = case
        world.write(self.folder, "refused", data)
        if (came := world.recover(self.program, self.folder, "refused")) != (1, b"", NOTE % fault):
            self.faults.append("a text with %s: %s" % (fault, came))

    def recover(self, number: int, data: bytes):
        wanted = recovered(self.model, self.print, data)
        name = "edit%d" % number
        world.write(self.folder, name, data)
        came = world.recover(self.program, self.folder, name)
        self.met[wanted[2].strip() or "taken"] += 1
        if came != wanted or world.read(self.folder, name) != data:
            self.faults.append("text %d: %s and not %s" % (number, str(came)[:300], str(wanted)[:300]))
            if self.save:
                world.write(self.save, name, data)
        os.remove(os.path.join(self.folder, name))


def main() -> int:
    parser = argparse.ArgumentParser(description=__doc__, formatter_class=argparse.RawDescriptionHelpFormatter)
    parser.add_argument("program")
    parser.add_argument("--edits", type=int, default=10_000)
    parser.add_argument("--exports", type=int, default=2_000)
    parser.add_argument("--seed", type=int, default=1)
    parser.add_argument("--save")
    given = parser.parse_args()
    with tempfile.TemporaryDirectory() as folder:
        trial = Trial(os.path.abspath(given.program), folder, given.seed, given.save)
        texts = [trial.edit() for _ in range(given.edits)] + [trial.export() for _ in range(given.exports)]
        with concurrent.futures.ThreadPoolExecutor(4) as pool:
            list(pool.map(trial.recover, range(len(texts)), texts))
        for case in trial.refused():
            trial.try_refused(case)
    for fault in trial.faults[:10]:
        print(fault)
    print("%d journals, %d of them taken, %d notes met, %d faults" % (len(texts), trial.met["taken"], len(trial.met), len(trial.faults)))
    return 1 if trial.faults or not 0 < trial.met["taken"] < len(texts) else 0


if __name__ == "__main__":
    sys.exit(main())
