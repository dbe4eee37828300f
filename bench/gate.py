#!/usr/bin/env python3
"""Processor seconds and greatest memory of a run of `rt ci`, by crate: its proof, its tests' proof, and each must-fail edit.

  bench/gate.py [--save FILE] [--edits]               starts `rt ci` here and goes along with it
  bench/gate.py [--save FILE] [--edits] --pid PID     goes along with a run that is on its way (PID is that of `rt ci`)
  bench/gate.py --join RUN.. --save FILE              the saved runs of one tree, of which each goes on where the one before was ended, as one
  bench/gate.py --compare BEFORE AFTER [--new NAME..]  two saved runs, crate by crate; the crates named hold only what came since
  bench/gate.py --show RUN [--crates FILE] [--edits]  a saved run; FILE is its tree's crates.txt, where that isn't saved with it

After the table comes the longest chain of crates, each of which stands on the one before: the seconds of their proofs, one job each, with
the proof of the last one's tests. And how long processors would need that do one task each, computed from the table: next is a proof
with the longest chain behind it, and edits where no proof is ready.

The processes of the run are looked up in /proc five times a second, so a process counts up to a fifth of a second too little. The seconds are
those of the processor, and grow by a tenth or more where other work shares caches and memory: compare runs of one machine in one state.
"""
import argparse
import collections
import json
import os
import pathlib
import re
import statistics
import subprocess
import sys
import time

ROOT = pathlib.Path(__file__).resolve().parent.parent
TICK = os.sysconf("SC_CLK_TCK")
EACH_SECONDS = 0.2
MEMORY_EACH = 5  # samples
LEAST_PROOF = 5.0  # seconds of a proof that tells how fast a machine is
CRATE = re.compile(r"--crate-name\0(\w+)")
PARTS = ("proof", "tests", "before edits", "edits", "runs")


def read_edit(path):
    """The file that an edit changes, and its pairs of old and new lines."""
    file, pairs = None, []
    for line in path.read_text().splitlines():
        word, _, text = line.partition(": ")
        if word == "file":
            file = text
        elif word == "old":
            pairs.append([text, ""])
        elif word == "new" and pairs:
            pairs[-1][1] = text
    return file, pairs


def edit_of(room, crate_folder):
    """The name of the edit that was applied to a copy of a crate, or None where the copy is the crate as it stands."""
    for path in sorted((crate_folder / "must-fail").glob("*.edit")):
        file, pairs = read_edit(path)
        try:
            text, there = (crate_folder / file).read_text(), (room / file).read_text()
        except (OSError, TypeError):
            continue
        for old, new in pairs:
            text = text.replace(old, new)
        if text == there:
            return path.stem
    return None


class Process:
    def __init__(self, number):
        self.number = number
        with open("/proc/%d/stat" % number) as file:
            words = file.read().rpartition(")")[2].split()
        self.parent, self.born = int(words[1]), int(words[19])
        self.own = (int(words[11]) + int(words[12])) / TICK
        self.waited_for = (int(words[13]) + int(words[14])) / TICK  # of children that have ended

    def command(self):
        with open("/proc/%d/cmdline" % self.number) as file:
            return file.read()

    def folder(self):
        return pathlib.Path(os.readlink("/proc/%d/cwd" % self.number))

    def memory(self):
        with open("/proc/%d/smaps_rollup" % self.number) as file:
            return int(re.search(r"^Pss:\s+(\d+)", file.read(), re.MULTILINE).group(1)) * 1024


def processes():
    found = {}
    for name in os.listdir("/proc"):
        if name.isdigit():
            try:
                found[int(name)] = Process(int(name))
            except (OSError, IndexError):
                pass  # it has ended meanwhile
    return found


class Task:
    """A process that `rt ci` started, with those below it."""

    def __init__(self, process, crates):
        self.seconds, self.memory = 0.0, 0
        command, folder = process.command(), process.folder()
        named = CRATE.search(command) or re.search(r"/crates/(\w+)/out/", command)
        self.crate, self.edit = named.group(1) if named else None, None
        if named is None or "--crate-name" not in command or "--crate-checked" in command:
            self.part = "runs"
        elif folder.name.startswith("rt-edit-"):
            self.edit = edit_of(folder, crates / self.crate)
            self.part = "edits" if self.edit else "before edits"
        else:
            self.part = "tests" if "\0--test\0" in command else "proof"


class Run:
    def __init__(self, root, crates):
        self.root, self.crates = root, crates
        self.tasks, self.samples, self.own, self.total = {}, 0, 0.0, 0.0

    def sample(self):
        """Whether the run is still on its way."""
        found = processes()
        root = found.get(self.root)
        if root is None:
            return False
        below = collections.defaultdict(list)
        for process in found.values():
            below[process.parent].append(process)
        self.samples += 1
        self.own, self.total = root.own, root.own + root.waited_for
        for top in below[self.root]:
            self.follow(top, below)
        return True

    def follow(self, top, below):
        try:
            task = self.tasks.get((top.number, top.born)) or Task(top, self.crates)
        except OSError:
            return
        self.tasks[top.number, top.born] = task
        group, at = [top], 0
        while at < len(group):
            group += below[group[at].number]
            at += 1
        task.seconds = max(task.seconds, sum(process.own + process.waited_for for process in group))
        if self.samples % MEMORY_EACH == 0:
            task.memory = max(task.memory, sum(map(memory_of, group)))

    def rows(self):
        """Each crate's seconds and memory by part, and its edits' seconds."""
        rows = collections.defaultdict(lambda: {"seconds": collections.Counter(), "memory": collections.Counter(), "edits": collections.Counter()})
        for task in self.tasks.values():
            row = rows[task.crate or "(others)"]
            row["seconds"][task.part] += task.seconds
            row["memory"][task.part] = max(row["memory"][task.part], task.memory)
            if task.edit:
                row["edits"][task.edit] += task.seconds
        return {name: {part: dict(numbers) for part, numbers in row.items()} for name, row in rows.items()}


def memory_of(process):
    try:
        return process.memory()
    except (OSError, AttributeError):
        return 0


def table(titles, rows):
    rows = [titles] + [[str(cell) for cell in row] for row in rows]
    widths = [max(len(row[at]) for row in rows) for at in range(len(titles))]
    for number, row in enumerate(rows):
        print("| " + " | ".join(cell.ljust(width) if at == 0 else cell.rjust(width) for at, (cell, width) in enumerate(zip(row, widths))) + " |")
        if number == 0:
            print("|" + "|".join("-" * (width + 2) for width in widths) + "|")


def sum_of(row):
    return sum(row["seconds"].values())


def read_lines(path):
    """The libraries that each crate names in a crates.txt."""
    lines = re.findall(r"^(\w+)[^:#\n]*:([^#\n]*)", path.read_text(), re.MULTILINE)
    return {crate: names.split() for crate, names in lines}


class Chains:
    """The chains of crates that stand on each other, by the seconds of a run."""

    def __init__(self, rows, lines):
        self.seconds = {name: row["seconds"] for name, row in rows.items()}
        self.lines = {name: [below for below in lines.get(name, []) if below in rows] for name in rows}
        self.found = {}

    def up_to(self, name):
        """The longest chain that ends with this crate's proof: its seconds, and its crates."""
        if name not in self.found:
            seconds, names = max((self.up_to(below) for below in self.lines[name]), default=(0.0, []))
            self.found[name] = seconds + self.seconds[name].get("proof", 0), names + [name]
        return self.found[name]

    def longest(self):
        """The longest of all, with the tests of its last crate."""
        ends = {name: self.seconds[name].get("tests", 0) for name in self.lines}
        last = max(self.lines, key=lambda name: self.up_to(name)[0] + ends[name])
        return self.up_to(last)[0] + ends[last], self.up_to(last)[1]


def tasks_of(rows, lines):
    """What a run has to do: each task's seconds, and the tasks that it waits for."""
    tasks = {}
    for name, row in rows.items():
        seconds, proof = row["seconds"], (name, "proof")
        before = [(name, "before edits")] if seconds.get("before edits") else [proof]
        tasks[proof] = seconds.get("proof", 0), [(below, "proof") for below in lines.get(name, []) if below in rows]
        for part in ("tests", "runs", "before edits"):
            if seconds.get(part):
                tasks[name, part] = seconds[part], [proof]
        tasks |= {(name, edit, "edits"): (spent, before) for edit, spent in row["edits"].items()}
    return tasks


def seconds_behind(tasks):
    """The seconds of each task with the longest chain of those that wait for it."""
    above, found = collections.defaultdict(list), {}
    for key, (_, waits) in tasks.items():
        for it in waits:
            above[it].append(key)

    def of(key):
        if key not in found:
            found[key] = tasks[key][0] + max(map(of, above[key]), default=0)
        return found[key]

    return {key: of(key) for key in tasks}


def time_on(processors, tasks):
    """How long so many processors need that do one task each, as `rt ci` chooses the next one."""
    behind = seconds_behind(tasks)
    left = sorted(tasks, key=lambda key: (key[-1] in ("edits", "before edits"), -behind[key]))
    now, running, ended = 0.0, {}, set()
    while left or running:
        for key in [it for it in left if ended.issuperset(tasks[it][1])][: processors - len(running)]:
            left.remove(key)
            running[key] = now + tasks[key][0]
        key = min(running, key=running.get)
        now = running.pop(key)
        ended.add(key)
    return now


def show_times(saved, lines):
    rows = saved["crates"]
    seconds, names = Chains(rows, lines).longest()
    links = ["%s %.0f" % (name, rows[name]["seconds"].get("proof", 0)) for name in names]
    tests = rows[names[-1]]["seconds"].get("tests", 0)
    print("\nthe longest chain %.0f s (%.1f minutes): %s%s" % (seconds, seconds / 60, " > ".join(links), " > its tests %.0f" % tests if tests else ""))
    tasks = tasks_of(rows, lines)
    for processors in (2, 4):
        print("on %d processors, one task each, computed: %.0f minutes" % (processors, time_on(processors, tasks) / 60))


def show(saved, with_edits):
    rows, lines = saved["crates"], []
    for name, row in sorted(rows.items(), key=lambda entry: -sum_of(entry[1])):
        edits = row["edits"]
        cells = ["%.0f" % row["seconds"].get(part, 0) for part in PARTS[:4]]
        greatest = "%.0f %s" % max((seconds, edit) for edit, seconds in edits.items()) if edits else "-"
        lines.append([name, *cells, len(edits), greatest, "%.0f" % row["seconds"].get("runs", 0), "%.0f" % sum_of(row),
                      "%.1f" % (max(row["memory"].values(), default=0) / 1e9)])
    whole = [sum(row["seconds"].get(part, 0) for row in rows.values()) for part in PARTS]
    count = sum(len(row["edits"]) for row in rows.values())
    lines.append(["all", *("%.0f" % part for part in whole[:4]), count, "", "%.0f" % whole[4], "%.0f" % sum(whole), ""])
    table(["crate", "proof s", "tests' proof s", "before edits s", "edits s", "edits", "greatest edit s", "runs s", "all s", "memory GB"], lines)
    print("\nrt itself %.0f s; by the system's count the run took %.0f s of processor; %.0f s went by" % (saved["rt"], saved["total"], saved["wall"]))
    if with_edits:
        print()
        every = [(seconds, name, edit) for name, row in rows.items() for edit, seconds in row["edits"].items()]
        table(["edit", "crate", "s"], [[edit, name, "%.0f" % seconds] for seconds, name, edit in sorted(every, reverse=True)])


def join(runs):
    """What one tree cost over several runs: a run takes what an earlier one proved as it is, so each proof and each edit stands in one of them."""
    whole = {"rt": 0.0, "total": 0.0, "wall": 0.0, "crates": {}}
    for run in runs:
        for part in ("rt", "total", "wall"):
            whole[part] += run[part]
        whole["lines"] = run.get("lines") or whole.get("lines")
        for name, row in run["crates"].items():
            crate = whole["crates"].setdefault(name, {"seconds": collections.Counter(), "memory": collections.Counter(), "edits": collections.Counter()})
            crate["seconds"].update(row["seconds"])
            crate["edits"].update(row["edits"])
            crate["memory"] |= collections.Counter(row["memory"])  # the greater of two
    return whole


def cells_of(row):
    return [row["seconds"].get(part, 0) for part in PARTS[:4]] + [sum_of(row)] if row else [0.0] * 5


def pace(before, after):
    """The median, over the crates of both runs, of what a crate's own proof took after by what it took before: how fast the machines are."""
    pairs = [(before[name]["seconds"].get("proof", 0), after[name]["seconds"].get("proof", 0)) for name in set(before) & set(after)]
    return statistics.median([two / one for one, two in pairs if one >= LEAST_PROOF and two >= LEAST_PROOF] or [1.0])


def compare(before, after, new):
    """Two runs, crate by crate. Apart from the rest stand the crates that are named: they hold only what came since."""
    names = sorted(set(before["crates"]) | set(after["crates"]), key=lambda name: (name in new, name))
    sums, lines = {False: [0.0] * 10, True: [0.0] * 10}, []
    for name in names:
        pairs = list(zip(*(cells_of(run["crates"].get(name)) for run in (before, after))))
        sums[name in new] = [a + b for a, b in zip(sums[name in new], [number for pair in pairs for number in pair])]
        lines.append([name, *("%.0f > %.0f" % pair for pair in pairs)])
    for title, sum_row in (("all but the new", sums[False]), ("the new", sums[True])):
        lines.append([title, *("%.0f > %.0f" % (sum_row[at], sum_row[at + 1]) for at in range(0, 10, 2))])
    table(["crate", "proof s", "tests' proof s", "before edits s", "edits s", "all s"], lines)
    known, whole = sums[False], sums[False][9] + sums[True][9]
    print("\nafter by before, without the new crates: %.2f; with them: %.2f" % (known[9] / (known[8] or 1), whole / (known[8] or 1)))
    median = pace(before["crates"], after["crates"])
    print("the crates' own proofs, after by before: %.2f by the median, which is the machine's part of it; without it %.2f for all but the new" % (median, known[9] / (known[8] or 1) / median))
    print("in one of the two runs alone: %s" % " ".join(sorted(set(before["crates"]) ^ set(after["crates"]))))


def read_run(name):
    return json.loads(pathlib.Path(name).read_text())


def finish(run, given):
    if given.save:
        pathlib.Path(given.save).write_text(json.dumps(run, indent=1))
    show(run, given.edits)
    show_times(run, run.get("lines") or read_lines(given.crates))


def main():
    words = argparse.ArgumentParser(description=__doc__, formatter_class=argparse.RawDescriptionHelpFormatter)
    words.add_argument("--pid", type=int)
    words.add_argument("--save", metavar="FILE")
    words.add_argument("--edits", action="store_true", help="list each edit")
    words.add_argument("--join", nargs="+", metavar="RUN")
    words.add_argument("--compare", nargs=2, metavar=("BEFORE", "AFTER"))
    words.add_argument("--new", nargs="+", metavar="NAME", default=[], help="crates of AFTER that hold only what came since")
    words.add_argument("--show", metavar="RUN")
    words.add_argument("--crates", metavar="FILE", type=pathlib.Path, default=ROOT / "crates.txt")
    given = words.parse_args()
    if given.compare:
        return compare(*map(read_run, given.compare), given.new)
    if given.show:
        return finish(read_run(given.show), given)
    if given.join:
        return finish(join(map(read_run, given.join)), given)
    if given.pid:
        root = given.pid
        started, top = None, Process(root).folder()
    else:
        top = ROOT
        started = subprocess.Popen(["rt", "ci"], cwd=top)
        root = started.pid
    run, began, lines = Run(root, top / "crates"), time.time(), read_lines(top / "crates.txt")
    while run.sample() and (started is None or started.poll() is None):
        time.sleep(EACH_SECONDS)
    finish({"rt": run.own, "total": run.total, "wall": time.time() - began, "lines": lines, "crates": run.rows()}, given)
    return started.wait() if started else 0


if __name__ == "__main__":
    sys.exit(main())
