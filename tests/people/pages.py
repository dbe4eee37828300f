#!/usr/bin/env python3
"""Runs every command of docs/retailers.md as it stands, by a clock that is set, and once over `serve`; and the commands of other pages.

  tests/people/pages.py PROGRAM                 docs/retailers.md, docs/catalogue.md, docs/settlement.md, examples/README.md
  tests/people/pages.py PROGRAM --operators     docs/operators.md, which needs nginx
  tests/people/pages.py PROGRAM --trial         docs/retailers.md over the host without proofs that it shows, which takes some minutes

The commands are those of the page's blocks marked `sh`, together one script of bash that stops at the first one that fails. Only the port, the
folder /tmp and the program's path are others. By a set clock, `serve` is played by a `replay` whose clock the test sets (bridge.py), and
`date` says that clock. What the page says that comes of it is looked for in the output.
"""
import concurrent.futures
import contextlib
import os
import pathlib
import re
import shlex
import shutil
import signal
import subprocess
import sys
import tempfile

from bridge import Bridge

ROOT = pathlib.Path(__file__).resolve().parents[2]
sys.path.append(str(ROOT / "tests"))
from ports import free_port  # noqa: E402

BUILT = "crates/rail_host/out/rail_host"
TODAY, TOMORROW = "2026-06-09", "2026-06-10"
CLOCKS = ["00:30:00", "12:00:00", "23:30:00"]
# What has to stand in the output of docs/retailers.md, in this order; `.*` may be anything.
LIFE = [
    r"ask for refund .* 201 ",
    r"refund .* 200 +REFUNDED",
    r"exchange .* 201 +CONFIRMED",
    r"release .* 200 +RELEASED",
    r'\{"offers":\[\{"id":"O',
    r"departs +arrives +price +free +trains\n.*\n20..-..-..T06:04:00Z  20..-..-..T08:07:00Z  57.50 EUR ",
    r"\n3\d of 1\d\d offers, in 12 searches",
    r'"settled":false,"status":"PREBOOKED"',
    r'"settled":false,"status":"CONFIRMED"',
    r'"settled":true,"status":"RELEASED"',
    r'\{"difference":.*"id":"X',
    r'\{"booking":.*"status":"CONFIRMED".*"replaced":"B',
    r'"settled":true,"status":"EXCHANGED","successor":"B',
    r'"settled":false,"status":"FULFILLED"',
    r'\{"amount":.*"id":"R',
    r'"settled":true,"status":"REFUNDED"',
    r"Ticket B000009, CONFIRMED, 23.00 EUR\n  20..-..-..  train 1007  06:34Z HARBOUR - 07:22Z CAPITAL  second class, coach 2, place 2\n",
    r'"status":"REFUNDED"',
    r'\{"places":\[\{"class":"FIRST","coach":1,"free":',
    r"kept +GET /bookings/B0000\d\d +CONFIRMED",
]
JOURNAL = "docs/journal.md"
# Pages whose commands end with the status beside them.
PLAIN_PAGES = [("examples/README.md", 6), ("docs/catalogue.md", 0), ("docs/settlement.md", 0), (JOURNAL, 0)]
OPERATORS = "docs/operators.md"
# What has to stand in the output of docs/journal.md, in this order.
KEPT = [
    r'"id":"B000000".*"status":"PREBOOKED"',
    r'\n(\{.*"id":"B000000".*"status":"CONFIRMED"\})\n(?:.*\n)*killed: status 137\n\1\n',
    r"row 0 0 C 1 \d+ 1400 2 24\.0\.1 25\.0\.1\nend 1\nretailer,bookings,live,sold,refunded,exchanged\n1,1,1,1400,0,0\n",
    r"rail_host: journal locked\nstatus 1\n(?:.*\n)*stopped: status 143\n",
]
# From here on a page's commands want a system that runs systemd: tests/people/booted.
ENDS = {OPERATORS: "## As a service"}
# What has to stand in the output of docs/operators.md, in this order.
OPERATION = [
    r"the host takes this catalogue: 1 runs, 92 places",
    r"the catalogue is taken",
    r'\{"expired":0,"lost":0,"waiting":0\}',
    r'\{"places":\[',
    r"status 0",
    r"[0-9a-f]{64}  ",
    r"north 404\nsouth 404\neast 401\nnorth 404\nsouth 404\n",
    r"pool=unkept .*\n.*pool=retailer_1 .*\n.*pool=retailer_2 ",
    r"release .* 200 +RELEASED",
    r"Ticket B000002, CONFIRMED, 23.00 EUR\n  20..-..-..  train ",
    r'"id":"B000000".*"status":"PREBOOKED"',
    r'"id":"B000000".*"status":"CONFIRMED"',
    r"stopped: status 143\n",
    r'"id":"B000000".*"status":"CONFIRMED"',
    r"stopped: status 143\nend 1\nretailer,bookings,live,sold,refunded,exchanged\n1,1,1,1400,0,0\nforgotten,0,0,0,0,0",
    r"changed: ticketFee: 200 -> 250\nchanged: retailer 3: another key\nsame-seats: the 52992 places of 288 runs are the same seats\nstatus 1\n",
    r"place 24: .*coach 2 seat 1 SECOND WINDOW QUIET -> .*coach 7 seat 1 SECOND WINDOW QUIET\nsame-seats: the seats are not the same: 48 lines\n",
    r"Train 1001 of .*, run 0: HARBOUR 05:04 to SUMMIT ",
    r"2,1,SECOND,WINDOW QUIET,HARBOUR,DUNES,B000000,1,CONFIRMED\n2,2,SECOND,WINDOW QUIET,HARBOUR,DUNES,B000000,1,CONFIRMED\n",
    r"amend: bookings touched: 1; owed: 0.00 EUR\n",
    r"B000000,1,CONFIRMED,moved,0,1001,.*,HARBOUR,DUNES,2/1 2/2,1,1003,.*,.*T05:34:00Z,2/1 2/2,0\n",
    r'"id":"B000000",.*"run":1,"to":"DUNES","train":1003\}.*"status":"CONFIRMED"',
    r"B000000,reseated,2/1 2/2,2/101 2/102\nthe host takes it\n",
    r"roll: runs over: 288; coming runs in their slots: 288, at the end: 0, there already: 0\n",
    r"roll: bookings archived: 1, kept: 0 live and 0 ended; rows never used: 65535 of 65536\n",
    r"B000000,1,CONFIRMED,1400,,,,train 1001 of .* HARBOUR to DUNES 2/1 2/2\n",
    r"row 0 0 r 0 0 0 1 0.0.1 p0 0 -\nend 1\n",
    r"retailer,bookings,live,sold,refunded,exchanged\n1,1,0,1400,0,0\nthe host begins with the next day\n",
    r'"id":"B000000".*"status":"PREBOOKED"',
    r'"id":"B000000".*"status":"CONFIRMED"',
    r"closed: 502\n",
    r"end 1\n",
    r'"id":"B000000".*"status":"CONFIRMED"',
    r"the same bookings\n",
]


def commands_of(page):
    text = (ROOT / page).read_text().split(ENDS.get(page, "\0"))[0]
    return "\n".join(re.findall(r"^```sh\n(.*?)^```$", text, re.MULTILINE | re.DOTALL))


def executable(path, text):
    path.write_text(text)
    path.chmod(0o755)
    return path


def with_trial(commands):
    """The commands of docs/retailers.md with the host that `rt try` starts in the place of the proved one."""
    page = (ROOT / "docs" / "retailers.md").read_text()
    trial = re.search(r"^    (\(cd crates/rail_host && rt try .*?\) &)$", page, re.MULTILINE | re.DOTALL).group(1)
    proved = re.search(r"^%s serve .* &$" % re.escape(BUILT), commands, re.MULTILINE).group(0)
    return commands.replace(proved, trial)


def with_ports(text, ports):
    return re.sub("|".join(ports), lambda found: ports[found.group(0)], text)


def run_page(page, program, folder, path=None, change=lambda commands: commands):
    """The output of the page's commands, and their status."""
    folder = pathlib.Path(folder)
    ports = {port: str(free_port()) for port in ["8080", "8081", "8443"]}
    text = with_ports(change(commands_of(page)), ports).replace("/tmp/", str(folder) + "/").replace(BUILT, shlex.quote(str(program)))
    # The examples with the same other ports, beside what else a page's commands look at.
    tree = folder / "tree"
    shutil.copytree(ROOT / "examples", tree / "examples")
    for name in ("bench", "crates", "tools"):
        (tree / name).symlink_to(ROOT / name)
    proxy = tree / "examples" / "nginx.conf"
    proxy.write_text(with_ports(proxy.read_text(), ports))
    # The workers of an nginx that root has started are another user's, and have to reach the page.
    folder.chmod(0o755)
    env = dict(os.environ, PATH="%s:%s" % (path, os.environ["PATH"]) if path else os.environ["PATH"])
    # A group of its own, so that nothing that a failing page has started is left, and keeps the pipe open.
    done = subprocess.Popen(["bash", "-c", "set -eu\n" + text], cwd=tree, env=env, stdin=subprocess.DEVNULL, stdout=subprocess.PIPE, stderr=subprocess.STDOUT, text=True, start_new_session=True)
    with concurrent.futures.ThreadPoolExecutor(1) as reader:
        said = reader.submit(done.stdout.read)
        try:
            done.wait(timeout=900)
        finally:
            end_all(done.pid, folder / "proxy" / "nginx.pid")
        return said.result(timeout=60), done.returncode


def end_all(group, nginx):
    """Ends what a failing page has left: its group, and an nginx, which has a group of its own."""
    with contextlib.suppress(ProcessLookupError):
        os.killpg(group, signal.SIGKILL)
    with contextlib.suppress(ProcessLookupError, FileNotFoundError):
        os.kill(int(nginx.read_text()), signal.SIGTERM)


def faults_of_life(said, status):
    if status not in (0, 128 + signal.SIGTERM):
        yield "status %d\n%s" % (status, said[-1500:])
    if '"code":"' in said:
        yield "a refusal: %s" % re.search(r'\{"code":.*', said).group(0)
    yield from missing(LIFE, said)


def missing(wished, said):
    at = 0
    for wanted in wished:
        found = re.compile(wanted).search(said, at)
        if not found:
            yield "%s doesn't come, or not in its turn" % wanted
            break
        at = found.end()


def clocked(program, folder, clock):
    """A program whose `serve` has the clock, and a `date` that says it."""
    host = "#!/bin/sh\nexec %s %s --clock %s %sT%sZ \"$@\"\n" % (sys.executable, pathlib.Path(__file__).resolve(), shlex.quote(str(program)), TODAY, clock)
    date = '#!/bin/sh\n[ "$*" = "-u -d tomorrow +%%F" ] && echo %s\n' % TOMORROW
    bin_folder = folder / "bin"
    bin_folder.mkdir()
    executable(bin_folder / "date", date)
    return executable(folder / "host", host), bin_folder


def play_clock(words):
    """`serve CATALOGUE --port N` by a clock that is set: what the program of `clocked` does."""
    program, start, command, catalogue, _, port = words
    assert command == "serve"
    bridge = Bridge(program, catalogue, start, port=int(port))
    signal.signal(signal.SIGTERM, lambda *_: os._exit(0))
    signal.pause()
    bridge.close()


def faults_of_retailers(program):
    for clock in CLOCKS:
        with tempfile.TemporaryDirectory() as name:
            host, path = clocked(program, pathlib.Path(name), clock)
            yield from ["docs/retailers.md at %s: %s" % (clock, fault) for fault in faults_of_life(*run_page("docs/retailers.md", host, name, path))]
    with tempfile.TemporaryDirectory() as name:
        yield from ["docs/retailers.md over serve: %s" % fault for fault in faults_of_life(*run_page("docs/retailers.md", program, name))]


def shown_by(page):
    """What docs/settlement.md shows of its commands, to the byte."""
    text = (ROOT / page).read_text()
    return [re.escape(block) for block in re.findall(r"^```text\n(retailer,.*?)^```$", text, re.MULTILINE | re.DOTALL)]


def faults_of_page(program, page, wanted, wished):
    with tempfile.TemporaryDirectory() as name:
        said, status = run_page(page, program, name)
    if status != wanted:
        yield "%s: status %d\n%s" % (page, status, said[-1500:])
    yield from ["%s: %s" % (page, fault) for fault in missing(wished, said)]


def main():
    if sys.argv[1] == "--clock":
        return play_clock(sys.argv[2:])
    program = pathlib.Path(sys.argv[1]).resolve()
    if sys.argv[2:] == ["--trial"]:
        tried = "docs/retailers.md without proofs"
        with tempfile.TemporaryDirectory() as name:
            said, status = run_page("docs/retailers.md", program, name, change=with_trial)
        found = list(faults_of_life(said, status)) + list(missing([r"run=fault proved=no"], said))
    elif sys.argv[2:] == ["--operators"]:
        if not shutil.which("nginx"):
            print("pages: %s needs nginx: apt-get install nginx" % OPERATORS)
            return 1
        tried, found = OPERATORS, list(faults_of_page(program, OPERATORS, 0, OPERATION))
    else:
        tried, found = "docs/retailers.md at %d clocks and over serve, and %d pages more" % (len(CLOCKS), len(PLAIN_PAGES)), list(faults_of_retailers(program))
        for page, wanted in PLAIN_PAGES:
            found += faults_of_page(program, page, wanted, KEPT if page == JOURNAL else shown_by(page))
    for fault in found:
        print("pages: " + fault)
    print("pages: %s: %d wrong" % (tried, len(found)))
    return 1 if found else 0


sys.exit(main())
