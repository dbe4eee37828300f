#!/usr/bin/env python3
"""Makes two versions of the Debian package, and installs, starts, upgrades, removes and purges them in a booted Debian.

  tests/people/package.py PROGRAM [--root FOLDER]

It needs what packaging/deb needs, and root, `debootstrap`, `systemd-nspawn` (`apt-get install debootstrap
systemd-container`) and a mirror of Debian. It takes some minutes the first time; with --root it keeps the system and
begins with it the next time. So it is tried by name.
"""
import pathlib
import re
import shutil
import subprocess
import sys

from booted import PACKAGES, Booted, given_words, provide

ROOT = pathlib.Path(__file__).resolve().parents[2]
OLD, NEW = "0.1-1", "0.2-1"
# Functions of bash for the steps. `apt` shows what it said where it fails.
FUNCTIONS = """
apt() { DEBIAN_FRONTEND=noninteractive apt-get -y -q "$@" > /tmp/apt.log 2>&1 || cat /tmp/apt.log; }
listens() { for try in $(seq 100); do ss -ltn | grep -q '127.0.0.1:8080 ' && return; sleep 0.2; done; }
ask() { curl -sS -H 'Retailer-Key: north' "http://127.0.0.1:8080$@"; }
known() { ask "/bookings/B000000" -o /dev/null -w '%{http_code}\\n'; }
state() { systemctl is-enabled sumacgate; systemctl is-active sumacgate; }
again() { systemctl restart sumacgate 2> /dev/null; }
pid() { systemctl show -P MainPID sumacgate; }
gone() {
  ss -ltn | grep -c '127.0.0.1:8080 '
  ls /usr/bin/rail_host /usr/lib/sumacgate 2>&1 | grep -c 'No such file'
  stat -c %a /etc/sumacgate/catalogue.json
}
left() {
  find /etc/systemd /lib/systemd /var/lib/systemd /usr/share -name '*sumacgate*' -o -name 'rail_host*'
  grep -i warning /tmp/apt.log
}
old=/packages/sumacgate_OLD_amd64.deb new=/packages/sumacgate_NEW_amd64.deb
unit=/lib/systemd/system/sumacgate.service sold=/etc/sumacgate/sold.json
""".replace("OLD", OLD).replace("NEW", NEW)
RESERVED = """{"class":"SECOND","from":"HARBOUR","run":0,"to":"DUNES"}"""
COUNTS = """{"expired":0,"lost":0,"waiting":0}"""
# What is done, and the output that has to come of it. README.Debian's own commands come after the first.
INSTALLED = [
    ("nothing of an earlier run", "dpkg --purge sumacgate > /dev/null 2>&1", ""),
    ("installed, neither enabled nor started", "apt install $old; state", "disabled\ninactive\n"),
]
STARTED = [
    ("enabled and started", "listens; state", "enabled\nactive\n"),
    ("the unit is in order", "systemd-analyze verify --man=no $unit 2>&1 && echo yes", "yes\n"),
    ("a user of its own", "[ $(stat -c %u /proc/$(pid)) -ge 61184 ] && echo yes", "yes\n"),
    ("its page", "ls /usr/share/man/man1/rail_host.1.gz", "/usr/share/man/man1/rail_host.1.gz\n"),
    ("a booking", "ask /reservations -d '%s' | grep -o 'B0*' | head -n 1; pid > /tmp/pid" % RESERVED, "B000000\n"),
    (
        "a catalogue from GTFS",
        "cd /usr/share/doc/sumacgate/examples; PATH=/usr/lib/sumacgate:$PATH; "
        "gtfs.py feed --day 2026-06-01 --templates templates.json 2> /dev/null > /tmp/lake.json; "
        "check_catalogue.py /tmp/lake.json --now 2026-05-01T00:00:00Z",
        "the host takes this catalogue: 4 runs, 588 places\n",
    ),
    (
        "the tools",
        "cd /usr/lib/sumacgate; "
        "for tool in client.py movements.py same-seats amend roll manifest; do ./$tool --help | head -c 5; done",
        "usage" * 6,
    ),
    (
        "an upgrade leaves the host alone",
        "apt install $new; state; dpkg-query -W -f '${Version}\\n' sumacgate; cmp <(pid) /tmp/pid && known",
        "enabled\nactive\n0.2-1\n200\n",
    ),
    (
        "seats that were sold by the same catalogue",
        "cp /etc/sumacgate/catalogue.json $sold; again; listens; state; known",
        "enabled\nactive\n200\n",
    ),
    (
        "and by another one",
        "cp /tmp/lake.json $sold; again; systemctl is-active sumacgate; rm $sold; again; listens; state",
        "activating\nenabled\nactive\n",
    ),
    ("removed", "apt remove sumacgate; gone", "0\n2\n600\n"),
    ("installed again, as it was enabled", "apt install $new; again; listens; state", "enabled\nactive\n"),
    ("purged", "apt purge sumacgate; gone; left", "0\n2\n600\n"),
]


def packages(program, folder):
    """Makes both, and yields what is wrong with them."""
    for version in (OLD, NEW):
        done = made(program, folder, version)
        if done.returncode or len(done.stdout.splitlines()) != 1:
            yield "packaging/deb %s: status %d, %s" % (version, done.returncode, done.stdout + done.stderr)
    again = folder / "again"
    made(program, again, NEW)
    name = "sumacgate_%s_amd64.deb" % NEW
    if (folder / name).read_bytes() != (again / name).read_bytes():
        yield "packaging/deb: twice the same isn't the same"
    shutil.rmtree(again)


def made(program, folder, version):
    words = [ROOT / "packaging" / "deb", "--program", program, "--out", folder, "--version", version, "--unproved"]
    return subprocess.run(list(map(str, words)), stdin=subprocess.DEVNULL, capture_output=True, text=True, timeout=300)


def page_commands():
    """The commands that README.Debian shows, but for its table of places."""
    text = (ROOT / "packaging" / "debian" / "README.Debian").read_text()
    shown = re.findall(r"(?m)^  (.*)$", text)
    return "\n".join(line for line in shown if re.match("[a-z]", line) and "   " not in line)


def provided(root):
    provide(root, PACKAGES)
    for left in ("packages", "etc/sumacgate", "var/lib/private/sumacgate"):
        shutil.rmtree(root / left, ignore_errors=True)
    # The unit that tests/people/booted.py puts beside those of packages.
    for left in ("sumacgate.service", "multi-user.target.wants/sumacgate.service"):
        (root / "etc/systemd/system" / left).unlink(missing_ok=True)
    (root / "packages").mkdir()


def faults_of_steps(system):
    commands = page_commands()
    if commands.count("\n") != 5:
        yield "README.Debian: its commands are\n%s" % commands
    page = ("README.Debian's commands", "set -e\n" + commands.replace("\ncurl", "\nlistens\ncurl"), COUNTS)
    for what, script, wanted in [*INSTALLED, page, *STARTED]:
        status, said, faults = system.run(FUNCTIONS + script)
        if said != wanted and not (wanted == COUNTS and said.endswith(COUNTS)):
            yield "%s: status %d, %r, %s" % (what, status, said, faults)


def main():
    given, root = given_words(__doc__)
    provided(root)
    found = list(packages(given.program.resolve(), root / "packages"))
    if not found:
        system = Booted(root)
        try:
            found += faults_of_steps(system)
        finally:
            system.close()
    if not given.root:
        shutil.rmtree(root)
    for fault in found:
        print("package: " + fault)
    steps = len(INSTALLED + STARTED)
    print("package: two versions, README.Debian's commands and %d steps: %d wrong" % (steps, len(found)))
    return 1 if found else 0


sys.exit(main())
