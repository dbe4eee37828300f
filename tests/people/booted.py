#!/usr/bin/env python3
"""Runs the commands of "As a service" in docs/operators.md in a booted Debian 12, and then kills the host, refuses it a catalogue and its port.

  tests/people/booted.py PROGRAM [--root FOLDER]

It needs root, `debootstrap`, `systemd-nspawn` (`apt-get install debootstrap systemd-container`) and a mirror of Debian, and takes some minutes
the first time; with --root it keeps the system and begins with it the next time. So it is not a part of the gate.
"""
import argparse
import datetime
import os
import pathlib
import re
import shutil
import subprocess
import sys
import tempfile
import time

ROOT = pathlib.Path(__file__).resolve().parents[2]
PACKAGES = "systemd,systemd-sysv,dbus,curl,iproute2,procps,python3"
PATH = "PATH=/usr/local/sbin:/usr/local/bin:/usr/sbin:/usr/bin:/sbin:/bin"
AGAIN = "cp /tmp/country.json /etc/sumacgate/catalogue.json; chmod 600 /etc/sumacgate/catalogue.json"
# `becomes STATE` waits until the unit is so, and says how it is.
BECOMES = "becomes() { for try in $(seq 300); do state=$(systemctl is-active sumacgate); [ $state = $1 ] && break; sleep 0.2; done; echo $state; }\n"
HOLD = "import os, socket, time; s = socket.create_server((\"127.0.0.1\", 8080)); [time.sleep(0.1) for _ in iter(lambda: os.path.exists(\"/tmp/free\"), True)]"
TOLD = "for try in $(seq 60); do journalctl -u sumacgate -o cat --no-pager | grep -q '%s' && echo told && break; sleep 1; done"
# After the page's own commands: what is done, what the last lines of the output have to be.
SOLD = "/etc/sumacgate/sold.json"
STEPS = [
    ("the file stays root's", "stat -c '%a %U' /etc/sumacgate/catalogue.json", "600 root"),
    ("the host has no rights", "grep -E '^(CapEff|NoNewPrivs|Seccomp):' /proc/$(systemctl show -P MainPID sumacgate)/status | tr -s '\\t\\n' ' '", "CapEff: 0000000000000000 NoNewPrivs: 1 Seccomp: 2 "),
    ("a kill", "systemctl kill -s KILL sumacgate; until [ $(systemctl show -P NRestarts sumacgate) = 1 ]; do sleep 1; done; becomes active; systemctl show -P NRestarts sumacgate", "active\n1"),
    ("the same seats", "cd /work; install -D -m 755 -t /usr/local/lib/sumacgate tools/same-seats tools/rail_texts.py; cp /etc/sumacgate/catalogue.json " + SOLD + "; systemctl restart sumacgate; becomes active; " + TOLD % "are the same seats", "active\ntold"),
    ("other seats", "sed '2s/\"coach\":2/\"coach\":7/' " + SOLD + " > /etc/sumacgate/catalogue.json; systemctl restart sumacgate; " + TOLD % "the seats are not the same: 48 lines" + "; becomes activating; ss -ltn | grep -c ':8080 '", "told\nactivating\n0"),
    ("put right", "cp " + SOLD + " /etc/sumacgate/catalogue.json; becomes active; rm " + SOLD, "active"),
    ("a refused catalogue", "echo '{' > /etc/sumacgate/catalogue.json; systemctl restart sumacgate; becomes failed; " + TOLD % "catalogue fault 1", "failed\ntold"),
    (
        "a taken port",
        AGAIN + "; systemctl reset-failed sumacgate; rm -f /tmp/free; (python3 -c '" + HOLD + "' &); until ss -ltn | grep -q ':8080 '; do sleep 0.2; done; "
        "systemctl start sumacgate; " + TOLD % "read fault" + "; becomes activating; touch /tmp/free; "
        "until ss -ltnp | grep ':8080 ' | grep -q rail_host; do sleep 0.2; done; becomes active",
        "told\nactivating\nactive",
    ),
]


def page_commands():
    section = re.search(r"^## As a service\n(.*?)^## ", (ROOT / "docs" / "operators.md").read_text(), re.MULTILINE | re.DOTALL).group(1)
    marked = re.findall(r"^```sh\n(.*?)^```$", section, re.MULTILINE | re.DOTALL)
    indented = [line[4:] for line in section.splitlines() if line.startswith("    ")]
    return "\n".join(marked + indented)


class Booted:
    def __init__(self, root):
        words = ["systemd-nspawn", "-b", "-D", str(root), "--register=no", "--keep-unit", "--private-network"]
        self.machine = subprocess.Popen(words, stdin=subprocess.DEVNULL, stdout=subprocess.DEVNULL, stderr=subprocess.DEVNULL, start_new_session=True)
        self.init = None
        for _ in range(60):
            children = pathlib.Path("/proc/%d/task/%d/children" % (self.machine.pid, self.machine.pid)).read_text().split()
            if children:
                self.init = children[0]
                if self.run("systemctl is-system-running")[1].strip() in ("running", "degraded"):
                    return
            time.sleep(1)
        self.machine.terminate()
        self.machine.wait(timeout=60)
        raise SystemExit("booted: it doesn't come up")

    def run(self, script):
        words = ["nsenter", "-t", self.init, "-m", "-u", "-i", "-n", "-p", "-r", "-w", "env", "-i", PATH, "bash", "-c", script]
        done = subprocess.run(words, stdin=subprocess.DEVNULL, capture_output=True, text=True, timeout=300)
        return done.returncode, done.stdout, done.stderr

    def close(self):
        self.run("systemctl poweroff")
        self.machine.wait(timeout=60)


def provide(root, packages):
    """A Debian with these packages, unless there is one."""
    if not (root / "usr").is_dir():
        subprocess.run(["debootstrap", "--variant=minbase", "--include=" + packages, "bookworm", str(root)], check=True, stdout=subprocess.DEVNULL)
    # The system's own users have to reach its files.
    root.chmod(0o755)


def provided(root, program):
    """A Debian with the repository's part and the catalogue where the page's commands look for them."""
    provide(root, PACKAGES)
    work = root / "work"
    shutil.rmtree(work, ignore_errors=True)
    (work / "crates" / "rail_host" / "out").mkdir(parents=True)
    shutil.copytree(ROOT / "examples", work / "examples")
    shutil.copytree(ROOT / "docs", work / "docs")
    shutil.copytree(ROOT / "tools", work / "tools")
    shutil.copy(program, work / "crates" / "rail_host" / "out" / "rail_host")
    day = (datetime.date.today() + datetime.timedelta(days=2)).isoformat()
    (work / "country.json").write_bytes(subprocess.run([sys.executable, str(ROOT / "examples" / "country.py"), "--day", day], check=True, capture_output=True).stdout)
    for left in [root / "etc" / "sumacgate", root / "etc/systemd/system/sumacgate.service", root / "etc/systemd/system/multi-user.target.wants/sumacgate.service"]:
        shutil.rmtree(left) if left.is_dir() else left.unlink(missing_ok=True)


def given_words(page):
    """The words of a script that runs a booted Debian, and the folder of that system, which may be one to throw away."""
    words = argparse.ArgumentParser(description=page, formatter_class=argparse.RawDescriptionHelpFormatter)
    words.add_argument("program", type=pathlib.Path)
    words.add_argument("--root", type=pathlib.Path)
    given = words.parse_args()
    if os.getuid() != 0 or not shutil.which("debootstrap") or not shutil.which("systemd-nspawn"):
        words.error("it needs root, debootstrap and systemd-nspawn")
    return given, given.root or pathlib.Path(tempfile.mkdtemp())


def main():
    given, root = given_words(__doc__)
    provided(root, given.program)
    system, wrong = Booted(root), 0
    try:
        status, said, faults = system.run("set -eu; cp /work/country.json /tmp/; cd /work\n" + page_commands())
        print(said)
        for wanted in ["the unit is in order", "Overall exposure level", "\nactive\n", '{"expired":0,"lost":0,"waiting":0}']:
            if wanted not in said:
                wrong += 1
                print("booted: status %d, and no %r in the page's output: %s" % (status, wanted, faults))
        for what, script, wanted in STEPS:
            _, said, faults = system.run(BECOMES + script)
            if not said.rstrip("\n").endswith(wanted):
                wrong += 1
                print("booted: %s: %r, %s" % (what, said, faults))
    finally:
        system.close()
        if not given.root:
            shutil.rmtree(root)
    print("booted: the page's commands and %d steps more: %d wrong" % (len(STEPS), wrong))
    return 1 if wrong else 0


if __name__ == "__main__":
    sys.exit(main())
