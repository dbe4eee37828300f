"""Runs of the program whose reads of standard input and writes to standard output are answered by `standard.c`."""
import errno
import os
import pathlib
import subprocess
import tempfile

HERE = pathlib.Path(__file__).resolve().parent
EXAMPLE = HERE.parent.parent / "examples" / "k1.json"
START = "2026-06-01T06:00:00Z"
SECONDS = 120
READ_FAULT = "rail_host: read fault\n"
WRITE_FAULT = "rail_host: write fault\n"
INPUT_CUT = "rail_host: input cut\n"
INPUT_REFUSED = "rail_host: input refused\n"


class Standard:
    """The library that stands before the C library, in a folder with the example's catalogue as k1.json."""

    def __init__(self, program: str, folder: pathlib.Path):
        self.program, self.folder = os.path.abspath(program), folder
        self.library = folder / "standard.so"
        self.runs, self.differences = 0, []
        words = ["cc", "-O2", "-shared", "-fPIC", "-o", self.library, HERE / "standard.c"]
        subprocess.run(words, check=True)
        (folder / "k1.json").write_bytes(EXAMPLE.read_bytes())

    def run(self, line: str, data: bytes, notes=subprocess.PIPE, **told) -> tuple:
        """The status, the output and the note of a run whose calls are answered so, and what is left of its input."""
        self.runs += 1
        more = {"STANDARD_" + name.upper(): str(value) for name, value in told.items()}
        environment = {**os.environ, "STANDARD_ERROR": str(errno.EIO), **more, "LD_PRELOAD": str(self.library)}
        with tempfile.TemporaryFile() as file:
            file.write(data)
            file.seek(0)
            done = subprocess.run([self.program, *line.split(" ")], cwd=self.folder, env=environment, stdin=file,
                                  stdout=subprocess.PIPE, stderr=notes, timeout=SECONDS)
            left = len(data) - file.seek(0, os.SEEK_CUR)
        return done.returncode, done.stdout, (done.stderr or b"").decode(), left

    def check(self, title: str, got, wanted):
        if got != wanted:
            self.differences.append("%s\n  got    %r\n  wanted %r" % (title, got, wanted))

    def end(self, said: str) -> int:
        """Says what differs, and the status of the check."""
        for difference in self.differences[:20]:
            print(difference[:2000])
        print("%s, %d unlike" % (said, len(self.differences)))
        return 1 if self.differences else 0
