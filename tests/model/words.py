"""The command line: which words are refused, and the output, the status and the note of a whole run."""
import enum
import re
from dataclasses import dataclass

import drill
import moments
import service
import tiny
from catalogue import LARGEST_CATALOGUE, Catalogue, CatalogueFault, read_catalogue
from export import LARGEST_EXPORT, ExportFault, read_export, settlement, write_export
from journals import LARGEST_JOURNAL, recovered, text
from wire import FAULTS, Rest

PLAIN_NUMBER = re.compile("0|[1-9][0-9]*")
SIGNED_NUMBER = re.compile("[+-]?[0-9]+")


@dataclass(frozen=True)
class Outcome:
    output: bytes
    status: int
    note: bytes


class WordsRefused(Exception):
    """The words are refused before anything is read."""


class NotThere(Exception):
    """A file is missing or too large."""

    def note(self) -> str:
        return self.args[0]


class Device(enum.Enum):
    """A device that fails at its first call: the source before it gives a byte, the sink before it takes one."""
    SOURCE = "source"
    SINK = "sink"


def run(words: list, files: dict, data: bytes, failing: Device = None) -> Outcome:
    """A run with these words, over files by name and standard input."""
    try:
        texts = [word.decode("utf-8") for word in words]
        return run_texts(texts, files, data, failing)
    except (WordsRefused, UnicodeDecodeError):
        return ended(b"", 2, "words refused")
    except (CatalogueFault, ExportFault, NotThere) as fault:
        return ended(b"", 1, fault.note())
    except text.JournalFault as fault:
        return ended(b"", 1, str(fault))


def ended(output: bytes, status: int, note: str) -> Outcome:
    return Outcome(output, status, ("rail_host: %s\n" % note).encode("utf-8") if note else b"")


def run_texts(words: list, files: dict, data: bytes, failing: Device) -> Outcome:
    if words[:1] == ["tiny"]:
        return run_tiny(words[1:], data, failing)
    if words[:1] == ["replay"]:
        return run_replay(words[1:], files, data, failing)
    if words[:1] == ["export"]:
        return run_export(words[1:], files, data, failing)
    if words[:1] == ["settle"]:
        return run_settle(words[1:], files, failing)
    if words[:1] == ["recover"]:
        return run_recover(words[1:], files, failing)
    if words[:1] == ["drill"]:
        return run_drill(words[1:])
    if words[:1] == ["serve"]:
        return run_serve(words[1:], files)
    raise WordsRefused()


def run_tiny(words: list, data: bytes, failing: Device) -> Outcome:
    if len(words) != 2:
        raise WordsRefused()
    legs, places = plain_number(words[0], 1, tiny.MOST_LEGS), plain_number(words[1], 1, tiny.MOST_PLACES)
    output, rest = tiny.serve(legs, places, data)
    return connection_ended(output, rest, failing)


def run_replay(words: list, files: dict, data: bytes, failing: Device) -> Outcome:
    host, clock = open_host(words, files)
    output, rest = host.serve(data, clock)
    return connection_ended(output, rest, failing)


def run_export(words: list, files: dict, data: bytes, failing: Device) -> Outcome:
    """The input is served as for a replay. What is written is the export, and only where the connection ended well."""
    host, clock = open_host(words, files)
    _, rest = host.serve(data, clock)
    return connection_ended(write_export(host.books) if rest in (Rest.END, Rest.CLOSED) else b"", rest, failing)


def open_host(words: list, files: dict) -> tuple:
    """The host that the words of a replay or an export open, and its clock."""
    names, options = read_simple_command(words, ["--start", "--tick", "--from"], 1)
    start = moments.read_moment(options.get("--start", "1970-01-01T00:00:00Z"))
    if isinstance(start, moments.MomentFault):
        raise WordsRefused()
    tick = option_number(options, "--tick", 0, 86_400, 0)
    host = service.Host(fetch_catalogue(names[0], files))
    if "--from" in options:
        host.books.bookings = fetch_export(options["--from"], files, host.catalogue)
    return host, service.Clock(start, tick)


def run_settle(words: list, files: dict, failing: Device) -> Outcome:
    """Two words, read as they stand. The input is not read."""
    if len(words) != 2:
        raise WordsRefused()
    catalogue = fetch_catalogue(words[0], files)
    table = settlement(fetch_export(words[1], files, catalogue))
    return ended(b"", 4, "write fault") if failing is Device.SINK else ended(table, 0, "")


def run_recover(words: list, files: dict, failing: Device) -> Outcome:
    """Two words, read as they stand. The input is not read."""
    if len(words) != 2:
        raise WordsRefused()
    output = fetch_journal(words[1], files, fetch_catalogue(words[0], files))
    return ended(b"", 4, "write fault") if failing is Device.SINK else ended(output, 0, "")


def run_drill(words: list) -> Outcome:
    _, options = read_simple_command(words, ["--seed", "--workers", "--size", "--places"], 0)
    seed = option_number(options, "--seed", 0, 65_535)
    workers = option_number(options, "--workers", 1, 16)
    size = option_number(options, "--size", 1, 2_000)
    places = option_number(options, "--places", 1, 1_200)
    return ended(drill.line(seed, workers, size, places), 0, "")


def run_serve(words: list, files: dict) -> Outcome:
    """Only what is answered before a listener is asked for: refused words, and a catalogue, a journal or an export that is refused."""
    known = ["--port", "--workers", "--connections", "--sweep", "--from", "--journal"]
    names, options = read_simple_command(words, known, 1, ["--export"])
    option_number(options, "--port", 1, 65_535)
    option_number(options, "--workers", 1, 16, 4)
    option_number(options, "--connections", 1, 4_294_967_295, 4_294_967_295)
    option_number(options, "--sweep", 1, 86_400, 30)
    catalogue = fetch_catalogue(names[0], files)
    if options.get("--journal") in files:
        if "--from" in options:
            return ended(b"", 1, "journal exists")
        fetch_journal(options["--journal"], files, catalogue)
    elif "--from" in options:
        fetch_export(options["--from"], files, catalogue)
    raise NotImplementedError("a listener is no part of this model")


def plain_number(word: str, low: int, high: int) -> int:
    """Decimal digits without a sign or a leading zero."""
    if not PLAIN_NUMBER.fullmatch(word) or len(word) > 12 or not low <= int(word) <= high:
        raise WordsRefused()
    return int(word)


def option_number(options: dict, name: str, low: int, high: int, default: int = None) -> int:
    """An option's number may have a sign and leading zeros. Without a default the option has to stand."""
    if name not in options:
        if default is None:
            raise WordsRefused()
        return default
    word = options[name]
    if not SIGNED_NUMBER.fullmatch(word) or len(word) > 1_000 or not low <= int(word) <= high:
        raise WordsRefused()
    return int(word)


def read_simple_command(words: list, known: list, positionals: int, flags: list = ()) -> tuple:
    """The words that are no options, and the options by name.

    An option is `--name value` or `--name=value`, at most once, and a value that stands as a word of its own doesn't
    begin with a dash unless it is the dash alone. A flag is `--name`, at most once. After `--` no word is one of these.
    """
    names, options, at, only_names = [], {}, 0, False
    while at < len(words):
        word = words[at]
        at += 1
        if only_names or word == "-" or not word.startswith("-"):
            names.append(word)
        elif word == "--":
            only_names = True
        else:
            name, equals, value = word.partition("=")
            if name not in known and word not in flags or name in options:
                raise WordsRefused()
            if not equals and name in known:
                if at == len(words) or (words[at].startswith("-") and words[at] != "-"):
                    raise WordsRefused()
                value = words[at]
                at += 1
            options[name] = value
    if len(names) != positionals:
        raise WordsRefused()
    return names, options


def fetch(name: str, files: dict, kind: str, largest: int) -> bytes:
    if name not in files:
        raise NotThere(kind + " missing")
    if len(files[name]) > largest:
        raise NotThere(kind + " too large")
    return files[name]


def fetch_catalogue(name: str, files: dict) -> Catalogue:
    return read_catalogue(fetch(name, files, "catalogue", LARGEST_CATALOGUE))


def fetch_export(name: str, files: dict, catalogue: Catalogue) -> list:
    return read_export(catalogue, fetch(name, files, "export", LARGEST_EXPORT))


def fetch_journal(name: str, files: dict, catalogue: Catalogue) -> bytes:
    return recovered(catalogue, fetch(name, files, "journal", LARGEST_JOURNAL))


def connection_ended(output: bytes, rest: Rest, failing: Device) -> Outcome:
    if failing is Device.SOURCE:
        return ended(b"", 3, "read fault")
    if failing is Device.SINK and output:
        return ended(b"", 4, "write fault")
    if rest is Rest.CUT:
        return ended(output, 6, "input cut")
    if rest in FAULTS:
        return ended(output, 6, "input refused")
    return ended(output, 0, "")
