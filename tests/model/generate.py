"""Random runs of the program: its words, its files, and standard input in pieces, each from one seed."""
import random
from dataclasses import dataclass, field

import random_requests
from catalogue import CatalogueFault, read_catalogue
from random_exports import changed_export, export_of
from random_catalogues import catalogue_bytes, faulty_catalogue_bytes, random_catalogue, random_start, random_tick
from random_texts import BROKEN, WHOLE_BUT_ODD, chance, json_text, junk, moment_text, wrong_moment_text
from words import Device


@dataclass
class Case:
    """One run. The pieces are joined to standard input, and are kept apart so that some of them can be left out.

    Where sizes of parts are named, standard input is written in parts of these sizes in turn, else at once.
    """
    name: str
    words: list
    files: dict = field(default_factory=dict)
    pieces: list = field(default_factory=list)
    failing: Device = None
    part_sizes: list = field(default_factory=list)


def random_case(seed: int) -> Case:
    rng = random.Random(seed)
    case = case_of_some_kind(rng, seed)
    if chance(rng, 0.1):
        case.part_sizes = rng.choice([[1, 2, 3, 7, 64, 1_000], [1, 5_000], [16_384, 1], [rng.randint(1, 900), rng.randint(1, 9_000)]])
    return case


def case_of_some_kind(rng: random.Random, seed: int) -> Case:
    kind = rng.random()
    name = "seed %d" % seed
    if kind < 0.50:
        return replay_case(rng, name)
    if kind < 0.58:
        return export_case(rng, name)
    if kind < 0.75:
        return restart_case(rng, name)
    if kind < 0.87:
        return faulty_catalogue_case(rng, name)
    if kind < 0.94:
        return tiny_case(rng, name)
    return words_case(rng, name)


def replay_words(rng: random.Random, start: int, tick: int) -> list:
    """The words of a replay at these moments, in one of their forms."""
    options = []
    if start or chance(rng, 0.5):
        text = moment_text(rng, start, False)
        options.append(["--start=" + text] if text.startswith("-") or chance(rng, 0.3) else ["--start", text])
    if tick or chance(rng, 0.5):
        number = rng.choice(["%d", "%d", "%d", "+%d", "00%d"]) % tick
        options.append(["--tick=" + number] if chance(rng, 0.3) else ["--tick", number])
    options.append(["k.json"])
    rng.shuffle(options)
    words = [word for option in options for word in option]
    if words[-1] == "k.json" and chance(rng, 0.1):
        words.insert(len(words) - 1, "--")
    return [word.encode("utf-8") for word in ["replay"] + words]


def replay_case(rng: random.Random, name: str) -> Case:
    start, tick = random_start(rng), random_tick(rng)
    data = catalogue_bytes(rng, random_catalogue(rng, start, tick))
    pieces = random_requests.random_pieces(rng, read_catalogue(data), start, tick)
    return Case(name, replay_words(rng, start, tick), {"k.json": data}, pieces)


def export_case(rng: random.Random, name: str) -> Case:
    """What a host comes to, as a text."""
    case = replay_case(rng, name)
    case.words[0] = b"export"
    return case


def restart_case(rng: random.Random, name: str) -> Case:
    """A host that begins with the export of one that served the first part of the input, and the table of such an export."""
    start, tick = random_start(rng), random_tick(rng)
    data = catalogue_bytes(rng, random_catalogue(rng, start, tick))
    catalogue = read_catalogue(data)
    pieces = random_requests.random_pieces(rng, catalogue, start, tick)
    cut = rng.randrange(len(pieces) + 1)
    text, then = export_of(catalogue, b"".join(pieces[:cut]), start, tick)
    if chance(rng, 0.5):
        text = changed_export(rng, text)
    files = {"k.json": data, "x.txt": text}
    if chance(rng, 0.25):
        return Case(name, [b"settle", b"k.json", b"x.txt"], files)
    words = replay_words(rng, then, tick)
    words[0] = rng.choice([b"replay", b"replay", b"export"])
    words[1:1] = rng.choice([[b"--from", b"x.txt"], [b"--from=x.txt"]])
    return Case(name, words, files, pieces[cut:])


def faulty_catalogue_case(rng: random.Random, name: str) -> Case:
    """Where the catalogue is right after all, it is served."""
    start, tick = random_start(rng), random_tick(rng)
    data = faulty_catalogue_bytes(rng, random_catalogue(rng, start, tick))
    pieces = [b"GET /bookings/B000000 HTTP/1.1\r\nRetailer-Key: north\r\n\r\n"]
    try:
        pieces = random_requests.random_pieces(rng, read_catalogue(data), start, tick)
    except CatalogueFault:
        pass
    return Case(name, replay_words(rng, start, tick), {"k.json": data}, pieces)


def tiny_case(rng: random.Random, name: str) -> Case:
    legs, places = rng.choice([1, 2, 3, 5, 8, 63, 64, 126, 126]), rng.choice([1, 1, 2, 3, 1_200])
    pieces = []
    for _ in range(rng.choice([0, 3, 10, 30])):
        start = rng.choice([0, 0, 1, rng.randrange(legs), rng.randrange(legs), legs, -1, legs - 1, 62, 63])
        body = {"from": start, "to": rng.choice([start + 1, start + 1, start + 2, legs, legs, legs + 1, start, 63, 64, 65])}
        if chance(rng, 0.1):
            body[rng.choice(["from", "to", "x"])] = junk(rng)
        if chance(rng, 0.05):
            body.pop(rng.choice(["from", "to"]))
        text = json_text(rng, body, chance(rng, 0.5))
        if chance(rng, 0.08):
            text = rng.choice(BROKEN + WHOLE_BUT_ODD)
        method, path = ("POST", "/reservations")
        if chance(rng, 0.06):
            method, path = rng.choice([("GET", path), (method, "/reservations/"), (method, "/bookings"), ("post", path), (method, "/\u00e9")])
        pieces.append(random_requests.request_bytes(rng, method, path, text.encode("utf-8"), rng.choice(["", "north"])))
    if chance(rng, 0.4):
        pieces.append(random_requests.wrong_bytes(rng, "north"))
    return Case(name, [b"tiny", b"%d" % legs, b"%d" % places], {}, pieces)


# Words


def words_case(rng: random.Random, name: str) -> Case:
    """Words of every command, mostly refused. A serve never gets as far as a listener, for want of a catalogue or an export."""
    start = random_start(rng)
    data = catalogue_bytes(rng, random_catalogue(rng, start, 0))
    make = rng.choice([replay_wrong_words, replay_wrong_words, drill_words, serve_words, serve_words, tiny_wrong_words, settle_words,
                       no_command_words])
    words = [word if isinstance(word, bytes) else word.encode("utf-8") for word in make(rng, start)]
    if chance(rng, 0.05):
        words.insert(rng.randrange(len(words) + 1), rng.choice([b"\xff", b"--\xff", b"\xed\xa0\x80"]))
    return Case(name, words, {"k.json": data}, [b"POST /reservations HTTP/1.1\r\nContent-Length: 17\r\n\r\n{\"from\":0,\"to\":1}"])


def changed_words(rng: random.Random, words: list) -> list:
    """The words with one left out, put twice, or put in."""
    words = list(words)
    kind = rng.randrange(5)
    at = rng.randrange(1, len(words) + 1)
    options = [word for word in words if word.startswith("--")]
    if kind == 0 and len(words) > 1:
        del words[rng.randrange(1, len(words))]
    elif kind == 1:
        words.insert(at, rng.choice(words))
    elif kind == 4 and options:
        words += [rng.choice(options).partition("=")[0], "1"]
    elif kind == 2:
        words.insert(at, rng.choice(["--help", "-h", "--version", "-V", "help", "x", "-", "--", "", "-x", "--x", "--start", "--tick=1",
                                     "--places", "-5", "k.json", "--tick=-0", "--seed=-0"]))
    return words


def wrong_number(rng: random.Random, low: int, high: int) -> str:
    return rng.choice([str(low - 1), str(high + 1), "", "x", "1.0", "1e1", " 1", "1 ", "0x1", "--1", "+", "1_0", "99999999999999999999",
                       "\u0661", "+-1"])


def number_word(rng: random.Random, low: int, high: int, small: int) -> str:
    if chance(rng, 0.12):
        return wrong_number(rng, low, high)
    number = rng.choice([low, min(high, small), rng.randint(low, min(high, small))])
    return rng.choice(["%d", "%d", "%d", "+%d", "0%d", "000%d"]) % number


def option_words(rng: random.Random, name: str, value: str) -> list:
    return [name + "=" + value] if value.startswith("-") or chance(rng, 0.3) else [name, value]


def shuffled(rng: random.Random, command: str, options: list) -> list:
    rng.shuffle(options)
    words = [command] + [word for option in options for word in option]
    return changed_words(rng, words) if chance(rng, 0.4) else words


def replay_wrong_words(rng: random.Random, start: int) -> list:
    options = [[rng.choice(["k.json", "k.json", "nothere.json", ""])]]
    if chance(rng, 0.6):
        text = wrong_moment_text(rng, start) if chance(rng, 0.6) else moment_text(rng, start, False)
        options.append(option_words(rng, "--start", text))
    if chance(rng, 0.6):
        options.append(option_words(rng, "--tick", number_word(rng, 0, 86_400, 86_400)))
    if chance(rng, 0.4):
        options.append(option_words(rng, "--from", rng.choice(["nothere.txt", "nothere.txt", "", "k.json"])))
    return shuffled(rng, rng.choice(["replay", "replay", "export"]), options)


def settle_words(rng: random.Random, _start: int) -> list:
    good = ["settle", rng.choice(["k.json", "nothere.json"]), rng.choice(["nothere.txt", "k.json", "--", "-x"])]
    return rng.choice([good, good, changed_words(rng, good)])


def drill_words(rng: random.Random, _start: int) -> list:
    options = [option_words(rng, "--seed", number_word(rng, 0, 65_535, 65_535)),
               option_words(rng, "--workers", number_word(rng, 1, 16, 5)),
               option_words(rng, "--size", number_word(rng, 1, 2_000, 40)),
               option_words(rng, "--places", number_word(rng, 1, 1_200, 20))]
    return shuffled(rng, "drill", options)


def serve_words(rng: random.Random, _start: int) -> list:
    has_catalogue = chance(rng, 0.3)
    options = [["k.json" if has_catalogue else "nothere.json"], option_words(rng, "--port", number_word(rng, 1, 65_535, 65_535))]
    for name, low, high, small in (("--workers", 1, 16, 16), ("--connections", 1, 4_294_967_295, 9), ("--sweep", 1, 86_400, 86_400)):
        if chance(rng, 0.5):
            options.append(option_words(rng, name, number_word(rng, low, high, small)))
    if chance(rng, 0.3):
        options.append(rng.choice([["--export"], ["--export"], ["--export"], ["--export=1"], ["--export="], ["--export", "x"]]))
    if has_catalogue:
        options.append(option_words(rng, "--from", rng.choice(["nothere.txt", "nothere.txt", "k.json"])))
        rng.shuffle(options)
        return ["serve"] + [word for option in options for word in option]
    if chance(rng, 0.3):
        options.append(option_words(rng, "--from", "nothere.txt"))
    return [word for word in shuffled(rng, "serve", options) if word != "k.json"]


def tiny_wrong_words(rng: random.Random, _start: int) -> list:
    good = rng.choice([["tiny", "3", "2"], ["tiny", "126", "1200"], ["tiny", "1", "1"]])
    words = list(good)
    words[rng.choice([1, 2])] = rng.choice(["0", "127", "1201", "03", "+3", "-1", "", "x", "3 ", "1e1", "\u0663", "00", "99999999999999999999"])
    return rng.choice([good, words, words, changed_words(rng, good)])


def no_command_words(rng: random.Random, _start: int) -> list:
    return rng.choice([[], ["--help"], ["--version"], ["help"], ["replays", "k.json"], ["Tiny", "3", "2"], ["exports", "k.json"],
                       ["Settle", "k.json", "x"], [""], ["-"], ["--", "tiny", "3", "2"], [" tiny", "3", "2"]])
