"""Pier logs: what `office tables` hands to the program of good ones, and wrong ones, each with the lines that must be told."""
import pathlib
import random
import re

import damaged
from planner import program, stand_ins_run
from running import ROOT, called, finish, lay, room

DAY = 1440
DAMAGED = 3000
LONGEST = "n" * 60
# what it is, the log, and the landings of each class by its title, in this order
GOOD = [
    ("the same day", "ferry d1 07:40 d1 07:52", {"ferry": [(460, 472)]}),
    ("the day left out", "ferry d3 07:40 07:52", {"ferry": [(2 * DAY + 460, 2 * DAY + 472)]}),
    ("the day after", "ferry d1 23:50 +1 00:20", {"ferry": [(1430, DAY + 20)]}),
    ("the day after, written", "ferry d1 23:50 d2 00:20", {"ferry": [(1430, DAY + 20)]}),
    ("the day after, but for a minute", "ferry d6 00:00 +1 23:59", {"ferry": [(5 * DAY, 7 * DAY - 1)]}),
    ("early", "ferry d1 07:40 07:38", {"ferry": [(460, 458)]}),
    ("early, across midnight", "ferry d2 00:05 d1 23:58", {"ferry": [(DAY + 5, 1438)]}),
    ("12 hours off", "ferry d1 06:00 18:00\nferry d1 18:00 06:00", {"ferry": [(360, 1080), (1080, 360)]}),
    ("more, with the day", "ferry d1 06:00 d1 18:01\nferry d1 18:01 d1 06:00", {"ferry": [(360, 1081), (1081, 360)]}),
    ("the week's ends", "ferry d1 00:00 d7 23:59\nferry d7 23:59 d1 00:00", {"ferry": [(0, 10079), (10079, 0)]}),
    ("one digit of the hour", "ferry d1 7:40 7:52", {"ferry": [(460, 472)]}),
    ("numbers", "0 d1 07:40 07:41\n15 d1 07:40 07:42\n0015 d1 07:40 07:43",
     {"class 0": [(460, 461)], "class 15": [(460, 462), (460, 463)]}),
    ("a number in quotes", '3 d1 07:40 07:41\n"3" d1 07:40 07:42', {"class 3": [(460, 461)], "3": [(460, 462)]}),
    ("quotes", '"night boat" d1 07:40 07:41\n"class" d1 07:40 07:42\n"ferry" d1 07:40 07:43\nferry d1 07:40 07:44',
     {"night boat": [(460, 461)], "class": [(460, 462)], "ferry": [(460, 463), (460, 464)]}),
    ("a # in quotes", '"Pier #1" d1 07:40 07:41', {"Pier #1": [(460, 461)]}),
    ("letters and accents apart", "Fa\u0308hre d1 07:40 07:41\nFähre d1 07:40 07:42", {"Fähre": [(460, 461), (460, 462)]}),
    ("capitals", "ferry d1 07:40 07:41\nFerry d1 07:40 07:42", {"ferry": [(460, 461)], "Ferry": [(460, 462)]}),
    ("the longest name", f"{LONGEST} d1 07:40 07:41", {LONGEST: [(460, 461)]}),
    ("classes by first appearance", "sea d1 07:40 07:41\nbus d1 07:40 07:42\nsea d1 07:39 07:41\nbus d1 07:40 07:40",
     {"sea": [(460, 461), (459, 461)], "bus": [(460, 462), (460, 460)]}),
    ("remarks and empty lines", "# a log\n\n  \t# more\nferry d1 07:40 07:41 # late\nferry d1 07:40 07:42#\n",
     {"ferry": [(460, 461), (460, 462)]}),
    ("tabs and blanks", "\tferry \t d1   07:40\t07:41  ", {"ferry": [(460, 461)]}),
    ("16 classes", "".join(f"c{place} d1 00:00 00:00\n" for place in range(16)), {f"c{place}": [(0, 0)] for place in range(16)}),
]
BASE = ["# class, planned, actual", "ferry d1 07:40 07:52", '"night boat" d1 23:50 +1 00:20']
LAST = len(BASE) + 1
WRONG_LINES = [
    ("ferry", "read the line's end, asked for the planned day behind the class"),
    ("ferry d1", "read the line's end, asked for a time of day"),
    ("ferry d1 07:40", "read the line's end, asked for the actual landing"),
    ("ferry d1 07:40 d1", "read the line's end, asked for a time of day"),
    ("ferry d1 07:40 +1", "read the line's end, asked for a time of day"),
    ("ferry d1 07:40 07:52 d1", "read d1, asked for the line's end"),
    ("ferry d1 07:40 d1 07:52 late", "read late, asked for the line's end"),
    ("ferry 07:40 07:52", "read 07:40, asked for the planned day behind the class, d1 to d7"),
    ("night boat d1 07:40 07:52", "read boat, asked for the planned day behind the class, d1 to d7; a name of several words"),
    ("ferry d0 07:40 07:52", "read d0, asked for the planned day"),
    ("ferry d8 07:40 07:52", "read d8, asked for the planned day"),
    ("ferry D1 07:40 07:52", "read D1, asked for the planned day"),
    ('ferry "d1" 07:40 07:52', 'read "d1", asked for the planned day'),
    ("ferry +1 00:05 00:06", "read +1, asked for the planned day"),
    ("ferry d1 24:00 d2 00:10", "read 24:00, asked for a time of day from 00:00 to 23:59"),
    ("ferry d1 07:60 07:52", "read 07:60"),
    ("ferry d1 07.40 07:52", "read 07.40"),
    ("ferry d1 ٧:40 07:52", "read ٧:40"),
    ("ferry d1 07:40 07:5", "read 07:5,"),
    ("ferry d1 07:40 24:00", "read 24:00"),
    ('ferry d1 07:40 "07:52"', 'read "07:52", asked for a time of day'),
    ("ferry d1 07:40 12", "read 12, asked for a landing such as 07:52 or +1 00:20, or its day, d1 to d7"),
    ("ferry d1 07:40 late", "read late, asked for a landing such as"),
    ("ferry d1 07:40 d8 00:20", "read d8, asked for a landing such as"),
    ("ferry d1 07:40 +2 00:20", "read +2, asked for a landing such as"),
    ("ferry d2 00:05 -1 23:58", "read -1, asked for a landing such as"),
    ('ferry d1 23:50 "+1" 00:20', 'read "+1", asked for a landing such as'),
    ("ferry d7 23:50 +1 00:00", "read a landing at d8 00:00, asked for one by d7 23:59, when the week ends"),
    ("ferry d7 00:00 +1 23:59", "read a landing at d8 23:59"),
    ("ferry d1 23:50 00:20", "read 00:20 for d1 23:50, asked for the day too where it is more than 12 hours off (is d2 00:20 meant?)"),
    ("ferry d2 00:05 23:58", "read 23:58 for d2 00:05, asked for the day too where it is more than 12 hours off (is d1 23:58 meant?)"),
    ("ferry d1 06:00 18:01", "read 18:01 for d1 06:00, asked for the day too where it is more than 12 hours off\n"),
    ("ferry d7 18:01 06:00", "read 06:00 for d7 18:01, asked for the day too where it is more than 12 hours off\n"),
    ("16 d1 07:40 07:52", "read 16, asked for a class's number (0 to 15, in plain digits)"),
    ("99999999999999999999 d1 07:40 07:52", "asked for a class's number (0 to 15"),
    ("-1 d1 07:40 07:52", "read -1, asked for a class's number or its name with a letter in it, or in double quotes"),
    ("d1 07:40 07:52", "read 07:40, asked for the planned day behind the class"),
    ("class d1 07:40 07:52", "none of the form's own words, or in double quotes"),
    ("tables d1 07:40 07:52", "none of the form's own words, or in double quotes"),
    ('"" d1 07:40 07:52', "that can be seen"),
    (f"{LONGEST}n d1 07:40 07:52", "at most 60 characters, not 61"),
    ('"night boat d1 07:40 07:52', "a double quote that is not closed"),
    ('ferry"s" d1 07:40 07:52', "a double quote inside a word"),
    ("ferry\u00a0two d1 07:40 07:52", "U+00A0 (NO-BREAK SPACE)"),
    ("ferry d1 07:40\r07:52", "U+000D"),
    ("# a bell\x07", "U+0007"),
    ("f\udce9rry d1 07:40 07:52", "read 0xe9 as the line's byte 2, asked for text saved as UTF-8"),
]


def good_logs():
    """What it is, the log's bytes and the landings; the first ones as other keyboards write them too."""
    for what, text, wanted in GOOD:
        yield what, text.encode(), wanted
    for what, text, wanted in GOOD[:3]:
        yield f"{what}, CR LF", f"# x\n{text}\n".replace("\n", "\r\n").encode(), wanted
        yield f"{what}, byte order mark", b"\xef\xbb\xbf" + text.encode(), wanted


def wrong_logs():
    """What it is, the lines, and a piece of what is told of each wrong one."""
    for line, piece in WRONG_LINES:
        yield line, [*BASE, line], {LAST: piece}
    every = [line for line, _ in WRONG_LINES]
    yield "all at once", [*every, *BASE], {place: piece for place, (_, piece) in enumerate(WRONG_LINES, 1)}
    yield "CR LF, a fault behind it", [f"{line}\r" for line in (*BASE, "ferry d1")], {LAST: "read the line's end"}
    yield "empty", [], {1: "read a log without a landing, asked for a line such as: ferry d1 07:40 d1 07:52"}
    yield "only remarks", ["# a", "", "\t# b"], {1: "read a log without a landing"}
    yield "no landing but wrong ones", ["# a", "ferry"], {2: "read the line's end"}
    many = [f"c{place} d1 00:00 00:00" for place in range(18)]
    yield "17 classes, and an 18th", many, {17: "read more than 16 classes so far, asked for at most 16 classes"}
    numbered = [*many[:3], "ferry", "3 d1 00:00 00:00", *many[3:16]]
    yield "17 classes, one by its number", numbered, {4: "read the line's end", 18: "read more than 16 classes so far"}


def good_failure(what, log, wanted):
    """A stand-in keeps what it is handed, of which it makes no table."""
    with room() as place, room() as folder, stand_ins_run():
        kept = pathlib.Path(place, "kept")
        program(pathlib.Path(place, "tables"), "refused 16\nno words\n", f"{{ ls; od -An -v -w4 -tu1 landings; }} >> {kept}")
        status, out, err = called("tables", lay(folder, log), "--programs", place)
        handed = kept.read_text() if kept.exists() else ""
    lines = "".join("landings\n" + "".join(bytes_text(landing) for landing in landings) for landings in wanted.values())
    titles = re.findall("(?m)^# (.+): [0-9]+ landings?, but no table", out)
    if (status, err, handed, titles) != (1, "", lines, list(wanted)):
        return f"{what}: ended with {status}, handed over {handed}: {out}{err}"
    return None


def bytes_text(landing):
    """Four bytes as the stand-in keeps them: planned and actual, lowest byte first."""
    return "".join(f"{byte:4}" for minute in landing for byte in (minute % 256, minute // 256)) + "\n"


def wrong_failure(what, log, judge):
    """Where a log is wrong no program is asked for: there is none here."""
    with room() as place, room() as folder:
        path = lay(folder, log)
        status, out, err = called("tables", path, "--programs", place)
    told = re.findall(re.escape(str(path)) + r":([0-9]+): (read .+, asked for .+\n)", err)
    unread = [int(line) for line, _ in told] == sorted({int(line) for line, _ in told}) and err.count("\n") == len(told)
    read = not told and err == f"the program tables is not in {place}; in the repository, bash tools/programs builds it\n"
    if status != 1 or out or not (unread or read):
        return f"{what}: ended with {status}, printed {out!r}, told {err}"
    return judge(what, {int(line): message for line, message in told})


def judged(wanted):
    """That just these lines are told, each with its piece."""
    def judge(what, told):
        fits = told.keys() == wanted.keys() and all(piece in told[line] for line, piece in wanted.items())
        return None if fits else f"{what}: told {told}, not {wanted}"
    return judge


def damaged_failures():
    """Damaged logs: wrong lines are told, or the log is read; both happen."""
    chance, whole, failures = random.Random(DAMAGED), 0, []
    logs = [(ROOT / "examples" / "landings" / "log.txt").read_bytes()[:900]] + ["\r\n".join(BASE).encode()] * 3

    def judge(_, told):
        nonlocal whole
        whole += not told

    for _ in range(DAMAGED):
        log = damaged.damaged(chance, logs)
        failures.append(wrong_failure("damaged", log, judge))
    failures.append(None if DAMAGED // 20 < whole < DAMAGED // 2 else f"{whole} of {DAMAGED} damaged logs are still good")
    return failures


def main():
    failures = [good_failure(*case) for case in good_logs()]
    for what, lines, wanted in wrong_logs():
        log = "".join(f"{line}\n" for line in lines).encode("utf-8", "surrogateescape")
        failures.append(wrong_failure(what, log, judged(wanted)))
    failures += damaged_failures()
    finish("pier logs", len(failures), [one for one in failures if one])


if __name__ == "__main__":
    main()
