"""`office tables`: what it prints, counted again from document 02 alone; that it packs; and programs that are missing or say no table."""
import pathlib
import random
import re
import shutil

from planner import BIN, program, stand_ins_run
from running import called, files_in, finish, lay, room, started, writer

LOGS = 24
FERRY = [0, 5, 10, 0, -7, 5, 0, 10, 0, 5, -1, 10, 121]
LOG = {"ferry": FERRY, 3: [-1, 0], '"night boat"': [200, 1, 121], "fog": [121, 300]}
PRINTED = """# ferry: 12 landings, up to 10 minutes late
# 1 more was over 120 minutes late and stands apart: no sheet promises anything for such landings
class ferry shares 2048 0 0 0 0 1024 0 0 0 0 1024
#  0 min  ######  6
#  1 min          0
#  2 min          0
#  3 min          0
#  4 min          0
#  5 min  ###     3
#  6 min          0
#  7 min          0
#  8 min          0
#  9 min          0
# 10 min  ###     3

# class 3: 2 landings, on time or early
class shares 4096
# 0 min  ##  2

# night boat: 1 landing, up to 1 minute late
# 2 more were over 120 minutes late and stand apart: no sheet promises anything for such landings
class "night boat" shares 0 4096
# 0 min     0
# 1 min  #  1

# fog: 2 landings, but no table (refused 16): each was over 120 minutes late; no sheet promises anything for such landings
# Add other landings of this class to the log.
"""
TOO_MANY = """# ferry: 13 landings, but no table (refused 15): more than 1000000 count as equally late, or as over 120 minutes late
# Leave some of them out of the log.
"""
# minutes late of classes that lie on both sides of a line
EDGES = {
    "a": [119], "b": [120], "c": [120, 121], "d": [121, 0], "e": [-1], "f": [0], "g": [1, -1], "h": [19], "i": [20], "j": [39], "k": [40],
    "l": [99], "m": [100, 0], "n": [0] * 4096 + [120], "o": [0] * 9000 + [7] + [9] * 3, "p": list(range(-3, 130)),
}
NAMES = ["ferry", '"night boat"', "Fähre", "島の港", '"class"', '"7"', '"Pier #1"', "a'b", "bus", "hop", "sea", *range(16)]
HEAD = re.compile("# (.+): ([0-9]+) landings?, (?:up to ([0-9]+) minutes? late|on time or early)")
APART = re.compile("# ([0-9]+) more (?:was|were) over 120 minutes late and stands? apart: .+")
ROW = re.compile("# +([0-9]+)(?: to ([0-9]+))? min  (#*) +([0-9]+)")
WORDS = "table 10 landings 12 apart 1\nshares 2048 0 0 0 0 1024 0 0 0 0 1024\ncounts 6 0 0 0 0 3 0 0 0 0 3\n"
LINES = WORDS.splitlines(keepends=True)


def log_text(classes, chance=None):
    """A log of classes and how late their landings are: all planned for noon of day 3, or as chance has it, class by class or mixed."""
    landings = [(name, late) for name, all_late in classes.items() for late in all_late]
    firsts = {}
    if chance:
        chance.shuffle(landings)
    for name, _ in landings:
        firsts.setdefault(name)
    return "".join(f"{name} {times(late, chance)}\n" for name, late in landings), {name: classes[name] for name in firsts}


def times(late, chance):
    """When a landing so late was planned and was made, in any of the forms that say it."""
    planned = chance.randrange(max(0, -late), min(10079, 10079 - late) + 1) if chance else 2 * 1440 + 720
    actual, day = planned + late, planned // 1440
    forms = [writer.time(actual)]
    if actual // 1440 == day and abs(late) <= 720:
        forms.append(writer.time(actual)[3:])
    if actual // 1440 == day + 1:
        forms.append(f"+1 {writer.time(actual)[3:]}")
    return f"{writer.time(planned)} {chance.choice(forms) if chance else forms[0]}"


def recounted(all_late):
    """Document 02's tally and table: counts for 0 to the greatest lateness tallied, shares, and how many stand apart."""
    tallied = [max(late, 0) for late in all_late if late <= 120]
    if not tallied:
        return None
    counts = [tallied.count(late) for late in range(max(tallied) + 1)]
    sums = [4096 * sum(late <= most for late in tallied) // len(tallied) for most in range(len(counts))]
    return counts, [after - before for before, after in zip([0, *sums], sums)], len(all_late) - len(tallied)


def rows_fault(lines, counts):
    """What is wrong with the rows of marks for these counts."""
    rows = [ROW.fullmatch(line) for line in lines]
    if None in rows or not 1 <= len(rows) <= 20:
        return f"rows {lines}"
    spans = [(int(row[1]), int(row[2] or row[1])) for row in rows]
    width = spans[0][1] + 1
    if width not in (1, 2, 5, 10) or spans != [(at, min(at + width, len(counts)) - 1) for at in range(0, len(counts), width)]:
        return f"rows of {spans} for {len(counts)} counts"
    found = [(int(row[4]), len(row[3])) for row in rows]
    if [count for count, _ in found] != [sum(counts[first:last + 1]) for first, last in spans]:
        return f"rows that count {found}"
    most = max(found)[0]
    fair = all(0 <= marks - count * min(most, 40) / most < 1 for count, marks in found)
    return None if fair else f"marks {found}"


def class_fault(name, all_late, lines):
    """What is wrong with the lines that are printed of a class."""
    title, word = (f"class {name}", "") if isinstance(name, int) else (name.strip('"'), f" {name}")
    table = recounted(all_late)
    if table is None:
        start = f"# {title}: {len(all_late)} landing{'s' * (len(all_late) > 1)}, but no table (refused 16): "
        return None if lines[0].startswith(start) and all(line.startswith("# ") for line in lines) else f"{lines}"
    counts, shares, apart = table
    head = HEAD.fullmatch(lines[0])
    if not head or (head[1], int(head[2]), int(head[3] or 0)) != (title, sum(counts), len(counts) - 1):
        return f"the head {lines[0]}"
    told = APART.fullmatch(lines[1])
    if (int(told[1]) if told else 0) != apart:
        return f"{apart} stand apart, but it says {lines[1]}"
    kind, *rows = lines[2:] if told else lines[1:]
    return rows_fault(rows, counts) if kind == f"class{word} shares {' '.join(map(str, shares))}" else f"{kind} for {shares}"


def table_failure(what, classes, chance=None):
    """A log's tables as printed, and as the files that a text becomes which they stand in."""
    text, classes = log_text(classes, chance)
    with room() as folder:
        status, out, err = called("tables", lay(folder, text), "--programs", BIN)
        timetable = "stops 3\nsail 0 1 d1 10:00 10:30 trip 0 class 0\nquery 0 1 d1 09:50\n"
        packed = called("pack", "--quiet", lay(folder, out + timetable), f"{folder}/packed")
        files = files_in(f"{folder}/packed")
    parts = [part.splitlines() for part in out.split("\n\n")]
    tables = {name: recounted(all_late) for name, all_late in classes.items()}
    if err or status != (None in tables.values()) or len(parts) != len(classes):
        return f"{what}: ended with {status}: {out}{err}"
    for (name, all_late), lines in zip(classes.items(), parts):
        if fault := class_fault(name, all_late, lines):
            return f"{what}, {name}: {fault}"
    made = [(name, table[1]) for name, table in tables.items() if table]
    names = "".join(f'class {place} "{name.strip(chr(34))}"\n' for place, (name, _) in enumerate(made) if isinstance(name, str))
    sailings = writer.sailing_file([(0, 1, 600, 630, 0, 0)], [shares for _, shares in made], 3)
    wanted = {"sailings": sailings, "query": writer.query_bytes(0, 1, 590), "names": names.encode()}
    return None if packed == (0, "", "") and files == wanted else f"{what}: packs to {packed}, {files}"


def generated(seed):
    """Some classes, of few landings or many, that are little or very late; one of them at least has a table."""
    chance = random.Random(seed)
    classes = {}
    for name in chance.sample(NAMES, chance.choice((1, 2, 3, 5))):
        least, most = chance.choice(((-5, 3), (-20, 20), (0, 45), (-2000, 120), (60, 240), (121, 3000)))
        classes[name] = [chance.randint(least, most) for _ in range(chance.choice((1, 2, 10, 100, 700)))]
    return {name: [*all_late, 2] if name == next(iter(classes)) else all_late for name, all_late in classes.items()}, chance


def printed_failures():
    """To the letter, in this process and in one that finds the program by itself; and with the program alone in a folder."""
    with room() as folder, room() as place:
        path = lay(folder, log_text(LOG)[0])
        shutil.copy(BIN / "tables", place)
        for words in (("--programs", BIN), (), ("--programs", place)):
            found = started("tables", path, *words)
            yield None if found == (1, PRINTED, "") else f"printed with {words}: {found}"
        found = called("tables", path)
        yield None if found == (1, PRINTED, "") else f"printed: {found}"


def wrong_programs():
    """What the case is, the words of `tables`, what a stand-in does besides, and a piece of the message."""
    yield "nothing", "", "", "cut short"
    yield "no line end", WORDS[:-1], "", "cut short"
    yield "half a line", WORDS[:-8], "", "cut short"
    yield "letters of elsewhere", WORDS.replace("table", "täble"), "", "garbled"
    yield "the first line alone", LINES[0], "", "no whole table: it starts 'table 10 landings 12 apart 1' and has 0 more lines"
    yield "no counts", "".join(LINES[:2]), "", "no whole table"
    yield "no first line", "".join(LINES[1:]), "", "no whole table"
    yield "a line too many", WORDS + LINES[2], "", "no whole table"
    yield "lines in other order", LINES[0] + LINES[2] + LINES[1], "", "no whole table"
    yield "an empty line", WORDS + "\n", "", "no whole table"
    yield "a blank too many", WORDS.replace("shares ", "shares  "), "", "no whole table"
    yield "a number that is none", WORDS.replace("2048", "2o48"), "", "no whole table"
    yield "a number below 0", WORDS.replace("apart 1", "apart -1"), "", "no whole table"
    yield "a number with a 0 ahead", WORDS.replace("landings 12", "landings 012"), "", "no whole table"
    yield "a refusal that is none", "refused 13\nwhy\n", "", "no whole table"
    yield "a minute past the week", "refused 14\nwhy\n", "", "no whole table: it starts 'refused 14' and has 1 more lines"
    yield "a refusal without a reason", "refused 16\n", "", "no whole table"
    yield "a refusal and an empty line", "refused 16\n\n", "", "no whole table"
    yield "a share too few", WORDS.replace(" 1024\ncounts", "\ncounts"), "", "10 shares and 11 counts for 10 minutes"
    yield "a count too many", WORDS.replace("counts 6", "counts 0 6"), "", "11 shares and 12 counts for 10 minutes"
    yield "another maximum", WORDS.replace("table 10", "table 11"), "", "11 shares and 11 counts for 11 minutes"
    yield "a maximum past the last", f"table 121 landings 12 apart 1\nshares{' 0' * 121} 4096\ncounts{' 0' * 121} 12\n", "", "122 shares"
    yield "counts of fewer landings", WORDS.replace("counts 6", "counts 5"), "", "counts that sum to 11 and end with 3, for 12 landings"
    yield "a last count of 0", WORDS.replace("0 3\n", "3 0\n"), "", "counts that sum to 12 and end with 0"
    yield "no landings", "table 0 landings 0 apart 13\nshares 4096\ncounts 0\n", "", "counts that sum to 0"
    yield "another log's landings", WORDS.replace("apart 1\n", "apart 0\n"), "", "12 landings and 0 apart, of 13"
    yield "shares of less than all", WORDS.replace("2048", "2047"), "", "shares that are not those of the counts, and sum to 4095"
    yield "shares of other counts", WORDS.replace("2048 0", "2047 1"), "", "shares that are not those of the counts, and sum to 4096"
    yield "standard error", WORDS, "echo oops >&2", "oops"
    yield "a status", WORDS, "exit 3", "status 3"
    yield "a signal", WORDS, "kill -9 $$", "status -9"
    yield "a status behind the first class", WORDS, "[ $(wc -c < landings) = 52 ] || exit 4", "status 4"
    yield "the same words for every class", WORDS, "", "12 landings and 1 apart, of 2"


def ended_with(place, classes):
    """How the command ends with the programs of a folder, and the folders that are left of those in which they were run."""
    with room() as folder, stand_ins_run():
        ended = called("tables", lay(folder, log_text(classes)[0]), "--programs", place)
    seen = pathlib.Path(place, "seen")
    folders = seen.read_text().splitlines() if seen.exists() else []
    return ended, folders, [folder for folder in folders if pathlib.Path(folder).exists()]


def refusing_failure(what, place, piece):
    """With such a program the command ends with one message, prints nothing, and leaves no folder."""
    (status, out, err), _, left = ended_with(place, LOG)
    plain = (status, out, left) == (1, "", []) and err.count("\n") == 1 and piece in err
    return None if plain else f"{what}: ended with {status}, left {left}: {out}{err}"


def programs_failures():
    for what, words, more, piece in wrong_programs():
        with room() as place:
            program(pathlib.Path(place, "tables"), words, f"pwd >> {place}/seen\n{more}")
            yield refusing_failure(what, place, piece)
    with room() as place:
        yield refusing_failure("no program", place, "the program tables is not in")
        yield refusing_failure("no folder", f"{place}/none", "is not in")
        program(pathlib.Path(place, "tables"), WORDS)
        pathlib.Path(place, "tables").chmod(0o644)
        yield refusing_failure("no program that starts", place, "cannot be run")


def stand_in_failures():
    """Words that are taken: a table, and the refusal of counts that are full; each class has a folder of its own, which is gone."""
    for words, wanted, status in ((WORDS, PRINTED.split("\n\n")[0] + "\n", 0), ("refused 15\nwhy\nwhat helps\n", TOO_MANY, 1)):
        with room() as place:
            program(pathlib.Path(place, "tables"), words, f"pwd >> {place}/seen")
            ended, folders, left = ended_with(place, {"ferry": FERRY})
            both, folders, left = ended_with(place, {"ferry": FERRY, "other": FERRY})
        good = ended == (status, wanted, "") and both == (status, f"{wanted}\n{wanted.replace('ferry', 'other')}", "")
        yield None if good and len(set(folders)) == 3 and not left else f"{words}: {ended}, then {both}, in {folders}, of which {left} stay"


def main():
    failures = [*printed_failures(), *programs_failures(), *stand_in_failures(), table_failure("edges", EDGES)]
    failures += [table_failure(f"log {seed}", *generated(seed)) for seed in range(LOGS)]
    finish("tables", len(failures), [failure for failure in failures if failure])


main()
