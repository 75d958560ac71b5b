"""`office sheets`: what it writes and prints, and programs that are missing or say what is no whole sheet."""
import pathlib
import re
import shutil
import subprocess
import unittest.mock

import generated
from planner import BIN, RUNNER, program, program_words, stand_ins_run
from running import ROOT, called, files_in, finish, lay, room, started

W = (ROOT / "examples" / "w.txt").read_text()
W_PRINTED = """stop 0 to stop 2, from d1 09:50
expected d1 11:15, latest d1 11:30, 3 rides
Board at  departs   Land at  due       expected
stop 0    d1 10:00  stop 1   d1 10:30  d1 11:15
stop 1    d1 10:32  stop 2   d1 11:00  d1 11:00
stop 1    d1 10:50  stop 2   d1 11:30  d1 11:30
"""
TWO = W.replace("stops 3", 'stop "Harbour & Town"\nstop Isle\nstop 灯台').replace(
    "query 0 2 d1 09:50 bound 0", "query name late 0 2 d1 10:01\nquery name early 0 2 d1 09:50 bound 5")
TWO_PRINTED = """late: Harbour & Town to 灯台, from d1 10:01
refused 8
{reason}stop 0 is Harbour & Town
stop 1 is Isle
stop 2 is 灯台

early: Harbour & Town to 灯台, from d1 09:50, bound 5
expected d1 11:15, latest d1 11:30, 3 rides
Board at        departs   Land at  due       expected
Harbour & Town  d1 10:00  Isle     d1 10:30  d1 11:15
Isle            d1 10:32  灯台     d1 11:00  d1 11:00
Isle            d1 10:50  灯台     d1 11:30  d1 11:30
"""
# the 10:32 gains 256 ticks on the 10:50: at a margin of 256 it stays, at 257 it is left out
MARGINS = W.replace("d1 11:30", "d1 11:01").replace(
    "query 0 2 d1 09:50 bound 0",
    "\n".join(f"query name {name} 0 2 d1 09:50 margin {margin}" for name, margin in (("least", 1), ("some", 256), ("more", 257))))
MARGINS_PRINTED = """least: stop 0 to stop 2, from d1 09:50
expected d1 11:01, latest d1 11:01, 3 rides
Board at  departs   Land at  due       expected
stop 0    d1 10:00  stop 1   d1 10:30  d1 11:01
stop 1    d1 10:32  stop 2   d1 11:00  d1 11:00
stop 1    d1 10:50  stop 2   d1 11:01  d1 11:01

some: stop 0 to stop 2, from d1 09:50, margin 256
expected d1 11:01, latest d1 11:01, 3 rides
Rides that gain less than 1 minute on the next from their stop are left out.
Board at  departs   Land at  due       expected
stop 0    d1 10:00  stop 1   d1 10:30  d1 11:01
stop 1    d1 10:32  stop 2   d1 11:00  d1 11:00
stop 1    d1 10:50  stop 2   d1 11:01  d1 11:01

more: stop 0 to stop 2, from d1 09:50, margin 257
expected d1 11:01, latest d1 11:01, 2 rides
Rides that gain less than 257 ticks (under 1 minute 1 second) on the next from their stop are left out.
Board at  departs   Land at  due       expected
stop 0    d1 10:00  stop 1   d1 10:30  d1 11:01
stop 1    d1 10:50  stop 2   d1 11:01  d1 11:01
"""
# whoever lands at 10:30 gets the 10:32 until its gate closes three minutes before; all who land by 10:40 get the 10:50 until ten
GATES = W.replace("stops 3", "stop Harbour\nstop Isle\nstop Lighthouse").replace(
    "query 0 2 d1 09:50 bound 0",
    "\n".join(f"query name {name} 0 2 d1 09:50 gate {words}" for name, words in (
        ("open", "0"), ("one", "1"), ("caught", "2"), ("missed", "3 margin 256"), ("last", "10 bound 4"), ("late", "11"))))
GATES_PRINTED = """open: Harbour to Lighthouse, from d1 09:50
expected d1 11:15, latest d1 11:30, 3 rides
Board at  departs   Land at     due       expected
Harbour   d1 10:00  Isle        d1 10:30  d1 11:15
Isle      d1 10:32  Lighthouse  d1 11:00  d1 11:00
Isle      d1 10:50  Lighthouse  d1 11:30  d1 11:30

one: Harbour to Lighthouse, from d1 09:50, gate 1
expected d1 11:15, latest d1 11:30, 3 rides
Gates close 1 minute before departure.
Board at  departs   Land at     due       expected
Harbour   d1 10:00  Isle        d1 10:30  d1 11:15
Isle      d1 10:32  Lighthouse  d1 11:00  d1 11:00
Isle      d1 10:50  Lighthouse  d1 11:30  d1 11:30

caught: Harbour to Lighthouse, from d1 09:50, gate 2
expected d1 11:15, latest d1 11:30, 3 rides
Gates close 2 minutes before departure.
Board at  departs   Land at     due       expected
Harbour   d1 10:00  Isle        d1 10:30  d1 11:15
Isle      d1 10:32  Lighthouse  d1 11:00  d1 11:00
Isle      d1 10:50  Lighthouse  d1 11:30  d1 11:30

missed: Harbour to Lighthouse, from d1 09:50, margin 256, gate 3
expected d1 11:30, latest d1 11:30, 2 rides
Gates close 3 minutes before departure.
Rides that gain less than 1 minute on the next from their stop are left out.
Board at  departs   Land at     due       expected
Harbour   d1 10:00  Isle        d1 10:30  d1 11:30
Isle      d1 10:50  Lighthouse  d1 11:30  d1 11:30

last: Harbour to Lighthouse, from d1 09:50, bound 4, gate 10
expected d1 11:30, latest d1 11:30, 2 rides
Gates close 10 minutes before departure.
Board at  departs   Land at     due       expected
Harbour   d1 10:00  Isle        d1 10:30  d1 11:30
Isle      d1 10:50  Lighthouse  d1 11:30  d1 11:30

late: Harbour to Lighthouse, from d1 09:50, gate 11
refused 8
{reason}stop 0 is Harbour
stop 1 is Isle
stop 2 is Lighthouse
"""
# the partner's ids: a stop and a trip that go by their numbers, and a trip that no boat makes
IDS = W.replace("stops 3", 'stop "4101"\nstop 1\nstop "LH"\ntrip "12-0630"\ntrip 1\ntrip "none"\ntrip "N 1"')
IDS_PRINTED = """4101 to LH, from d1 09:50
expected d1 11:15, latest d1 11:30, 3 rides
Board at  departs   Land at  due       expected  trip
4101      d1 10:00  stop 1   d1 10:30  d1 11:15  12-0630
stop 1    d1 10:32  LH       d1 11:00  d1 11:00  trip 1
stop 1    d1 10:50  LH       d1 11:30  d1 11:30  N 1
"""
SHEET = (ROOT / "examples" / "w" / "sheet").read_text()
LINES = SHEET.splitlines(keepends=True)


def printed_failure(what, text, wanted, status):
    """A text's sheets as printed, a reason in the words of `explain` itself."""
    with room() as folder:
        found = called("sheets", lay(folder, text), f"{folder}/sheets", "--programs", BIN)
        again = started("sheets", f"{folder}/text", f"{folder}/sheets", "--programs", BIN)
        reason = program_words("explain", f"{folder}/sheets/late").decode().replace("refused 8\n", "") if status else ""
    return None if found == again == (status, wanted.format(reason=reason), "") else f"{what}: {found}, then {again}"


def written_failure(what, text):
    """The files are those of `pack`, and beside each query is what the program prints of them, to the letter; `page` writes the same."""
    with room() as folder:
        path, made, packed, pages = lay(folder, text), *(pathlib.Path(folder, name) for name in ("sheets", "packed", "pages"))
        called("pack", "--quiet", path, packed)
        status, out, err = called("sheets", path, made, "--programs", BIN)
        called("page", path, pages, "--programs", BIN)
        wanted = files_in(packed)
        for query in packed.rglob("query"):
            wanted[str((query.parent / "sheet").relative_to(packed))] = program_words("sheet", query.parent)
        found = files_in(made)
        in_pages = {name: data for name, data in files_in(pages).items() if not name.endswith(".html")}
    refused = sum(data.startswith(b"refused") for name, data in wanted.items() if name.endswith("sheet"))
    times = sum(len(re.findall(rb"d\d ..:..", data)) for name, data in wanted.items() if name.endswith("sheet"))
    if err or found != wanted or in_pages != wanted or status != (refused > 0):
        return f"{what}: status {status}, {sorted(found)} written: {err}"
    shown = len(re.findall(r"d\d \d\d:\d\d", "".join(part for part in out.split("\n\n") if "refused" not in part)))
    queries = text.count("\nquery")
    return None if shown == times + queries - refused else f"{what}: {shown} times are printed, not {times} and those of {queries} queries"


def wrong_programs():
    """What the case is, the words of `sheet` and `explain`, what a stand-in does besides, and a word of the message."""
    told = program_words("explain", ROOT / "examples" / "w").decode()
    yield "half a line", SHEET[:-20], told, "", "cut short"
    yield "half a sheet", "".join(LINES[:3]), told, "", "no whole sheet"
    yield "no line end", SHEET[:-1], told, "", "cut short"
    yield "a line too many", SHEET + LINES[-1], told, "", "no whole sheet"
    yield "the first line alone", LINES[0], told, "", "no whole sheet"
    yield "no first line", "".join(LINES[1:]), told, "", "no whole sheet"
    yield "no ride", "plan 0 d1 11:15 d1 11:30\n", told, "", "no whole sheet"
    yield "a line of other words", SHEET.replace("1 d1 10:32", "1 d1 10:62"), told, "", "no whole sheet"
    yield "nothing", "", told, "", "cut short"
    yield "an empty line", "\n", told, "", "no whole sheet"
    yield "a refusal that is none", "refused 9\n", told, "", "no whole sheet"
    yield "a refusal and more", "refused 8\n" + SHEET, told, "", "no whole sheet"
    yield "standard error", SHEET, told, "echo oops >&2", "oops"
    yield "a status", SHEET, told, "exit 3", "status 3"
    yield "a signal", SHEET, told, "kill -9 $$", "status -9"
    yield "another expected arrival", SHEET.replace("plan 3 d1 11:15", "plan 3 d1 11:16"), told, "", "first line"
    yield "another latest arrival", SHEET.replace("d1 11:30\n0", "d1 11:31\n0"), told, "", "latest"
    yield "another stop", SHEET.replace("1 d1 10:32 2", "1 d1 10:32 0"), told, "", "no trip"
    yield "another plan's words", SHEET, told.replace("trip 3", "trip 2"), "", "not in the timetable"
    yield "words without a ride", SHEET, told.split(";")[0] + "\n", "", "explain tells of 2"
    yield "a ride twice", SHEET, told.replace("trip 3", "trip 1").replace("10:50", "10:32").replace("11:30;", "11:00;"), "", "explain tells"
    yield "no words", SHEET, "", "", "cut short"
    yield "words for a refusal", SHEET, "refused 8\n", "", "explain tells of 0"


def gate_failures():
    """W's sheet, whatever is asked: it is taken where one still gets the first boat, and the last one onward, in the minute in which its
    gate closes, and not a minute later."""
    with room() as place, stand_ins_run():
        program(pathlib.Path(place, "sheet"), SHEET)
        program(pathlib.Path(place, "explain"), program_words("explain", ROOT / "examples" / "w").decode())
        for start, gate, word in (("09:58", 2, ""), ("09:59", 2, "first line"), ("09:40", 10, ""), ("09:40", 11, "to be had at stop 1 at d1 10:40")):
            text = W.replace("d1 09:50 bound 0", f"d1 {start} gate {gate}")
            if word:
                yield from (refusing_failure(command, f"gate {gate} at {start}", place, word, text) for command in ("sheets", "page"))
                continue
            with room() as folder:
                found = called("page", lay(folder, text), f"{folder}/made", "--programs", place)
            yield None if found == (0, "", "") else f"gate {gate} at {start}: {found}"


def refusing_failure(command, what, place, word, text=W):
    """With these programs a command ends with one message, and leaves nothing."""
    with room() as folder, stand_ins_run():
        status, out, err = called(command, lay(folder, text), f"{folder}/made", "--programs", place)
        left = sorted(path.name for path in pathlib.Path(folder).iterdir())
    if (status, out, left) == (1, "", ["text"]) and err.count("\n") == 1 and word in err:
        return None
    return f"{command}, {what}: status {status}, {left} left, printed {out}, {err}"


def programs_failures():
    for what, sheet, words, more, message in wrong_programs():
        with room() as place:
            program(pathlib.Path(place, "sheet"), sheet, more)
            program(pathlib.Path(place, "explain"), words)
            yield from (refusing_failure(command, what, place, message) for command in ("sheets", "page"))
    with room() as place:
        yield refusing_failure("page", "no programs", place, "bash tools/programs")
        yield refusing_failure("page", "no programs", place, place)
        program(pathlib.Path(place, "sheet"), SHEET)
        yield refusing_failure("page", "no explain", place, "the program explain is not in")
        program(pathlib.Path(place, "explain"), "refused 1\n")
        pathlib.Path(place, "sheet").chmod(0o644)
        yield refusing_failure("sheets", "no program that starts", place, "cannot be run")
        yield refusing_failure("sheets", "no folder", f"{place}/none", "is not in")


def placed_failures():
    """Programs in bin beside the office, before those of target/bin; on a machine of another kind they're run by tools/x86_64."""
    with room() as folder:
        root = pathlib.Path(folder)
        shutil.copytree(ROOT / "office", root / "office")
        (root / "tools").mkdir()
        shutil.copy(RUNNER, root / "tools")
        words = [root / "office" / "office", "sheets", ROOT / "examples" / "w.txt", root / "made"]
        for place in ("target/bin", "bin"):
            none = subprocess.run(words, capture_output=True, text=True)
            yield None if none.returncode == 1 else f"before {place}: {none}"
            shutil.copytree(BIN, root / place)
            found = subprocess.run(words, capture_output=True, text=True)
            yield None if (found.returncode, found.stdout) == (0, W_PRINTED) else f"in {place}: {found}"
            program(root / "target/bin/sheet", "from target/bin\n")
        program(root / "tools/x86_64", "refused 8\n", f'[ "$*" = "run {root}/bin/sheet" ] || echo "$*" >&2')
        with unittest.mock.patch("programs.ROOT", root), unittest.mock.patch("platform.machine", lambda: "aarch64"):
            status, out, err = called("sheets", ROOT / "examples" / "w.txt", root / "made")
        yield None if status == 1 and not out and f"run {root}/bin/explain" in err else f"by tools/x86_64: {out}{err}"


def stale_failures():
    """A sheet or a page stays beside the files that it was made of, and is refused beside others; then nothing is written."""
    with room() as folder:
        place = pathlib.Path(folder, "made")
        old, new = lay(folder, W), pathlib.Path(folder, "new")
        new.write_text(W.replace("09:50", "09:49"), encoding="utf-8")
        left = {"pack": ("sheet", "page.html"), "sheets": ("index.html", "page.html"), "page": ()}
        called("page", old, place, "--programs", BIN)
        before = files_in(place)
        for command, names in left.items():
            more = () if command == "pack" else ("--programs", BIN)
            kept = called(command, old, place, *more)
            yield None if kept[0] == 0 and files_in(place) == before else f"{command} again: {kept}"
            status, _, told = called(command, new, place, *more)
            refused = status == 1 and any(f"{name}: is of another packing" in told for name in names) and files_in(place) == before
            yield None if refused or (not names and status == 0) else f"{command} of another text: {status}, {told}"


def main():
    failures = [printed_failure("W", W, W_PRINTED, 0), printed_failure("two queries", TWO, TWO_PRINTED, 1)]
    failures.append(printed_failure("margins", MARGINS, MARGINS_PRINTED, 0))
    failures.append(printed_failure("gates", GATES, GATES_PRINTED, 1))
    failures.append(printed_failure("ids", IDS, IDS_PRINTED, 0))
    failures += [written_failure(name, (ROOT / "examples" / f"{name}.txt").read_text()) for name in ("w", "islands", "week", "partner")]
    failures += [written_failure(f"text {seed}", generated.text(seed)) for seed in range(40)]
    failures += [*programs_failures(), *gate_failures(), *placed_failures(), *stale_failures()]
    finish("sheets", len(failures), [failure for failure in failures if failure])


main()
