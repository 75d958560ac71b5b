"""Wrong texts, each with the lines that must be told and a piece of what is told of them."""
import re

from running import called, files_in, finish, room

BASE = """stop Harbour
stop "North Island"
stop Lighthouse
class bus shares 4096
class ferry house 5 30
sail Harbour "North Island" d1 07:00 d1 07:40 trip early class ferry
sail "North Island" Lighthouse d1 08:00 d1 08:30 trip early class bus
sail Lighthouse Harbour 09:00 09:30 trip back class 0 days 1-5
query Harbour Lighthouse d1 06:45
""".splitlines()
SHORT = ["stops 3", "class 4096", "query 0 2 d1 09:50"]
LAST = len(BASE) + 1


def changed(**lines):
    """The base with the lines `line6=..` changed; a line that is None is left out."""
    numbered = {f"line{place}": line for place, line in enumerate(BASE, 1)}
    return [line for line in (numbered | lines).values() if line is not None]


def added(*lines):
    return [*BASE, *lines]


def of_lines(cases):
    """Lines that are wrong by themselves, behind the base, with a piece of the message."""
    for line, piece in cases:
        yield line, added(line), {LAST: piece}


SAILS = [
    ("sail 0 1 d1 10:00 d1 10:75 trip 8 class 1", "read 10:75, asked for a time of day"),
    ("sail 0 1 d1 10:00 d1 10:60 trip 8 class 1", "read 10:60"),
    ("sail 0 1 d1 10:-5 d1 10:30 trip 8 class 1", "read 10:-5"),
    ("sail 0 1 x1 10:00 d1 10:30 trip 8 class 1", "read x1, asked for the departure's day"),
    ("sail 0 1 d1 10:00 x1 10:30 trip 8 class 1", "read x1"),
    ("sail 0 1 d1 1_0:00 d1 10:30 trip 8 class 1", "read 1_0:00"),
    ("sail 0 1 d1 ١٠:00 d1 10:30 trip 8 class 1", "read ١٠:00"),
    ("sail 0 1 d1 24:00 d2 00:30 trip 8 class 1", "read 24:00"),
    ("sail 0 1 d1 10:0 d1 10:30 trip 8 class 1", "read 10:0"),
    ("sail 0 1 d1 10.00 d1 10:30 trip 8 class 1", "read 10.00"),
    ("sail 0 1 d0 10:00 d1 10:30 trip 8 class 1", "read d0"),
    ("sail 0 1 d8 10:00 d8 10:30 trip 8 class 1", "read d8"),
    ("sail 0 1 D1 10:00 D1 10:30 trip 8 class 1", "read D1"),
    ("sail 0 1 d1 10:00 d8 00:30 trip 8 class 1", "read d8"),
    ("sail 0 1 d7 23:50 +1 00:10 trip 8 class 1", "read an arrival at d8 00:10"),
    ("sail 0 1 23:50 +1 00:10 trip x class 1 days 5-7", "read an arrival at d8 00:10"),
    ("sail 0 1 d1 10:00 d1 10:00 trip 8 class 1", "asked for one after the departure"),
    ("sail 0 1 d1 23:50 00:20 trip 8 class 1", "on the next day it is +1 00:20"),
    ("sail 0 1 23:50 00:20 trip x class 1 days 2", "on the next day it is +1 00:20"),
    ("sail 0 1 +1 00:30 00:20 trip x class 1 days 2", "asked for one after the departure at 00:30"),
    ("sail 0 1 +1 00:30 00:40 trip x class 1 days 6-7", "read an arrival at d8 00:40"),
    ("sail 0 1 +1 00:30 00:40 trip x class 1", "read +1"),
    ("sail 0 1 d2 10:00 d1 10:30 trip 8 class 1", "asked for one after the departure at d2 10:00"),
    ("sail 0 1 d1 10:00 +2 10:30 trip 8 class 1", "read +2"),
    ("sail 0 1 d1 10:00 +1 trip 8 class 1", "read the line's end"),
    ("sail 0 1 10:00 10:30 trip 8 class 1", "read 10:00, asked for the departure's day"),
    ("sail 0 1 d1 10:00 10:30 trip x class 1 days 1-5", "read d1, asked for a departure such as"),
    ("sail 0 1 10:00 d1 10:30 trip x class 1 days 1-5", "read d1, asked for an arrival such as"),
    ("sail 0 1 10:00 10:30 trip x class 1 days 1 - 5", "read -, asked for the line's end; days are written without blanks"),
    ("sail 0 1 10:00 10:30 trip x class 1 days 1,", "read days 1,"),
    ("sail 0 1 10:00 10:30 trip x class 1 days 5-1", "lower to a higher"),
    ("sail 0 1 10:00 10:30 trip x class 1 days 5-5", "lower to a higher"),
    ("sail 0 1 10:00 10:30 trip x class 1 days 1-5,3", "each day once"),
    ("sail 0 1 10:00 10:30 trip x class 1 days 0-5", "read 0, asked for a day's number (1 to 7"),
    ("sail 0 1 10:00 10:30 trip x class 1 days 1-8", "read 8, asked for a day's number (1 to 7"),
    ("sail 0 1 10:00 10:30 trip x class 1 days Mon-Fri", "read days Mon-Fri"),
    ("sail 0 1 10:00 10:30 trip x class 1 days", "read days without a value"),
    ("sail 0 1 10:00 10:30 trip x class 1 days 1 days 2", "read a second days"),
    ("sail 0 1 d1 10:00 d1 10:30 class 1", "read no trip"),
    ("sail 0 1 d1 10:00 d1 10:30 trip 8", "read no class"),
    ("sail 0 1 d1 10:00 d1 10:30 trip class 1", "read trip without a value"),
    ("sail 0 1 d1 10:00 d1 10:30 trip 8 class", "read class without a value"),
    ("sail 0 1 d1 10:00 d1 10:30 trip 8 class 1 trip 8", "read a second trip"),
    ("sail 0 1 d1 10:00 d1 10:30 trip 8 class 1 class 0", "read a second class"),
    ("sail 0 1 d1 10:00 d1 10:30 trip 2000 class 1", "read 2000, asked for a trip's number (0 to 1999"),
    ("sail 0 1 d1 10:00 d1 10:30 trip -1 class 1", "with a letter in it"),
    ("sail 0 1 d1 10:00 d1 10:30 trip ٣ class 1", "with a letter in it"),
    ("sail 0 1 d1 10:00 d1 10:30 trip \"\" class 1", "that can be seen"),
    ("sail 0 1 d1 10:00 d1 10:30 trip 8 class 2", "read 2, asked for the name or number of a class that the text has (0 to 1"),
    ("sail 0 1 d1 10:00 d1 10:30 trip 8 class Ferry", "is ferry meant?"),
    ("sail 0 1 d1 10:00 d1 10:30 trip 8 class fast", "read fast, asked for the name or number of a class"),
    ("sail 0 3 d1 10:00 d1 10:30 trip 8 class 1", "read 3, asked for the name or number of a stop that the text has (0 to 2"),
    ("sail 0 99999999999999999999 d1 10:00 d1 10:30 trip 8 class 1", "of a stop that the text has (0 to 2"),
    ("sail harbour 1 d1 10:00 d1 10:30 trip 8 class 1", "is Harbour meant?"),
    ("sail Lighthuose 1 d1 10:00 d1 10:30 trip 8 class 1", "is Lighthouse meant?"),
    ("sail Nowhere 1 d1 10:00 d1 10:30 trip 8 class 1", "read Nowhere, asked for the name or number of a stop"),
    ("sail \"0\" 1 d1 10:00 d1 10:30 trip 8 class 1", "read \"0\", asked for the name or number of a stop"),
    ("sail North Island Harbour d1 10:00 d1 10:30 trip 8 class 1", "read Harbour, asked for the departure's day behind two stops, d1 to d7; a name of several words"),
    ("sail 0 0 d1 10:00 d1 10:30 trip 8 class 1", "two different stops"),
    ("sail 0 Harbour d1 10:00 d1 10:30 trip 8 class 1", "two different stops"),
    ("sail 0 1 d1 10:00 d1 10:30 trip 8 class 1 2", "read 2, asked for the line's end"),
    ("sail 0 1 d1 10:00 d1 10:30 trip 8 class 1 bound 4", "read bound, asked for the line's end"),
    ("sail 0 1 d1 10:00 d1 10:30 trip 8 class 1 margin 4", "read margin, asked for the line's end"),
    ("sail 0 1 d1 10:00 d1 10:30 trip 8 class 1 gate 4", "read gate, asked for the line's end"),
    ("sail 0 1 d1 10:00 trip 8 class 1", "read the line's end, asked for the arrival"),
    ("sail", "read no trip"),
]
OTHERS = [
    ("stop Harbour", "another name than that of line 1"),
    ("stop", "read the line's end, asked for a stop's name"),
    ("stop South Island", "several words stands in double quotes"),
    ("stop 7", "read stop 7, asked for a name, in double quotes if it has no letter, or 3, the stop's own number"),
    ("stop 200", "read 200, asked for a stop's name, or its number if it has none (0 to 199"),
    ("stop 7:00", "with a letter in it, or in double quotes"),
    ('stop ""', "that can be seen"),
    ('stop "  "', "that can be seen"),
    ('stop "Harbour"', "another name than that of line 1"),
    ("stop class", "none of the form's own words, or in double quotes"),
    ("stop margin", "none of the form's own words"),
    ("stop gate", "none of the form's own words"),
    ("stop " + "x" * 61, "at most 60 characters, not 61"),
    ('stop "a"b', "a double quote inside a word"),
    ('stop a"b', "a double quote inside a word"),
    ('stop "South Island', "a double quote that is not closed"),
    ("stop South\u00a0Island", "U+00A0 (NO-BREAK SPACE)"),
    ("stop A\x00B", "U+0000"),
    ("stop A\rstop B", "U+000D"),
    ("# a bell\x07", "U+0007"),
    ('stop "A\tB"', "U+0009"),
    ("stop A\udce9", "read 0xe9 as the line's byte 7, asked for text saved as UTF-8"),
    ("stops 2 3", "read 3, asked for the line's end"),
    ("stops 1", "(2 to 200"),
    ("stops 201", "(2 to 200"),
    ("stops x", "read x"),
    ("stops", "read the line's end"),
    ("class bus shares 4096", "another name than that of line 4"),
    ("class", "read the line's end, asked for shares, or house and a pair"),
    ("class fast", "read the line's end"),
    ("class shares", "read the line's end"),
    ("class fast shares 4095", "shares that sum to 4095"),
    ("class fast shares 4097", "(0 to 4096"),
    ("class fast 4000 -4 100", "read -4"),
    ("class -4 4100", "read -4"),
    ("class fast shares 4096 0", "a last share of 0"),
    ("class fast shares 3975" + " 1" * 121, "read 122 shares"),
    ("class fast shares 4,096", "read 4,096"),
    ("class fast house 5 31", "one of the house pairs 2 10, 5 30"),
    ("class fast house 5", "asked for a house pair"),
    ("class fast house 5 30 2", "read 2, asked for the line's end"),
    ("class house 4096", "asked for a house pair"),
    ("class house shares 4096", "read house shares 4096"),
    ("tables last", "asked for tables first"),
    ("tables", "asked for tables first"),
    ("tables first first", "asked for tables first"),
    ("sial 0 1 d1 10:00 d1 10:30 trip 8 class 1", "(is sail meant?)"),
    ("STOP A", "(is stop meant?)"),
    ('"stop" A', 'at the line\'s start, without quotes'),
    ("trip", "read the line's end, asked for a trip's name"),
    ("trip 8", "read trip 8, asked for a name, in double quotes if it has no letter, or 0, the trip's own number"),
    ("trip 2000", "read 2000, asked for a trip's number (0 to 1999"),
    ("trip 7:00", "with a letter in it, or in double quotes"),
    ("trip night boat", "several words stands in double quotes"),
]
QUERIES = [
    ("query Harbour Harbour d1 06:45", "two different stops"),
    ("query Harbour 3 d1 06:45", "of a stop that the text has (0 to 2"),
    ("query Harbour d1 06:45", "read 06:45, asked for the day behind two stops"),
    ("query Harbour", "read the line's end, asked for the target stop"),
    ("query 0 2 06:45", "read 06:45, asked for the day"),
    ("query 0 2 d1 06:45 07:00", "read 07:00, asked for the line's end"),
    ("query 0 2 d1 06:45 bound 3", "read bound 3, asked for a bound code, 0 or 4 to 16"),
    ("query 0 2 d1 06:45 bound 17", "read bound 17"),
    ("query 0 2 d1 06:45 bound", "read bound without a value"),
    ("query 0 2 d1 06:45 bound 4 bound 4", "read a second bound"),
    ("query 0 2 d1 06:45 margin 0", "read margin 0, asked for a margin of 1 to 2560 ticks, 256 a minute"),
    ("query 0 2 d1 06:45 margin 2561", "read margin 2561"),
    ("query 0 2 d1 06:45 margin 65536", "read margin 65536"),
    ("query 0 2 d1 06:45 margin -1", "read margin -1"),
    ("query 0 2 d1 06:45 margin 1.5", "read margin 1.5"),
    ("query 0 2 d1 06:45 margin 0:30", "read margin 0:30"),
    ('query 0 2 d1 06:45 margin "256"', 'read margin "256"'),
    ("query 0 2 d1 06:45 margin ٣", "read margin ٣"),
    ("query 0 2 d1 06:45 margin", "read margin without a value, asked for a margin of 1 to 2560 ticks"),
    ("query 0 2 d1 06:45 margin bound 4", "read margin without a value"),
    ("query 0 2 d1 06:45 bound margin 4", "read bound without a value"),
    ("query 0 2 d1 06:45 margin 4 margin 4", "read a second margin, asked for margin once on a line"),
    ("query 0 2 d1 06:45 bound 3 margin 0", "read bound 3"),
    ("query 0 2 d1 06:45 gate 31", "read gate 31, asked for a gate time of 0 to 30 minutes"),
    ("query 0 2 d1 06:45 gate 65536", "read gate 65536"),
    ("query 0 2 d1 06:45 gate -1", "read gate -1"),
    ("query 0 2 d1 06:45 gate 2.5", "read gate 2.5"),
    ("query 0 2 d1 06:45 gate 0:05", "read gate 0:05"),
    ('query 0 2 d1 06:45 gate "5"', 'read gate "5"'),
    ("query 0 2 d1 06:45 gate ٣", "read gate ٣"),
    ("query 0 2 d1 06:45 gate closed", "read gate closed"),
    ("query 0 2 d1 06:45 gate", "read gate without a value, asked for a gate time of 0 to 30 minutes"),
    ("query 0 2 d1 06:45 gate margin 4", "read gate without a value"),
    ("query 0 2 d1 06:45 margin gate 4", "read margin without a value"),
    ("query 0 2 d1 06:45 gate 4 gate 4", "read a second gate, asked for gate once on a line"),
    ("query 0 2 d1 06:45 gate 31 margin 0", "read margin 0"),
    ("query 0 2 d1 06:45 gate 5 minutes", "read minutes, asked for the line's end"),
    ("query 0 2 d1 06:45 name gate", "read name without a value"),
    ("query 0 2 d1 06:45 256", "read 256, asked for the line's end"),
    ("query 0 2 d1 06:45 name", "read name without a value"),
    ("query 0 2 d1 06:45 name a name b", "read a second name"),
    ("query 0 2 d1 06:45 name ..", "with a letter in it"),
    ("query 0 2 d1 06:45 name 7", "with a letter in it"),
    ('query 0 2 d1 06:45 name "7"', "with a letter in it"),
    ('query 0 2 d1 06:45 name "days"', "none of the form's own words"),
    ("query 0 2 d1 06:45 name a/b", "the letters a to z"),
    ("query 0 2 d1 06:45 name früh", "the letters a to z"),
    ("query 0 2 d1 06:45 name Sailings", "none of the files"),
    ("query 0 2 d1 06:45 name sheet", "none of the files"),
    ("query 0 2 d8 06:45", "read d8"),
]


def of_queries():
    for line, piece in QUERIES:
        yield line, changed(line9=line), {9: piece}


def of_texts():
    """Faults that belong to several lines, or to the whole text."""
    yield "empty", [], {1: "a text without a statement"}
    yield "only remarks", ["# a", "", "  # b"], {1: "a text without a statement"}
    yield "no stops", SHORT[1:] + ["#"], {3: "no stops in the whole text"}
    yield "one stop", ["stop A", *SHORT[1:]], {3: "only one stop"}
    yield "no class", [SHORT[0], SHORT[2]], {2: "no class"}
    yield "no query", SHORT[:2], {2: "no query"}
    yield "nothing but stops", ["stops 3", ""], {2: "no class and no query"}
    yield "a second stops", ["stops 3", *SHORT], {2: "a second line with stops"}
    yield "more stop lines than stops", ["stop A", "stop B", "stop C", "stop D", *SHORT], {4: "3 stops, as line 5 says"}
    yield "a second query", [*SHORT, "query 1 2 d1 09:50"], {3: "a query without a name", 4: "a query without a name"}
    yield "one of three without a name", [*SHORT[:2], "query name a 0 1 d1 00:00", SHORT[2], "query 0 1 d1 00:00 name b"], {4: "without a name"}
    yield "names alike but for case", [*SHORT[:2], "query name a 0 1 d1 00:00", "query name A 0 1 d1 00:00"], {4: "another name than that of line 3, capitals aside"}
    yield "tables first twice", ["tables first", *SHORT, "tables first"], {5: "a second line with tables"}
    yield "201 stops", [f"stop s{place}" for place in range(202)] + SHORT[1:], {201: "more than 200 lines with stop"}
    yield "17 classes", [*SHORT, *["class 4096"] * 17], {19: "more than 16 lines with class"}
    yield "2,001 rows", [*SHORT, *[f"sail 0 1 10:00 10:30 trip t{place} class 0 days 1-7" for place in range(287)]], {289: "more than 2000 rows so far"}
    yield "class and trip swapped", [*SHORT, "sail 0 1 d1 10:00 d1 10:30 class 1 trip 0"], {4: "read 1, asked for the name or number of a class that the text has (0 is the only one"}
    yield "all wrong lines at once", ["stops", "class", "sail", "query", "what"], dict.fromkeys(range(1, 6), "read")
    yield "a wrong stop line, names left alone", changed(line2="stop North Island"), {2: "in double quotes"}
    yield "a wrong class line, names left alone", changed(line5="class ferry house 6 30"), {5: "house pairs"}
    yield "a misspelt query, none missing", changed(line9="qeury Harbour Lighthouse d1 06:45"), {9: "is query meant"}
    yield "the same, further up", [BASE[8].replace("query", "qeury"), *BASE[:8]], {1: "is query meant"}
    yield "CR LF, a fault behind it", [line + "\r" for line in added("stops 1")], {LAST: "read 1"}
    yield "UTF-16", "\ufeffstops 3\n".encode("utf-16").decode("utf-8", "surrogateescape").split("\n"), {1: "UTF-8", 2: "U+0000"}


def of_trips():
    early = "sail Lighthouse Harbour d1 08:20 d1 09:00 trip early class bus"
    yield "leaves before it landed", changed(line9=early, line10=BASE[8]), {9: "no earlier than d1 08:30, when line 7 lands it"}
    away = "sail Harbour Lighthouse d1 10:00 d1 11:00 trip early class bus"
    yield "goes on elsewhere", changed(line9=away, line10=BASE[8]), {9: "from Lighthouse, where line 7 lands it at d1 08:30"}
    number = "sail 0 1 10:00 10:30 trip 5 class bus days 1-5"
    yield "a number with days", added(number), {LAST: "this line lands it at d1 10:30; a number is one boat in the whole week"}
    mixed = "sail 0 1 10:00 10:30 trip early class bus days 1-5"
    yield "a name with and without days", added(mixed), {LAST: "without days as on line 6"}
    bad = "sail 0 1 d1 10:00 d1 10:75 trip early class bus"
    yield "a wrong line of the trip, the trip not judged", added(away, bad), {LAST + 1: "10:75"}
    other = "sail 0 1 d1 10:00 d1 10:75 trip other class bus"
    yield "a wrong line of another trip", added(away, other), {LAST: "trip early", LAST + 1: "10:75"}
    unknown = "sail 0 1 d1 10:00 d1 10:30 trip class bus"
    yield "a wrong line of any trip", added(away, unknown), {LAST + 1: "trip without"}
    yield "a misspelt line, no trip judged", added(away, "sial"), {LAST + 1: "is sail meant"}
    twice = [f"sail 0 1 d1 10:0{place} 10:30 trip 9 class bus" for place in range(2)]
    yield "the same boat twice", added(*twice), {LAST + 1: f"line {LAST} lands it"}
    own = "sail 0 1 10:00 10:30 trip own class bus days 1-5"
    yield "a name with a line, with days", added("trip own", own), {LAST + 1: "d1 10:30; a name with a line of its own is one boat"}
    yield "one name for two trips", added("trip own", "trip 1", 'trip "own"'), {LAST + 2: f"another name than that of line {LAST}"}
    by_number = "sail 0 1 d1 10:00 10:30 trip 1 class bus"
    yield "by name and by number", added("trip 0", "trip own", own.replace("days 1-5", "days 1"), by_number), {LAST + 3: "trip own from Harbour"}
    most = [f"trip t{place}" for place in range(2000)]
    yield "2,000 trips with a line, and one without", added(*most), {6: "read trip early, asked for one of at most 2000 trips, 2000 of which"}
    yield "2,001 trips", [*BASE[:5], *most, "trip more", BASE[8]], {2006: "more than 2000 lines with trip"}


def failure(what, lines, wanted):
    with room() as folder:
        path = f"{folder}/text"
        with open(path, "wb") as file:
            file.write("".join(f"{line}\n" for line in lines).encode("utf-8", "surrogateescape"))
        status, out, err = called("pack", path, f"{folder}/packed/deep")
        written = set(files_in(folder)) - {"text"}
    told = re.findall(re.escape(path) + r":([0-9]+): (read .+, asked for .+)\n", err)
    if status != 1 or out or written or err.count("\n") != len(told):
        return f"{what}: ended with {status}, printed {out!r}, wrote {written}: {err}"
    if [int(line) for line, _ in told] != sorted(wanted):
        return f"{what}: told {err}"
    missed = [message for line, message in told if wanted[int(line)] not in message]
    return f"{what}: {missed} instead of {wanted}" if missed else None


def main():
    cases = [*of_lines(SAILS), *of_lines(OTHERS), *of_queries(), *of_texts(), *of_trips()]
    failures = [failure(*case) for case in cases]
    with room() as folder:
        with open(f"{folder}/text", "w") as file:
            file.write("\n".join(BASE))
        failures.append(called("pack", "--quiet", f"{folder}/text", f"{folder}/packed") != (0, "", "") and "the base is refused")
    finish("wrong texts", len(cases), [one for one in failures if one])


if __name__ == "__main__":
    main()
