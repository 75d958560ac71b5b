"""Runs the example host on files, and compares its sheet, which it prints through the header's readers alone, with the sheet's own.

usage: hosts.py RUNNER HOST SHEET

The stored sheets of crates/run_sheets are compared first, then what the sheet program SHEET prints for 200 drawn files.
"""
import itertools
import pathlib
import random
import re
import struct
import subprocess
import sys
import tempfile

from sailing_file import query_bytes, sailing_file

STORED = pathlib.Path("crates/run_sheets")
ANY_TWO = list(itertools.permutations(range(5), 2))
ALONG = [(stop, stop + 1) for stop in range(4)]


def stored_parts():
    """Sailings and query by turns, each behind its length."""
    data = (STORED / "data/cases").read_bytes()
    at = 0
    while at < len(data):
        (length,) = struct.unpack_from("<I", data, at)
        yield data[at + 4 : at + 4 + length]
        at += 4 + length


def stored():
    parts = list(stored_parts())
    sheets = re.split(r"case \d+\n", (STORED / "stdout").read_text())[1:]
    assert len(parts) == 2 * len(sheets)
    for file, query, sheet in zip(parts[::2], parts[1::2], sheets):
        if len(query) in (8, 10, 12):
            yield file, query, sheet


def drawn_table(draw):
    shares = [0] * draw.randint(0, 30) + [4096]
    for late in range(len(shares) - 1):
        shares[late] = draw.randint(0, shares[-1] // 4)
        shares[-1] -= shares[late]
    return shares


def drawn(seed):
    """Boats between five stops, each a trip of its own, in either order of the sections: now and then between any two, or often from each
    stop to the next, where a margin leaves out rides and a gate time loses some."""
    draw = random.Random(seed)
    tables = [drawn_table(draw) for _ in range(draw.randint(1, 5))]
    ways, last, longest = draw.choice([(ANY_TWO, 3000, 200), (ALONG, 400, 20)])
    rows = []
    for trip, departure in enumerate(sorted(draw.randint(0, last) for _ in range(draw.randint(1, 300)))):
        rows.append((*draw.choice(ways), departure, departure + draw.randint(1, longest), trip, draw.randrange(len(tables))))
    source, target = draw.choice(ANY_TWO) if ways is ANY_TWO else (0, 4)
    margin, gate = draw.choice([None, 1, 100, 2560, 2561]), draw.choice([None, None, 0, 1, 7, 30, 31])
    file = sailing_file(rows, tables, 5, rows_first=draw.random() < 0.5)
    return file, query_bytes(source, target, draw.randint(0, last // 3), draw.choice([0, 4, 5, 9, 16]), margin, gate)


def printed_sheet(runner, sheet, folder):
    return subprocess.run([runner, "run", sheet], cwd=folder, capture_output=True, text=True, check=True).stdout


def differs(runner, host, folder, query, sheet):
    asked = [str(number) for (number,) in struct.iter_unpack("<H", query)]
    ended = subprocess.run([runner, "run", host, folder / "sailings", *asked], capture_output=True, text=True)
    if ended.stdout == sheet and ended.returncode == sheet.startswith("refused"):
        return False
    print(f"asked {' '.join(asked)}: ended with {ended.returncode} and {ended.stdout!r} instead of {sheet!r}; {ended.stderr}")
    return True


def main():
    runner, host, program = (pathlib.Path(word).resolve() for word in sys.argv[1:])
    failed = count = plans = 0
    with tempfile.TemporaryDirectory() as place:
        folder = pathlib.Path(place)
        for file, query, sheet in itertools.chain(stored(), ((*drawn(seed), None) for seed in range(200))):
            (folder / "sailings").write_bytes(file)
            (folder / "query").write_bytes(query)
            sheet = printed_sheet(runner, program, folder) if sheet is None else sheet
            count += 1
            plans += sheet.startswith("plan")
            failed += differs(runner, host, folder, query, sheet)
    print(f"host: {count} sheets, {plans} with a plan, {failed} differences")
    sys.exit(failed > 0 or plans < 100)


main()
