"""Damaged texts: each is told by its lines and leaves nothing behind, or what it became is sound by the tests' own check."""
import multiprocessing
import pathlib
import random
import re
import shutil

import sound
from running import ROOT, called, files_in, finish, room, started

COUNT, PROCESSES, PARTS = 10000, 100, 4
SEED = 20260
OWN = """stops 5\r
stop "Zum Löwen"\r
class x shares 4000 96\r
class house 10 60\r
tables first\r
sail "Zum Löwen" 4 23:50 +1 00:20 trip night class x days 1,3-5\r
sail 4 3 d3 07:00 d3 08:00 trip 12 class 1 # a remark\r
sail 3 2 d3 08:00 09:00 class 0 trip 12\r
query name one bound 8 0 4 d1 00:00\r
query name two 3 2 d2 10:00 margin 256\r
query name three gate 5 3 2 d2 10:00\r
"""
ODD_WORDS = ("0", "-1", "31", "2001", "2561", "4096", "9" * 30, "9" * 5000, "d1", "d8", "+1", "07:00", "24:00", "1-7", "1,1", "trip", "class", "days", "shares",
             "house", "name", "bound", "margin", "gate", "stop", "stops", "sail", "query", "tables", "first", '"', '""', '"a b', "#", "\u00a0", "\u202e", "\U0001f6a2",
             "e\u0301" * 40, "٣", "²", "\u2028", "\ufeff", "\x85", "..", "a/b", "x" * 100)
BREAKS = (b"\r", b"\n", b"\x00", b"\xff", b"\xc3", b"\xed\xa0\x80", b"\xf4\x90\x80\x80", b"\xef\xbb\xbf", b"\x1b[31m")


def flipped(chance, text):
    at = chance.randrange(len(text))
    return text[:at] + bytes([text[at] ^ 1 << chance.randrange(8)]) + text[at + 1:]


def cut(chance, text):
    at = chance.randrange(len(text))
    return text[:at] + text[at + chance.randrange(1, 20):]


def broken(chance, text):
    at = chance.randrange(len(text))
    return text[:at] + chance.choice((*BREAKS, chance.randbytes(3))) + text[at:]


def digit_changed(chance, text):
    found = list(re.finditer(rb"[0-9]", text))
    at = chance.choice(found).start() if found else 0
    return text[:at] + chance.choice(b"0123456789").to_bytes(1, "little") + text[at + 1:]


def lines_changed(chance, text):
    lines = text.splitlines(keepends=True)
    some, other = chance.randrange(len(lines)), chance.randrange(len(lines))
    kind = chance.randrange(3)
    if kind == 0:
        del lines[some]
    elif kind == 1:
        lines.insert(other, lines[some])
    else:
        lines[some], lines[other] = lines[other], lines[some]
    return b"".join(lines)


def words_changed(chance, text):
    """A word becomes another word of the text, or an odd one."""
    parts = re.split(rb"([ \t\r\n]+)", text)
    other = chance.choice(ODD_WORDS).encode() if chance.random() < 0.5 else chance.choice(parts)
    parts[chance.randrange(len(parts))] = other
    return b"".join(parts)


HURTS = (flipped, cut, broken, digit_changed, digit_changed, lines_changed, lines_changed, words_changed, words_changed)


def damaged(chance, texts):
    text = chance.choice(texts)
    for _ in range(chance.choice((1, 1, 1, 2, 4))):
        text = chance.choice(HURTS)(chance, text or b" ")
    return text


def unsound(written):
    """Why what was written isn't sound."""
    folders = {pathlib.PurePath(name).parent for name in written}
    for folder in folders:
        kinds = [written.pop(str(folder / name), None) for name in ("sailings", "query", "names")]
        if None in kinds:
            return f"a file is missing in {folder}"
        if refused := sound.refusal(*kinds[:2]):
            return f"{folder} would be refused {refused}"
        kinds[2].decode()
    return f"more was written: {list(written)}" if written else None


def failure(path, target, ended):
    status, out, err = ended
    written = files_in(target)
    if status == 0:
        return err or unsound(written)
    told = re.findall(re.escape(str(path)) + r":([0-9]+): read .+, asked for .+\n", err)
    if status != 1 or out or not told or err.count("\n") != len(told) or [int(line) for line in told] != sorted({int(line) for line in told}):
        return f"ended with {status}, printed {out[:200]!r}, told {err[:500]}"
    return f"wrote {list(written)}" if target.exists() else None


def tried(path, target, run):
    try:
        ended = run("pack", path, target)
        return ended, failure(path, target, ended)
    except Exception as error:
        return None, f"{type(error).__name__}: {error}"
    finally:
        shutil.rmtree(target, ignore_errors=True)


def part(number):
    """The failures of one part of the texts, and how many were still good."""
    chance = random.Random(f"{SEED} {number}")
    texts = [path.read_bytes() for path in sorted((ROOT / "examples").glob("*.txt"))] + [OWN.encode()] * 8
    failures, packed = [], 0
    with room() as folder:
        path, target = pathlib.Path(folder, "text"), pathlib.Path(folder, "packed")
        for place in range(COUNT // PARTS):
            text = damaged(chance, texts)
            path.write_bytes(text)
            ended, failed = tried(path, target, called)
            if not failed and place % (COUNT // PROCESSES) == 0 and tried(path, target, started) != (ended, None):
                failed = "a process ends otherwise"
            packed += bool(ended) and ended[0] == 0
            failures += [f"part {number}, text {place}: {failed}: {text[:2000]!r}"] if failed else []
    return failures, packed


def main():
    with multiprocessing.Pool(2) as pool:
        parts = pool.map(part, range(PARTS), 1)
    failures = [failed for failures, _ in parts for failed in failures]
    packed = sum(packed for _, packed in parts)
    if not COUNT // 20 < packed < COUNT // 2:
        failures.append(f"{packed} of {COUNT} texts are still good: the damage says little")
    finish("damaged texts", COUNT, failures)


if __name__ == "__main__":
    main()
