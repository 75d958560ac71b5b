"""Prints the kind of what the prover says first of each must-fail edit, and fails where that is not a fact.

usage: rt must-fail [CRATE..] | edits.py [CRATE..]

A fact is an error of a kind that is listed here: a kind that nobody has looked at yet fails too, and is to be added to the right list.
"""
import pathlib
import re
import sys

FACTS = [
    ("types differ", r"((as printed|computed as far as they go), )?the two types |expected type `"),
    ("values differ", r"((as printed|computed as far as they go), )?the two values "),
    ("sides differ", r"((as printed|computed as far as they go), )?the two sides "),
    ("omega: does not follow", r"`omega`: (the goal|the part `[^`]*` of the goal) does not follow"),
    ("search: no proof", r"`search`: no proof of "),
    ("search: an equation is missing", r"list the missing equation with its arguments"),
    ("simp: nothing to rewrite", r"`simp`: no equation of the list has an instance in the goal "),
    ("simp: a goal is left", r"give a proof of that as the last argument, `simp L t`"),
    ("rw: a goal is left", r"give a proof of that as the last argument, `rw L t`"),
    ("grind: no proof", r"`grind` found no proof"),
]
SLIPS = [
    ("scope", r"is not in scope|that can be named from here|has no field|has no function|has no `|no field `[^`]*` on type|was not admitted"),
    ("types of data", r"expected type `(ℕ|Bool|[A-Z]\w*|(List|Option) [^` ]+)`(, but|$)"),
    ("syntax", r"starts at column|is still open|needs its signature|unclosed"),
]
# what `rt` says of an edit; it passes over an error of a proof file that asks for a name in vain, where another error follows
SAID = re.compile(r"rt: must-fail (?P<edit>\S+)\.edit: (?P<said>.*)")
REFUSED = "refused, as it must be: "
FIRST_ERROR = re.compile(r"(\./)?(?P<place>\S*): error: (?P<text>.*)")
# where no proof file answers a goal, the search for its proof fails with a note
NOT_PROVED = re.compile(r"note: (\./)?(?P<place>\S*): it is not proved that (?P<text>[^;]*)(?P<refuted>; t)?")


def problems_of_form(lines):
    """An edit is one or more groups: a `file:`, then pairs of `old:` and `new:`, and nothing else."""
    words = [line.split(":", 1)[0] if re.match(r"(file|old): .|new:", line) else "other" for line in lines]
    if not re.fullmatch(r"(file( old new)+ ?)+", " ".join(words)):
        yield f"lines that are no file, old and new, in this order: {' '.join(words)}"


def edited(edit, crate):
    """Each file that the edit names, before and after it."""
    texts = {}
    for line in edit:
        word, _, text = line.partition(":")
        text = text.removeprefix(" ")
        if word == "file":
            file = text
            before = (crate / file).read_text()
            texts.setdefault(file, (before, before))
        elif word == "old":
            old = text
        else:
            before, after = texts[file]
            texts[file] = before, after.replace(old, text, 1)
    return texts


def changed_lines(texts):
    for file, (before, after) in texts.items():
        for number, (old, new) in enumerate(zip(before.splitlines(), after.splitlines()), 1):
            if old != new:
                yield file, number


def sort_of(goal):
    """What a goal is about, without where: returns, bounds, overflow_add, a loop, what a call requires."""
    return "requires" if "-requires" in goal else goal.split("-")[0]


# edits that leave a goal of a function with proof files, none of which answers one of its sort: each was read, it plants a wrong value,
# and no name and no form of the function changes
READ = {
    "file_check/look_back_stops_early",
    "file_check/look_back_tells_the_count",
    "file_sections/shares_sum_skips_the_last",
    "plan_rows/cut_by_arrival",
    "plan_rows/last_rows_left_out",
    "plan_stacks/quarter_steps_by_halves",
}


def may_be_renamed(crate, place, text, was_read):
    """Whether proof files answer goals of the function that stands at this place: then a goal that is left may only have another name. An
    edit that was read may leave a goal of a sort that they do not answer."""
    file, line = place.split(":")[:2]
    lines = (crate / file).read_text().splitlines()
    last = int(line)
    while lines[last - 1].lstrip().startswith("#["):  # a function's place is that of its first attribute
        last += 1
    names = re.findall(r"\bfn (\w+)", "\n".join(lines[:last]))
    if not names:
        return True
    files = [path for name in (names[-1], "+" + names[-1]) for path in crate.glob(f"proofs/**/{name}/*.antt")]
    if not was_read:
        return bool(files)
    answered = {sort_of(goal) for path in files for goal in re.findall(r"(?m)^pub (\S+) :", path.read_text())}
    left = re.search(r"\(`([^`]*)(`|$)", text)  # a long line is cut off
    return bool(answered) and (left is None or sort_of(left[1]) in answered)


def kind_of(said, crate, changed, was_read):
    """The kind of what is said first, its place, and whether it is a fact."""
    left = NOT_PROVED.match(said)
    if left:
        if left["refuted"]:
            return "refuted: " + left["text"][:60], left["place"], True
        known = not may_be_renamed(crate, left["place"], left["text"], was_read)
        return ("not proved: " if known else "not proved beside a proof file: ") + left["text"][:60], left["place"], known
    first = FIRST_ERROR.match(said)
    if first is None:
        return f"unknown: {said}", "", False
    text = re.sub(r"^`[^`]*`: (?=`|[a-z])", "", first["text"])
    for kind, form in SLIPS:
        if re.search(form, text):
            return kind, first["place"], False
    file, line = (first["place"].split(":") + ["0", "0"])[:2]
    if (file, int(line)) in changed and not file.startswith("proofs/"):
        return "the edit's own types", first["place"], False
    for kind, form in FACTS:
        if re.match(form, text):
            return kind, first["place"], True
    return f"unknown kind: {text}", first["place"], False


def looked_at(path, told):
    """One line about an edit, and whether it is refused by a fact."""
    crate, label = path.parts[-3], path.stem
    edit = path.read_text().splitlines()
    for problem in problems_of_form(edit):
        return f"{crate} {label}: {problem}", False
    said = told.get(f"{crate}/{label}", "not tried")
    if not said.startswith(REFUSED):
        return f"{crate} {label}: {said}", False
    changed = set(changed_lines(edited(edit, path.parent.parent)))
    kind, place, fact = kind_of(said.removeprefix(REFUSED), path.parent.parent, changed, f"{crate}/{label}" in READ)
    return f"{crate} {label}: {kind} ({place})", fact


def main():
    names = sys.argv[1:] or ["*"]
    edits = sorted(path for name in names for path in pathlib.Path("crates").glob(f"{name}/must-fail/*.edit"))
    told = {line["edit"]: line["said"] for line in map(SAID.match, sys.stdin.read().splitlines()) if line}
    gone = sorted(label for label in READ if not pathlib.Path("crates", label.replace("/", "/must-fail/") + ".edit").exists())
    for label in gone:
        print(f"NO LONGER THERE, and still named as read: {label}")
    refused = 0
    for path in edits:
        line, fact = looked_at(path, told)
        refused += fact
        print(line if fact else f"NOT BY A FACT: {line}")
    print(f"edits: {refused} of {len(edits)} refused by a fact")
    sys.exit(refused != len(edits) or not edits or bool(gone))


main()
