"""Every crate, path and name that the documents cite exists.

Looked for in README.md, CONTRIBUTING.md, dist/README.md and the pages under docs:
  `crate/path: name, ..`   the file under crates/ (without its ending), and each name defined in it
  `crate: name, ..`        each name defined in the crate's code
  `crate::name`            the same; `Type::name` is looked for by both words
  crate/specs/.., ..       a path under specs/, proofs/, src/ or must-fail/ of a crate, with or without its ending
  tests/.., docs/.., ..    a path of the tree

In a list of names ".." stands for more of them. A fenced block is not looked at.
"""
import pathlib
import re
import sys

ENDINGS = ("", ".antt", ".rt", ".edit")
INSIDE = r"(?:specs|proofs|src|must-fail|data)"
LISTED = re.compile(rf"([a-z_]+)((?:/{INSIDE}(?:/[A-Za-z_]+)*)?): (\S.*)")
CODE = re.compile(r"([a-z_]+)::([A-Za-z_]+(?:::[A-Za-z_]+)*)")
CRATE_PATH = re.compile(rf"(?<![\w/.-])(?:crates/)?([a-z_]+/{INSIDE}(?:/[A-Za-z_]+)*(?:\.(?:antt|rt|edit))?)(?![\w/])")
TREE_PATH = re.compile(r"(?<![\w/.-])((?:tests|docs|examples|bench|include|crates|office|dist|tools)/[\w/.-]*\w)")
BEFORE_NAME = r"^\s*(?:(?:abbrev|unfoldable|opaque|pub|const|static|fn|record|data|struct|enum|extern|\"C\") +)*"


def found(path):
    """The file or folder at this path, whatever its ending."""
    return next((place for ending in ENDINGS if (place := pathlib.Path(f"{path}{ending}")).exists()), None)


def texts(place):
    files = [place] if place.is_file() else sorted(file for file in place.rglob("*") if file.suffix in (".antt", ".rt"))
    return "\n".join(file.read_text() for file in files)


def defined(name, text):
    """A definition, signature, field or constructor of this name, at the start of a line."""
    return re.search(rf"{BEFORE_NAME}{re.escape(name)}(?![\w'-])\s*(?:[:({{<;,=]|$)", text, re.MULTILINE) is not None


def absent_names(names, place):
    text = texts(place)
    for name in filter(None, re.split(r", *| and |::", names)):
        if name not in ("..", "…") and not defined(name, text):
            yield f"{name} is not defined in {place}"


def absent_in_span(span):
    """What a span in backticks cites and is not there."""
    if listed := LISTED.fullmatch(span):
        crate, path, names = listed.groups()
        place = found(f"crates/{crate}{path or '/src'}")
        yield from absent_names(names, place) if place else [f"there is no crates/{crate}{path}"]
    elif code := CODE.fullmatch(span):
        place = found(f"crates/{code[1]}/src")
        yield from absent_names(code[2], place) if place else [f"there is no crate {code[1]}"]


def absent_in_line(line):
    for span in re.findall(r"`([^`]+)`", line):
        for absent in absent_in_span(span):
            yield f"`{span}`: {absent}"
    for path in CRATE_PATH.findall(re.sub(r"`[^`]+: [^`]+`", "", line)):
        if not found(f"crates/{path}"):
            yield f"there is no crates/{path}"
    for path in TREE_PATH.findall(line):
        if not path.startswith("crates/") and not found(path):
            yield f"there is no {path}"


def looked_at(page):
    """The page's lines outside of fenced blocks, by number."""
    fenced = False
    for number, line in enumerate(page.read_text().splitlines(), 1):
        if line.startswith("```"):
            fenced = not fenced
        elif not fenced:
            yield number, line


def main():
    pages = [*map(pathlib.Path, ("README.md", "CONTRIBUTING.md", "dist/README.md")), *sorted(pathlib.Path("docs").rglob("*.md"))]
    count = 0
    for page in pages:
        for number, line in looked_at(page):
            for absent in sorted(set(absent_in_line(line))):
                count += 1
                print(f"{page}:{number}: {absent}")
    print(f"documents: {len(pages)} pages, {count} citations of what is not there")
    sys.exit(count > 0)


main()
