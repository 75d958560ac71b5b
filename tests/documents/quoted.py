"""Every statement that docs/PROMISES.md quotes stands so in the sources.

A quoted block is a fenced one. Each of its statements begins with `pub` and ends at the next one, at a comment, at a heading of a module
or at an empty line. It is looked for under crates/ without its layout, and must be the whole statement there: behind it comes another
word of the language, or the name of what it states.
"""
import pathlib
import re
import sys

PAGE = pathlib.Path("docs/PROMISES.md")
COMMENT = re.compile(r"--(?: .*)?$", re.MULTILINE)
NEXT_WORDS = ("pub", "unfolding", "unfoldable", "abbrev", "module", "record", "data", "\0")


def plain(text):
    """The text without comments and layout."""
    return re.sub(r"\s+", "", COMMENT.sub("", text))


def statements(page):
    """Each quoted statement with the number of its first line."""
    fenced, begun, lines = False, 0, []
    for number, line in enumerate(page.read_text().splitlines(), 1):
        word = line.strip()
        if word.startswith("```"):
            fenced = not fenced
        ends = not fenced or not word or word.startswith(("--", "pub ", "module "))
        if ends and lines:
            yield begun, "\n".join(lines)
            lines = []
        if fenced and word.startswith("pub "):
            begun = number
        if fenced and (word.startswith("pub ") or (lines and not ends)):
            lines.append(line)


def stands(statement, sources):
    """Whether the statement is there in full."""
    quoted = plain(statement)
    name = re.match(r"pub (?:record |data )?([^\s:({]+)", statement.strip())[1]
    behind = (sources[place.end():] for place in re.finditer(re.escape(quoted), sources))
    return any(rest.startswith((*NEXT_WORDS, name)) for rest in behind)


def main():
    sources = "\0".join(plain(file.read_text()) for file in sorted(pathlib.Path("crates").rglob("*.antt"))) + "\0"
    quoted = list(statements(PAGE))
    wrong = [(number, text) for number, text in quoted if not stands(text, sources)]
    for number, text in wrong:
        print(f"{PAGE}:{number}: not so in the sources: {' '.join(text.split())[:120]}")
    print(f"quoted: {len(quoted)} statements, {len(wrong)} that stand otherwise")
    sys.exit(len(wrong) > 0 or not quoted)


main()
