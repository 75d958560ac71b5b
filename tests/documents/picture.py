"""The picture in docs/ARCHITECTURE.md, drawn from crates.txt and from the page's own wings.

usage: picture.py [--write]

A wing is a heading `### Wing` with a line "- `crate`: what it is" for each of its crates. An arrow leads from a crate to what it
stands on; one that other arrows imply is left out, and so are the system's own crates. Without --write the page is only compared.
"""
import pathlib
import re
import sys

PAGE = pathlib.Path("docs/ARCHITECTURE.md")
START, END = "```mermaid\n", "```\n"


def stands_on():
    """Each crate of crates.txt with the crates of ours that it directly uses."""
    lines = [line for line in pathlib.Path("crates.txt").read_text().splitlines() if line.strip() and not line.startswith("#")]
    used = {name.split()[0]: below.split() for name, below in (line.split(":") for line in lines)}
    return {name: [crate for crate in below if crate in used] for name, below in used.items()}


def reached(crate, used):
    found = set()
    for below in used[crate]:
        found |= {below} | reached(below, used)
    return found


def arrows(used):
    for crate, below in used.items():
        implied = set().union(*(reached(other, used) for other in below)) if below else set()
        for other in below:
            if other not in implied:
                yield crate, other


def wings(page):
    """The page's wings with their crates, in its order."""
    found = {}
    wing = None
    for line in page.splitlines():
        if heading := re.match(r"#+ (.*)", line):
            wing = heading[1] if line.startswith("### ") else None
        elif wing and (crate := re.match(r"- `([a-z_]+)`: \S", line)):
            found.setdefault(wing, []).append(crate[1])
    return found


def picture(page):
    drawn = ["graph TD"]
    for number, (wing, crates) in enumerate(wings(page).items()):
        drawn.append(f'  subgraph wing{number}["{wing}"]')
        drawn += [f"    {crate}" for crate in crates]
        drawn.append("  end")
    drawn += [f"  {crate} --> {below}" for crate, below in arrows(stands_on())]
    return "\n".join(drawn) + "\n"


def missing_lines(page):
    listed = [crate for crates in wings(page).values() for crate in crates]
    crates = list(stands_on())
    for crate in sorted(set(crates) | set(listed)):
        if listed.count(crate) != (crate in crates):
            yield f"{PAGE}: {listed.count(crate)} lines for `{crate}`, which is {'' if crate in crates else 'not '}in crates.txt"


def main():
    page = PAGE.read_text()
    problems = list(missing_lines(page))
    before, _, rest = page.partition(START)
    there, _, after = rest.partition(END)
    wanted = picture(page)
    if "--write" in sys.argv:
        PAGE.write_text(before + START + wanted + END + after)
    elif there != wanted:
        problems.append(f"{PAGE}: the picture is not what crates.txt says; picture.py --write draws it anew")
    for problem in problems:
        print(problem)
    print(f"picture: {len(stands_on())} crates, {len(list(arrows(stands_on())))} arrows, {len(problems)} problems")
    sys.exit(bool(problems))


main()
