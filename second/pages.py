#!/usr/bin/env python3
"""Checks that what the pages quote is what stands in the repository, and that their links lead somewhere.

    python3 second/pages.py

A page (README.md, docs/*.md, docs/stories/*.md) quotes a file by a comment before a fenced block:

    <!-- sessions/NAME.run -->                 the lines of the file
    <!-- program of sessions/NAME.txt -->      its lines without the choices
    <!-- choices of sessions/NAME.txt -->      the machines of its choices in order; their bits are all 0

In such a block, words behind two or more spaces explain a line and are no part of it; `5 times` as the first of them
says that the line stands there five times. A line `...` stands for any lines. The exit status is 0 only if something
is quoted and nothing differs.
"""

import re
import sys
from pathlib import Path
from typing import Iterator, List, NamedTuple, Tuple

ROOT = Path(__file__).resolve().parent.parent
QUOTED = re.compile(r"<!-- (?:(program|choices) of )?(\S+) -->\n+```\w*\n(.*?)^```$", re.DOTALL | re.MULTILINE)
LINK = re.compile(r"\]\(([^)#\s]+)[^)]*\)")
EXPLAINED = re.compile(r"(\S(?:.*?\S)?)(?:  +(?:([1-9][0-9]*) times)?.*)?")


class Quoted(NamedTuple):
    """A line of a block, without its explanation, and how often it stands there."""

    line: str
    times: int


def quoted_lines(block: str) -> List[Quoted]:
    found = (EXPLAINED.fullmatch(line) for line in block.splitlines() if line.strip())
    return [Quoted(match[1], int(match[2] or 1)) for match in found]


def unfolded(block: str) -> str:
    """The text that a block stands for."""
    return "".join((quoted.line + "\n") * quoted.times for quoted in quoted_lines(block))


def agrees(block: str, content: str) -> bool:
    """Whether a block quotes this content."""
    parts = [r"(?:.*\n)*?" if quoted.line == "..." else re.escape((quoted.line + "\n") * quoted.times)
             for quoted in quoted_lines(block)]
    return re.fullmatch("".join(parts), content) is not None


def part_of(file: Path, part: str) -> str:
    """What a comment names: the whole file, its program, or the machines of its choices."""
    lines = file.read_text("ascii").splitlines(keepends=True)
    if part == "program":
        return "".join(line for line in lines if not line.startswith("choice="))
    if part == "choices":
        machines = [re.fullmatch(r"choice=(\d+) bits=0\n", line) for line in lines if line.startswith("choice=")]
        return " ".join(match[1] if match else "?" for match in machines) + "\n"
    return "".join(lines)


def faults_of(page: Path) -> Iterator[str]:
    """What a page quotes wrongly, and its links that lead nowhere."""
    text = page.read_text("utf-8")
    for part, name, block in QUOTED.findall(text):
        if not (ROOT / name).is_file():
            yield f"{name} is not there"
        elif part == "choices" and " ".join(block.split()) + "\n" != part_of(ROOT / name, part):
            yield f"the choices of {name} are others"
        elif part != "choices" and not agrees(block, part_of(ROOT / name, part)):
            yield f"{name} reads differently"
    for link in LINK.findall(text):
        if "://" not in link and not (page.parent / link).exists():
            yield f"the link to {link} leads nowhere"


def pages() -> List[Path]:
    docs = ROOT / "docs"
    return [ROOT / "README.md", *sorted(docs.glob("*.md")), *sorted((docs / "stories").glob("*.md"))]


def main() -> int:
    faults: List[Tuple[Path, str]] = [(page, fault) for page in pages() for fault in faults_of(page)]
    for page, fault in faults:
        print(f"{page.relative_to(ROOT)}: {fault}")
    quotations = sum(len(QUOTED.findall(page.read_text("utf-8"))) for page in pages())
    print(f"pages: {len(pages())} pages, {quotations} quotations, {len(faults)} faults")
    return 0 if quotations and not faults else 1


if __name__ == "__main__":
    sys.exit(main())
