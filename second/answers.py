#!/usr/bin/env python3
"""Checks docs/ANSWERS.md: each text there gives the answer under which it stands, and needs all of its lines.

    python3 second/answers.py [--proved]

A section `## 13: ...` has a block marked `text`, and behind it what the programs write for it in blocks marked `run`
or `regroup`, quoted as second/pages.py says. The texts are given to the second program, and with --proved to the
proved programs of target/bin too. A text is smallest in the sense that without any one of its lines the
answer is another; only 2 is not asked for that, since the empty text is 2. The text of answer 1 is made here.
"""

import re
import sys
from typing import Dict, Iterator, List, Tuple

from pages import ROOT, agrees, quoted_lines, unfolded
from programs import PROVED, SECOND, Program

PAGE = ROOT / "docs" / "ANSWERS.md"
SECTION = re.compile(r"^## (\d+): .*?(?=^## |\Z)", re.DOTALL | re.MULTILINE)
BLOCK = re.compile(r"^```(text|run|regroup)\n(.*?)^```$", re.DOTALL | re.MULTILINE)

ANSWERS = range(23)
WITHOUT_A_TEXT = (20, 21)       # given only to callers of the library
MADE_HERE = {1: ("yes | head -c 60001 | ./namakviz run", (b"y\n" * 30_001)[:60_001])}


def answer_of(output: str) -> int:
    return int(re.match(r"end=(\d+)", output.splitlines()[-1])[1])


def examples(section: str) -> Iterator[Tuple[str, Dict[str, str]]]:
    """The texts of a section, as blocks, each with the blocks of its outputs by the program's name."""
    blocks = BLOCK.findall(section)
    starts = [place for place, (mark, _) in enumerate(blocks) if mark == "text"]
    for start, stop in zip(starts, starts[1:] + [len(blocks)]):
        yield blocks[start][1], dict(blocks[start + 1:stop])


def with_one_line_less(block: str) -> Iterator[Tuple[str, bytes]]:
    """The text without one of its lines, for each of them; equal lines that stand together are tried once."""
    lines = quoted_lines(block)
    for place, left_out in enumerate(lines):
        copies = [quoted.times - (index == place) for index, quoted in enumerate(lines)]
        text = "".join((quoted.line + "\n") * times for quoted, times in zip(lines, copies))
        yield left_out.line, text.encode("ascii")


def faults_of(answer: int, section: str, programs: List[Dict[str, Program]]) -> Iterator[str]:
    """What is wrong in the section of one answer."""
    found = list(examples(section))
    if answer in MADE_HERE:
        command, text = MADE_HERE[answer]
        if command not in section or any(answer_of(p["run"](text)) != answer for p in programs):
            yield f"'{command}' does not stand there, or does not give the answer"
        if answer_of(SECOND["run"](text[:-1])) == answer:
            yield "a byte less gives it too"
    elif bool(found) == (answer in WITHOUT_A_TEXT):
        yield "a text is missing, or there can be none"
    for block, outputs in found:
        yield from faults_of_example(answer, block, outputs, programs)


def faults_of_example(answer: int, block: str, outputs: Dict[str, str],
                      programs: List[Dict[str, Program]]) -> Iterator[str]:
    """What is wrong with one text and its outputs."""
    text = unfolded(block).encode("ascii")
    for name, quoted in outputs.items():
        for program in programs:
            if not agrees(quoted, program[name](text)):
                yield f"{name} writes {program[name](text).splitlines()[-1]} at its end, or other lines before it"
    giving = [name for name in outputs if answer_of(SECOND[name](text)) == answer]
    if not giving:
        yield "no output of a text has the answer"
    for line, less in with_one_line_less(block) if answer != 2 else ():
        if any(answer_of(SECOND[name](less)) == answer for name in giving):
            yield f"the line {line} is not needed"


def main(arguments: List[str]) -> int:
    if arguments not in ([], ["--proved"]):
        print("usage: answers.py [--proved]", file=sys.stderr)
        return 2
    programs = [SECOND] + ([PROVED] if arguments else [])
    sections = [(int(match[1]), match[0]) for match in SECTION.finditer(PAGE.read_text("utf-8"))]
    faults = [] if [answer for answer, _ in sections] == list(ANSWERS) else ["the answers are not 0 to 22 in order"]
    for answer, section in sections:
        faults += [f"answer {answer}: {fault}" for fault in faults_of(answer, section, programs)]
    for fault in faults:
        print(f"docs/ANSWERS.md: {fault}")
    texts = sum(len(list(examples(section))) for _, section in sections) + len(MADE_HERE)
    print(f"answers: {len(sections)} answers, {texts} texts, {len(faults)} faults")
    return 1 if faults else 0


if __name__ == "__main__":
    sys.exit(main(sys.argv[1:]))
