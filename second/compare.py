#!/usr/bin/env python3
"""Compares the second program with recorded outputs, and with the proved programs.

    python3 second/compare.py sessions DIR
    python3 second/compare.py generated [COUNT [SEED]]

For every NAME.txt in DIR, what the second program writes as run and as regroup program is compared, byte for byte,
with NAME.run and NAME.regroup. Or COUNT texts (400) are generated, from SEED (1) on, and what the proved programs of
target/bin write is compared with what the second program writes. Every disagreement is printed with its first
differing line. The exit status is 0 only if there was a text and nothing differs; of generated texts, 400 or more,
only if they reach every rule and every answer too.
"""

import sys
from collections import Counter
from itertools import zip_longest
from pathlib import Path
from typing import List, Optional

import generate
from programs import PROVED, SECOND

ENOUGH = 400  # so many generated texts reach every rule and every answer


def first_difference(wanted: bytes, written: bytes, whose: str) -> Optional[str]:
    """A description of the first differing line, None if the outputs are equal."""
    if wanted == written:
        return None
    pairs = zip_longest(wanted.split(b"\n"), written.split(b"\n"))
    place, (left, right) = next((n, pair) for n, pair in enumerate(pairs, start=1) if pair[0] != pair[1])
    return f"line {place}: {whose} {left!r}, second program {right!r}"


def differences_of_text(text_file: Path) -> List[str]:
    """The disagreements on one text, of the run program and of the regroup program."""
    text = text_file.read_bytes()
    found = []
    for name, program in SECOND.items():
        recorded_file = text_file.with_suffix("." + name)
        if not recorded_file.is_file():
            found.append(f"{recorded_file.name}: missing")
            continue
        difference = first_difference(recorded_file.read_bytes(), program(text).encode("ascii"), "recorded")
        if difference is not None:
            found.append(f"{recorded_file.name}: {difference}")
    return found


def compare_sessions(folder: Path) -> int:
    """Compares all texts of the folder, prints what differs and gives the exit status."""
    texts = sorted(folder.glob("*.txt"))
    differing = [difference for text_file in texts for difference in differences_of_text(text_file)]
    for difference in differing:
        print(difference)
    print(f"sessions: {len(texts)} texts, {len(texts) * len(SECOND)} outputs, {len(differing)} differ")
    return 0 if texts and not differing else 1


def compare_generated(count: int, seed: int) -> int:
    """Compares the proved programs with the second one on generated texts, prints what differs and gives the exit status."""
    differing = 0
    reached: Counter = Counter()
    for index in range(count):
        text = generate.make_text(seed, index)
        for name, program in SECOND.items():
            written = program(text.content)
            generate.count_reached(reached, name, written)
            difference = first_difference(PROVED[name](text.content).encode("latin-1"), written.encode("ascii"), "proved program")
            if difference is not None:
                differing += 1
                print(f"text {index} of seed {seed} ({text.name}), {name}: {difference}")
    missing = generate.print_reached(reached)
    print(f"generated: {count} texts, {count * len(SECOND)} outputs, {differing} differ")
    return 0 if count > 0 and not differing and not (missing and count >= ENOUGH) else 1


def main(arguments: List[str]) -> int:
    if len(arguments) == 2 and arguments[0] == "sessions":
        return compare_sessions(Path(arguments[1]))
    numbers = arguments[1:]
    if arguments[:1] == ["generated"] and len(numbers) <= 2 and all(number.isdecimal() for number in numbers):
        return compare_generated(*(int(number) for number in numbers + ["400", "1"][len(numbers):]))
    print("usage: compare.py sessions DIR\n       compare.py generated [COUNT [SEED]]", file=sys.stderr)
    return 2


if __name__ == "__main__":
    sys.exit(main(sys.argv[1:]))
