#!/usr/bin/env python3
"""Compares the peer of the bench with recorded outputs and with the second program.

    python3 bench/compare.py sessions DIR...           DIR/*.txt against DIR/*.run and DIR/*.regroup
    python3 bench/compare.py generated --count N --seed S    N generated texts against the second program

The peer must have been built: cargo build --release --offline, in bench/. The exit status is 0 only if there was a text
and nothing differs.
"""

import argparse
import subprocess
import sys
from pathlib import Path
from typing import Iterator, Tuple

HERE = Path(__file__).resolve().parent
sys.path.insert(0, str(HERE.parent / "second"))

import generate  # noqa: E402
import namakviz  # noqa: E402

PEER = HERE / "target" / "release" / "plain_run"
PROGRAMS = {"run": namakviz.run_text, "regroup": namakviz.regroup_text}

# the text's name, the program, the text, what must be written
Case = Tuple[str, str, bytes, bytes]


def recorded(folder: Path) -> Iterator[Case]:
    for text_file in sorted(folder.glob("*.txt")):
        for program in PROGRAMS:
            yield text_file.stem, program, text_file.read_bytes(), text_file.with_suffix("." + program).read_bytes()


def generated(count: int, seed: int) -> Iterator[Case]:
    for index in range(count):
        text = generate.make_text(seed, index)
        for program, second in PROGRAMS.items():
            yield text.name, program, text.content, second(text.content).encode("ascii")


def compare(cases: Iterator[Case]) -> int:
    compared = differing = 0
    for name, program, text, wanted in cases:
        written = subprocess.run([PEER, program], input=text, stdout=subprocess.PIPE, check=True).stdout
        compared += 1
        if written != wanted:
            differing += 1
            print(f"{name} {program}: wanted {wanted[-60:]!r}, the peer wrote {written[-60:]!r}")
    print(f"peer: {compared} outputs, {differing} differ")
    return 0 if compared and not differing else 1


def main() -> int:
    parser = argparse.ArgumentParser()
    parser.add_argument("what", choices=("sessions", "generated"))
    parser.add_argument("folders", nargs="*", type=Path)
    parser.add_argument("--count", type=int, default=400)
    parser.add_argument("--seed", type=int, default=1)
    arguments = parser.parse_args()
    if arguments.what == "sessions":
        return compare(case for folder in arguments.folders for case in recorded(folder))
    return compare(generated(arguments.count, arguments.seed))


if __name__ == "__main__":
    sys.exit(main())
