#!/usr/bin/env python3
"""Compares the proved loader with the second program: the answer and the line of each text.

    python3 second/loads.py --count N --seed S          N generated texts, and every text of sessions/
    python3 second/loads.py --write --count N --seed S  writes N small ones of them into crates/load_texts, with the second program's answers

It runs crates/load_texts/out/load_texts, which `rt run` in that crate makes. The exit status is 0 only if all answers and lines agree.
"""

import argparse
import subprocess
import sys
import tempfile
from collections import Counter
from pathlib import Path
from typing import List, Tuple

import generate
import namakviz

ROOT = Path(__file__).resolve().parent.parent
PROGRAM = ROOT / "crates" / "load_texts" / "out" / "load_texts"
BATCH = 500  # as many texts as one call of the program is given
SMALL = 2500  # bytes of a text that is kept in the repository


def answered(text: bytes) -> str:
    """What the second program answers, as the program writes it."""
    result = namakviz.load(text)
    if isinstance(result, namakviz.Refused):
        return f"answer={result.answer} line={result.line}"
    return "answer=0 line=0"


def told(names: List[str], folder: Path) -> List[str]:
    """What the proved loader answers to these files."""
    lines: List[str] = []
    for first in range(0, len(names), BATCH):
        done = subprocess.run([str(PROGRAM), *names[first:first + BATCH]], cwd=folder, capture_output=True, check=True)
        lines += done.stdout.decode().splitlines()
    return lines


def compare(texts: List[Tuple[str, bytes]]) -> bool:
    """Says where the two differ, and how often each answer was given."""
    with tempfile.TemporaryDirectory() as name:
        folder = Path(name)
        files = []
        for number, (_, text) in enumerate(texts):
            (folder / f"{number}.txt").write_bytes(text)
            files.append(f"{number}.txt")
        lines = told(files, folder)
    if len(lines) != len(texts):
        print(f"{len(texts)} texts, {len(lines)} answers")
        return False
    differ = 0
    answers: Counter = Counter()
    for (name, text), line in zip(texts, lines):
        expected = answered(text)
        answers[line.split()[0][len("answer="):]] += 1
        if line != expected:
            differ += 1
            print(f"{name}: the second program says {expected}, the loader {line}")
    given = ", ".join(f"{answer}: {count}" for answer, count in sorted(answers.items(), key=lambda item: int(item[0])))
    print(f"{len(texts)} texts loaded, {differ} differ from the second program. Answers given: {given}")
    return differ == 0


def write(count: int, seed: int) -> None:
    """Writes small texts with their answers into the crate that the gate runs: a third at most are loaded, and a sixth at most have any one refusal."""
    crate = ROOT / "crates" / "load_texts"
    data = crate / "data"
    data.mkdir(exist_ok=True)
    for old in data.iterdir():
        old.unlink()
    names, lines, index = [], [], 0
    given: Counter = Counter()
    while len(names) < count:
        text = generate.make_text(seed, index).content
        index += 1
        answer = answered(text).split()[0]
        room = count // 3 if answer == "answer=0" else count // 6
        if len(text) <= SMALL and given[answer] < room:
            given[answer] += 1
            name = f"{len(names) + 1:03}.txt"
            (data / name).write_bytes(text)
            names.append(name)
            lines.append(answered(text))
    (crate / "args").write_text("".join(name + "\n" for name in names))
    (crate / "stdout").write_text("".join(line + "\n" for line in lines))


def main() -> int:
    parser = argparse.ArgumentParser(description="Compares the proved loader with the second program.")
    parser.add_argument("--count", type=int, default=400, help="how many generated texts (400)")
    parser.add_argument("--seed", type=int, default=1, help="another seed, other texts (1)")
    parser.add_argument("--write", action="store_true", help="write small texts into crates/load_texts")
    given = parser.parse_args()
    if given.write:
        write(given.count, given.seed)
        return 0
    texts = [(f"text {index} of seed {given.seed}", generate.make_text(given.seed, index).content) for index in range(given.count)]
    texts += [(str(path), path.read_bytes()) for path in sorted((ROOT / "sessions").glob("*.txt"))]
    return 0 if compare(texts) else 1


if __name__ == "__main__":
    sys.exit(main())
