#!/usr/bin/env python3
"""Draws the stories: docs/stories/NAME.svg for each sessions/story-NAME.txt that has names beside it.

    python3 draw/pictures.py [--second] [--check]

With --check nothing is written: the pictures that stand there are compared with what would be drawn, and the exit
status is 0 only if none differs. --second draws with the second program, as in draw.py.
"""

import sys
from pathlib import Path
from typing import List

import draw

PICTURES = draw.ROOT / "docs" / "stories"
SESSIONS = draw.ROOT / "sessions"


def main(arguments: List[str]) -> int:
    if not set(arguments) <= {"--second", "--check"}:
        print("usage: pictures.py [--second] [--check]", file=sys.stderr)
        return 2
    differing: List[Path] = []
    texts = [names.with_suffix(".txt") for names in sorted(SESSIONS.glob("story-*.names"))]
    for text in texts:
        drawn = draw.drawn(text.read_bytes(), text.stem, draw.names_beside(str(text)), "--second" in arguments)
        picture = PICTURES / (text.stem.replace("story-", "") + ".svg")
        if "--check" not in arguments:
            picture.write_text(drawn, "utf-8")
        elif not picture.is_file() or picture.read_text("utf-8") != drawn:
            differing.append(picture)
            print(f"{picture.relative_to(draw.ROOT)} is not what would be drawn")
    print(f"pictures: {len(texts)} stories, {len(differing)} differ")
    return 0 if texts and not differing else 1


if __name__ == "__main__":
    sys.exit(main(sys.argv[1:]))
