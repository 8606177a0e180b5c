#!/usr/bin/env python3
"""Checks that crates/sessions runs every text of sessions/.

    python3 second/listed.py            sessions/ against the crate's data/, args and stdout
    python3 second/listed.py --write    writes args and stdout

sessions/ and the crate's data/ hold the same files. `args` has the name of each text once, in their order; `stdout` has the line
that counts them, all as recorded. The exit status is 0 only if there is a text and all is so.
"""

import sys
from pathlib import Path
from typing import Dict, Iterator, List

ROOT = Path(__file__).resolve().parent.parent
SESSIONS = ROOT / "sessions"
CRATE = ROOT / "crates" / "sessions"


def names() -> List[str]:
    return sorted(text.stem for text in SESSIONS.glob("*.txt"))


def wanted() -> Dict[Path, str]:
    """What the two files of the crate must hold."""
    count = len(names())
    return {
        CRATE / "args": "".join(name + "\n" for name in names()),
        CRATE / "stdout": f"{count} texts: {count} runs and {count} regroupings as recorded\n",
    }


def faults() -> Iterator[str]:
    """What keeps a text from being run."""
    data = CRATE / "data"
    held = {file.name for folder in (SESSIONS, data) for file in folder.iterdir()}
    for name in sorted(held):
        one, other = SESSIONS / name, data / name
        if not (one.is_file() and other.is_file() and one.read_bytes() == other.read_bytes()):
            yield f"sessions/{name} and crates/sessions/data/{name} are not the same file"
    for file, content in wanted().items():
        if not file.is_file() or file.read_text("utf-8") != content:
            yield f"{file.relative_to(ROOT)} is not of these texts: python3 second/listed.py --write writes it"


def main(arguments: List[str]) -> int:
    if arguments not in ([], ["--write"]):
        print("usage: listed.py [--write]", file=sys.stderr)
        return 2
    if arguments:
        for file, content in wanted().items():
            file.write_text(content, "utf-8")
    found = list(faults())
    for fault in found:
        print(fault)
    print(f"listed: {len(names())} texts, {len(found)} faults")
    return 0 if names() and not found else 1


if __name__ == "__main__":
    sys.exit(main(sys.argv[1:]))
