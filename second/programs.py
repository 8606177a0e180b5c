"""The run program and the regroup program, as functions from a text to what is written: the second program's, and the proved ones.

The proved ones are target/bin/run_program and target/bin/regroup_program, which `./namakviz run` and `./namakviz regroup` make. Each must end with
status 0 and write nothing on standard error, whatever the text.
"""

import subprocess
import sys
from pathlib import Path
from typing import Callable, Dict

import namakviz

ROOT = Path(__file__).resolve().parent.parent
Program = Callable[[bytes], str]


def proved(name: str) -> Program:
    """The proved program with this name."""
    program = ROOT / "target" / "bin" / f"{name}_program"

    def write(text: bytes) -> str:
        if not program.is_file():
            sys.exit(f"target/bin/{program.name} is not there: `./namakviz {name}` builds it")
        done = subprocess.run([str(program)], input=text, capture_output=True, check=False)
        if done.returncode != 0 or done.stderr:
            return f"status {done.returncode}, standard error {done.stderr!r}\n"
        return done.stdout.decode("latin-1")
    return write


SECOND: Dict[str, Program] = {"run": namakviz.run_text, "regroup": namakviz.regroup_text}
PROVED: Dict[str, Program] = {name: proved(name) for name in SECOND}
