#!/usr/bin/env python3
"""Draws a text with its choices: on the left the list as it is given, on the right the regrouped one.

    python3 draw/draw.py [--second] [--steps N] [FILE]        writes an SVG to standard output

Without FILE the text is read from standard input. A column is a machine, time goes downwards, a row is a choice with
the rule it took. Rules, answers and the regrouped list are those that the two programs write; `output_of` is the one
place that calls them (`./namakviz run` and `./namakviz regroup`, or the second program with --second). What their
lines do not say (whom a send reaches, which pair a dequeue takes, what is held back, values and states) is asked of
the second program, second/namakviz.py, which goes through the same choices; the two must agree, rule by rule and at
the end.

If FILE ends in .txt and a file with .names in its place exists, its lines give names for the picture, as
`event=1 coefficient`, `machine=1 clock` (a kind), `state=3 settling`, `var=1 shift`. Names are for the picture alone.

The exit status is 0 when a picture was written, for a refused text too (it shows the answer and the line), and 2 when
the text cannot be read or the programs cannot be called.
"""

import argparse
import subprocess
import sys
from dataclasses import dataclass, field
from html import escape
from itertools import count
from pathlib import Path
from typing import Dict, List, NamedTuple, Optional, Tuple

ROOT = Path(__file__).resolve().parent.parent
sys.path.insert(0, str(ROOT / "second"))
import namakviz as second  # noqa: E402

MAX_STEPS = 200     # longer lists are cut here, unless --steps says otherwise
MAX_COLUMNS = 24    # and where a list needs more machines than these

# Document 01, "Answers", in few words.
WORDS = {
    0: "done", 1: "text over 60,000 bytes", 2: "line not in the form or out of order, or start missing",
    3: "own number, size or value out of range", 4: "reference to something absent or of another kind",
    5: "part not lower than its whole, or named twice", 6: "two transitions or two actions for one event",
    7: "exit with raise, return or leave", 8: "height over 32 or more than 8 stars", 9: "machine kind with no state",
    10: "assertion false", 11: "send to the undefined value", 12: "send to a number not live", 13: "call stack empty",
    14: "condition not a bool", 15: "value of the wrong type", 16: "queue full", 17: "call stack full",
    18: "no free room, or live numbers spent", 19: "not live, or nothing to do",
    22: "a choice before the last took no step",
}


class Trouble(Exception):
    """Something that keeps a picture from being drawn, in words for the caller."""


# ---------------------------------------------------------------------------------------------------------------
# The two programs and what they write
# ---------------------------------------------------------------------------------------------------------------

def output_of(program: str, text: bytes, by_second: bool) -> List[Dict[str, str]]:
    """The lines that the run or the regroup program writes for a text, each as its fields. The one place of calling."""
    command = [sys.executable, str(ROOT / "second" / "namakviz.py")] if by_second else [str(ROOT / "namakviz")]
    try:
        done = subprocess.run(command + [program], input=text, stdout=subprocess.PIPE, check=False)
    except OSError as error:
        raise Trouble(f"cannot call {command[-1]}: {error.strerror}")
    if done.returncode != 0:
        raise Trouble(f"'{Path(command[-1]).name} {program}' ended with status {done.returncode}")
    return [dict(word.split("=") for word in line.split(" ")) for line in done.stdout.decode("ascii").splitlines()]


def with_choices(text: bytes, choices: List[second.Choice]) -> bytes:
    """The text with its choices in another order; bits that are 0 are left away, so that it is not longer."""
    program = [line for line in text.split(b"\n") if line and not line.startswith(b"choice=")]
    listed = [b"choice=%d" % machine + (b" bits=%d" % bits if bits else b"") for machine, bits in choices]
    return b"".join(line + b"\n" for line in program + listed)


# ---------------------------------------------------------------------------------------------------------------
# Names
# ---------------------------------------------------------------------------------------------------------------

class Names:
    """Names for events, kinds of machine, states and variables; where there is none, the number."""

    def __init__(self, lines: List[str]):
        self.given: Dict[Tuple[str, int], str] = {}
        for line in lines:
            thing, _, name = line.strip().partition(" ")
            sort, _, number = thing.partition("=")
            if sort in ("event", "machine", "state", "var") and number.isdigit() and name:
                self.given[sort, int(number)] = name

    def of(self, sort: str, number: int) -> str:
        return self.given.get((sort, number), f"{sort} {number}")

    def state(self, number: int) -> str:
        """Always with its number, so that the text's line is found."""
        name = self.given.get(("state", number))
        return f"state {number}, {name}" if name else f"state {number}"

    def head(self, life: "Life", between: str = "  ") -> str:
        """What stands at the head of a machine's column."""
        kind = self.given.get(("machine", life.kind), f"kind {life.kind}") if life.kind else "not live"
        return f"{life.number}{between}{kind}"

    def value(self, value: second.MaybeValue) -> str:
        if value is None:
            return "undefined"
        if value.type == "bool":
            return "true" if value.content else "false"
        if value.type == "event":
            return self.of("event", value.content)
        return f"machine {value.content}" if value.type == "id" else str(value.content)

    def pair(self, pair: second.Pair) -> str:
        return self.of("event", pair.event) + ("" if pair.value is None else f"({self.value(pair.value)})")


# ---------------------------------------------------------------------------------------------------------------
# What happens in a list of choices
# ---------------------------------------------------------------------------------------------------------------

@dataclass
class Row:
    """A choice: its place in this list and in the list as given, the rule it took ("" for a refusal), what to say of
    it, the machine that an arrow goes to, and the pair that it sends or takes."""

    place: int
    was: int
    machine: int
    rule: str
    note: str
    to: int = 0
    track: Optional["Track"] = None

    @property
    def index(self) -> int:
        return self.place - 1


@dataclass
class Track:
    """A pair that waits at a machine: from the row of its send to the row that ends it. `free` are the rows after
    which nothing holds it back."""

    machine: int
    begin: int
    end: Optional[int] = None
    ended: str = "waiting"  # or taken, deleted
    free: List[int] = field(default_factory=list)
    slot: int = 0


@dataclass
class Call:
    """A call that is open: from the row of CALL to the row of its pop; depth 1 is the first above the machine's own."""

    machine: int
    depth: int
    begin: int
    end: Optional[int] = None


@dataclass
class Life:
    """A machine that has a column; begin None: from the start; kind 0: the number was never live."""

    number: int
    kind: int
    begin: Optional[int] = None
    end: Optional[int] = None


class Listing:
    """What is drawn of one list of choices, and how it ended."""

    def __init__(self, choices: List[second.Choice], end: Dict[str, str], config: second.Config):
        self.choices, self.config = choices, config
        self.answer, self.steps, self.live = (int(end[key]) for key in ("end", "steps", "live"))
        self.rows: List[Row] = []
        self.lives: Dict[int, Life] = {}
        self.tracks: List[Track] = []
        self.calls: List[Call] = []

    @property
    def end(self) -> Tuple:
        """All that is to be the same for the regrouped list."""
        return self.answer, self.steps, self.live, self.config

    @property
    def changes(self) -> int:
        """How often the machine changes, over the choices that were tried."""
        tried = self.choices[:self.steps + 1]
        return sum(left.machine != right.machine for left, right in zip(tried, tried[1:]))


def follow(program: second.Program, choices: List[second.Choice], was: List[int], lines: List[Dict[str, str]],
           names: Names, most: int) -> Listing:
    """Goes through the choices as the run program's lines say, and notes what is to be drawn."""
    last = second.start(program)
    ended = second.run(program, last, choices)
    told = Listing(choices, lines[-1], last)
    if (ended.answer, ended.steps, len(last.live_machines())) != (told.answer, told.steps, told.live):
        raise Trouble(f"the run program ends with {told.answer} after {told.steps} steps, the second program with "
                      f"{ended.answer} after {ended.steps}")
    follower = Follower(program, told, names)
    for place, line in enumerate(lines[:-1]):
        if place == most or (line["rule"] == "NEW" and len(told.lives) == MAX_COLUMNS):
            return told
        follower.take(Row(place + 1, was[place], choices[place].machine, line["rule"], ""), choices[place].bits)
    if told.answer != 0:
        follower.refuse(Row(told.steps + 1, was[told.steps], choices[told.steps].machine, "", ""))
    return told


class Follower:
    """Goes through a list with the second program, a choice at a time."""

    def __init__(self, program: second.Program, told: Listing, names: Names):
        self.program, self.told, self.names = program, told, names
        self.config = second.start(program)
        self.waiting: Dict[Tuple[int, second.Pair], Track] = {}  # by machine and pair
        told.lives[1] = Life(1, program.start_kind)

    def take(self, row: Row, bits: int) -> None:
        """A choice that took a rule."""
        self.before(row, bits)
        taken = second.step_accepted(self.program, self.config, row.machine, bits)
        if taken.rule != row.rule:
            raise Trouble(f"choice {row.place}: the run program says {row.rule}, the second program "
                          f"{taken.rule or 'answer %d' % taken.answer}")
        self.after(row)
        self.told.rows.append(row)
        for (machine, pair), track in self.waiting.items():
            turn = second.Turn(self.program, self.config, self.config.find(machine), 0)
            if turn.machine.stack and not turn.is_held_back(pair.event):
                track.free.append(row.index)

    def refuse(self, row: Row) -> None:
        """The choice that was refused: it changes nothing."""
        row.note = f"refused, {self.told.answer}: {WORDS[self.told.answer]}"
        self.told.lives.setdefault(row.machine, Life(row.machine, 0))
        self.told.rows.append(row)
        for track in self.waiting.values():
            track.free += [row.index] if row.index - 1 in track.free else []

    def before(self, row: Row, bits: int) -> None:
        """What is known only before the step: the statement at work and its values."""
        machine = self.config.find(row.machine)
        stmt = self.program.stmts.get(machine.row[0]) if machine.row else None
        turn = second.Turn(self.program, self.config, machine, bits)
        if row.rule == "SEND":
            row.to = turn.value(stmt["to"]).content
            self.send(row, second.Pair(stmt["event"], turn.value(stmt["arg"])))
        elif row.rule == "ASSIGN":
            row.note = f"{self.names.of('var', stmt['var'])} := {self.names.value(turn.value(stmt['expr']))}"
        elif row.rule in ("IF", "WHILE"):
            row.note = f"condition is {self.names.value(turn.value(stmt['cond']))}"
        elif row.rule == "ASSERT":
            row.note = "it holds"
        elif row.rule == "DELETE":
            self.delete(row)

    def after(self, row: Row) -> None:
        """What is known only after the step: the machine's state, its event, whom it created."""
        machine = self.config.find(row.machine)
        if row.rule == "NEW":
            row.to = self.config.next - 1
            self.told.lives[row.to] = Life(row.to, self.config.find(row.to).kind, begin=row.index)
            row.note = f"creates {self.names.head(self.told.lives[row.to], ', ')}"
        elif row.rule in ("DEQUEUE", "RAISE"):
            pair = second.Pair(machine.msg.content, machine.arg)
            verb = "takes" if row.rule == "DEQUEUE" else "raises"
            row.note = f"{verb} {self.names.pair(pair)}{self.exit_put_in(machine)}"
            if row.rule == "DEQUEUE":
                row.track = self.waiting.pop((row.machine, pair))
                row.track.end, row.track.ended = row.index, "taken"
        elif row.rule == "RETURN":
            row.note = f"returns{self.exit_put_in(machine)}"
        elif row.rule == "STEP":
            row.note = f"to {self.names.state(machine.stack[0].state)}"
        elif row.rule == "CALL":
            row.note = f"calls {self.names.state(machine.stack[0].state)}"
            self.told.calls.append(Call(row.machine, len(machine.stack) - 1, row.index))
        elif row.rule in ("POP1", "POP2"):
            row.note = f"back in {self.names.state(machine.stack[0].state)}" if machine.stack else "its stack is empty"
            self.end_calls(row, len(machine.stack))
        elif row.rule == "ACTION":
            row.note = f"the action for {self.names.value(machine.msg)}"

    def send(self, row: Row, pair: second.Pair) -> None:
        row.note = f"{self.names.pair(pair)} to {row.to}"
        if (row.to, pair) in self.waiting:
            row.note += ": equal pair waits already"
        else:
            self.waiting[row.to, pair] = Track(row.to, row.index)
            self.told.tracks.append(self.waiting[row.to, pair])
        row.track = self.waiting[row.to, pair]

    def delete(self, row: Row) -> None:
        row.note = f"machine {row.machine} is no more"
        self.told.lives[row.machine].end = row.index
        self.end_calls(row, 0)
        for key in [key for key in self.waiting if key[0] == row.machine]:
            track = self.waiting.pop(key)
            track.end, track.ended = row.index, "deleted"

    def end_calls(self, row: Row, depth: int) -> None:
        """The machine's calls from this depth on are open no longer."""
        for call in self.told.calls:
            if call.machine == row.machine and call.end is None and call.depth >= depth:
                call.end = row.index

    def exit_put_in(self, machine: second.Machine) -> str:
        """Said where a step puts the state's exit in, and that is not skip."""
        return ", the exit runs" if machine.row and not self.program.is_skip(machine.row[0]) else ""


def places_before(given: List[second.Choice], regrouped: List[second.Choice]) -> List[int]:
    """Where each choice of the regrouped list stood: each machine's choices keep their order."""
    places: Dict[int, List[int]] = {}
    for place, choice in enumerate(given, start=1):
        places.setdefault(choice.machine, []).append(place)
    if sorted(given) != sorted(regrouped):
        raise Trouble("the regroup program's list does not hold the same choices")
    return [places[choice.machine].pop(0) for choice in regrouped]


# ---------------------------------------------------------------------------------------------------------------
# Drawing
# ---------------------------------------------------------------------------------------------------------------

ROW_H, BOX_H, BOX_W, HEAD_H = 24, 18, 76, 20
CALL_GAP, TRACK_GAP = 6, 6          # between open calls left of the boxes, between waiting pairs right of them
COLUMN_GAP, NUMBER_W, MARGIN = 20, 30, 26
CHAR_W = 6.6                        # of the small font, on the safe side
MAX_NOTE = 46

INK, SOFT, RED = "#1f2933", "#7b8794", "#c02626"
PRIVATE = ("#f7f8fa", "#9aa5b1")
COLOURS = {"NEW": ("#d5f0dd", "#2b8a4b"), "SEND": ("#d6e6fb", "#2f6fbf"), "DEQUEUE": ("#fdebc8", "#b8770b"),
           "DELETE": ("#e9def5", "#6b4aa0"), "": ("#fbdcdc", RED)}
CALLED = "#4d9aa8"


class Text(NamedTuple):
    size: float = 11
    fill: str = INK
    weight: str = "normal"
    anchor: str = "start"


class Svg:
    """The lines of an SVG, and the few shapes that are needed."""

    def __init__(self) -> None:
        self.lines: List[str] = []

    def text(self, x: float, y: float, words: str, style: Text = Text()) -> None:
        self.lines.append(f'<text x="{x:g}" y="{y:g}" font-size="{style.size:g}" fill="{style.fill}" '
                          f'font-weight="{style.weight}" text-anchor="{style.anchor}">{escape(words)}</text>')

    def box(self, x: float, y: float, w: float, h: float, fill: str, stroke: str = "none", round_: float = 3,
            width: float = 1, dash: str = "") -> None:
        dashed = f' stroke-dasharray="{dash}"' if dash else ""
        self.lines.append(f'<rect x="{x:g}" y="{y:g}" width="{w:g}" height="{h:g}" rx="{round_:g}" fill="{fill}" '
                          f'stroke="{stroke}" stroke-width="{width:g}"{dashed}/>')

    def line(self, x1: float, y1: float, x2: float, y2: float, stroke: str, width: float = 1, dash: str = "") -> None:
        dashed = f' stroke-dasharray="{dash}"' if dash else ""
        self.lines.append(f'<line x1="{x1:g}" y1="{y1:g}" x2="{x2:g}" y2="{y2:g}" stroke="{stroke}" '
                          f'stroke-width="{width:g}"{dashed}/>')

    def arrow(self, x1: float, y: float, x2: float, stroke: str, width: float = 1.5) -> None:
        """A level arrow from x1 to x2."""
        back = -6 if x2 > x1 else 6
        self.line(x1, y, x2 + back / 2, y, stroke, width)
        self.lines.append(f'<path d="M{x2:g} {y:g} l{back} -3.5 v7 z" fill="{stroke}"/>')

    def dot(self, x: float, y: float, fill: str, stroke: str = "none", r: float = 3) -> None:
        self.lines.append(f'<circle cx="{x:g}" cy="{y:g}" r="{r:g}" fill="{fill}" stroke="{stroke}"/>')

    def cross(self, x: float, y: float, stroke: str) -> None:
        self.line(x - 4, y - 4, x + 4, y + 4, stroke, 2)
        self.line(x - 4, y + 4, x + 4, y - 4, stroke, 2)

    def whole(self, width: float, height: float, title: str) -> str:
        head = (f'<svg xmlns="http://www.w3.org/2000/svg" width="{width:g}" height="{height:g}" '
                f'viewBox="0 0 {width:g} {height:g}" font-family="DejaVu Sans, Verdana, Arial, sans-serif">')
        return "\n".join([head, f"<title>{escape(title)}</title>",
                          f'<rect width="{width:g}" height="{height:g}" fill="#ffffff"/>', *self.lines, "</svg>", ""])


def shortened(words: str, most: int) -> str:
    return words if len(words) <= most else words[:most - 1] + "…"


class Panel:
    """One list, drawn from (x, y) on."""

    def __init__(self, svg: Svg, told: Listing, names: Names, title: str, under: str, with_was: bool):
        self.svg, self.told, self.names = svg, told, names
        self.title, self.under = title, under
        self.numbers = NUMBER_W * (2 if with_was else 1)
        self.give_slots()
        self.centre: Dict[int, float] = {}
        x = self.numbers
        for number in sorted(told.lives):
            half = self.head_width(number) / 2
            left = max(half, BOX_W / 2 + CALL_GAP * self.deepest(number) + 2)
            right = max(half, BOX_W / 2 + TRACK_GAP * self.most_waiting(number) + 6)
            self.centre[number] = x + left
            x += left + right + COLUMN_GAP
        self.notes = x
        longest = max((len(shortened(row.note, MAX_NOTE)) for row in told.rows), default=0)
        self.width = max(x + longest * CHAR_W, len(self.ending_words()) * 1.2 * CHAR_W, len(under) * CHAR_W)
        self.height = 96 + ROW_H * len(told.rows) + (28 if self.left_away() else 8)

    def head(self, number: int) -> str:
        return shortened(self.names.head(self.told.lives[number]), 18)

    def head_width(self, number: int) -> float:
        return max(BOX_W, len(self.head(number)) * CHAR_W + 14)

    def deepest(self, number: int) -> int:
        return max((call.depth for call in self.told.calls if call.machine == number), default=0)

    def most_waiting(self, number: int) -> int:
        return max((track.slot + 1 for track in self.told.tracks if track.machine == number), default=0)

    def left_away(self) -> int:
        """How many choices are not drawn."""
        return len(self.told.choices) - len(self.told.rows)

    def give_slots(self) -> None:
        """Pairs that wait at one machine at one time stand side by side."""
        for place, track in enumerate(self.told.tracks):
            taken = {other.slot for other in self.told.tracks[:place] if other.machine == track.machine
                     and (other.end is None or other.end >= track.begin)}
            track.slot = next(slot for slot in count() if slot not in taken)

    # Places ----------------------------------------------------------------------------------------------------

    def row_y(self, index: int) -> float:
        """The middle of a row."""
        return self.y + 68 + ROW_H * index + ROW_H / 2

    @property
    def foot(self) -> float:
        return self.y + 68 + ROW_H * len(self.told.rows) + 4

    def track_x(self, track: Track) -> float:
        return self.x + self.centre[track.machine] + BOX_W / 2 + 7 + TRACK_GAP * track.slot

    # Parts, from the back to the front -------------------------------------------------------------------------

    def draw(self, x: float, y: float) -> None:
        self.x, self.y = x, y
        self.svg.text(x, y + 14, self.title, Text(15, INK, "bold"))
        self.svg.text(x, y + 32, self.under, Text(11, SOFT))
        self.turns()
        for life in self.told.lives.values():
            self.lifeline(life)
        for call in self.told.calls:
            self.open_call(call)
        for track in self.told.tracks:
            self.waiting(track)
        for row in self.told.rows:
            self.row(row)
        self.ending()

    def turns(self) -> None:
        """Every second turn of a machine is shaded, so that one sees how often the machine changes."""
        shaded, last = False, None
        for row in self.told.rows:
            shaded = shaded != (last is not None and row.machine != last)
            last = row.machine
            if shaded:
                self.svg.box(self.x, self.row_y(row.index) - ROW_H / 2, self.width, ROW_H, "#f0f3f6", round_=0)

    def lifeline(self, life: Life) -> None:
        x = self.x + self.centre[life.number]
        top = self.y + 55 if life.begin is None else self.row_y(life.begin)
        bottom = self.foot if life.end is None else self.row_y(life.end) + 16
        self.svg.line(x, top, x, bottom, "#cbd2d9", 1.5, "" if life.kind else "3 3")
        if life.end is not None:
            self.svg.cross(x, bottom, COLOURS["DELETE"][1])
        width = self.head_width(life.number)
        self.svg.box(x - width / 2, top - HEAD_H / 2, width, HEAD_H, "#323f4b" if life.kind else "#ffffff",
                     "#323f4b" if life.kind else SOFT, 9, 1, "" if life.kind else "3 3")
        self.svg.text(x, top + 4, self.head(life.number), Text(11, "#ffffff" if life.kind else SOFT, "bold", "middle"))

    def open_call(self, call: Call) -> None:
        x = self.x + self.centre[call.machine] - BOX_W / 2 - CALL_GAP * call.depth
        bottom = self.foot if call.end is None else self.row_y(call.end) + BOX_H / 2
        self.svg.line(x, self.row_y(call.begin) - BOX_H / 2, x, bottom, CALLED, 3)

    def waiting(self, track: Track) -> None:
        """From the send to what ends it, in pieces: dashed where it is held back."""
        x, colour = self.track_x(track), COLOURS["DEQUEUE"][1]
        last = len(self.told.rows) - 1 if track.end is None else track.end - 1
        index = track.begin
        while index <= last:
            upto = index
            while upto < last and ((upto + 1) in track.free) == (index in track.free):
                upto += 1
            bottom = self.foot if track.end is None and upto == last else self.row_y(upto + 1)
            self.svg.line(x, self.row_y(index), x, bottom, colour, 2, "" if index in track.free else "2 4")
            index = upto + 1
        if track.ended == "deleted":
            self.svg.cross(x, self.row_y(track.end), COLOURS["DELETE"][1])
        elif track.end is None and not self.left_away():
            self.svg.dot(x, self.foot, "#ffffff", colour)

    def row(self, row: Row) -> None:
        y, centre = self.row_y(row.index), self.x + self.centre[row.machine]
        fill, stroke = COLOURS.get(row.rule, PRIVATE)
        meeting = row.rule in COLOURS
        if row.rule == "NEW":
            to = self.x + self.centre[row.to]
            side = BOX_W / 2 if to > centre else -BOX_W / 2
            reach = self.head_width(row.to) / 2
            self.svg.arrow(centre + side, y, to - (reach if to > centre else -reach), stroke)
        if row.rule == "SEND":
            self.send(row, y, centre, stroke)
        if row.rule == "DEQUEUE":
            self.svg.arrow(self.track_x(row.track), y, centre + BOX_W / 2, stroke)
        self.svg.box(centre - BOX_W / 2, y - BOX_H / 2, BOX_W, BOX_H, fill, stroke, 3, 1.5 if meeting else 1)
        style = Text(11, stroke if meeting else "#3e4c59", "bold" if meeting else "normal", "middle")
        self.svg.text(centre, y + 4, row.rule or "refused", style)
        self.svg.text(self.x + NUMBER_W - 8, y + 4, str(row.place), Text(11, INK, "bold", "end"))
        if self.numbers > NUMBER_W:
            self.svg.text(self.x + 2 * NUMBER_W - 8, y + 4, str(row.was), Text(10, SOFT, "normal", "end"))
        self.svg.text(self.x + self.notes, y + 4, shortened(row.note, MAX_NOTE),
                      Text(11, stroke if meeting else "#3e4c59", "bold" if not row.rule else "normal"))

    def send(self, row: Row, y: float, centre: float, stroke: str) -> None:
        """An arrow to the pair's line; without a head, and with a ring, where an equal pair waits already."""
        x = self.track_x(row.track)
        start = centre + BOX_W / 2 if x > centre else centre - BOX_W / 2
        if row.track.begin == row.index:
            self.svg.arrow(start, y, x, stroke)
            self.svg.dot(x, y, COLOURS["DEQUEUE"][1], r=2.5)
        else:
            self.svg.line(start, y, x, y, stroke, 1.5)
            self.svg.dot(x, y, "#ffffff", stroke)

    def ending_words(self) -> str:
        answer, steps, live = self.told.answer, self.told.steps, self.told.live
        return (f"end {answer}, {WORDS[answer]}:  {steps} step{'' if steps == 1 else 's'}, "
                f"{live} machine{'' if live == 1 else 's'} live")

    def ending(self) -> None:
        y = self.foot + 20
        if len(self.told.rows) < self.told.steps:
            self.svg.text(self.x, y, f"… {self.left_away():,} more choices are not drawn", Text(11, SOFT, "bold"))
            y += 18
        elif self.left_away():
            behind = self.left_away()
            self.svg.text(self.x, y, f"{behind} choice{'s' if behind > 1 else ''} behind it not tried", Text(11, SOFT))
            y += 18
        self.svg.text(self.x, y, self.ending_words(), Text(12, RED if self.told.answer else INK, "bold"))


def legend(svg: Svg, x: float, y: float) -> None:
    """What the shapes mean."""
    for words, rule in (("private step", "STEP"), ("", "SEND"), ("", "DEQUEUE"), ("", "NEW"), ("", "DELETE"),
                        ("refused", "")):
        fill, stroke = COLOURS.get(rule, PRIVATE)
        width = 96 if words == "private step" else BOX_W
        svg.box(x, y, width, BOX_H, fill, stroke, 3, 1 if rule == "STEP" else 1.5)
        svg.text(x + width / 2, y + 13, words or rule, Text(11, stroke if rule != "STEP" else "#3e4c59",
                                                            "normal" if rule == "STEP" else "bold", "middle"))
        x += width + 8
    amber = COLOURS["DEQUEUE"][1]
    x += 10
    for words, dash in (("waits, can be taken", ""), ("waits, held back", "2 4")):
        svg.line(x, y, x, y + BOX_H, amber, 2, dash)
        svg.text(x + 7, y + 13, words, Text(11, "#3e4c59"))
        x += len(words) * CHAR_W + 24
    svg.line(x, y, x, y + BOX_H, CALLED, 3)
    svg.text(x + 7, y + 13, "call open", Text(11, "#3e4c59"))


LEGEND_W, TOP, BETWEEN = 880, 56, 44     # the legend's width; where the lists begin; between them


def picture(given: Listing, regrouped: Optional[Listing], why_not: int, names: Names, title: str) -> str:
    """Both lists side by side, or the list as given and why there is no other."""
    svg = Svg()
    svg.text(MARGIN, 32, title, Text(18, INK, "bold"))
    left = Panel(svg, given, names, "The list as given", changed(given.changes), False)
    left.draw(MARGIN, TOP)
    x, width, height = MARGIN + left.width + BETWEEN, left.width + BETWEEN, left.height
    if regrouped is None:
        svg.text(x, TOP + 14, "Not regrouped", Text(15, RED, "bold"))
        svg.text(x, TOP + 32, f"answer {why_not}: {WORDS[why_not]}", Text(12, RED))
        svg.text(x, TOP + 50, "nothing is written", Text(11, SOFT))
        width += 330
    else:
        right = Panel(svg, regrouped, names, "Regrouped", changed(regrouped.changes) + "; grey: the place before", True)
        right.draw(x, TOP)
        width, height = width + right.width, max(height, right.height)
        svg.line(x - BETWEEN / 2, TOP, x - BETWEEN / 2, TOP + height - 8, "#e4e7eb", 1)
        svg.text(MARGIN, TOP + height + 18, *same_end(given, regrouped))
        height += 18
    legend(svg, MARGIN, TOP + height + 16)
    return svg.whole(max(width, LEGEND_W) + 2 * MARGIN, TOP + height + 16 + BOX_H + 22, title)


def changed(times: int) -> str:
    return f"machine changes {times} time{'' if times == 1 else 's'}"


def same_end(given: Listing, regrouped: Listing) -> Tuple[str, Text]:
    """Said of the two lists' ends. That they are alike is proved; looked at here are answer, steps and live machines as
    the run program writes them, and the configurations as the second program has them."""
    if given.end != regrouped.end:
        return "THE TWO LISTS END DIFFERENTLY: this must never happen", Text(12, RED, "bold")
    return "Both lists end in the same configuration with the same answer.", Text(12, INK, "bold")


def refused_text(answer: int, line: int, text: bytes, title: str) -> str:
    """The picture of a text that is not loaded: the answer, and the line with its neighbours."""
    svg = Svg()
    svg.text(MARGIN, 32, title, Text(18, INK, "bold"))
    svg.text(MARGIN, 62, f"The text is refused: answer {answer}, {WORDS[answer]}", Text(13, RED, "bold"))
    y = 84
    svg.text(MARGIN, y, f"at line {line}; nothing was loaded" if line else "it is no single line's fault; "
             "nothing was loaded", Text(11, SOFT))
    lines = text.decode("latin-1").split("\n")
    for number in range(max(1, line - 2), line + 3) if line else ():
        if number > len(lines) and number != line:
            continue
        y += 22
        words = lines[number - 1] if number <= len(lines) else ""
        if number == line:
            svg.box(MARGIN, y - 15, 640, 21, COLOURS[""][0], RED, 3)
            words = words or "(nothing stands here)"
        svg.text(MARGIN + 40, y, str(number), Text(11, SOFT, "normal", "end"))
        shown = "".join(letter if letter.isprintable() else "·" for letter in words)
        svg.text(MARGIN + 52, y, shortened(shown, 80), Text(11, RED if number == line else INK))
    return svg.whole(700, y + 30, title)


# ---------------------------------------------------------------------------------------------------------------
# The program
# ---------------------------------------------------------------------------------------------------------------

def drawn(text: bytes, title: str, names: Names, by_second: bool = False, most: int = MAX_STEPS) -> str:
    """The picture of a text."""
    lines = output_of("run", text, by_second)
    if "line" in lines[-1]:
        return refused_text(int(lines[-1]["end"]), int(lines[-1]["line"]), text, title)
    loaded = second.load(text)
    if isinstance(loaded, second.Refused):
        raise Trouble(f"the run program loads the text, the second program answers {loaded.answer}")
    program, choices = loaded
    given = follow(program, choices, list(range(1, len(choices) + 1)), lines, names, most)
    list_lines = output_of("regroup", text, by_second)
    if list_lines[-1]["end"] != "0":
        return picture(given, None, int(list_lines[-1]["end"]), names, title)
    placed = [second.Choice(int(line["choice"]), int(line["bits"])) for line in list_lines[:-1]]
    lines = output_of("run", with_choices(text, placed), by_second)
    return picture(given, follow(program, placed, places_before(choices, placed), lines, names, most), 0, names, title)


def names_beside(file: Optional[str]) -> Names:
    """The names in FILE.names for a text FILE.txt, if there are any."""
    beside = Path(file).with_suffix(".names") if file and file.endswith(".txt") else None
    return Names(beside.read_text("utf-8", "replace").splitlines() if beside and beside.is_file() else [])


def main(arguments: List[str]) -> int:
    parser = argparse.ArgumentParser(prog="draw", description="Draws a text with its choices as an SVG.")
    parser.add_argument("file", nargs="?", metavar="FILE", help="the text; standard input without it")
    parser.add_argument("--second", action="store_true", help="call the second program, not the proved ones")
    parser.add_argument("--steps", type=int, default=MAX_STEPS, metavar="N", help="choices drawn of a list, at most")
    asked = parser.parse_args(arguments)
    try:
        text = Path(asked.file).read_bytes() if asked.file else sys.stdin.buffer.read()
        names = names_beside(asked.file)
    except OSError as error:
        print(f"draw: cannot read the text: {error}", file=sys.stderr)
        return 2
    try:
        title = Path(asked.file).stem if asked.file else "standard input"
        svg = drawn(text, title, names, asked.second, asked.steps)
    except Trouble as trouble:
        print(f"draw: {trouble}", file=sys.stderr)
        return 2
    sys.stdout.buffer.write(svg.encode("utf-8"))
    return 0


if __name__ == "__main__":
    sys.exit(main(sys.argv[1:]))
