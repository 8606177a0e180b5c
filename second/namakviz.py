#!/usr/bin/env python3
"""The second program of Namakviz: loader, step, run and regroup, written apart from the proved runtime.

It is there to be compared with the proved runtime: both are written from document 01 (the scope), the printed
rules (document 002) and the list of readings, so a misreading in one of them shows as a difference.

    python3 second/namakviz.py run [FILE]        writes the lines of the run program
    python3 second/namakviz.py regroup [FILE]    writes the lines of the regroup program

Without FILE the text is read from standard input. Other scripts import this file; the library is

    load, start, accepted, step, run, regroup    and    run_text, regroup_text for the two programs.

Sentences in quotation marks are document 01's. "Reading n" is number n of the list of readings.
"""

import copy
import re
import sys
from dataclasses import dataclass, field
from functools import cached_property
from typing import Dict, Iterable, Iterator, List, NamedTuple, Optional, Tuple, Union

# ---------------------------------------------------------------------------------------------------------------
# Sizes and answers
# ---------------------------------------------------------------------------------------------------------------

MAX_TEXT = 60_000
MAX_NUMBER_OF = {"event": 64, "machine": 16, "expr": 1_024, "stmt": 1_024, "action": 64, "state": 64}
MAX_VARIABLES_OF_A_KIND = 16
MAX_CHOICES = 4_096
MAX_LIVE_MACHINES = 32
MAX_STACK = 8
MAX_QUEUE = 16
MAX_HEIGHT = 32
MAX_STARS = 8
MAX_LIVE_NUMBER = 65_535
MAX_BITS = 255
MIN_INT, MAX_INT = -2_147_483_648, 2_147_483_647

DONE = 0
TEXT_TOO_LONG = 1
NOT_IN_THE_FORM = 2
OUT_OF_RANGE = 3
BAD_REFERENCE = 4
BAD_PART = 5
DOUBLED = 6
BAD_EXIT = 7
TOO_HIGH = 8
KIND_WITHOUT_STATE = 9
ASSERTION_FALSE = 10
SEND_TO_UNDEFINED = 11
SEND_TO_NOT_LIVE = 12
STACK_EMPTY = 13
CONDITION_NOT_BOOL = 14
WRONG_TYPE = 15
QUEUE_FULL = 16
STACK_FULL = 17
NO_ROOM = 18
NOTHING_TO_DO = 19
NOT_A_CONFIGURATION = 20
CHOICE_TOOK_NO_STEP = 22


class Refusal(Exception):
    """Carries an answer other than 0 from where it is found out to the public function that gives it."""

    def __init__(self, answer: int, line: int = 0):
        super().__init__(answer, line)
        self.answer = answer
        self.line = line


# ---------------------------------------------------------------------------------------------------------------
# The line format: the form of one line (answer 2)
# ---------------------------------------------------------------------------------------------------------------

TYPES = ("void", "bool", "int", "event", "id")

# "Kinds of line come in this order"; step, call and act are three kinds of line (reading 1).
LINE_ORDER = ("event", "machine", "var", "expr", "stmt", "action", "state", "step", "call", "act", "start", "choice")

# Kinds of line that are "numbered upward from 1"; the first number of the others names something else.
NUMBERED_LINES = ("event", "machine", "var", "expr", "stmt", "action", "state")

# The keys behind the first field, in the order shown.
KEYS = {
    "event": ("type",),
    "machine": (),
    "var": ("of", "type"),
    "action": ("of", "do"),
    "state": ("of", "defer", "entry", "exit"),
    "step": ("on", "to"),
    "call": ("on", "to"),
    "act": ("on", "do"),
    "start": (),
}

# The keys behind `kind`, for each kind of expression and of statement.
KEYS_OF_KIND = {
    "expr": {
        "add": ("a", "b"), "sub": ("a", "b"), "and": ("a", "b"), "or": ("a", "b"),
        "not": ("a",), "neg": ("a",), "int": ("val",), "bool": ("val",), "var": ("var",),
        "this": (), "msg": (), "arg": (), "bot": (), "star": (),
    },
    "stmt": {
        "assign": ("var", "expr"), "skip": (), "delete": (), "leave": (), "return": (),
        "new": ("var", "machine", "init"), "send": ("to", "event", "arg"), "raise": ("event", "arg"),
        "assert": ("expr",), "seq": ("first", "second"), "if": ("cond", "then", "else"), "while": ("cond", "body"),
    },
}

# "Numbers are decimal without leading zeros; only `val` may have a minus, and `-0` is refused."
NUMBER = re.compile(r"0|[1-9][0-9]*")
SIGNED_NUMBER = re.compile(r"0|-?[1-9][0-9]*")
NUMBER_LIST = re.compile(r"(?:0|[1-9][0-9]*)(?:,(?:0|[1-9][0-9]*))*")
PAIR_LIST = re.compile(r"(?:0|[1-9][0-9]*):(?:0|[1-9][0-9]*)(?:,(?:0|[1-9][0-9]*):(?:0|[1-9][0-9]*))*")

# A number of any length is in the form (reading 4). One with more digits than these is above every range and every
# reference, so that its exact worth no longer matters: it is kept as BEYOND.
MAX_DIGITS = 10
BEYOND = 10 ** MAX_DIGITS


@dataclass(frozen=True)
class Line:
    """One line of the text: `expr=3 kind=add a=1 b=2` has name expr, number 3 and three fields."""

    place: int
    name: str
    number: int
    fields: Dict[str, object]

    def __getitem__(self, key: str):
        return self.fields[key]


def read_line(text: str, place: int) -> Line:
    """Reads a line of the form "`key=value`, one space between, keys in the order shown"."""
    words = [word.partition("=") for word in text.split(" ")]
    keys = tuple(key for key, _, _ in words[1:])
    values = [value for _, _, value in words[1:]]
    name, _, own_number = words[0]
    if keys != expected_keys(name, keys, values):
        raise Refusal(NOT_IN_THE_FORM)
    fields = {key: read_value(key, value) for key, value in zip(keys, values)}
    number = read_number(own_number)
    if name == "choice":
        fields.setdefault("bits", 0)  # "A missing `bits` counts as 0."
    return Line(place, name, number, fields)


def expected_keys(name: str, keys: Tuple[str, ...], values: List[str]) -> Tuple[str, ...]:
    """The keys that a line with this name, and this `kind` if it has one, must have behind its first field."""
    if name == "choice":
        return ("bits",) if keys else ()
    if name in KEYS:
        return KEYS[name]
    kinds = KEYS_OF_KIND.get(name, {})
    if not values or values[0] not in kinds:
        raise Refusal(NOT_IN_THE_FORM)
    return ("kind",) + kinds[values[0]]


def read_value(key: str, text: str):
    """Reads the value of one field; the key decides its form."""
    if key == "kind":
        return text
    if key == "type":
        return read_type(text)
    if key == "val":
        return read_signed_number(text)
    if key == "defer":
        return read_defer(text)
    if key == "init":
        return read_init(text)
    return read_number(text)


def read_type(text: str) -> str:
    if text not in TYPES:
        raise Refusal(NOT_IN_THE_FORM)
    return text


def read_number(text: str) -> int:
    if not NUMBER.fullmatch(text):
        raise Refusal(NOT_IN_THE_FORM)
    return number_worth(text)


def read_signed_number(text: str) -> int:
    if not SIGNED_NUMBER.fullmatch(text):
        raise Refusal(NOT_IN_THE_FORM)
    return -number_worth(text[1:]) if text.startswith("-") else number_worth(text)


def read_defer(text: str) -> Tuple[int, ...]:
    """`defer` is `none` or "`defer=2,5` ascending"."""
    if text == "none":
        return ()
    if not NUMBER_LIST.fullmatch(text):
        raise Refusal(NOT_IN_THE_FORM)
    events = text.split(",")
    refuse_unless_ascending(events)
    return tuple(number_worth(event) for event in events)


def read_init(text: str) -> Tuple[Tuple[int, int], ...]:
    """`init` is "`none` or pairs `3:7` of variable and expression, variables ascending"."""
    if text == "none":
        return ()
    if not PAIR_LIST.fullmatch(text):
        raise Refusal(NOT_IN_THE_FORM)
    pairs = [pair.split(":") for pair in text.split(",")]
    refuse_unless_ascending([variable for variable, _ in pairs])
    return tuple((number_worth(variable), number_worth(expr)) for variable, expr in pairs)


def refuse_unless_ascending(numbers: List[str]) -> None:
    """Ascending means strictly (reading 3); compared exactly however long the numbers are (reading 4)."""
    keys = [(len(digits), digits) for digits in numbers]
    if any(left >= right for left, right in zip(keys, keys[1:])):
        raise Refusal(NOT_IN_THE_FORM)


def number_worth(digits: str) -> int:
    return int(digits) if len(digits) <= MAX_DIGITS else BEYOND


# ---------------------------------------------------------------------------------------------------------------
# The line format: the lines together (answers 1, 2 and 3)
# ---------------------------------------------------------------------------------------------------------------

Lines = Dict[str, List[Line]]  # the lines of the text by their name, each list in the order of the text


def read_lines(text: bytes) -> Lines:
    """Reads the whole text: "1 comes first, then 2 and 3 at the first faulty line (2 before 3)"."""
    if len(text) > MAX_TEXT:
        raise Refusal(TEXT_TOO_LONG)
    *whole_lines, rest = text.decode("latin-1").split("\n")
    lines: Lines = {name: [] for name in LINE_ORDER}
    last_rank = 0
    for place, line_text in enumerate(whole_lines, start=1):
        try:
            line = read_line(line_text, place)
            refuse_out_of_order(line, lines, last_rank)
            refuse_out_of_range(line, lines)
        except Refusal as refusal:
            raise Refusal(refusal.answer, place)
        lines[line.name].append(line)
        last_rank = LINE_ORDER.index(line.name)
    # "Lines end with LF, the last too"; and a missing `start` stands at "the last line's number plus one".
    if rest or not lines["start"]:
        raise Refusal(NOT_IN_THE_FORM, len(whole_lines) + 1)
    return lines


def refuse_out_of_order(line: Line, lines: Lines, last_rank: int) -> None:
    """Answer 2: "a line out of order", a second `start`, "a void variable"."""
    if LINE_ORDER.index(line.name) < last_rank:
        raise Refusal(NOT_IN_THE_FORM)
    if line.name == "start" and lines["start"]:
        raise Refusal(NOT_IN_THE_FORM)
    if line.name == "var" and line["type"] == "void":
        raise Refusal(NOT_IN_THE_FORM)


def refuse_out_of_range(line: Line, lines: Lines) -> None:
    """Answer 3: "a line's own number out of sequence, a size above passed, or `val`, `bits` or a live number out of
    range"."""
    if line.name in NUMBERED_LINES and line.number != len(lines[line.name]) + 1:
        raise Refusal(OUT_OF_RANGE)
    if line.number > MAX_NUMBER_OF.get(line.name, line.number):
        raise Refusal(OUT_OF_RANGE)
    if line.name == "var":
        refuse_too_many_variables(line, lines)
    if line.name == "expr" and "val" in line.fields:
        low, high = (0, 1) if line["kind"] == "bool" else (MIN_INT, MAX_INT)
        if not low <= line["val"] <= high:
            raise Refusal(OUT_OF_RANGE)
    if line.name == "choice":
        if len(lines["choice"]) == MAX_CHOICES:
            raise Refusal(OUT_OF_RANGE)
        if not 1 <= line.number <= MAX_LIVE_NUMBER or line["bits"] > MAX_BITS:
            raise Refusal(OUT_OF_RANGE)


def refuse_too_many_variables(line: Line, lines: Lines) -> None:
    """Answer 3: "variables 16 a kind", counted only for kinds that exist (reading 2)."""
    if not 1 <= line["of"] <= len(lines["machine"]):
        return
    already = sum(1 for variable in lines["var"] if variable["of"] == line["of"])
    if already == MAX_VARIABLES_OF_A_KIND:
        raise Refusal(OUT_OF_RANGE)


# ---------------------------------------------------------------------------------------------------------------
# The program
# ---------------------------------------------------------------------------------------------------------------

class Program:
    """The lines of a text without its choices, by number, and what follows from them.

    events, machines, vars, exprs, stmts, actions and states give the line of a number; steps, calls and acts are
    lists of lines. The tables below are worked out when first asked for: those that go through parts need a text
    without faults of answers 4 and 5. They go through the numbers in order, because a part "has a lower number than
    its whole", and so never run into a deep recursion.
    """

    def __init__(self, lines: Lines):
        self.events, self.machines, self.vars, self.exprs, self.stmts, self.actions, self.states = (
            {line.number: line for line in lines[name]} for name in NUMBERED_LINES)
        self.steps, self.calls, self.acts = lines["step"], lines["call"], lines["act"]
        self.start_line = lines["start"][0]

    @property
    def start_kind(self) -> int:
        return self.start_line.number

    @cached_property
    def variables_of(self) -> Dict[int, List[int]]:
        """The variables of each machine kind, in order."""
        return {kind: [number for number, line in self.vars.items() if line["of"] == kind] for kind in self.machines}

    @cached_property
    def first_state_of(self) -> Dict[int, int]:
        """Init(m) of the printed rules: "A kind's first state is its initial one"."""
        first: Dict[int, int] = {}
        for number, line in self.states.items():
            first.setdefault(line["of"], number)
        return first

    @cached_property
    def step_to(self) -> Dict[Tuple[int, int], int]:
        """(state, event) to the state a step line leads to: Step(m, n, e) of the printed rules."""
        return {(line.number, line["on"]): line["to"] for line in self.steps}

    @cached_property
    def call_to(self) -> Dict[Tuple[int, int], int]:
        """(state, event) to the state a call line leads to: Call(m, n, e)."""
        return {(line.number, line["on"]): line["to"] for line in self.calls}

    @cached_property
    def action_on(self) -> Dict[Tuple[int, int], int]:
        """(state, event) to the action an act line names: Action(m, n, e)."""
        return {(line.number, line["on"]): line["do"] for line in self.acts}

    @cached_property
    def expr_heights(self) -> Dict[int, int]:
        """The nesting height of each expression: "a leaf is 1"."""
        heights: Dict[int, int] = {}
        for number, line in self.exprs.items():
            heights[number] = 1 + max((heights[part] for part in expr_parts(line)), default=0)
        return heights

    @cached_property
    def stmt_heights(self) -> Dict[int, int]:
        """The nesting height of each statement: "a leaf is 1, and so is 0 for a statement; a statement's expressions
        don't count"."""
        heights = {0: 1}
        for number, line in self.stmts.items():
            heights[number] = 1 + max((heights[part] for part in stmt_places(line)), default=0)
        return heights

    @cached_property
    def expr_stars(self) -> Dict[int, int]:
        """How many `*` there are in each expression."""
        stars: Dict[int, int] = {}
        for number, line in self.exprs.items():
            stars[number] = (line["kind"] == "star") + sum(stars[part] for part in expr_parts(line))
        return stars

    @cached_property
    def stmt_serves(self) -> Dict[int, int]:
        """The machine kind each statement belongs to, 0 where it serves none: "A statement or expression belongs to
        the kind whose state or action it serves"."""
        serves = dict.fromkeys(self.stmts, 0)
        for line in [*self.actions.values(), *self.states.values()]:
            for stmt in named_stmts(line):
                serves[stmt] = line["of"]
        for number in reversed(self.stmts):
            for part in stmt_parts(self.stmts[number]):
                serves[part] = serves[number]
        return serves

    @cached_property
    def expr_serves(self) -> Dict[int, int]:
        """The machine kind each expression belongs to, 0 where it serves none."""
        serves = dict.fromkeys(self.exprs, 0)
        for number, line in self.stmts.items():
            for expr in stmt_exprs(line):
                serves[expr] = self.stmt_serves[number]
        for number in reversed(self.exprs):
            for part in expr_parts(self.exprs[number]):
                serves[part] = serves[number]
        return serves

    def is_skip(self, stmt: int) -> bool:
        """A statement of kind skip is a skip like 0 (reading 18)."""
        return stmt == 0 or self.stmts[stmt]["kind"] == "skip"

    def is_seq(self, stmt: int) -> bool:
        return stmt != 0 and self.stmts[stmt]["kind"] == "seq"


EXPR_PART_KEYS = ("a", "b")
STMT_PART_KEYS = ("first", "second", "then", "else", "body")
STMT_EXPR_KEYS = ("expr", "cond", "to", "arg")


def expr_parts(expr: Line) -> List[int]:
    """The expressions an expression names, left to right."""
    return [expr[key] for key in EXPR_PART_KEYS if key in expr.fields]


def stmt_places(stmt: Line) -> List[int]:
    """What stands in the places of a statement that take a statement, left to right, 0 for skip."""
    return [stmt[key] for key in STMT_PART_KEYS if key in stmt.fields]


def stmt_parts(stmt: Line) -> List[int]:
    """The statements a statement names, left to right."""
    return [part for part in stmt_places(stmt) if part != 0]


def stmt_exprs(stmt: Line) -> List[int]:
    """The expressions a statement names, left to right; "the undefined value in `arg`" is none."""
    named = [stmt[key] for key in STMT_EXPR_KEYS if key in stmt.fields and not (key == "arg" and stmt[key] == 0)]
    return named + [expr for _, expr in stmt.fields.get("init", ())]


def named_exprs(line: Line) -> List[int]:
    """Every expression a line names."""
    if line.name == "expr":
        return expr_parts(line)
    return stmt_exprs(line) if line.name == "stmt" else []


def named_stmts(line: Line) -> List[int]:
    """Every statement a line names: the parts of a statement, what an action does, a state's entry and exit."""
    if line.name == "stmt":
        return stmt_parts(line)
    keys = {"action": ("do",), "state": ("entry", "exit")}.get(line.name, ())
    return [line[key] for key in keys if line[key] != 0]


# ---------------------------------------------------------------------------------------------------------------
# The faults of a program (answers 4 to 9). Each function hands out the places of all faulty lines.
# ---------------------------------------------------------------------------------------------------------------

def refuse_faulty(program: Program) -> None:
    """The order: "4 to 9, lower numbers first, at the first faulty line (a foreign variable after 5 ...)"."""
    passes = (
        (BAD_REFERENCE, bad_references),
        (BAD_PART, bad_parts),
        (BAD_REFERENCE, foreign_variables),
        (DOUBLED, doublings),
        (BAD_EXIT, bad_exits),
        (TOO_HIGH, too_high_lines),
        (KIND_WITHOUT_STATE, kinds_without_state),
    )
    for answer, faulty_places in passes:
        first = min(faulty_places(program), default=None)
        if first is not None:
            raise Refusal(answer, first)


def bad_references(program: Program) -> Iterator[int]:
    """Answer 4: "a reference to something absent or of another kind's; `new` into a variable not of type id".

    Foreign variables have a pass of their own."""
    for line in all_lines(program):
        if any(number not in wanted for number, wanted in references(program, line)):
            yield line.place
        elif line.name in ("step", "call") and of_another_kind(program, line, program.states[line["to"]]):
            yield line.place
        elif line.name == "act" and of_another_kind(program, line, program.actions[line["do"]]):
            yield line.place
        elif line.name == "stmt" and line["kind"] == "new" and program.vars[line["var"]]["type"] != "id":
            yield line.place


def all_lines(program: Program) -> Iterator[Line]:
    for numbered in (program.events, program.machines, program.vars, program.exprs, program.stmts, program.actions,
                     program.states):
        yield from numbered.values()
    yield from program.steps
    yield from program.calls
    yield from program.acts
    yield program.start_line


def references(program: Program, line: Line) -> Iterator[Tuple[int, Iterable[int]]]:
    """Every number by which the line refers to something, with the numbers it may be. 0 for skip and for the
    undefined value is no reference; "Any other reference 0 is answer 4"."""
    if line.name == "start":
        yield line.number, program.machines
    if line.name in ("step", "call", "act"):
        yield line.number, program.states
        yield line["on"], program.events
    if line.name in ("step", "call"):
        yield line["to"], program.states
    if line.name == "act":
        yield line["do"], program.actions
    if line.name in ("var", "action", "state"):
        yield line["of"], program.machines
    for event in line.fields.get("defer", ()):
        yield event, program.events
    for expr in named_exprs(line):
        yield expr, program.exprs
    for stmt in named_stmts(line):
        yield stmt, program.stmts
    if line.name in ("expr", "stmt"):
        for key, wanted in (("var", program.vars), ("machine", program.machines), ("event", program.events)):
            if key in line.fields:
                yield line[key], wanted
        for variable, _ in line.fields.get("init", ()):
            yield variable, program.vars


def of_another_kind(program: Program, line: Line, target: Line) -> bool:
    """A step, call or act line leads from its state to a state or action of the same kind."""
    return program.states[line.number]["of"] != target["of"]


def bad_parts(program: Program) -> Iterator[int]:
    """Answer 5: "a part not lower than its whole, or named twice"; "doublings at the later line"."""
    seen_exprs, seen_stmts = set(), set()
    for line in all_lines(program):
        if line.name == "expr" and any(part >= line.number for part in expr_parts(line)):
            yield line.place
        if line.name == "stmt" and any(part >= line.number for part in stmt_parts(line)):
            yield line.place
        for named, seen in ((named_exprs(line), seen_exprs), (named_stmts(line), seen_stmts)):
            for number in named:
                if number in seen:
                    yield line.place
                seen.add(number)


def foreign_variables(program: Program) -> Iterator[int]:
    """Answer 4, after 5: "A foreign variable is the fault of the line naming it; `init` variables are the created
    kind's, in a statement that serves none too"."""
    for serves, lines in ((program.expr_serves, program.exprs), (program.stmt_serves, program.stmts)):
        for number, line in lines.items():
            if "var" in line.fields and serves[number] not in (0, program.vars[line["var"]]["of"]):
                yield line.place
            for variable, _ in line.fields.get("init", ()):
                if program.vars[variable]["of"] != line["machine"]:
                    yield line.place


def doublings(program: Program) -> Iterator[int]:
    """Answer 6: "two transitions, or two actions, for one state and event", at the later line."""
    for lines in (program.steps + program.calls, program.acts):
        seen = set()
        for line in lines:
            if (line.number, line["on"]) in seen:
                yield line.place
            seen.add((line.number, line["on"]))


def bad_exits(program: Program) -> Iterator[int]:
    """Answer 7: "an exit with raise, return or leave anywhere inside", at the state's line."""
    breaks_off = {0: False}
    for number, line in program.stmts.items():
        breaks_off[number] = (line["kind"] in ("raise", "return", "leave")
                              or any(breaks_off[part] for part in stmt_parts(line)))
    for line in program.states.values():
        if breaks_off[line["exit"]]:
            yield line.place


def too_high_lines(program: Program) -> Iterator[int]:
    """Answer 8: "height over 32, or more than 8 `*`". Stars count in statements only (reading 15)."""
    for number, line in program.exprs.items():
        if program.expr_heights[number] > MAX_HEIGHT:
            yield line.place
    for number, line in program.stmts.items():
        stars = sum(program.expr_stars[expr] for expr in stmt_exprs(line))
        if program.stmt_heights[number] > MAX_HEIGHT or stars > MAX_STARS:
            yield line.place


def kinds_without_state(program: Program) -> Iterator[int]:
    """Answer 9: "a machine kind with no state"; its line is 0."""
    if any(kind not in program.first_state_of for kind in program.machines):
        yield 0


# ---------------------------------------------------------------------------------------------------------------
# Loading
# ---------------------------------------------------------------------------------------------------------------

class Choice(NamedTuple):
    machine: int  # a live number
    bits: int


class Loaded(NamedTuple):
    program: Program
    choices: List[Choice]


class Refused(NamedTuple):
    answer: int
    line: int


def load(text: bytes) -> Union[Loaded, Refused]:
    """Reads a text: "A refusal of the text gives its line (0 for answers 1 and 9 ...) and loads nothing"."""
    try:
        lines = read_lines(text)
        program = Program(lines)
        refuse_faulty(program)
    except Refusal as refusal:
        return Refused(refusal.answer, refusal.line)
    return Loaded(program, [Choice(line.number, line["bits"]) for line in lines["choice"]])


# ---------------------------------------------------------------------------------------------------------------
# Values and configurations
# ---------------------------------------------------------------------------------------------------------------

class Value(NamedTuple):
    """A value that is not undefined: type bool, int, event or id, and its content (True or False, or a number)."""

    type: str
    content: int


UNDEFINED = None
MaybeValue = Optional[Value]

# "A map gives each event an action, deferred, or nothing." An action is given by its number.
NOTHING = "nothing"
DEFERRED = "deferred"


class Frame(NamedTuple):
    """A place of the call stack: a state and its map from every event of the program."""

    state: int
    map: Dict[int, Union[int, str]]


class PendingRaise(NamedTuple):
    event: int
    value: MaybeValue


PENDING_RETURN = "pending return"
Pending = Union[None, PendingRaise, str]


class Pair(NamedTuple):
    """What waits in a queue."""

    event: int
    value: MaybeValue


@dataclass
class Machine:
    """A live machine: "stack of (state, map), variables, `this`, `msg`, `arg`, remaining statement, queue".

    The stack has its top first; the variables stand in the order of the kind's variables. The remaining statement
    is the row, a list of statement numbers (0 is skip), and what is pending at its end."""

    number: int
    kind: int
    stack: List[Frame]
    variables: List[MaybeValue]
    this: int
    msg: MaybeValue = UNDEFINED
    arg: MaybeValue = UNDEFINED
    row: List[int] = field(default_factory=list)
    pending: Pending = None
    queue: List[Pair] = field(default_factory=list)


@dataclass
class Config:
    """The rooms in order, None where a room is free, and the next live number."""

    rooms: List[Optional[Machine]]
    next: int

    def live_machines(self) -> List[Machine]:
        return [machine for machine in self.rooms if machine is not None]

    def find(self, number: int) -> Optional[Machine]:
        """The live machine with this number, None if there is none."""
        return next((machine for machine in self.rooms if machine is not None and machine.number == number), None)


def start(program: Program) -> Config:
    """The start configuration: the first machine is live number 1 in the first room (reading 25)."""
    config = Config(rooms=[None] * MAX_LIVE_MACHINES, next=1)
    create(program, config, program.start_kind)
    return config


def create(program: Program, config: Config, kind: int) -> Machine:
    """Puts a new machine, with its variables undefined, into "the lowest free room". There must be one."""
    state = program.first_state_of[kind]
    machine = Machine(
        number=config.next,
        kind=kind,
        stack=[Frame(state, dict.fromkeys(program.events, NOTHING))],
        variables=[UNDEFINED] * len(program.variables_of[kind]),
        this=config.next,
    )
    set_remaining(program, machine, [program.states[state]["entry"]])
    config.rooms[config.rooms.index(None)] = machine
    config.next += 1
    return machine


def set_remaining(program: Program, machine: Machine, row: List[int], pending: Pending = None) -> None:
    """Sets the remaining statement: "A seq at the head is split at once, so no row begins with one; a lone skip with
    nothing pending is kept as the empty row"."""
    row = list(row)
    while row and program.is_seq(row[0]):
        seq = program.stmts[row[0]]
        row[0:1] = [seq["first"], seq["second"]]
    if len(row) == 1 and program.is_skip(row[0]) and pending is None:
        row = []
    machine.row = row
    machine.pending = pending


# ---------------------------------------------------------------------------------------------------------------
# The acceptance of a configuration
# ---------------------------------------------------------------------------------------------------------------

def accepted(program: Program, config: Config) -> bool:
    """Whether the configuration is one of this program: document 01, "A configuration", and readings 30 to 32.

    The lists here have no unused places, so that "unused places are zero" asks nothing. The program must come from
    `load`, so that it is without the faults that answer 20 speaks of."""
    numbers = [machine.number for machine in config.live_machines()]
    return (1 <= config.next <= MAX_LIVE_NUMBER + 1
            and len(config.rooms) == MAX_LIVE_MACHINES
            and len(set(numbers)) == len(numbers)
            and all(accepted_machine(program, config, machine) for machine in config.live_machines()))


def accepted_machine(program: Program, config: Config, machine: Machine) -> bool:
    return (machine.kind in program.machines
            and 1 <= machine.number < config.next
            and machine.this == machine.number
            and accepted_stack(program, machine)
            and accepted_variables(program, config, machine)
            and is_value_of(program, config, "event", machine.msg)
            and is_value(program, config, machine.arg)
            and accepted_row(program, machine)
            and accepted_pending(program, config, machine.pending)
            and accepted_queue(program, config, machine.queue))


def is_value(program: Program, config: Config, value: MaybeValue) -> bool:
    """Undefined, or a value in its range: events of the program, and id values "from 1 and below the next one"."""
    if value is UNDEFINED:
        return True
    if value.type == "bool":
        return value.content in (False, True)
    if value.type == "int":
        return MIN_INT <= value.content <= MAX_INT
    if value.type == "event":
        return value.content in program.events
    return value.type == "id" and 1 <= value.content < config.next


def is_value_of(program: Program, config: Config, wanted: str, value: MaybeValue) -> bool:
    """A value where a type is wanted: "values are undefined or of their type"."""
    return is_value(program, config, value) and suits(wanted, value)


def suits(wanted: str, value: MaybeValue) -> bool:
    """Undefined suits every type; "void wants undefined"."""
    return value is UNDEFINED or value.type == wanted


def accepted_stack(program: Program, machine: Machine) -> bool:
    """States and actions of the kind; a map for every event of the program and for nothing else."""
    def accepted_entry(entry) -> bool:
        if entry in (NOTHING, DEFERRED):
            return True
        return entry in program.actions and program.actions[entry]["of"] == machine.kind

    return len(machine.stack) <= MAX_STACK and all(
        frame.state in program.states
        and program.states[frame.state]["of"] == machine.kind
        and set(frame.map) == set(program.events)
        and all(accepted_entry(entry) for entry in frame.map.values())
        for frame in machine.stack)


def accepted_variables(program: Program, config: Config, machine: Machine) -> bool:
    names = program.variables_of[machine.kind]
    return len(machine.variables) == len(names) and all(
        is_value_of(program, config, program.vars[name]["type"], value)
        for name, value in zip(names, machine.variables))


def accepted_row(program: Program, machine: Machine) -> bool:
    """The parts suit the kind; "no row begins with" a seq; no lone skip with nothing pending; "for each part, height
    plus parts behind it, a pending one counted, is at most 33"."""
    row = machine.row
    pending_parts = 0 if machine.pending is None else 1
    if not all(part == 0 or program.stmt_serves.get(part) == machine.kind for part in row):
        return False
    if row and program.is_seq(row[0]):
        return False
    if len(row) == 1 and program.is_skip(row[0]) and machine.pending is None:
        return False
    return all(program.stmt_heights[part] + len(row) - 1 - index + pending_parts <= MAX_HEIGHT + 1
               for index, part in enumerate(row))


def accepted_pending(program: Program, config: Config, pending: Pending) -> bool:
    """A pending raise's value is of its event's type (reading 31)."""
    if pending is None or pending == PENDING_RETURN:
        return True
    return accepted_pair(program, config, pending.event, pending.value)


def accepted_queue(program: Program, config: Config, queue: List[Pair]) -> bool:
    """At most 16 pairs, and "no queue holds a pair twice"."""
    return (len(queue) <= MAX_QUEUE
            and all(accepted_pair(program, config, pair.event, pair.value) for pair in queue)
            and len(set(queue)) == len(queue))


def accepted_pair(program: Program, config: Config, event: int, value: MaybeValue) -> bool:
    return event in program.events and is_value_of(program, config, program.events[event]["type"], value)


# ---------------------------------------------------------------------------------------------------------------
# The step
# ---------------------------------------------------------------------------------------------------------------

class StepResult(NamedTuple):
    """Answer 0 and the rule applied, or the answer of a refusal and None."""

    answer: int
    rule: Optional[str]


def step(program: Program, config: Config, machine: int, bits: int) -> StepResult:
    """One choice, on the configuration itself: "One choice is one rule", "A refused step changes nothing".

    machine is the live number chosen."""
    if not accepted(program, config):
        return StepResult(NOT_A_CONFIGURATION, None)
    return step_accepted(program, config, machine, bits)


def step_accepted(program: Program, config: Config, machine: int, bits: int) -> StepResult:
    """The step of a configuration known to be accepted, as every one is that came out of a step or of `start`."""
    try:
        return StepResult(DONE, take_step(program, config, machine, bits))
    except Refusal as refusal:
        return StepResult(refusal.answer, None)


def take_step(program: Program, config: Config, number: int, bits: int) -> str:
    """Applies a rule and gives its name. "In a step: 20, 19, then 13, then left to right through the statement
    (target before payload; `init` in order), then 16 to 18"."""
    machine = config.find(number)
    if machine is None:
        raise Refusal(NOTHING_TO_DO)
    if not machine.stack:
        raise Refusal(STACK_EMPTY)
    turn = Turn(program, config, machine, bits)
    if machine.row:
        return turn.head_of_row()
    if machine.pending is None:
        return turn.dequeue()
    if machine.pending == PENDING_RETURN:
        return turn.pop_for_return()
    return turn.pending_raise(machine.pending)


class Turn:
    """One choice at work: the rules for the chosen machine.

    A rule finds out everything that may refuse it before it changes anything. Each gives its name."""

    def __init__(self, program: Program, config: Config, machine: Machine, bits: int):
        self.program = program
        self.config = config
        self.machine = machine
        self.bits = bits
        self.stars_met = 0

    # Expressions ----------------------------------------------------------------------------------------------

    def value(self, expr: int) -> MaybeValue:
        """The value of an expression, "worked out from its parts downward"; 0 is the undefined value."""
        if expr == 0:
            return UNDEFINED
        line = self.program.exprs[expr]
        kind = line["kind"]
        if kind == "var":
            return self.machine.variables[self.place_of(line["var"])]
        if kind in ("int", "bool"):
            return Value(kind, line["val"] if kind == "int" else line["val"] == 1)
        if kind == "this":
            return Value("id", self.machine.this)
        if kind == "msg":
            return self.machine.msg
        if kind == "arg":
            return self.machine.arg
        if kind == "bot":
            return UNDEFINED
        if kind == "star":
            return self.star()
        return operate(kind, [self.value(part) for part in expr_parts(line)])

    def star(self) -> Value:
        """The next star: "`star` number k of a statement, counted from 0 left to right, is bit k of the choice (bit
        0 the lowest)"."""
        bit = self.bits >> self.stars_met & 1
        self.stars_met += 1
        return Value("bool", bit == 1)

    def typed_value(self, expr: int, wanted: str) -> MaybeValue:
        """Answer 15: "a value neither undefined nor of the wanted type"."""
        value = self.value(expr)
        if not suits(wanted, value):
            raise Refusal(WRONG_TYPE)
        return value

    def condition(self, expr: int) -> bool:
        """Answer 14: "condition of if, while or assert not a bool"."""
        value = self.value(expr)
        if value is UNDEFINED or value.type != "bool":
            raise Refusal(CONDITION_NOT_BOOL)
        return value.content

    def place_of(self, variable: int) -> int:
        """Where a variable of the machine's kind stands among the machine's variables."""
        return self.program.variables_of[self.machine.kind].index(variable)

    # The remaining statement ----------------------------------------------------------------------------------

    def replace_head(self, *parts: int) -> None:
        """S[s] becomes S[parts]: other parts take the place of the head, the rest and what is pending stay."""
        set_remaining(self.program, self.machine, list(parts) + self.machine.row[1:], self.machine.pending)

    def replace_all(self, stmt: int, pending: Pending = None) -> None:
        """One statement takes the place of the whole row, "anything pending too"."""
        set_remaining(self.program, self.machine, [stmt], pending)

    # Rules for the head of the row ----------------------------------------------------------------------------

    def head_of_row(self) -> str:
        head = self.machine.row[0]
        if self.program.is_skip(head):
            return self.seq()
        stmt = self.program.stmts[head]
        return RULE_FOR[stmt["kind"]](self, stmt)

    def seq(self) -> str:
        """The rule for "a finished skip before something"."""
        self.replace_head()
        return "SEQ"

    def assign(self, stmt: Line) -> str:
        """A value of the variable's type, or undefined, or else answer 15."""
        value = self.typed_value(stmt["expr"], self.program.vars[stmt["var"]]["type"])
        self.machine.variables[self.place_of(stmt["var"])] = value
        self.replace_head(0)
        return "ASSIGN"

    def new(self, stmt: Line) -> str:
        """`init` values in order (15), then "no free room, or live numbers spent" (18). The values are worked out
        with the creator's variables, and set the created kind's."""
        values = [(variable, self.typed_value(expr, self.program.vars[variable]["type"]))
                  for variable, expr in stmt["init"]]
        if None not in self.config.rooms or self.config.next > MAX_LIVE_NUMBER:
            raise Refusal(NO_ROOM)
        created = create(self.program, self.config, stmt["machine"])
        for variable, value in values:
            created.variables[self.program.variables_of[created.kind].index(variable)] = value
        self.machine.variables[self.place_of(stmt["var"])] = Value("id", created.number)
        self.replace_head(0)
        return "NEW"

    def delete(self, _stmt: Line) -> str:
        """The machine is no longer live, and its room is free again."""
        room = next(place for place, machine in enumerate(self.config.rooms) if machine is self.machine)
        self.config.rooms[room] = None
        return "DELETE"

    def assert_true(self, stmt: Line) -> str:
        """ASSERT-PASS; a false assertion is answer 10, not a rule."""
        if not self.condition(stmt["expr"]):
            raise Refusal(ASSERTION_FALSE)
        self.replace_head(0)
        return "ASSERT"

    def if_then_else(self, stmt: Line) -> str:
        """IF-THEN and IF-ELSE: the branch takes the place of the statement."""
        self.replace_head(stmt["then"] if self.condition(stmt["cond"]) else stmt["else"])
        return "IF"

    def while_loop(self, stmt: Line) -> str:
        """WHILE-ITERATE: the body before the while itself. WHILE-DONE: skip."""
        if self.condition(stmt["cond"]):
            self.replace_head(stmt["body"], stmt.number)
        else:
            self.replace_head(0)
        return "WHILE"

    def send(self, stmt: Line) -> str:
        """Target: undefined 11, not an id 15, not live 12; then the payload 15; then 16 (reading 20).

        "an equal pair already waiting leaves the queue as it is; otherwise the pair goes to the end"; "SEND to
        oneself, unlike the printed rule, both moves on and queues"."""
        target = self.send_target(stmt["to"])
        value = self.typed_value(stmt["arg"], self.program.events[stmt["event"]]["type"])
        pair = Pair(stmt["event"], value)
        if pair not in target.queue:
            if len(target.queue) == MAX_QUEUE:
                raise Refusal(QUEUE_FULL)
            target.queue.append(pair)
        self.replace_head(0)
        return "SEND"

    def send_target(self, expr: int) -> Machine:
        value = self.value(expr)
        if value is UNDEFINED:
            raise Refusal(SEND_TO_UNDEFINED)
        if value.type != "id":
            raise Refusal(WRONG_TYPE)
        target = self.config.find(value.content)
        if target is None:
            raise Refusal(SEND_TO_NOT_LIVE)
        return target

    def raise_event(self, stmt: Line) -> str:
        """Drops "the rest of the row, anything pending too"; a raise's payload is typed too (reading 20)."""
        value = self.typed_value(stmt["arg"], self.program.events[stmt["event"]]["type"])
        self.begin_raise(stmt["event"], value)
        return "RAISE"

    def leave(self, _stmt: Line) -> str:
        """Drops "the rest of the row, anything pending too"."""
        self.replace_all(0)
        return "LEAVE"

    def return_from(self, _stmt: Line) -> str:
        """Drops "the rest of the row, anything pending too", and puts Exit before the pending return."""
        state = self.machine.stack[0].state
        self.replace_all(self.program.states[state]["exit"], PENDING_RETURN)
        return "RETURN"

    # Rules for the empty row ----------------------------------------------------------------------------------

    def dequeue(self) -> str:
        """It "takes the first pair whose event is not in (map deferred ∪ state deferred) minus events with a
        transition or action in the state itself"."""
        queue = self.machine.queue
        for place, pair in enumerate(queue):
            if not self.is_held_back(pair.event):
                del queue[place]
                self.begin_raise(pair.event, pair.value)
                return "DEQUEUE"
        raise Refusal(NOTHING_TO_DO)

    def is_held_back(self, event: int) -> bool:
        state, inherited = self.machine.stack[0]
        if self.has_transition(event) or (state, event) in self.program.action_on:
            return False
        return inherited[event] == DEFERRED or event in self.program.states[state]["defer"]

    def begin_raise(self, event: int, value: MaybeValue) -> None:
        """What RAISE and DEQUEUE do: they "set `msg` and `arg`, and put Exit, or else skip, before the pending raise.
        Exit is chosen when the state will be popped or left by a step"."""
        state = self.machine.stack[0].state
        leaves_state = (state, event) in self.program.step_to or self.will_pop(event)
        self.machine.msg = Value("event", event)
        self.machine.arg = value
        self.replace_all(self.program.states[state]["exit"] if leaves_state else 0, PendingRaise(event, value))

    def has_transition(self, event: int) -> bool:
        """Trans(m, n, e) of the printed rules: a step or a call."""
        key = (self.machine.stack[0].state, event)
        return key in self.program.step_to or key in self.program.call_to

    def action_for(self, event: int) -> Optional[int]:
        """The state's action for the event, or else the map's, or else None."""
        state, inherited = self.machine.stack[0]
        if (state, event) in self.program.action_on:
            return self.program.action_on[state, event]
        return None if inherited[event] in (NOTHING, DEFERRED) else inherited[event]

    def will_pop(self, event: int) -> bool:
        """Pop(m, n, map, e) of the printed rules."""
        return not self.has_transition(event) and self.action_for(event) is None

    def pending_raise(self, pending: PendingRaise) -> str:
        """What comes for a pending raise: "step, call, the state's action, the map's action, else POP1"."""
        key = (self.machine.stack[0].state, pending.event)
        if key in self.program.step_to:
            return self.step_to(self.program.step_to[key])
        if key in self.program.call_to:
            return self.call_to(self.program.call_to[key])
        action = self.action_for(pending.event)
        if action is not None:
            return self.do_action(action)
        return self.pop_for_raise()

    def step_to(self, state: int) -> str:
        """Leads to a state of the same kind: "STEP keeps the map"."""
        self.machine.stack[0] = Frame(state, self.machine.stack[0].map)
        self.replace_all(self.program.states[state]["entry"])
        return "STEP"

    def call_to(self, state: int) -> str:
        """The caller's frame stays below the new one. 17: the first frame counts among the 8 (reading 26)."""
        if len(self.machine.stack) == MAX_STACK:
            raise Refusal(STACK_FULL)
        self.machine.stack.insert(0, Frame(state, self.map_for_call()))
        self.replace_all(self.program.states[state]["entry"])
        return "CALL"

    def map_for_call(self) -> Dict[int, Union[int, str]]:
        """The map of the called state: "nothing where the caller has a transition; else its action; else deferred if
        it defers; else the old entry"."""
        state, old = self.machine.stack[0]

        def entry(event: int) -> Union[int, str]:
            if self.has_transition(event):
                return NOTHING
            if (state, event) in self.program.action_on:
                return self.program.action_on[state, event]
            if event in self.program.states[state]["defer"]:
                return DEFERRED
            return old[event]

        return {event: entry(event) for event in self.program.events}

    def do_action(self, action: int) -> str:
        """Stmt(m, a) of the printed rules; state and map stay."""
        self.replace_all(self.program.actions[action]["do"])
        return "ACTION"

    def pop_for_raise(self) -> str:
        """The raise stays pending (reading 24); "After POP1 no further exit is put in." "A pop brings back the
        caller's own" map, which stands in the caller's frame."""
        del self.machine.stack[0]
        return "POP1"

    def pop_for_return(self) -> str:
        """The return is done, and nothing remains."""
        del self.machine.stack[0]
        self.replace_all(0)
        return "POP2"


# The rule for each kind of statement at the head of a row; skip is SEQ's, and a seq is never there.
RULE_FOR = {
    "assign": Turn.assign, "new": Turn.new, "delete": Turn.delete, "assert": Turn.assert_true,
    "if": Turn.if_then_else, "while": Turn.while_loop, "send": Turn.send, "raise": Turn.raise_event,
    "leave": Turn.leave, "return": Turn.return_from,
}


def operate(kind: str, operands: List[MaybeValue]) -> MaybeValue:
    """The value of an operator: "An operator with an undefined operand, an operand of the wrong type, or a result out
    of range gives undefined. `and` and `or` work out both sides"."""
    wanted = "int" if kind in ("add", "sub", "neg") else "bool"
    if any(operand is UNDEFINED or operand.type != wanted for operand in operands):
        return UNDEFINED
    result = OPERATORS[kind](*(operand.content for operand in operands))
    if wanted == "int" and not MIN_INT <= result <= MAX_INT:
        return UNDEFINED
    return Value(wanted, result)


OPERATORS = {
    "add": lambda a, b: a + b,
    "sub": lambda a, b: a - b,
    "neg": lambda a: -a,
    "and": lambda a, b: a and b,
    "or": lambda a, b: a or b,
    "not": lambda a: not a,
}


# ---------------------------------------------------------------------------------------------------------------
# The run and the regrouper
# ---------------------------------------------------------------------------------------------------------------

class RunResult(NamedTuple):
    """The answer, the place of the refused choice counted from 1 (0 if there is none) and the rules applied."""

    answer: int
    place: int
    rules: List[str]

    @property
    def steps(self) -> int:
        return len(self.rules)


def run(program: Program, config: Config, choices: List[Choice]) -> RunResult:
    """Takes the choices in order, on the configuration itself: a run stops at a refused step "with the choice's
    place, counted from 1; 20 and 3 stop it before the first choice, place 0"."""
    if not accepted(program, config):
        return RunResult(NOT_A_CONFIGURATION, 0, [])
    if len(choices) > MAX_CHOICES:
        return RunResult(OUT_OF_RANGE, 0, [])
    rules: List[str] = []
    for place, choice in enumerate(choices, start=1):
        answer, rule = step_accepted(program, config, choice.machine, choice.bits)
        if answer != DONE:
            return RunResult(answer, place, rules)
        rules.append(rule)
    return RunResult(DONE, 0, rules)


# "A meeting is NEW, SEND, DELETE or DEQUEUE."
MEETINGS = ("NEW", "SEND", "DELETE", "DEQUEUE")


class RegroupResult(NamedTuple):
    """The answer and the regrouped list, which is empty on a refusal."""

    answer: int
    choices: List[Choice]


def regroup(program: Program, config: Config, choices: List[Choice]) -> RegroupResult:
    """Regroups the choices: it "gives 20, 3, 21, 22 in that order ... It never changes the configuration". A list here
    has no length given beforehand, so that there is no answer 21."""
    result = run(program, copy.deepcopy(config), choices)
    if result.answer != DONE and result.place == 0:
        return RegroupResult(result.answer, [])
    if result.answer != DONE and result.place < len(choices):
        return RegroupResult(CHOICE_TOOK_NO_STEP, [])
    if not choices:
        return RegroupResult(DONE, [])
    is_meeting = [rule in MEETINGS for rule in result.rules[:len(choices) - 1]]
    return RegroupResult(DONE, regrouped(choices[:-1], is_meeting, choices[-1]))


def regrouped(rest: List[Choice], is_meeting: List[bool], last: Choice) -> List[Choice]:
    """The order: "Set the last choice aside. Take the meetings among the rest in order, each preceded by its machine's
    choices not yet placed. Then the unplaced choices of each other machine, by live number. Then those of the last
    choice's machine, ending in the last choice"."""
    placed: List[Choice] = []
    unplaced: Dict[int, List[Choice]] = {choice.machine: [] for choice in rest}
    for choice, meets in zip(rest, is_meeting):
        unplaced[choice.machine].append(choice)
        if meets:
            placed += unplaced[choice.machine]
            unplaced[choice.machine] = []
    lasts_own = unplaced.pop(last.machine, [])
    for machine in sorted(unplaced):
        placed += unplaced[machine]
    return placed + lasts_own + [last]


# ---------------------------------------------------------------------------------------------------------------
# The two programs
# ---------------------------------------------------------------------------------------------------------------

def run_text(text: bytes) -> str:
    """All that the run program writes for a text."""
    loaded = load(text)
    if isinstance(loaded, Refused):
        return refused_line(loaded)
    config = start(loaded.program)
    result = run(loaded.program, config, loaded.choices)
    taken = "".join(f"n={n} machine={choice.machine} rule={rule}\n"
                    for n, (choice, rule) in enumerate(zip(loaded.choices, result.rules), start=1))
    return taken + f"end={result.answer} steps={result.steps} live={len(config.live_machines())}\n"


def regroup_text(text: bytes) -> str:
    """All that the regroup program writes for a text: "choice lines with `bits`, then `end=0`; refused, only `end=`,
    with `line=` for a text"."""
    loaded = load(text)
    if isinstance(loaded, Refused):
        return refused_line(loaded)
    result = regroup(loaded.program, start(loaded.program), loaded.choices)
    placed = "".join(f"choice={choice.machine} bits={choice.bits}\n" for choice in result.choices)
    return placed + f"end={result.answer}\n"


def refused_line(refused: Refused) -> str:
    return f"end={refused.answer} line={refused.line}\n"


def main(arguments: List[str]) -> int:
    programs = {"run": run_text, "regroup": regroup_text}
    if not 1 <= len(arguments) <= 2 or arguments[0] not in programs:
        print("usage: namakviz.py run|regroup [FILE]", file=sys.stderr)
        return 2
    try:
        if len(arguments) == 2:
            with open(arguments[1], "rb") as file:
                text = file.read()
        else:
            text = sys.stdin.buffer.read()
    except OSError as error:
        print(f"namakviz.py: cannot read the text: {error}", file=sys.stderr)
        return 2
    sys.stdout.write(programs[arguments[0]](text))
    return 0


if __name__ == "__main__":
    sys.exit(main(sys.argv[1:]))
