#!/usr/bin/env python3
"""Turns texts into statements about the definitions (crates/*/specs), which the prover checks by computing them.

    python3 second/statements.py --write crates/samples/specs    writes the samples that the gate checks
    python3 second/statements.py --choose                        works out the list PICKED of samples.py
    python3 second/statements.py --try N --seed S --into DIR     writes N statements from generated texts, as a crate

A statement has a text on its left side and on its right what the second program says of it: the answer and the line of
a refused text, or else the rules in order, the answer, the place, the steps and the whole last configuration. The
definitions compute the left side. So a difference between the definitions and the second program shows as a statement
that the prover refuses.

The samples are the texts of samples.py. `--choose` picks the generated ones among them: small texts that, with those
written by hand, show every rule, answer and corner as often as WANTED says, as far as there are such texts.

`--try` is for more texts than a gate has time for. It takes `--about texts`, as above, or

    --about acceptance    of the last configuration of a text, and of copies with one or two faults: is it accepted?
    --about regroup       what the regroup program writes, byte for byte

DIR is the folder of a crate in a copy of the repository; the line that crates.txt needs for it is printed. The prover
gives up on a statement that takes too many steps, so that texts over `--bytes` are left out.
"""

import argparse
import copy
import random
import re
import sys
import textwrap
from collections import Counter
from itertools import groupby
from pathlib import Path
from typing import Callable, Dict, Iterable, Iterator, List, NamedTuple, Optional, Set, Tuple

import generate
import namakviz
import samples
from namakviz import (DEFERRED, MAX_INT, MAX_LIVE_NUMBER, MAX_QUEUE, MAX_STACK, MIN_INT, NOTHING, PENDING_RETURN,
                      Config, Frame, Machine, MaybeValue, Pair, PendingRaise, Program, Value)

# ---------------------------------------------------------------------------------------------------------------
# Texts, values and configurations as terms of antt
# ---------------------------------------------------------------------------------------------------------------

WIDTH = 150  # where a line of a generated file is broken, if it can be

# The answers 0 to 22 by the names that crates/answers gives them.
ANSWERS = (
    "Done", "TextTooLong", "NotInForm", "OutOfRange", "NotThere", "NotLower", "Doubled", "ExitLeaves", "TooHigh",
    "NoState", "AssertionFalse", "SendToUndefined", "SendToNotLive", "StackEmpty", "NotABool", "WrongType", "QueueFull",
    "StackFull", "NoRoom", "UnableToStep", "NotAccepted", "BufferTooShort", "TookNoStep")

ESCAPES = {"\0": "\\0", "\t": "\\t", "\n": "\\n", "\r": "\\r", '"': '\\"', "\\": "\\\\"}


def quoted(line: str) -> str:
    """A quoted text of antt; every byte is the character of the same number."""
    return '"' + "".join(ESCAPES.get(c) or (c if c.isprintable() else f"\\u{{{ord(c):x}}}") for c in line) + '"'


# A space at which a line is not broken.
SPACE = "\u00a0"


def broken(term: str) -> List[str]:
    """The lines of a comment, or of a term without quoted texts."""
    lines = textwrap.wrap(term, WIDTH, break_long_words=False, break_on_hyphens=False)
    return [line.replace(SPACE, " ") for line in lines]


def applied(*parts: object) -> str:
    """A function applied to arguments, as one word."""
    return SPACE.join(map(str, parts))


def listed(terms: Iterable[str]) -> str:
    terms = list(terms)
    return "(" + f" ∷{SPACE}".join([*terms, "[]"]) + ")" if terms else "[]"


def lines_term(lines: List[str]) -> List[str]:
    """The lines of a list of quoted lines: one to a line, choices several to a line, equal ones by `replicate`."""
    written: List[str] = []
    joint = ""
    previous_name = ""
    for line, equal in groupby(lines):
        times = len(list(equal))
        term, name = quoted(line), line.partition("=")[0]
        item = joint + (f"replicate {times} {term}" if times > 3 else " ∷ ".join([term] * times))
        if name == previous_name == "choice" and len(written[-1]) + len(item) < WIDTH:
            written[-1] += " " + item
        else:
            written.append(item)
        joint, previous_name = ("++ " if times > 3 else "∷ "), name
    if joint == "∷ ":
        written.append("∷ []")
    return written


def text_term(text: bytes) -> List[str]:
    """The lines of a term for the bytes of a text, in parentheses."""
    *whole_lines, rest = text.decode("latin-1").split("\n")
    if not whole_lines:
        return [f"(bytes {quoted(rest)})"]
    term = ["(text ("] + lines_term(whole_lines)
    term[-1] += f") ++ bytes {quoted(rest)})" if rest else "))"
    return term


def value_term(value: MaybeValue) -> str:
    if value is None:
        return "undefined"
    if value.type == "bool":
        return applied("vbool", "true" if value.content else "false")
    if value.type == "int":
        whole = applied("pos", value.content) if value.content >= 0 else applied("negsuc", -1 - value.content)
        return applied("vint", f"({whole})")
    return applied("vevent" if value.type == "event" else "id_of", value.content)


def argument(term: str) -> str:
    return f"({term})" if SPACE in term else term


def frame_term(frame: Frame) -> str:
    entries = [entry for _, entry in sorted(frame.map.items())]
    replies = [entry if entry in (NOTHING, DEFERRED) else applied("action", entry) for entry in entries]
    return applied("frame", frame.state, listed(replies))


def pair_term(pair: Pair) -> str:
    return applied("pair", pair.event, argument(value_term(pair.value)))


def pending_term(pending: namakviz.Pending) -> str:
    if pending is None:
        return "idle"
    if pending == PENDING_RETURN:
        return "returning"
    return applied("raising", pending.event, argument(value_term(pending.value)))


def machine_term(machine: Optional[Machine]) -> str:
    if machine is None:
        return "none"
    return " ".join((
        applied("machine", machine.number, machine.kind), listed(map(frame_term, machine.stack)),
        listed(map(value_term, machine.variables)), argument(value_term(machine.msg)),
        argument(value_term(machine.arg)), listed(map(str, machine.row)), argument(pending_term(machine.pending)),
        listed(map(pair_term, machine.queue))))


def config_term(config: Config) -> List[str]:
    """The lines of a configuration of 32 rooms, in parentheses; the free rooms behind the last machine are left out."""
    rooms, _ = taken_rooms(config)
    return ["(config (", *rooms_term(rooms, f") {config.next})")]


def taken_rooms(config: Config) -> Tuple[List[Optional[Machine]], int]:
    """The rooms up to the last machine, and how many free ones stand behind it."""
    rooms = list(config.rooms)
    while rooms and rooms[-1] is None:
        rooms.pop()
    return rooms, len(config.rooms) - len(rooms)


def rooms_term(rooms: List[Optional[Machine]], closing: str) -> List[str]:
    """The lines of a list of rooms, and what stands behind it."""
    lines = [line for machine in rooms for line in broken(f"∷{SPACE}" + machine_term(machine))] + [f"∷ []{closing}"]
    return [lines[0][2:], *lines[1:]]


# ---------------------------------------------------------------------------------------------------------------
# Statements and files
# ---------------------------------------------------------------------------------------------------------------

class Statement(NamedTuple):
    """A theorem by computation: the lines of both sides, and the definitions that are opened for it."""

    name: str
    comment: str
    left: List[str]
    right: List[str]
    opened: str


OPENED_BY_LOADING = ("answered said below downward tree stars tree_height expr_inside height inside serves expr_serves "
                     "quietly")
OPENED_BY_RUNNING = "value onto act step start_config"


def spelled(name: str) -> str:
    """A text's name as a theorem's: words are joined by `_`, and by a dash beside one of capitals."""
    return re.sub(r"(?<![A-Z])-(?![A-Z])", "_", name)


def seen_statement(name: str, comment: str, text: bytes) -> Statement:
    """What the second program sees of a text."""
    loaded = namakviz.load(text)
    if isinstance(loaded, namakviz.Refused):
        right = [f"refused_text {ANSWERS[loaded.answer]} {loaded.line}"]
    else:
        config = namakviz.start(loaded.program)
        result = namakviz.run(loaded.program, config, loaded.choices)
        right = ["ran_text"] + broken(listed(result.rules)) + [f"{ANSWERS[result.answer]} {result.place} {result.steps}"]
        right += config_term(config)
    left = text_term(text)
    left[0] = "seen " + left[0]
    return Statement(spelled(name), comment, left, right, f"seen {OPENED_BY_LOADING} {OPENED_BY_RUNNING}")


def statement_lines(statement: Statement) -> List[str]:
    left, right = list(statement.left), list(statement.right)
    left[0] = f"pub {statement.name} : {left[0]}"
    right[0] = f"≡ {right[0]}"
    if len(left) == len(right) == 1 and len(left[0]) + len(right[0]) < WIDTH:
        left, right = [f"{left[0]} {right[0]}"], []
    body = [left[0]] + ["    " + line for line in left[1:] + right]
    return [*(f"-- {line}" for line in broken(statement.comment)), *body, f"unfolding {statement.opened}",
            f"{statement.name} = refl"]


# Where the names of a statement come from. {own} stands for the crate of the statement.
ORIGINS = (
    ("Rattle.std.specs.Prelude",
     "ℕ, ◌≡◌, refl, Bool, true, false, List, [], ◌∷◌, ◌++◌, map, pos, negsuc, replicate"),
    ("Rattle.std.proofs.Math.Option", "Option, none"),
    ("Rattle.lists.specs.Down", "below, downward"),
    ("Rattle.answers.specs.declared.Answer.TheVariants", ", ".join(ANSWERS)),
    ("Rattle.values.specs.declared.Value.TheVariants",
     "Undefined as undefined, Bool as vbool, Int as vint, Event as vevent"),
    ("Rattle.values.specs.Values", "id_of"),
    ("Rattle.programs.specs.Trees", "tree, stars, tree_height, expr_inside"),
    ("Rattle.programs.specs.Statements", "height, inside, serves, expr_serves"),
    ("Rattle.soundness.specs.Asked", "quietly"),
    ("Rattle.machines.specs.Config", "action, deferred, nothing, idle, raising, returning, Machine, Config"),
    ("Rattle.machines.specs.Eval", "value"),
    ("Rattle.machines.specs.Row", "onto"),
    ("Rattle.rules.specs.declared.Rule.TheVariants", ", ".join(generate.RULES)),
    ("Rattle.rules.specs.Act", "act"),
    ("Rattle.rules.specs.Step", "step, start_config"),
    ("Rattle.acceptance.specs.Decide", "accepted"),
    ("Rattle.regrouping.specs.Regrouped", "weave, tails"),
    ("Rattle.regrouping.specs.Demand", "regroup"),
    ("Rattle.texts.specs.Bytes", "bytes, text"),
    ("Rattle.texts.specs.Forms", "said"),
    ("Rattle.texts.specs.Reading", "Result, loaded, refused"),
    ("Rattle.texts.specs.Answered", "answered"),
    ("Rattle.outputs.specs.Lines", "numeral"),
    ("Rattle.outputs.specs.Programs", "regroup_program"),
    ("Rattle.{own}.specs.Seen", "seen, refused_text, ran_text, frame, pair, machine, config"),
)


def use_lines(crate: str, body: List[str]) -> List[str]:
    """The `use` lines for the names that occur in the body outside quoted texts and comments."""
    terms = (re.sub(r'"(?:[^"\\]|\\.)*"', "", line) for line in body if not line.startswith("--"))
    used = set(re.split(r"[\s(){};]+", " ".join(terms)))
    lines = []
    for module, names in ORIGINS:
        needed = [name for name in names.split(", ") if name.split(" as ")[-1].strip("◌") in used]
        if needed:
            lines.append(f"use {module.format(own=crate)}.{{{', '.join(needed)}}}")
    return lines


def file_text(head: str, crate: str, statements: List[Statement], definitions: List[str]) -> str:
    body = list(definitions)
    for statement in statements:
        body += ["", *statement_lines(statement)]
    return "\n".join([*(f"-- {line}" for line in broken(head)), *use_lines(crate, body), *body]) + "\n"


def in_files(statements: List[Statement], most: int) -> List[List[Statement]]:
    """Parts of at most so many statements, of about one length."""
    count = -(-len(statements) // most)
    ends = [len(statements) * part // count for part in range(count + 1)]
    return [statements[begin:end] for begin, end in zip(ends, ends[1:])]


# ---------------------------------------------------------------------------------------------------------------
# What a text shows: its rules, its answer and the corners of the rules that it comes to
# ---------------------------------------------------------------------------------------------------------------

class Moment(NamedTuple):
    """A choice with the configurations before and after it; rule is None where it was refused."""

    program: Program
    before: Config
    after: Config
    choice: namakviz.Choice
    answer: int
    rule: Optional[str]
    rule_before: Optional[str]  # of the same machine

    @property
    def machine(self) -> Optional[Machine]:
        return self.before.find(self.choice.machine)

    @property
    def now(self) -> Optional[Machine]:
        return self.after.find(self.choice.machine)

    @property
    def turn(self) -> namakviz.Turn:
        return namakviz.Turn(self.program, self.before, self.machine, self.choice.bits)

    @property
    def top(self) -> Frame:
        return self.machine.stack[0]

    @property
    def stmt(self) -> Optional[namakviz.Line]:
        """The statement at the head of the row."""
        row = self.machine.row if self.machine else []
        return self.program.stmts.get(row[0]) if row else None

    @property
    def exit(self) -> int:
        return self.program.states[self.top.state]["exit"]

    @property
    def defers(self) -> Tuple[int, ...]:
        return self.program.states[self.top.state]["defer"]

    @property
    def event(self) -> Optional[int]:
        """The event of the pending raise, or the one that was dequeued."""
        pending = self.now.pending if self.rule == "DEQUEUE" else self.machine.pending
        return pending.event if isinstance(pending, PendingRaise) else None

    def acts_itself(self, event: Optional[int]) -> bool:
        return (self.top.state, event) in self.program.action_on

    def has_map_action(self, event: Optional[int]) -> bool:
        return self.top.map.get(event, NOTHING) not in (NOTHING, DEFERRED)

    def held_back(self) -> List[int]:
        """The events of the pairs that a DEQUEUE passes over, or that leave it nothing."""
        machine = self.machine
        if machine is None or not machine.stack or machine.row or machine.pending is not None:
            return []
        return [pair.event for pair in machine.queue if self.turn.is_held_back(pair.event)]


def exprs_below(program: Program, expr: int) -> Iterator[namakviz.Line]:
    yield program.exprs[expr]
    for part in namakviz.expr_parts(program.exprs[expr]):
        yield from exprs_below(program, part)


def expr_kinds(moment: Moment) -> Set[str]:
    """The kinds of the expressions of a statement that took a step."""
    if moment.rule is None or moment.stmt is None:
        return set()
    return {line["kind"] for expr in namakviz.stmt_exprs(moment.stmt) for line in exprs_below(moment.program, expr)}


def mixed_stars(moment: Moment) -> bool:
    if moment.rule is None or moment.stmt is None:
        return False
    count = sum(moment.program.expr_stars[expr] for expr in namakviz.stmt_exprs(moment.stmt))
    return 0 < moment.choice.bits & (2 ** count - 1) < 2 ** count - 1


def sent_to(moment: Moment) -> Optional[Machine]:
    return moment.turn.send_target(moment.stmt["to"]) if moment.rule == "SEND" else None


def waiting(config: Config) -> int:
    return sum(len(machine.queue) for machine in config.live_machines())


def created_in(moment: Moment) -> Optional[int]:
    """The number of the room of a creation, from 1."""
    if moment.rule != "NEW":
        return None
    return 1 + next(place for place, machine in enumerate(moment.after.rooms)
                    if machine is not None and machine.number == moment.before.next)


def has_other_map(moment: Moment) -> bool:
    """Whether the map on top of the stack is another one than before."""
    return bool(moment.now.stack) and moment.now.stack[0].map != moment.top.map


def on_call(test: Callable[[Moment, int], bool]) -> Callable[[Moment], bool]:
    """A corner of the map of a called state, at some event."""
    return lambda moment: moment.rule == "CALL" and any(test(moment, event) for event in moment.program.events)


CORNERS: Dict[str, Callable[[Moment], bool]] = {
    "a send to oneself": lambda m: m.rule == "SEND" and sent_to(m) is m.machine,
    "a send to another machine": lambda m: m.rule == "SEND" and sent_to(m) is not m.machine,
    "a send to a machine with an empty stack": lambda m: m.rule == "SEND" and not sent_to(m).stack,
    "an equal pair waits already": lambda m: m.rule == "SEND" and waiting(m.before) == waiting(m.after),
    "pairs of one event and different values": lambda m: m.rule == "SEND" and any(
        Counter(pair.event for pair in machine.queue).most_common(1)[0][1] > 1
        for machine in m.after.live_machines() if machine.queue),
    "an id in a queue": lambda m: m.rule == "SEND" and any(
        pair.value is not None and pair.value.type == "id"
        for machine in m.after.live_machines() for pair in machine.queue),
    "a creation into a freed room": lambda m: m.rule == "NEW" and created_in(m) < m.before.next,
    "a creation with init": lambda m: m.rule == "NEW" and any(
        value is not None for value in m.after.find(m.before.next).variables),
    "a machine deleted with pairs waiting": lambda m: m.rule == "DELETE" and bool(m.machine.queue),
    "stars with several bits": mixed_stars,
    "a loop goes round": lambda m: m.rule == "WHILE" and len(m.now.row) > len(m.machine.row),
    "a loop ends": lambda m: m.rule == "WHILE" and len(m.now.row) <= len(m.machine.row),
    "the first branch": lambda m: m.rule == "IF" and m.turn.condition(m.stmt["cond"]),
    "the second branch": lambda m: m.rule == "IF" and not m.turn.condition(m.stmt["cond"]),
    "the rest of the row is dropped": lambda m: m.rule in ("RAISE", "LEAVE", "RETURN") and len(m.machine.row) > 1,
    "an operator gives undefined": lambda m: m.rule == "ASSIGN" and m.turn.value(m.stmt["expr"]) is None
        and bool(namakviz.expr_parts(m.program.exprs[m.stmt["expr"]])),
    "an int below zero": lambda m: m.rule == "ASSIGN" and any(
        value is not None and value.type == "int" and value.content < 0 for value in m.now.variables),
    "an exit put in by a raise": lambda m: m.rule == "RAISE" and m.exit != 0 and m.now.row != [0],
    "an exit put in by a dequeue": lambda m: m.rule == "DEQUEUE" and m.exit != 0 and m.now.row != [0],
    "an exit put in by a return": lambda m: m.rule == "RETURN" and m.exit != 0,
    "no exit before a call or an action": lambda m: m.rule in ("RAISE", "DEQUEUE") and m.exit != 0
        and m.now.row == [0],
    "a raise with a value": lambda m: m.rule == "RAISE" and m.now.arg is not None,
    "POP1 behind POP1": lambda m: m.rule == "POP1" == m.rule_before,
    "a step or a call behind POP1": lambda m: m.rule in ("STEP", "CALL") and m.rule_before == "POP1",
    "an action behind POP1": lambda m: m.rule == "ACTION" and m.rule_before == "POP1",
    "POP1 brings back another map": lambda m: m.rule == "POP1" and has_other_map(m),
    "POP2 brings back another map": lambda m: m.rule == "POP2" and has_other_map(m),
    "a step keeps a map": lambda m: m.rule == "STEP" and any(entry != NOTHING for entry in m.top.map.values()),
    "a call hands on an action": on_call(lambda m, e: m.acts_itself(e) and not m.turn.has_transition(e)),
    "a call hides an action beside a transition": on_call(lambda m, e: m.acts_itself(e) and m.turn.has_transition(e)),
    "a call hands on a deferral": on_call(lambda m, e: m.now.stack[0].map[e] == DEFERRED and e in m.defers),
    "a call hands on an action and not a deferral": on_call(
        lambda m, e: m.now.stack[0].map[e] not in (NOTHING, DEFERRED) and e in m.defers and m.acts_itself(e)),
    "a call keeps an old entry": on_call(
        lambda m, e: m.top.map[e] == m.now.stack[0].map[e] != NOTHING and not m.acts_itself(e) and e not in m.defers),
    "a call clears an old entry": on_call(lambda m, e: m.top.map[e] != NOTHING == m.now.stack[0].map[e]),
    "the map's action": lambda m: m.rule == "ACTION" and not m.acts_itself(m.event),
    "the state's action and not the map's": lambda m: m.rule == "ACTION" and m.acts_itself(m.event)
        and m.has_map_action(m.event),
    "a dequeue from behind the first place": lambda m: m.rule == "DEQUEUE" and m.machine.queue[0:1] == m.now.queue[0:1],
    "an inherited deferral holds back": lambda m: any(event not in m.defers for event in m.held_back()),
    "an own deferral holds back": lambda m: any(event in m.defers for event in m.held_back()),
    "an own deferral against the map's action": lambda m: any(m.has_map_action(event) for event in m.held_back()),
    "an own deferral overruled": lambda m: m.rule == "DEQUEUE" and m.event in m.defers,
    "an inherited deferral overruled": lambda m: m.rule == "DEQUEUE" and m.top.map[m.event] == DEFERRED,
    "an inherited deferral overruled by an action": lambda m: m.rule == "DEQUEUE" and m.top.map[m.event] == DEFERRED
        and not m.turn.has_transition(m.event),
    "19: not live": lambda m: m.answer == namakviz.NOTHING_TO_DO and m.machine is None,
    "19: nothing to dequeue": lambda m: m.answer == namakviz.NOTHING_TO_DO and m.machine is not None,
    "three machines": lambda m: len(m.after.live_machines()) == 3,
}


def shown_by(text: bytes) -> Set[str]:
    """The rules, the answer, the kinds of expression and the corners that a text shows."""
    loaded = namakviz.load(text)
    if isinstance(loaded, namakviz.Refused):
        return {f"answer {loaded.answer}"}
    shown: Set[str] = set()
    config = namakviz.start(loaded.program)
    last_rules: Dict[int, Optional[str]] = {}
    for choice in loaded.choices:
        before = copy.deepcopy(config)
        answer, rule = namakviz.step_accepted(loaded.program, config, *choice)
        moment = Moment(loaded.program, before, config, choice, answer, rule, last_rules.get(choice.machine))
        shown |= {name for name, is_shown in CORNERS.items() if is_shown(moment)}
        shown |= {f"expression {kind}" for kind in expr_kinds(moment)}
        if answer != namakviz.DONE:
            return shown | {f"answer {answer}"}
        shown.add(rule)
        last_rules[choice.machine] = rule
    return shown | {"answer 0"}


# ---------------------------------------------------------------------------------------------------------------
# The samples of the gate
# ---------------------------------------------------------------------------------------------------------------

# What the samples must show, and how often.
WANTED = Counter({**dict.fromkeys(generate.RULES, 2), **dict.fromkeys(CORNERS, 2),
                  **{f"expression {kind}": 2 for kind in namakviz.KEYS_OF_KIND["expr"]},
                  **{f"answer {answer}": 1 for answer in range(20)}})
SEEDS = (1, 2, 3)
NUMBERS = range(600)
MAX_BYTES = 2_048


def choose() -> List[Tuple[int, int]]:
    """The generated texts that the samples take, by seed and number: again and again the one that adds most of what is
    wanted, the shortest of these, until none adds any."""
    missing = Counter(WANTED)
    for sample in samples.WRITTEN:
        missing -= Counter(shown_by(sample.text))
    candidates = {}
    for place in ((seed, index) for seed in SEEDS for index in NUMBERS):
        _, text = samples.picked(*place)
        if len(text) <= MAX_BYTES:
            candidates[place] = (shown_by(text), len(text))

    def merit(place: Tuple[int, int]) -> Tuple[int, int]:
        shown, size = candidates[place]
        return sum(1 for name in shown if missing[name] > 0), -size

    chosen = []
    while candidates:
        best = max(candidates, key=merit)
        if merit(best)[0] == 0:
            break
        missing -= Counter(candidates.pop(best)[0])
        chosen.append(best)
    return chosen


def all_samples() -> List[samples.Sample]:
    """The samples in order; the comment of a generated one says what it shows that was still missing."""
    found = list(samples.WRITTEN)
    missing = Counter(WANTED)
    for sample in found:
        missing -= Counter(shown_by(sample.text))
    for place in samples.PICKED:
        name, text = samples.picked(*place)
        shown = shown_by(text)
        adds = [each for each in WANTED if each in shown and missing[each] > 0]
        missing -= Counter(shown)
        found.append(samples.Sample(name, "Chosen for: " + ", ".join(adds) + ".", text))
    return found


# The files of the samples: what their statements are about, and the answers that come into them.
GROUPS = (
    ("Refused", "texts that are refused", range(1, 10)),
    ("Stopped", "runs that a refused choice ends", range(10, 20)),
    ("Done", "runs that take every choice", range(0, 1)),
)
STATEMENTS_IN_A_FILE = 8
WRITTEN_BY = "Written by `python3 second/statements.py --write crates/samples/specs`, and not to be edited by hand."


def answer_of(text: bytes) -> int:
    loaded = namakviz.load(text)
    if isinstance(loaded, namakviz.Refused):
        return loaded.answer
    return namakviz.run(loaded.program, namakviz.start(loaded.program), loaded.choices).answer


def write_samples(folder: Path) -> None:
    """Writes the files of the samples and the Lib.antt that lists them; takes away the files that it wrote before."""
    for old in folder.glob("*.antt"):
        if WRITTEN_BY in old.read_text():
            old.unlink()
    lib = [f"-- {WRITTEN_BY}", "pub mod Seen"]
    for group, about, answers in GROUPS:
        statements = [seen_statement(*sample) for sample in all_samples() if answer_of(sample.text) in answers]
        lib.append(f"-- {about}")
        for number, part in enumerate(in_files(statements, STATEMENTS_IN_A_FILE), start=1):
            head = f"Samples: {about}. {WRITTEN_BY}"
            (folder / f"{group}{number}.antt").write_text(file_text(head, "samples", part, []))
            lib.append(f"pub mod {group}{number}")
    (folder / "Lib.antt").write_text("\n".join(lib) + "\n")


# ---------------------------------------------------------------------------------------------------------------
# Damaged configurations
# ---------------------------------------------------------------------------------------------------------------

class Damager:
    """Puts faults into a configuration of a program, most of which make it one that is not accepted."""

    def __init__(self, rng: random.Random, program: Program, config: Config):
        self.rng = rng
        self.program = program
        self.config = config

    def damage(self) -> None:
        """One fault, at a random machine if it is one of a machine."""
        machines = self.config.live_machines()
        if not machines or self.rng.random() < 0.15:
            self.rng.choice((self.next, self.rooms))()
        else:
            of_machines = (self.number, self.kind, self.state, self.map_entry, self.map_length, self.depth,
                           self.variable, self.variable_count, self.msg, self.arg, self.row, self.long_row,
                           self.pending, self.queue, self.long_queue)
            self.rng.choice(of_machines)(self.rng.choice(machines))

    def up_to(self, table: Iterable) -> int:
        """A number of a table, 0, or one more than there are."""
        return self.rng.randint(0, len(list(table)) + 1)

    def any_value(self) -> MaybeValue:
        following = self.config.next
        return self.rng.choice((
            None, Value("bool", self.rng.random() < 0.5),
            Value("int", self.rng.choice((0, -1, MIN_INT - 1, MIN_INT, MAX_INT, MAX_INT + 1))),
            Value("event", self.up_to(self.program.events)),
            Value("id", self.rng.choice((0, 1, max(0, following - 1), following, MAX_LIVE_NUMBER)))))

    def next(self) -> None:
        now = self.config.next
        self.config.next = self.rng.choice((0, 1, now - 1, now + 1, MAX_LIVE_NUMBER + 1, MAX_LIVE_NUMBER + 2))

    def rooms(self) -> None:
        """One room more or less, or the same rooms in another order, or with one machine twice."""
        rooms = self.config.rooms
        change = self.rng.choice(("more", "less", "moved", "twice"))
        if change == "more":
            rooms.append(None)
        elif change == "less":
            rooms.pop()
        elif change == "moved":
            self.rng.shuffle(rooms)
        else:
            rooms[self.rng.randrange(len(rooms))] = copy.deepcopy(self.rng.choice(rooms))

    def number(self, machine: Machine) -> None:
        machine.number = machine.this = self.rng.choice((0, 1, max(0, self.config.next - 1), self.config.next))

    def kind(self, machine: Machine) -> None:
        machine.kind = self.up_to(self.program.machines)

    def at_frame(self, machine: Machine, change: Callable[[Frame], Frame]) -> None:
        if machine.stack:
            place = self.rng.randrange(len(machine.stack))
            machine.stack[place] = change(machine.stack[place])

    def state(self, machine: Machine) -> None:
        self.at_frame(machine, lambda frame: Frame(self.up_to(self.program.states), frame.map))

    def map_entry(self, machine: Machine) -> None:
        entry = self.rng.choice((NOTHING, DEFERRED, self.up_to(self.program.actions), self.up_to(self.program.actions)))
        if self.program.events:
            event = self.rng.choice(list(self.program.events))
            self.at_frame(machine, lambda frame: Frame(frame.state, {**frame.map, event: entry}))

    def map_length(self, machine: Machine) -> None:
        length = max(0, len(self.program.events) + self.rng.choice((-1, 1)))
        self.at_frame(machine, lambda frame: Frame(
            frame.state, {event: frame.map.get(event, NOTHING) for event in range(1, length + 1)}))

    def depth(self, machine: Machine) -> None:
        machine.stack = (machine.stack * (MAX_STACK + 1))[:self.rng.choice((0, MAX_STACK, MAX_STACK + 1))]

    def variable(self, machine: Machine) -> None:
        if machine.variables:
            machine.variables[self.rng.randrange(len(machine.variables))] = self.any_value()

    def variable_count(self, machine: Machine) -> None:
        machine.variables = self.rng.choice((machine.variables[1:], machine.variables + [None]))

    def msg(self, machine: Machine) -> None:
        machine.msg = self.any_value()

    def arg(self, machine: Machine) -> None:
        machine.arg = self.any_value()

    def row(self, machine: Machine) -> None:
        """Another part at the head, at the end, or instead of all."""
        part = self.up_to(self.program.stmts)
        machine.row = self.rng.choice(([part, *machine.row], [*machine.row, part], [part], []))

    def long_row(self, machine: Machine) -> None:
        machine.row = (machine.row + [0] * namakviz.MAX_HEIGHT * 2)[:self.rng.randint(31, 34)]

    def pending(self, machine: Machine) -> None:
        a_raise = PendingRaise(self.up_to(self.program.events), self.any_value())
        machine.pending = self.rng.choice((None, PENDING_RETURN, a_raise))

    def queue(self, machine: Machine) -> None:
        """Any pair, or one that waits already."""
        machine.queue.append(self.rng.choice([*machine.queue, Pair(self.up_to(self.program.events), self.any_value())]))

    def long_queue(self, machine: Machine) -> None:
        """Pairs with ints up to the size of a queue, or one more."""
        if self.program.events:
            event = self.rng.choice(list(self.program.events))
            more = [Pair(event, Value("int", content)) for content in range(MAX_QUEUE + 1)]
            machine.queue = (machine.queue + more)[:self.rng.choice((MAX_QUEUE, MAX_QUEUE + 1))]


def damaged(rng: random.Random, program: Program, config: Config) -> Config:
    """A copy with one or two faults."""
    config = copy.deepcopy(config)
    for _ in range(rng.choice((1, 1, 2))):
        Damager(rng, program, config).damage()
    return config


# ---------------------------------------------------------------------------------------------------------------
# Trials: statements from generated texts, as a crate
# ---------------------------------------------------------------------------------------------------------------

DAMAGED_COPIES = 9

ACCEPTED_IN = """
-- of a text that loads: which of the configurations its program accepts
abbrev accepted_in : Result → List Config → List Bool
accepted_in (refused a k) cs = []
accepted_in (loaded p l) cs = map (accepted p) cs

-- the rooms given and free ones behind them, and the next live number
abbrev exactly : List (Option Machine) → ℕ → ℕ → Config
exactly rs free n = record { rooms = rs ++ replicate free none; next = n }
"""


def text_trial(seed: int, index: int, most_choices: int) -> Optional[Statement]:
    name, text = samples.picked(seed, index, most_choices)
    return seen_statement(name, f"{len(text)} bytes.", text)


def regroup_trial(seed: int, index: int, most_choices: int) -> Optional[Statement]:
    """Only of texts that load and choose among several machines: the others have little to regroup."""
    name, text = samples.picked(seed, index, most_choices)
    loaded = namakviz.load(text)
    if isinstance(loaded, namakviz.Refused) or len({choice.machine for choice in loaded.choices}) < 2:
        return None
    left, right = text_term(text), text_term(namakviz.regroup_text(text).encode("latin-1"))
    left[0] = "regroup_program " + left[0]
    opened = f"regroup_program {OPENED_BY_LOADING} {OPENED_BY_RUNNING} numeral weave tails regroup"
    return Statement(spelled(name), f"{len(text)} bytes.", left, right, opened)


def acceptance_trial(seed: int, index: int, most_choices: int) -> Optional[Statement]:
    """Of the last configuration of a text that loads, and of DAMAGED_COPIES of it."""
    name, text = samples.picked(seed, index, most_choices)
    loaded = namakviz.load(text)
    if isinstance(loaded, namakviz.Refused):
        return None
    program, config = loaded.program, namakviz.start(loaded.program)
    namakviz.run(program, config, loaded.choices)
    rng = random.Random(f"damaged {seed} {index}")
    configs = [config] + [damaged(rng, program, config) for _ in range(DAMAGED_COPIES)]
    left = text_term(text)
    left[0] = "accepted_in (answered " + left[0]
    left[-1] += ")"
    for place, each in enumerate(configs):
        rooms, free = taken_rooms(each)
        left += ["(exactly (" if place == 0 else "∷ exactly (", *rooms_term(rooms, f") {free} {each.next}")]
    left.append("∷ [])")
    right = [listed("true" if namakviz.accepted(program, each) else "false" for each in configs).replace(SPACE, " ")]
    return Statement(spelled(name), f"{len(text)} bytes.", left, right, f"{OPENED_BY_LOADING} accepted")


class Trial(NamedTuple):
    """How a statement is made (none of some texts), and the definitions that it needs."""

    make: Callable[[int, int, int], Optional[Statement]]
    definitions: str
    choices: int  # how many the prover can do with


# The definition of regrouping computes twice as much for every choice more.
TRIALS = {
    "texts": Trial(text_trial, "", choices=100),
    "acceptance": Trial(acceptance_trial, ACCEPTED_IN, choices=60),
    "regroup": Trial(regroup_trial, "", choices=40),
}
TRIED_DEPENDENCIES = ("outputs texts meetings regrouping kept acceptance soundness rules runs machines programs values "
                      "answers lists")
SEEN = Path(__file__).resolve().parent.parent / "crates" / "samples" / "specs" / "Seen.antt"


def write_trial(about: str, count: int, seed: int, first: int, most_bytes: int, most_choices: Optional[int],
                folder: Path) -> None:
    """Writes a crate of so many statements, about texts of the seed that are small enough, from a number on."""
    trial = TRIALS[about]
    most_choices = trial.choices if most_choices is None else most_choices
    statements: List[Statement] = []
    index = first
    while len(statements) < count:
        small = len(samples.picked(seed, index, most_choices).content) <= most_bytes
        statement = trial.make(seed, index, most_choices) if small else None
        if statement is not None:
            statements.append(statement)
        index += 1
    (folder / "src").mkdir(parents=True, exist_ok=True)
    (folder / "specs").mkdir(exist_ok=True)
    for old in (folder / "specs").glob("Try*.antt"):
        old.unlink()
    (folder / "src" / "lib.rt").write_text("// A trial. There is no code here.\n#![tactic(auto)]\n")
    (folder / "specs" / "Seen.antt").write_text(SEEN.read_text())
    parts = in_files(statements, STATEMENTS_IN_A_FILE)
    for number, part in enumerate(parts, start=1):
        head = f"A trial about {about}: seed {seed}, texts {first} to {index - 1} of at most {most_bytes} bytes."
        definitions = trial.definitions.split("\n")[:-1] if trial.definitions else []
        (folder / "specs" / f"Try{number}.antt").write_text(file_text(head, folder.name, part, definitions))
    modules = ["Seen"] + [f"Try{number}" for number in range(1, len(parts) + 1)]
    (folder / "specs" / "Lib.antt").write_text("".join(f"pub mod {module}\n" for module in modules))
    print(f"{folder.name}: {TRIED_DEPENDENCIES}")


def main() -> int:
    parser = argparse.ArgumentParser(description="Turns texts into statements about the definitions.")
    parser.add_argument("--write", type=Path, metavar="DIR", help="write the samples of the gate")
    parser.add_argument("--choose", action="store_true", help="work out which generated texts the samples take")
    parser.add_argument("--try", type=int, dest="count", metavar="N", help="how many statements to try")
    parser.add_argument("--about", choices=TRIALS, default="texts", help="what to try (texts)")
    parser.add_argument("--seed", type=int, default=1, help="another seed, other texts (1)")
    parser.add_argument("--first", type=int, default=0, help="the number of the first text (0)")
    parser.add_argument("--bytes", type=int, default=6_000, help="leave out longer texts (6000)")
    parser.add_argument("--choices", type=int, help="take this many choices of a text (100, 60 or 40)")
    parser.add_argument("--into", type=Path, metavar="DIR", help="the folder of the crate to write")
    arguments = parser.parse_args()
    if arguments.write is not None:
        write_samples(arguments.write)
    elif arguments.choose:
        print(", ".join(map(str, choose())))
    elif arguments.count is not None and arguments.into is not None:
        write_trial(arguments.about, arguments.count, arguments.seed, arguments.first, arguments.bytes,
                    arguments.choices, arguments.into)
    else:
        parser.error("give --write DIR, --choose, or --try N with --into DIR")
    return 0


if __name__ == "__main__":
    sys.exit(main())
