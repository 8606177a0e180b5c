#!/usr/bin/env python3
"""Makes random texts for comparing the proved runtime with the second program.

    python3 second/generate.py --count N --seed S --into DIR    writes N texts NAME.txt into DIR
    python3 second/generate.py --count N --seed S --tally       runs them and counts the rules and answers reached

Text number i depends on the seed and on i alone. There are five sorts of text, which take turns:

    valid      a random program and a list of choices that mostly take steps, so that runs get deep
    maps       one machine that calls, defers, acts and pops, so that the maps of its call stack decide its way
    recipe     a small program that leads to one rare answer or corner of the rules
    limit      a text at one of the sizes of document 01, or one past it
    damaged    a valid text with one fault, sometimes with two

The tally's exit status is 0 only if every rule and every answer 0 to 19 and 22 was reached.
"""

import argparse
import random
import re
import sys
from collections import Counter
from pathlib import Path
from typing import Callable, Dict, List, NamedTuple, Tuple

import namakviz
from namakviz import LINE_ORDER, MAX_INT, MAX_TEXT, MIN_INT, Choice

TextLines = List[str]  # the lines of a text, without their LF

RULES = ("ASSIGN", "NEW", "DELETE", "ASSERT", "SEQ", "IF", "WHILE", "SEND", "RAISE", "LEAVE", "RETURN", "DEQUEUE",
         "STEP", "ACTION", "CALL", "POP1", "POP2")
ANSWERS = tuple(range(20)) + (22,)


# ---------------------------------------------------------------------------------------------------------------
# Collecting the lines of a text
# ---------------------------------------------------------------------------------------------------------------

class Builder:
    """Collects lines in any order of their kinds, numbers them, and gives them in the order of the line format."""

    def __init__(self):
        self.by_name: Dict[str, TextLines] = {name: [] for name in LINE_ORDER}

    def add(self, name: str, fields: str = "") -> int:
        """Adds a line that has a number of its own and gives the number."""
        number = self.count(name) + 1
        self.put(name, number, fields)
        return number

    def put(self, name: str, number: int, fields: str = "") -> None:
        """Adds a line whose first number is given."""
        self.by_name[name].append(f"{name}={number} {fields}".rstrip())

    def count(self, name: str) -> int:
        return len(self.by_name[name])

    def expr(self, fields: str) -> int:
        return self.add("expr", "kind=" + fields)

    def stmt(self, fields: str) -> int:
        return self.add("stmt", "kind=" + fields)

    def chain(self, stmts: List[int]) -> int:
        """The statements one after the other, as nested seqs; 0 if there is none."""
        if not stmts:
            return 0
        whole = stmts[-1]
        for stmt in reversed(stmts[:-1]):
            whole = self.stmt(f"seq first={stmt} second={whole}")
        return whole

    def state(self, kind: int = 1, defer: str = "none", entry: int = 0, exit_stmt: int = 0) -> int:
        return self.add("state", f"of={kind} defer={defer} entry={entry} exit={exit_stmt}")

    def choose(self, machine: int, times: int = 1) -> None:
        self.by_name["choice"] += [f"choice={machine}"] * times

    def lines(self) -> TextLines:
        return [line for name in LINE_ORDER for line in self.by_name[name]]


def to_bytes(lines: TextLines) -> bytes:
    return "".join(line + "\n" for line in lines).encode("latin-1")


# ---------------------------------------------------------------------------------------------------------------
# Random valid texts
# ---------------------------------------------------------------------------------------------------------------

class ProgramMaker:
    """Makes one random program without faults.

    Expressions are mostly of the wanted type, and the first state of a kind begins by giving values to the variables,
    because a machine whose statement is refused stays where it is for the rest of the run."""

    MAX_EXPRS = 800
    MAX_STMTS = 700

    def __init__(self, rng: random.Random):
        self.rng = rng
        self.builder = Builder()
        self.slips = rng.choice((0.0, 0.0, 0.01, 0.05))  # the chance of an expression of any type
        self.event_types: Dict[int, str] = {}
        self.variable_types: Dict[int, Dict[int, str]] = {}  # machine kind to variable to type
        self.start_kind = 1
        self.stars_left = 0  # how many more `*` the statement being made may have

    def chance(self, probability: float) -> bool:
        return self.rng.random() < probability

    def in_any_order(self, makers: List[Callable[[], int]]) -> List[int]:
        """The numbers of the parts in the order of their makers; at times the parts are made in another order, so
        that the numbers do not ascend from left to right."""
        order = list(range(len(makers)))
        if self.chance(0.4):
            self.rng.shuffle(order)
        made = {place: makers[place]() for place in order}
        return [made[place] for place in range(len(makers))]

    def make(self) -> Builder:
        """The whole program, without choices."""
        rng, builder = self.rng, self.builder
        for _ in range(rng.randint(1, 6)):
            event_type = rng.choice(("void", "int", "int", "bool", "id", "event"))
            self.event_types[builder.add("event", f"type={event_type}")] = event_type
        self.variable_types = {builder.add("machine"): {} for _ in range(rng.randint(1, 4))}
        self.start_kind = rng.choice(list(self.variable_types))
        self.make_variables()
        self.make_unused_statements()
        self.make_states(self.make_actions())
        builder.put("start", self.start_kind)
        return builder

    def make_variables(self) -> None:
        wanted = [(kind, variable_type) for kind in self.variable_types
                  for variable_type in ["id", "int", "bool"] + self.rng.choices(("id", "int", "event"), k=2)]
        self.rng.shuffle(wanted)
        for kind, variable_type in wanted:
            variable = self.builder.add("var", f"of={kind} type={variable_type}")
            self.variable_types[kind][variable] = variable_type

    def make_unused_statements(self) -> None:
        """Statements that serve no state or action."""
        for _ in range(self.rng.randint(0, 2)):
            self.statement(self.rng.choice(list(self.variable_types)), depth=1)

    def make_actions(self) -> Dict[int, List[int]]:
        """One or two actions for each kind."""
        actions: Dict[int, List[int]] = {kind: [] for kind in self.variable_types}
        for kind in actions:
            for _ in range(self.rng.randint(1, 2)):
                do = self.statement_or_skip(kind, 2, self.mostly_without("return", "raise"))
                actions[kind].append(self.builder.add("action", f"of={kind} do={do}"))
        return actions

    def make_states(self, actions: Dict[int, List[int]]) -> None:
        """A kind's states are of two sorts: base states, the first one among them, which steps lead to, and called
        states, which calls lead to. So a return or a pop seldom empties the call stack."""
        base: Dict[int, List[int]] = {kind: [] for kind in self.variable_types}
        called: Dict[int, List[int]] = {kind: [] for kind in self.variable_types}
        kinds = [kind for kind in base for _ in range(self.rng.randint(1, 4))]
        self.rng.shuffle(kinds)
        for kind in kinds:
            if not base[kind]:
                base[kind].append(self.make_base_state(kind, self.opening(kind)))
            elif self.chance(0.4):
                base[kind].append(self.make_base_state(kind, []))
            else:
                called[kind].append(self.make_called_state(kind))
        for kind in base:
            for state in base[kind]:
                self.make_transitions(state, 0.05, base[kind], called[kind], actions[kind])
            for state in called[kind]:
                self.make_transitions(state, 0.3, called[kind], called[kind], actions[kind])

    def make_base_state(self, kind: int, opening: List[int]) -> int:
        """The entry mostly ends with sends, so that the machines have something to dequeue."""
        rest = self.statements(kind, self.mostly_without("return"))
        sends = [self.send(kind) for _ in range(self.rng.choice((0, 1, 1, 2, 2, 3)))]
        return self.make_state(kind, self.builder.chain(opening + rest + sends))

    def make_called_state(self, kind: int) -> int:
        """The entry ends by a return, by a raise, or waiting for what the queue brings."""
        sort = self.rng.choice(("return", "return", "raise", "skip"))
        ending = self.raise_event(kind) if sort == "raise" else self.builder.stmt(sort)
        return self.make_state(kind, self.builder.chain(self.statements(kind, ()) + [ending]))

    def make_state(self, kind: int, entry: int) -> int:
        exit_stmt = self.statement_or_skip(kind, 1, self.NOT_IN_EXIT) if self.chance(0.4) else 0
        return self.builder.state(kind, self.random_defer(), entry, exit_stmt)

    def statements(self, kind: int, without: Tuple[str, ...]) -> List[int]:
        return [self.statement(kind, 2, without) for _ in range(self.rng.randint(0, 3))]

    def mostly_without(self, *sorts: str) -> Tuple[str, ...]:
        return () if self.chance(0.1) else sorts

    def random_defer(self) -> str:
        deferred = [str(event) for event in self.event_types if self.chance(0.15)]
        return ",".join(deferred) or "none"

    def make_transitions(self, state: int, none: float, steps_to: List[int], calls_to: List[int],
                         actions: List[int]) -> None:
        """For every event a step, a call or an action, with chance none of nothing. Calls have an action beside
        them at times, which the map of the called state must not show."""
        for event in self.event_types:
            sort = "none" if self.chance(none) else self.rng.choice(("step", "call", "call", "act"))
            if sort == "call" and not calls_to:
                sort = "step"
            if sort in ("step", "call"):
                goal = self.rng.choice(steps_to if sort == "step" else calls_to)
                self.builder.put(sort, state, f"on={event} to={goal}")
            if sort == "act" or self.chance(0.1):
                self.builder.put("act", state, f"on={event} do={self.rng.choice(actions)}")

    def opening(self, kind: int) -> List[int]:
        """Statements that give values to most variables of a kind; the start kind creates machines of other kinds."""
        others = [other for other in self.variable_types if other != self.start_kind]
        first_values = {"id": "this", "int": "int val=0", "bool": f"bool val={self.rng.randint(0, 1)}", "event": "msg"}
        variables = self.variable_types[kind].items()
        stmts = [self.builder.stmt(f"assign var={variable} expr={self.builder.expr(first_values[its_type])}")
                 for variable, its_type in variables
                 if its_type in ("int", "bool") or self.chance(0.9 if kind == self.start_kind else 0.3)]
        if kind == self.start_kind and others:
            stmts += [self.new(kind, variable, self.rng.choice(others)) for variable in self.variables(kind, "id")]
        return stmts

    # Statements -----------------------------------------------------------------------------------------------

    SORTS = {"assign": 16, "send": 22, "new": 3, "raise": 5, "assert": 4, "if": 10, "while": 7, "seq": 10,
             "skip": 4, "delete": 1, "leave": 2, "return": 3}
    NOT_IN_EXIT = ("raise", "leave", "return")
    COMPOUND = ("if", "while", "seq")

    def statement_or_skip(self, kind: int, depth: int, without: Tuple[str, ...] = ()) -> int:
        return 0 if self.chance(0.2) else self.statement(kind, depth, without)

    def statement(self, kind: int, depth: int, without: Tuple[str, ...] = ()) -> int:
        """A statement of a machine kind, with at most depth statements around its innermost ones, and without some
        sorts of statement anywhere inside."""
        full = self.builder.count("stmt") > self.MAX_STMTS or self.builder.count("expr") > self.MAX_EXPRS
        sorts = {sort: weight for sort, weight in self.SORTS.items()
                 if sort not in without and not ((depth == 0 or full) and sort in self.COMPOUND)}
        sort = self.rng.choices(list(sorts), list(sorts.values()))[0]
        self.stars_left = namakviz.MAX_STARS
        if sort in self.COMPOUND:
            return self.compound_statement(sort, kind, depth, without)
        if sort == "assign":
            variable, variable_type = self.rng.choice(list(self.variable_types[kind].items()))
            return self.builder.stmt(f"assign var={variable} expr={self.expr(kind, variable_type, 2)}")
        if sort == "new":
            created = self.rng.choice(list(self.variable_types))
            return self.new(kind, self.rng.choice(self.variables(kind, "id")), created)
        if sort == "send":
            return self.send(kind)
        if sort == "raise":
            return self.raise_event(kind)
        if sort == "assert":
            return self.builder.stmt(f"assert expr={self.assertion(kind)}")
        return self.builder.stmt(sort)

    def compound_statement(self, sort: str, kind: int, depth: int, without: Tuple[str, ...]) -> int:
        condition = self.expr(kind, "bool", 2) if sort != "seq" else 0
        count = 1 if sort == "while" else 2
        parts = self.in_any_order([lambda: self.statement_or_skip(kind, depth - 1, without)] * count)
        if sort == "while":
            return self.builder.stmt(f"while cond={condition} body={parts[0]}")
        if sort == "if":
            return self.builder.stmt(f"if cond={condition} then={parts[0]} else={parts[1]}")
        return self.builder.stmt(f"seq first={parts[0]} second={parts[1]}")

    def new(self, kind: int, variable: int, created: int) -> int:
        wanted = self.variable_types[created]
        self.stars_left = namakviz.MAX_STARS
        names = [name for name in wanted if self.chance(0.97 if wanted[name] == "id" else 0.3)]
        values = self.in_any_order([lambda name=name: self.expr(kind, wanted[name], 1) for name in names])
        pairs = ",".join(f"{name}:{value}" for name, value in zip(names, values))
        return self.builder.stmt(f"new var={variable} machine={created} init={pairs or 'none'}")

    def send(self, kind: int) -> int:
        self.stars_left = namakviz.MAX_STARS
        event = self.rng.choice(list(self.event_types))
        target, payload = self.in_any_order([lambda: self.expr(kind, "id", 0), lambda: self.payload(kind, event)])
        return self.builder.stmt(f"send to={target} event={event} arg={payload}")

    def raise_event(self, kind: int) -> int:
        self.stars_left = namakviz.MAX_STARS
        event = self.rng.choice(list(self.event_types))
        return self.builder.stmt(f"raise event={event} arg={self.payload(kind, event)}")

    def payload(self, kind: int, event: int) -> int:
        undefined = self.event_types[event] == "void" or self.chance(0.1)
        return 0 if undefined else self.expr(kind, self.event_types[event], 1)

    def assertion(self, kind: int) -> int:
        """Mostly true, so that runs go on."""
        left = self.expr(kind, "bool", 1)
        if self.chance(0.3):
            return left
        return self.builder.expr(f"or a={left} b={self.builder.expr('bool val=1')}")

    # Expressions ----------------------------------------------------------------------------------------------

    OPERATORS = {"int": ("add", "sub", "neg"), "bool": ("and", "or", "not")}

    def variables(self, kind: int, wanted: str) -> List[int]:
        return [variable for variable, its_type in self.variable_types[kind].items() if its_type == wanted]

    def expr(self, kind: int, wanted: str, depth: int) -> int:
        """An expression that mostly has the wanted type."""
        if self.chance(self.slips):
            wanted = self.rng.choice(("int", "bool", "id", "event"))
        operators = self.OPERATORS.get(wanted, ())
        if depth == 0 or not operators or self.chance(0.4):
            return self.builder.expr(self.leaf(kind, wanted))
        operator = self.rng.choice(operators)
        if operator in ("neg", "not"):
            return self.builder.expr(f"{operator} a={self.expr(kind, wanted, depth - 1)}")
        left, right = self.in_any_order([lambda: self.expr(kind, wanted, depth - 1)] * 2)
        return self.builder.expr(f"{operator} a={left} b={right}")

    def leaf(self, kind: int, wanted: str) -> str:
        leaves = [f"var var={variable}" for variable in self.variables(kind, wanted)]
        if wanted == "int":
            leaves += [f"int val={self.rng.randint(-3, 9)}"] * 2
            leaves += [f"int val={self.rng.choice((MIN_INT, MIN_INT + 1, MAX_INT - 1, MAX_INT))}"]
        elif wanted == "bool":
            leaves += [f"bool val={self.rng.randint(0, 1)}"]
            if self.stars_left > 0:
                leaves += ["star"] * 3
        elif wanted == "id":
            leaves += ["this"]
        elif wanted == "event":
            leaves += ["msg"] * 2
        if self.chance(0.04):
            leaves = ["arg", "arg", "bot"]
        chosen = self.rng.choice(leaves)
        if chosen == "star":
            self.stars_left -= 1
        return chosen


def valid_text(rng: random.Random) -> TextLines:
    """A random program with choices that mostly take steps."""
    return with_choices(rng, ProgramMaker(rng).make().lines(), rng.choice((0, 5, 30, 60, 100, 200, 300, 700)))


def with_choices(rng: random.Random, lines: TextLines, length: int) -> TextLines:
    """The lines of a program without faults and, if it gets so far, this many choices that take steps."""
    loaded = namakviz.load(to_bytes(lines))
    if isinstance(loaded, namakviz.Refused):
        raise AssertionError(f"the generator made a faulty program: {loaded}")
    choices = steppable_choices(rng, loaded.program, length)
    return lines + [choice_line(rng, choice) for choice in choices]


def choice_line(rng: random.Random, choice: Choice) -> str:
    if choice.bits == 0 and rng.random() < 0.5:
        return f"choice={choice.machine}"
    return f"choice={choice.machine} bits={choice.bits}"


def steppable_choices(rng: random.Random, program: namakviz.Program, length: int) -> List[Choice]:
    """Choices that all take a step; sometimes a refused one comes at the end, and sometimes one more behind it."""
    config = namakviz.start(program)
    choices: List[Choice] = []
    refused: List[Choice] = []
    while len(choices) < length:
        candidates = [Choice(machine.number, rng.randint(0, namakviz.MAX_BITS))
                      for machine in config.live_machines() for _ in range(2)]
        rng.shuffle(candidates)
        taken, refused = first_step(program, config, candidates)
        if not taken:
            break
        choices += taken
    if refused and rng.random() < 0.8:
        choices.append(refused[0])
        if rng.random() < 0.3:
            choices.append(Choice(1, 0))
    return choices


def first_step(program: namakviz.Program, config: namakviz.Config,
               candidates: List[Choice]) -> Tuple[List[Choice], List[Choice]]:
    """Takes the first candidate that can step. Gives it, in a list, and the candidates refused on the way, those
    with something better than answer 19 first."""
    refused: List[Tuple[bool, Choice]] = []
    for choice in candidates:
        answer, _ = namakviz.step_accepted(program, config, *choice)
        if answer == namakviz.DONE:
            return [choice], [choice for _, choice in sorted(refused)]
        refused.append((answer == namakviz.NOTHING_TO_DO, choice))
    return [], [choice for _, choice in sorted(refused)]


# ---------------------------------------------------------------------------------------------------------------
# Texts about maps
# ---------------------------------------------------------------------------------------------------------------

def maps_text(rng: random.Random) -> TextLines:
    """One machine that sends events to itself in every entry. What it does with them hangs on the maps: every action
    shows by another rule, and so does an event that is held back, or that pops a state."""
    builder = Builder()
    events = [builder.add("event", "type=void") for _ in range(4)]
    builder.add("machine")
    variable = builder.add("var", "of=1 type=bool")
    shown = [f"assign var={variable} expr={builder.expr('star')}", f"assert expr={builder.expr('bool val=1')}",
             f"if cond={builder.expr('star')} then=0 else=0", rng.choice(("leave", "return", "skip"))]
    actions = [builder.add("action", f"of=1 do={builder.stmt(fields)}") for fields in shown]
    states = [builder.state(1, *state_that_sends(rng, builder, events)) for _ in range(4)]
    for state in states:
        add_reactions(rng, builder, state, events, states, actions)
    builder.put("start", 1)
    return with_choices(rng, builder.lines(), rng.choice((60, 150)))


def state_that_sends(rng: random.Random, builder: Builder, events: List[int]) -> Tuple[str, int, int]:
    """The `defer`, entry and exit of a state whose entry sends some events and may end by a return or a raise."""
    deferred = [str(event) for event in events if rng.random() < 0.3]
    entry = [builder.stmt(f"send to={builder.expr('this')} event={event} arg=0")
             for event in rng.sample(events, rng.randint(1, 3))]
    ending = rng.choice(("wait", "wait", "return", "raise"))
    if ending == "raise":
        entry.append(builder.stmt(f"raise event={rng.choice(events)} arg=0"))
    elif ending == "return" and builder.count("state") > 0:
        entry.append(builder.stmt("return"))
    exit_stmt = builder.stmt(f"assert expr={builder.expr('bool val=1')}") if rng.random() < 0.5 else 0
    return ",".join(deferred) or "none", builder.chain(entry), exit_stmt


def add_reactions(rng: random.Random, builder: Builder, state: int, events: List[int], states: List[int],
                  actions: List[int]) -> None:
    """Steps, calls and actions of a state; the first state reacts to every event, so that it is seldom popped."""
    for event in events:
        sort = rng.choice(("step", "call", "call", "act", "act") + ("none",) * (0 if state == 1 else 4))
        if sort in ("step", "call"):
            builder.put(sort, state, f"on={event} to={rng.choice(states)}")
        if sort == "act" or sort != "none" and rng.random() < 0.1:
            builder.put("act", state, f"on={event} do={rng.choice(actions)}")


# ---------------------------------------------------------------------------------------------------------------
# Recipes: small programs for rare answers and corners of the rules
# ---------------------------------------------------------------------------------------------------------------

def one_machine(builder: Builder, entry: int, times: int) -> TextLines:
    """A text of one kind with one state and this entry, whose first machine is chosen a number of times."""
    builder.add("machine")
    builder.state(entry=entry)
    builder.put("start", 1)
    builder.choose(1, times)
    return builder.lines()


def forever(builder: Builder, body: int) -> int:
    return builder.stmt(f"while cond={builder.expr('bool val=1')} body={body}")


def queue_full(rng: random.Random) -> TextLines:
    """Answer 16: sends 0, 1, 2 ... to itself; some pairs are sent twice, which a full queue takes as well."""
    builder = Builder()
    event = builder.add("event", "type=int")
    variable = builder.add("var", "of=1 type=int")

    def send_variable() -> int:
        target, payload = builder.expr("this"), builder.expr(f"var var={variable}")
        return builder.stmt(f"send to={target} event={event} arg={payload}")

    sends = [send_variable() for _ in range(rng.randint(1, 2))]
    one_more = builder.expr(f"add a={builder.expr(f'var var={variable}')} b={builder.expr('int val=1')}")
    count = builder.stmt(f"assign var={variable} expr={one_more}")
    zero = builder.stmt(f"assign var={variable} expr={builder.expr('int val=0')}")
    loop = forever(builder, builder.chain(sends + [count]))
    return one_machine(builder, builder.chain([zero, loop]), rng.choice((90, 160, 170)))


def stack_full(rng: random.Random) -> TextLines:
    """Answer 17: every entry raises an event that calls."""
    builder = Builder()
    event = builder.add("event", "type=void")
    entry = builder.stmt(f"raise event={event} arg=0")
    builder.put("call", 1, f"on={event} to=1")
    return one_machine(builder, entry, rng.randint(22, 25))


def rooms_full(rng: random.Random) -> TextLines:
    """Answer 18: creates without end; sometimes created machines delete themselves, so that rooms come free."""
    builder = Builder()
    builder.add("machine")
    builder.add("machine")
    variable = builder.add("var", "of=1 type=id")
    entry = forever(builder, builder.stmt(f"new var={variable} machine=2 init=none"))
    builder.state(1, entry=entry)
    builder.state(2, entry=builder.stmt("delete"))
    builder.put("start", 1)
    delete_chance = rng.choice((0.0, 0.3))
    live = []
    for number in range(2, 102):
        builder.choose(1, 3)  # WHILE, NEW, SEQ
        live.append(number)
        if rng.random() < delete_chance:
            builder.choose(live.pop(rng.randrange(len(live))))
    return builder.lines()


def failing_statement(*wanted: str) -> Callable[[random.Random], TextLines]:
    """Answers 10, 11, 14, 15: a machine whose only statement is one of those given, with {name} for an expression."""
    leaves = {"int": "int val=7", "false": "bool val=0", "bot": "bot", "this": "this", "msg": "msg"}

    def make(rng: random.Random) -> TextLines:
        builder = Builder()
        builder.add("event", "type=void")
        builder.add("event", "type=bool")
        builder.add("var", "of=1 type=bool")
        builder.add("var", "of=1 type=id")
        form = rng.choice(wanted)
        used = re.findall(r"{(\w+)}", form)
        entry = builder.stmt(form.format(**{name: builder.expr(leaves[name]) for name in used}))
        return one_machine(builder, entry, rng.randint(1, 2))
    return make


def send_to_deleted(rng: random.Random) -> TextLines:
    """Answer 12: the created machine deletes itself before the send."""
    builder = Builder()
    builder.add("event", "type=void")
    builder.add("machine")
    builder.add("machine")
    builder.add("var", "of=1 type=id")
    new = builder.stmt("new var=1 machine=2 init=none")
    send = builder.stmt(f"send to={builder.expr('var var=1')} event=1 arg=0")
    builder.state(1, entry=builder.chain([new, send]))
    builder.state(2, entry=builder.stmt("delete"))
    builder.put("start", 1)
    builder.choose(1)
    if rng.random() < 0.7:
        builder.choose(2)
    builder.choose(1, 3)
    return builder.lines()


def inherited_map(rng: random.Random) -> TextLines:
    """Table K, rows 6 to 9: a caller defers events or has actions for them, the state it calls may say otherwise."""
    builder = Builder()
    for _ in range(3):
        builder.add("event", "type=void")
    builder.add("machine")
    builder.add("action", f"of=1 do={builder.stmt('skip')}")
    sends = [builder.stmt(f"send to={builder.expr('this')} event={event} arg=0") for event in (2, 3, 2)]
    raise_first = builder.stmt("raise event=1 arg=0")
    raise_second = builder.stmt(f"raise event={rng.choice((2, 3))} arg=0")
    builder.state(1, rng.choice(("none", "2", "2,3")), builder.chain(sends + [raise_first]))
    builder.state(1, rng.choice(("none", "2", "3")), rng.choice((0, raise_second)))
    builder.put("call", 1, "on=1 to=2")
    if rng.random() < 0.3:
        builder.put("step", 2, "on=2 to=2")
    for state, event in ((1, 2), (1, 3), (2, 2), (2, 3)):
        if rng.random() < 0.3:
            builder.put("act", state, f"on={event} do=1")
    builder.put("start", 1)
    builder.choose(1, rng.randint(9, 25))
    return builder.lines()


def map_kept(rng: random.Random) -> TextLines:
    """State 1 acts on event 3 or defers it and calls state 2. State 2 returns, or stays; then event 2 steps to state 3,
    which shows by event 3 whether the step found the right map."""
    builder = Builder()
    for _ in range(3):
        builder.add("event", "type=void")
    builder.add("machine")
    builder.add("action", "of=1 do=0")
    sends = [builder.stmt(f"send to={builder.expr('this')} event={event} arg=0") for event in (2, 3)]
    raise_first = builder.stmt("raise event=1 arg=0")
    acts, returns = rng.random() < 0.5, rng.random() < 0.6
    builder.state(1, "none" if acts else "3", builder.chain(sends + [raise_first]))
    builder.state(1, entry=builder.stmt("return" if returns else "skip"))
    builder.state(1)
    builder.put("call", 1, "on=1 to=2")
    builder.put("step", 1 if returns else 2, "on=2 to=3")
    if acts:
        builder.put("act", 1, "on=3 do=1")
    builder.put("start", 1)
    builder.choose(1, 20)
    return builder.lines()


def call_and_return(rng: random.Random) -> TextLines:
    """CALL, RETURN and POP2, then answer 13 or 19; exits are put in on the way."""
    builder = Builder()
    builder.add("event", "type=void")
    builder.add("machine")
    call = builder.stmt("raise event=1 arg=0")
    back = builder.stmt("return")
    exits = [builder.stmt("skip"), builder.stmt(f"assert expr={builder.expr('star')}")]
    builder.state(entry=call, exit_stmt=exits[0])
    builder.state(entry=back, exit_stmt=exits[1])
    builder.put("call", 1, "on=1 to=2")
    builder.put("start", 1)
    for _ in range(rng.randint(6, 9)):
        builder.by_name["choice"].append("choice=1 bits=1")
    return builder.lines()


def stars_in_order(rng: random.Random) -> TextLines:
    """An assertion that only one choice of bits makes true. Its stars are numbered out of order."""
    builder = Builder()
    count = rng.randint(2, namakviz.MAX_STARS)
    bits = rng.randrange(2 ** count)
    by_place: Dict[int, int] = {}
    for place in rng.sample(range(count), count):
        star = builder.expr("star")
        by_place[place] = star if bits >> place & 1 else builder.expr(f"not a={star}")
    row = [by_place[place] for place in range(count)]
    while len(row) > 1:
        place = rng.randrange(len(row) - 1)
        row[place:place + 2] = [builder.expr(f"and a={row[place]} b={row[place + 1]}")]
    lines = one_machine(builder, builder.stmt(f"assert expr={row[0]}"), 0)
    return lines + [f"choice=1 bits={bits}"]


def not_live(rng: random.Random) -> TextLines:
    """Answer 19, and 22 when it isn't the last choice."""
    builder = Builder()
    lines = one_machine(builder, builder.stmt("skip"), rng.randint(0, 2))
    return lines + [f"choice={rng.choice((1, 2, 33, 65535))}"]


RECIPES = (
    queue_full, stack_full, rooms_full, send_to_deleted, inherited_map, map_kept, call_and_return, stars_in_order,
    not_live, map_kept,
    failing_statement("assert expr={false}"),
    failing_statement("send to={bot} event=1 arg=0", "send to={bot} event=2 arg={int}"),
    failing_statement("assert expr={bot}", "assert expr={int}", "if cond={this} then=0 else=0",
                      "while cond={msg} body=0"),
    failing_statement("assign var=1 expr={int}", "assign var=2 expr={int}", "raise event=1 arg={false}",
                      "raise event=2 arg={this}", "send to={int} event=1 arg=0", "send to={this} event=1 arg={int}",
                      "new var=2 machine=1 init=1:{int}", "new var=2 machine=1 init=1:{msg},2:{false}"),
    failing_statement("return", "leave", "raise event=1 arg=0", "raise event=2 arg={bot}"),
)


# ---------------------------------------------------------------------------------------------------------------
# Limits: texts at a size of document 01 (over = 0) or one past it (over = 1)
# ---------------------------------------------------------------------------------------------------------------

def smallest(builder: Builder) -> TextLines:
    """The lines of the builder, with a state for every kind, at least one kind, and the start line."""
    if builder.count("machine") == 0:
        builder.add("machine")
    if builder.count("state") == 0:
        for kind in range(1, builder.count("machine") + 1):
            builder.state(kind)
    builder.put("start", 1)
    return builder.lines()


def many_of(name: str, size: int, fields: str) -> Callable[[int], TextLines]:
    """As many lines of a name as there may be."""
    def make(over: int) -> TextLines:
        builder = Builder()
        for _ in range(size + over):
            builder.add(name, fields)
        return smallest(builder)
    return make


def many_choices(over: int) -> TextLines:
    builder = Builder()
    return one_machine(builder, forever(builder, 0), namakviz.MAX_CHOICES + over)


def long_text(over: int) -> TextLines:
    """Exactly 60,000 bytes: filled up with choice lines of 18 bytes, then of 9 and 10."""
    builder = Builder()
    lines = one_machine(builder, forever(builder, 0), 0)
    left = MAX_TEXT + over - len(to_bytes(lines))
    while left >= 108:
        lines.append("choice=1 bits=255")
        left -= 18
    tens = left % 9
    return lines + ["choice=1"] * ((left - 10 * tens) // 9) + ["choice=10"] * tens


def high_expression(over: int) -> TextLines:
    builder = Builder()
    expr = builder.expr("bool val=1")
    for _ in range(namakviz.MAX_HEIGHT - 1 + over):
        expr = builder.expr(f"not a={expr}")
    return one_machine(builder, builder.stmt(f"assert expr={expr}"), 1)


def high_statement(over: int) -> TextLines:
    """Seqs nested to the left, so that the whole row is full."""
    builder = Builder()
    stmt = 0
    for _ in range(namakviz.MAX_HEIGHT - 1 + over):
        stmt = builder.stmt(f"seq first={stmt} second=0")
    return one_machine(builder, stmt, namakviz.MAX_HEIGHT)


def high_exit(over: int) -> TextLines:
    """The longest row there can be: a whole exit before a pending return."""
    builder = Builder()
    builder.add("machine")
    stmt = 0
    for _ in range(namakviz.MAX_HEIGHT - 1 + over):
        stmt = builder.stmt(f"seq first={stmt} second=0")
    builder.state(entry=builder.stmt("return"), exit_stmt=stmt)
    builder.put("start", 1)
    builder.choose(1, 36)
    return builder.lines()


def many_stars(over: int) -> TextLines:
    """Stars spread over the `init` values of one statement; the machine created asserts the value of the last."""
    builder = Builder()
    pairs = []
    for _ in range(namakviz.MAX_STARS + over):
        variable = builder.add("var", "of=1 type=bool")
        pairs.append(f"{variable}:{builder.expr('star')}")
    holder = builder.add("var", "of=1 type=id")
    new = builder.stmt(f"new var={holder} machine=1 init={','.join(pairs)}")
    check = builder.stmt(f"assert expr={builder.expr('var var=8')}")
    lines = one_machine(builder, builder.chain([new, check]), 0)
    return lines + ["choice=1 bits=128", "choice=2 bits=0", "choice=2", "choice=2", "choice=1", "choice=1"]


def edge_value(line: str, edge: int, outward: int) -> Callable[[int], TextLines]:
    """A number at the end of its range; `line` has {} where the number stands."""
    def make(over: int) -> TextLines:
        return insert(smallest(Builder()), line.format(edge + outward * over))
    return make


LIMITS = (
    many_of("event", 64, "type=int"), many_of("machine", 16, ""), many_of("var", 16, "of=1 type=int"),
    many_of("expr", 1_024, "kind=bot"), many_of("stmt", 1_024, "kind=skip"), many_of("action", 64, "of=1 do=0"),
    many_of("state", 64, "of=1 defer=none entry=0 exit=0"),
    many_choices, long_text, high_expression, high_statement, high_exit, many_stars,
    edge_value("expr=1 kind=int val={}", MAX_INT, 1), edge_value("expr=1 kind=int val={}", MIN_INT, -1),
    edge_value("expr=1 kind=bool val={}", 1, 1), edge_value("expr=1 kind=bool val={}", 0, -1),
    edge_value("choice=1 bits={}", 255, 1), edge_value("choice={}", 65_535, 1), edge_value("choice={}", 1, -1),
)


# ---------------------------------------------------------------------------------------------------------------
# Damages: one fault in a valid text
# ---------------------------------------------------------------------------------------------------------------

class NotApplicable(Exception):
    """The text has no place for this damage."""


def pick(rng: random.Random, lines: TextLines, pattern: str) -> int:
    """The place of a random line that matches the pattern."""
    places = [place for place, line in enumerate(lines) if re.search(pattern, line)]
    if not places:
        raise NotApplicable
    return rng.choice(places)


def with_line(lines: TextLines, place: int, line: str) -> TextLines:
    return lines[:place] + [line] + lines[place + 1:]


def name_of(line: str) -> str:
    return line.partition("=")[0]


def count_of(lines: TextLines, name: str) -> int:
    return sum(1 for line in lines if name_of(line) == name)


def any_number(rng: random.Random, lines: TextLines, name: str) -> int:
    """The number of some line of that name."""
    if count_of(lines, name) == 0:
        raise NotApplicable
    return rng.randint(1, count_of(lines, name))


def insert(lines: TextLines, line: str) -> TextLines:
    """The lines with one more, behind all lines of its kind and of earlier kinds."""
    up_to_it = LINE_ORDER[:LINE_ORDER.index(name_of(line)) + 1]
    place = max((place for place, each in enumerate(lines, start=1) if name_of(each) in up_to_it), default=0)
    return lines[:place] + [line] + lines[place:]


def substitution(pattern: str, *replacements: str) -> Callable[[random.Random, TextLines], TextLines]:
    """A damage that replaces the first match of the pattern in a random line by one of the replacements."""
    def damage(rng: random.Random, lines: TextLines) -> TextLines:
        place = pick(rng, lines, pattern)
        return with_line(lines, place, re.sub(pattern, rng.choice(replacements), lines[place], count=1))
    return damage


def insertion(*new_lines: str) -> Callable[[random.Random, TextLines], TextLines]:
    """A damage that adds a line to the end of its kind; {name} stands for the next own number of a kind of line."""
    def damage(rng: random.Random, lines: TextLines) -> TextLines:
        following = {name: count_of(lines, name) + 1 for name in LINE_ORDER}
        return insert(lines, rng.choice(new_lines).format(**following))
    return damage


def line_dropped(rng: random.Random, lines: TextLines) -> TextLines:
    place = pick(rng, lines, "^(?!choice)")
    return lines[:place] + lines[place + 1:]


def start_dropped(rng: random.Random, lines: TextLines) -> TextLines:
    place = pick(rng, lines, "^start")
    return lines[:place] + lines[place + 1:]


def line_moved(rng: random.Random, lines: TextLines) -> TextLines:
    place, goal = rng.randrange(len(lines)), rng.randrange(len(lines))
    rest = lines[:place] + lines[place + 1:]
    return rest[:goal] + [lines[place]] + rest[goal:]


def line_doubled(rng: random.Random, lines: TextLines) -> TextLines:
    place = rng.randrange(len(lines))
    return lines[:place] + [lines[place]] + lines[place:]


def transition_doubled(rng: random.Random, lines: TextLines) -> TextLines:
    """Answer 6: the same line again, or a call beside a step."""
    line = lines[pick(rng, lines, "^(step|call|act)=")]
    if line.startswith("step") and rng.random() < 0.5:
        line = line.replace("step", "call")
    return insert(lines, line)


def empty_line(rng: random.Random, lines: TextLines) -> TextLines:
    place = rng.randint(0, len(lines))
    return lines[:place] + [""] + lines[place:]


def start_behind_choice(rng: random.Random, lines: TextLines) -> TextLines:
    place = pick(rng, lines, "^start")
    return lines[:place] + ["choice=1"] + lines[place:]


def foreign_state_or_action(rng: random.Random, lines: TextLines) -> TextLines:
    """Answer 4: a step, call or act line that leads anywhere."""
    place = pick(rng, lines, "^(step|call|act)=")
    wanted = "action" if lines[place].startswith("act") else "state"
    number = any_number(rng, lines, wanted)
    return with_line(lines, place, re.sub(r"(to|do)=\d+", rf"\g<1>={number}", lines[place]))


def any_variable(rng: random.Random, lines: TextLines) -> TextLines:
    """Answer 4: any variable in place of the right one: a foreign one, or one that `new` cannot take."""
    place = pick(rng, lines, r" var=\d+")
    number = any_number(rng, lines, "var")
    return with_line(lines, place, re.sub(r" var=\d+", f" var={number}", lines[place]))


def foreign_init(rng: random.Random, lines: TextLines) -> TextLines:
    """Answer 4: any variable in `init`."""
    place = pick(rng, lines, r"init=\d")
    number = any_number(rng, lines, "var")
    return with_line(lines, place, re.sub(r"init=\d+:(\d+).*", rf"init={number}:\1", lines[place]))


def other_part(rng: random.Random, lines: TextLines) -> TextLines:
    """Answer 5: any expression or statement in place of the right one, named twice or not lower."""
    pattern = r" (a|b|first|second|then|else|body|cond|expr|to|arg|entry|exit)=[1-9]\d*"
    place = pick(rng, lines, r"^(expr|stmt|state).*" + pattern)
    key = rng.choice(re.findall(pattern, lines[place]))
    of_statements = key in ("first", "second", "then", "else", "body", "entry", "exit")
    number = any_number(rng, lines, "stmt" if of_statements else "expr")
    return with_line(lines, place, re.sub(rf" {key}=\d+", f" {key}={number}", lines[place]))


def part_not_lower(rng: random.Random, lines: TextLines) -> TextLines:
    """Answer 5: an expression or statement that names itself."""
    place = pick(rng, lines, r" (a|first|then|body)=\d+")
    own = re.match(r"\w+=(\d+)", lines[place]).group(1)
    return with_line(lines, place, re.sub(r" (a|first|then|body)=\d+", rf" \1={own}", lines[place], count=1))


def bad_exit(rng: random.Random, lines: TextLines) -> TextLines:
    """Answer 7: an exit with raise, return or leave, perhaps deep inside."""
    place = pick(rng, lines, "^state")
    stmt = count_of(lines, "stmt") + 1
    kind = rng.choice(("leave", "return", "raise event=1 arg=0"))
    lines = with_line(lines, place, re.sub(r"exit=\d+", f"exit={stmt + 1}", lines[place]))
    lines = insert(lines, f"stmt={stmt} kind={kind}")
    return insert(lines, f"stmt={stmt + 1} kind=seq first=0 second={stmt}")


def high_tower(rng: random.Random, lines: TextLines) -> TextLines:
    """Answer 8: an expression or a statement of height 33 that serves nothing."""
    name, leaf, whole = rng.choice((("expr", "bot", "neg a={}"), ("stmt", "delete", "seq first=0 second={}")))
    number = count_of(lines, name) + 1
    lines = insert(lines, f"{name}={number} kind={leaf}")
    for above in range(number + 1, number + 33):
        lines = insert(lines, f"{name}={above} kind={whole.format(above - 1)}")
    return lines


def many_stars_added(rng: random.Random, lines: TextLines) -> TextLines:
    """Answer 8: a statement with nine stars that serves nothing."""
    number = count_of(lines, "expr") + 1
    lines = insert(lines, f"expr={number} kind=star")
    for star in range(number + 1, number + 17, 2):
        lines = insert(lines, f"expr={star} kind=star")
        lines = insert(lines, f"expr={star + 1} kind=or a={star - 1} b={star}")
    sort = rng.choice(("assert expr={}", "while cond={} body=0", "raise event=1 arg={}"))
    return insert(lines, f"stmt={count_of(lines, 'stmt') + 1} kind={sort.format(number + 16)}")


def too_long(rng: random.Random, lines: TextLines) -> TextLines:
    """Answer 1."""
    return lines + ["choice=1 bits=0"] * rng.randint(3_800, 4_200)


LONG = "9" * 30
HUGE = "9" * 5_000

DAMAGES = (
    # form and order: answer 2
    substitution(" ", "  ", "\t", " x"), substitution("$", " ", "\r", "=", "\u00e9", " bits=0", "\u00b2"),
    substitution("=", "", "==", " ="), substitution(r"=(\d)", r"=0\1", r"=+\1", r"=-\1"),
    substitution(r"^\w", "X", " "), substitution(r"kind=\w+", "kind=nope", "kind=", "kind=seq", "kind=add"),
    substitution(r"type=\w+", "type=void", "type=real", "type=Int"), substitution(r"^(var.*)type=\w+", r"\1type=void"),
    substitution(r"val=.*", "val=-0", "val=-", "val=-01", "val=", "val=1 val=1", "val=1.0"),
    substitution(r"bits=.*", "bits=", "bits=-1", "bits=00"), substitution(r"^(\w+=\d+) (.*)", r"\2 \1", r"\1"),
    substitution(r"defer=\S+", "defer=1,1", "defer=", "defer=1,", "defer=2,1", "defer=none,1",
                 f"defer={LONG}8,{LONG}7"),
    substitution(r"init=\S+", "init=1:1,1:2", "init=", "init=1", "init=1:", "init=2:1,1:2", "init=1:1,", "init=none,"),
    substitution(r" (of|on|to|do|expr|a)=(\d+)", "", r" \2", r" \1=\2 \1=\2"),
    line_moved, empty_line, start_behind_choice, start_dropped, line_dropped, line_doubled,
    insertion("start=1", "start=2", "start=0"),
    # numbers and sizes: answer 3
    substitution(r"^(event|machine|var|expr|stmt|action|state)=\d+", r"\1=0", r"\1=99", rf"\1={LONG}", r"\1=1"),
    substitution(r"kind=int val=.*", "kind=int val=2147483648", "kind=int val=-2147483649", f"kind=int val={HUGE}",
                 f"kind=int val=-{HUGE}"),
    substitution(r"kind=bool val=.*", "kind=bool val=2", "kind=bool val=-1", f"kind=bool val={HUGE}"),
    insertion("choice=0", "choice=65536", f"choice={HUGE}", "choice=1 bits=256", f"choice=1 bits={HUGE}"),
    # references: answer 4
    substitution(r" (of|on|to|event|machine|var)=\d+", r" \1=0", r" \1=99", rf" \1={LONG}"),
    substitution(r" (do|entry|exit|first|then|body|a|b|expr|cond|arg)=\d+", r" \1=0", r" \1=1025", rf" \1={HUGE}"),
    substitution(r"^(step|call|act)=\d+", r"\1=0", r"\1=65", rf"\1={LONG}"),
    substitution(r"^start=\d+", "start=0", "start=17", f"start={HUGE}"),
    substitution(r"defer=\S+", "defer=0", "defer=65", f"defer={LONG}7,{LONG}8", f"defer=1,{HUGE}"),
    substitution(r"init=\S+", "init=0:1", "init=1:0", f"init={LONG}:1", f"init=1:1,{LONG}:{LONG}"),
    foreign_state_or_action, any_variable, any_variable, foreign_init,
    # parts: answer 5
    other_part, other_part, part_not_lower,
    # doublings, exits, heights and stars, kinds without a state: answers 6 to 9
    transition_doubled, bad_exit, high_tower, many_stars_added, insertion("machine={machine}"),
    # the text as a whole: answer 1
    too_long,
)


def no_final_lf(_rng: random.Random, text: bytes) -> bytes:
    return text[:-1]


def cut_short(rng: random.Random, text: bytes) -> bytes:
    return text[:rng.randrange(len(text))]


def bytes_changed(rng: random.Random, text: bytes) -> bytes:
    changed = bytearray(text)
    for _ in range(rng.randint(1, 3)):
        changed[rng.randrange(len(changed))] = rng.choice((rng.randrange(256), rng.choice(b" =,:-0123456789\n")))
    return bytes(changed)


def any_bytes(rng: random.Random, _text: bytes) -> bytes:
    return bytes(rng.randrange(256) for _ in range(rng.randint(0, 300)))


BYTE_DAMAGES = (no_final_lf, cut_short, bytes_changed, any_bytes)


def damaged_text(rng: random.Random, turn: int) -> bytes:
    """A valid text with the damage whose turn it is and sometimes another one."""
    lines = valid_text(rng)
    turn %= len(DAMAGES) + len(BYTE_DAMAGES)
    if turn >= len(DAMAGES):
        return BYTE_DAMAGES[turn - len(DAMAGES)](rng, to_bytes(lines))
    damages = [DAMAGES[turn]] + ([rng.choice(DAMAGES)] if rng.random() < 0.2 else [])
    for damage in damages:
        try:
            lines = damage(rng, lines)
        except NotApplicable:
            continue
    return to_bytes(lines)


# ---------------------------------------------------------------------------------------------------------------
# All texts of a seed
# ---------------------------------------------------------------------------------------------------------------

class Text(NamedTuple):
    name: str
    content: bytes


def make_text(seed: int, index: int) -> Text:
    """Text number index, from 0. Of ten texts in a row one is a recipe, one is at a limit, two are about maps, two are
    valid and four damaged; recipes, limits and damages take turns."""
    rng = random.Random(f"namakviz {seed} {index}")
    round_number, sort = divmod(index, 10)
    if sort == 0:
        return Text(f"recipe-{index:05d}", to_bytes(RECIPES[round_number % len(RECIPES)](rng)))
    if sort == 1:
        limit, over = divmod(round_number % (2 * len(LIMITS)), 2)
        return Text(f"limit-{index:05d}", to_bytes(LIMITS[limit](over)))
    if sort < 4:
        return Text(f"maps-{index:05d}", to_bytes(maps_text(rng)))
    if sort < 6:
        return Text(f"valid-{index:05d}", to_bytes(valid_text(rng)))
    return Text(f"damaged-{index:05d}", damaged_text(rng, 4 * round_number + sort - 6))


def write_texts(count: int, seed: int, folder: Path) -> None:
    folder.mkdir(parents=True, exist_ok=True)
    for index in range(count):
        text = make_text(seed, index)
        (folder / f"{text.name}.txt").write_bytes(text.content)


def count_reached(reached: Counter, program: str, written: str) -> None:
    """Counts what an output of the run or the regroup program reached: rules and answers."""
    reached.update(re.findall(r"rule=(\w+)", written))
    reached.update(f"{program} {answer}" for answer in re.findall(r"end=(\d+)", written))


def print_reached(reached: Counter) -> List[str]:
    """Prints how often each rule and each answer was reached; which of them never were."""
    for rule in RULES:
        print(f"rule {rule:8} {reached[rule]:8}")
    for answer in ANSWERS:
        print(f"answer {answer:2}  run {reached[f'run {answer}']:6}  regroup {reached[f'regroup {answer}']:6}")
    missing = [rule for rule in RULES if reached[rule] == 0]
    missing += [f"answer {answer}" for answer in ANSWERS
                if reached[f"run {answer}"] + reached[f"regroup {answer}"] == 0]
    print("never reached: " + (", ".join(missing) or "nothing"))
    return missing


def tally(count: int, seed: int) -> bool:
    """Prints how often each rule and each answer was reached by generated texts; whether all of them were."""
    reached: Counter = Counter()
    for index in range(count):
        content = make_text(seed, index).content
        count_reached(reached, "run", namakviz.run_text(content))
        count_reached(reached, "regroup", namakviz.regroup_text(content))
    return not print_reached(reached)


def main() -> int:
    parser = argparse.ArgumentParser(description="Makes random texts for Namakviz.")
    parser.add_argument("--count", type=int, default=400, help="how many texts (400)")
    parser.add_argument("--seed", type=int, default=1, help="another seed, other texts (1)")
    parser.add_argument("--into", type=Path, help="the folder to write the texts into")
    parser.add_argument("--tally", action="store_true", help="count the rules and answers reached")
    arguments = parser.parse_args()
    if arguments.into is None and not arguments.tally:
        parser.error("give --into DIR, --tally or both")
    if arguments.into is not None:
        write_texts(arguments.count, arguments.seed, arguments.into)
    if arguments.tally and not tally(arguments.count, arguments.seed):
        return 1
    return 0


if __name__ == "__main__":
    sys.exit(main())
