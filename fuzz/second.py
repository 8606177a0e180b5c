#!/usr/bin/env python3
"""Compares cases of the fuzzer with the second program.

    fuzz/second.py < CASES

A case is a line of JSON: what was handed to the static library, and what it answered and left (fuzz/src/told.rs).
Tables and rooms are read here as the comments of crates/tables and crates/configs say; what a program, a configuration
and a list then are, and what every function answers, is the second program's to say. Tables are read as the lines of
a text, which is loaded: a refusal of that text is answer 20 of those tables. Only tables whose lines are longer than a
text may be are left out.

The exit status is 0 only if there was a case and nothing differs.
"""

import copy
import json
import sys
from pathlib import Path
from typing import Dict, List, Optional

HERE = Path(__file__).resolve().parent
FOLDER = HERE.parent / "target" / "fuzz"
sys.path.insert(0, str(HERE.parent / "second"))

import namakviz  # noqa: E402
from namakviz import Choice, Config, Frame, Machine, Pair, PendingRaise, Program, Refused, Value  # noqa: E402

EVENTS, VARIABLES, STACK, QUEUE, ROW = 64, 16, 8, 16, 33
CODES = 2 ** 32
PAIRS = 2 ** 40

# Rules are numbered from 1, in the order of document 01's list.
RULES = ("ASSIGN", "NEW", "DELETE", "ASSERT", "SEQ", "IF", "WHILE", "SEND", "RAISE", "LEAVE", "RETURN", "DEQUEUE",
         "STEP", "ACTION", "CALL", "POP1", "POP2")


class Differs(Exception):
    """What the library and the second program do not agree on."""


def demand(what: str, ours, second) -> None:
    if ours != second:
        raise Differs(f"{what}: {str(ours)[:300]}, the second program {str(second)[:300]}")


# ---------------------------------------------------------------------------------------------------------------
# Tables read as the lines of a text
# ---------------------------------------------------------------------------------------------------------------

class Row(list):
    """An array whose zeros at the end were left out."""

    def at(self, place: int) -> int:
        return self[place] if place < len(self) else 0


EXPRS = ("bot", "int val={value}", "bool val={truth}", "var var={a}", "this", "msg", "arg", "star", "not a={a}",
         "neg a={a}", "add a={a} b={b}", "sub a={a} b={b}", "and a={a} b={b}", "or a={a} b={b}")
STMTS = ("skip", "assign var={x} expr={y}", "new var={x} machine={low_y} init={init}", "delete",
         "send to={x} event={low_y} arg={z}", "raise event={low_x} arg={y}", "leave", "return", "assert expr={x}",
         "seq first={x} second={y}", "if cond={x} then={y} else={z}", "while cond={x} body={y}")


def named(names: tuple, number: int) -> str:
    """A word that names no kind is `void`, `bot` or `skip`: the first of its list."""
    return names[number] if number < len(names) else names[0]


def expr_line(row: List[int]) -> str:
    kind, x, y = row
    return named(EXPRS, kind).format(value=x - 2 ** 31, truth=int(x == 1), a=min(x, 65535), b=min(y, 65535))


def stmt_line(row: List[int], inits: Row) -> str:
    kind, x, y, z, n = row
    pairs = [f"{inits.at(2 * place)}:{inits.at(2 * place + 1)}" for place in range(z, min(z + n, 15000)) if kind == 2]
    init = ",".join(pairs) or "none"
    return named(STMTS, kind).format(x=x, y=y, z=z, low_x=min(x, 255), low_y=min(y, 255), init=init)


def move_lines(moves: Row, first: int, count: int, form: str) -> List[str]:
    return [form.format(*(moves.at(3 * place + column) for column in range(3)))
            for place in range(min(first, 4096), min(first + count, 4096))]


def lines_of(tables: Dict) -> bytes:
    """The program's lines, up to `start`."""
    t = {name: Row(value) if isinstance(value, list) else value for name, value in tables.items()}
    lines = [f"event={n} type={named(namakviz.TYPES, t['event_types'].at(n))}"
             for n in numbers(t["event_types"], EVENTS)]
    lines += [f"machine={n}" for n in range(1, t["kinds"] + 1)]
    lines += [f"var={n} of={min(t['variable_of'].at(n), 255)} type={named(namakviz.TYPES, t['variable_type'].at(n))}"
              for n in numbers(t["variable_of"], 256)]
    lines += [f"expr={n} kind=" + expr_line([t["exprs"].at(3 * n + column) for column in range(3)])
              for n in numbers(t["exprs"], 1024)]
    lines += [f"stmt={n} kind=" + stmt_line([t["stmts"].at(5 * n + column) for column in range(5)], t["inits"])
              for n in numbers(t["stmts"], 1024)]
    lines += [f"action={n} of={t['action_of'].at(n)} do={t['action_body'].at(n)}" for n in numbers(t["action_of"], 64)]
    for n in numbers(t["state_of"], 64):
        deferred = [str(event) for event in range(1, EVENTS + 1) if t["defers"].at(65 * n + event)]
        lines.append(f"state={n} of={t['state_of'].at(n)} defer={','.join(deferred) or 'none'}"
                     f" entry={t['state_entry'].at(n)} exit={t['state_exit'].at(n)}")
    lines += move_lines(t["moves"], 0, t["steps"], "step={} on={} to={}")
    lines += move_lines(t["moves"], t["steps"], t["calls"], "call={} on={} to={}")
    lines += move_lines(t["moves"], t["steps"] + t["calls"], t["acts"], "act={} on={} do={}")
    lines.append(f"start={t['start']}")
    return "".join(line + "\n" for line in lines).encode("ascii")


def numbers(table: Row, size: int) -> range:
    """The numbers of a table: its place 0 says how many, and it has no more than its size."""
    return range(1, min(table.at(0), size) + 1)


# ---------------------------------------------------------------------------------------------------------------
# Rooms read as a configuration, and written
# ---------------------------------------------------------------------------------------------------------------

VALUE_TYPES = ("undefined", "bool", "int", "event", "id")
DEFERRED_CODE = 255


class NotOne(Exception):
    """Not a configuration: a count beyond its array, or a number that nothing is written as."""


def value_of(code: int) -> Optional[Value]:
    kind, content = divmod(code, CODES)
    if code == 0:
        return None
    if not 1 <= kind <= 4 or kind == 1 and content > 1:
        raise NotOne
    if kind == 1:
        return Value("bool", content == 1)
    return Value(VALUE_TYPES[kind], content - 2 ** 31 if kind == 2 else content)


def value_code(value: Optional[Value]) -> int:
    if value is None:
        return 0
    content = value.content + 2 ** 31 if value.type == "int" else int(value.content)
    return VALUE_TYPES.index(value.type) * CODES + content


def pair_of(code: int) -> Pair:
    event, rest = divmod(code, PAIRS)
    return Pair(event, value_of(rest))


def pair_code(pair) -> int:
    return pair.event * PAIRS + value_code(pair.value)


def entry_of(code: int):
    return {0: namakviz.NOTHING, DEFERRED_CODE: namakviz.DEFERRED}.get(code, code)


def entry_code(entry) -> int:
    return {namakviz.NOTHING: 0, namakviz.DEFERRED: DEFERRED_CODE}.get(entry, entry)


def machine_of(program: Program, room: Dict) -> Machine:
    """The machine in a room; the stack's last frame is its top, and the row's last part its head."""
    if room["depth"] > STACK or room["count"] > ROW or room["waiting"] > QUEUE or room["kind"] not in program.machines:
        raise NotOne
    states, maps, values, parts, pairs = (Row(room[name]) for name in ("states", "maps", "values", "parts", "pairs"))
    frames = [Frame(states.at(place),
                    {event: entry_of(maps.at(EVENTS * place + event - 1)) for event in program.events})
              for place in range(room["depth"])]
    this = value_of(values.at(VARIABLES))
    held = room["held"]
    return Machine(
        number=room["this"],
        kind=room["kind"],
        stack=frames[::-1],
        variables=[value_of(values.at(place)) for place in range(len(program.variables_of[room["kind"]]))],
        this=this.content if this is not None and this.type == "id" else 0,
        msg=value_of(values.at(VARIABLES + 1)),
        arg=value_of(values.at(VARIABLES + 2)),
        row=[parts.at(place) for place in range(room["count"])][::-1],
        pending=(None, namakviz.PENDING_RETURN)[held] if held < 2 else PendingRaise(*pair_of(held)),
        queue=[pair_of(pairs.at(place)) for place in range(room["waiting"])],
    )


def trimmed(row: List[int]) -> List[int]:
    """Without the zeros at the end."""
    while row and row[-1] == 0:
        row.pop()
    return row


def room_of(machine: Optional[Machine]) -> Optional[Dict]:
    """The room of a machine as the fuzzer writes it: what no place is written to is zero."""
    if machine is None:
        return None
    frames = machine.stack[::-1]
    maps = [0] * (STACK * EVENTS)
    for place, frame in enumerate(frames):
        for event, entry in frame.map.items():
            maps[EVENTS * place + event - 1] = entry_code(entry)
    unused = [None] * (VARIABLES - len(machine.variables))
    values = [*machine.variables, *unused, Value("id", machine.this), machine.msg, machine.arg]
    pending = machine.pending
    return {
        "this": machine.number,
        "kind": machine.kind,
        "depth": len(frames),
        "states": trimmed([frame.state for frame in frames]),
        "maps": trimmed(maps),
        "values": trimmed([value_code(value) for value in values]),
        "count": len(machine.row),
        "parts": trimmed(machine.row[::-1]),
        "held": 0 if pending is None else 1 if pending == namakviz.PENDING_RETURN else pair_code(pending),
        "waiting": len(machine.queue),
        "pairs": trimmed([pair_code(pair) for pair in machine.queue]),
    }


def written(config: Config) -> Dict:
    return {"next": config.next, "rooms": [room_of(machine) for machine in config.rooms]}


def config_of(program: Program, held: Dict) -> Optional[Config]:
    """The configuration, None where it is not one: "unused places are zero" is that written again it is the same."""
    try:
        rooms = [None if room is None or room["this"] == 0 else machine_of(program, room) for room in held["rooms"]]
    except NotOne:
        return None
    config = Config(rooms, held["next"])
    return config if namakviz.accepted(program, config) and written(config) == held else None


# ---------------------------------------------------------------------------------------------------------------
# A case
# ---------------------------------------------------------------------------------------------------------------

NOBODY = {"next": 1, "rooms": [None] * namakviz.MAX_LIVE_MACHINES}


def compare_load(case: Dict) -> None:
    """The answer and the line; what is loaded, written as lines, is the text again, without its choices."""
    text = case["text"].encode("latin-1")
    ours = case["load"]
    loaded = namakviz.load(text)
    if isinstance(loaded, Refused):
        demand("load", (ours["answer"], ours["line"]), tuple(loaded))
        demand("load: nothing is loaded", (lines_of(ours["program"]), ours["choices"]), (b"start=0\n", []))
        return
    demand("load", (ours["answer"], ours["line"]), (0, 0))
    program_lines = [line for line in text.splitlines(keepends=True) if not line.startswith(b"choice")]
    demand("load: the program's lines", lines_of(ours["program"]), b"".join(program_lines))
    demand("load: the choices", ours["choices"], [256 * choice.machine + choice.bits for choice in loaded.choices])


def sound_program(tables: Dict) -> Optional[Program]:
    """The program of tables; None where 20 is the answer: "the program breaks 3 to 9, has a void variable or a list not
    ascending"."""
    loaded = namakviz.load(lines_of(tables))
    return None if isinstance(loaded, Refused) else loaded.program


def compare_calls(case: Dict, program: Optional[Program]) -> None:
    """Every function but load."""
    begun = NOBODY if program is None else written(namakviz.start(program))
    demand("start", case["start"], {"answer": 20 if program is None else 0, "config": begun})
    config = None if program is None else config_of(program, case["config"])
    compare_step(case, program, config)
    compare_run(case, program, config)
    compare_regroup(case, program, config)
    compare_shown(case, config)


def left(case: Dict, config: Config) -> Optional[Dict]:
    """A configuration that a call leaves, None where it is as it was."""
    held = written(config)
    return None if held == case["config"] else held


def compare_step(case: Dict, program: Optional[Program], config: Optional[Config]) -> None:
    if config is None:
        demand("step", case["step"], {"answer": 20, "rule": 0, "config": None})
        return
    after = copy.deepcopy(config)
    answer, rule = namakviz.step(program, after, case["machine"], case["bits"])
    number = 0 if rule is None else RULES.index(rule) + 1
    demand("step", case["step"], {"answer": answer, "rule": number, "config": left(case, after)})


def choices_of(case: Dict) -> List[Choice]:
    return [Choice(*divmod(word, 256)) for word in case["list"]]


def compare_run(case: Dict, program: Optional[Program], config: Optional[Config]) -> None:
    if config is None:
        demand("run", case["run"], {"answer": 20, "place": 0, "steps": 0, "rules": [], "config": None})
        return
    after = copy.deepcopy(config)
    result = namakviz.run(program, after, choices_of(case))
    rules = [RULES.index(rule) + 1 for rule in result.rules]
    demand("run", case["run"], {"answer": result.answer, "place": result.place, "steps": result.steps, "rules": rules,
                                "config": left(case, after)})


def compare_regroup(case: Dict, program: Optional[Program], config: Optional[Config]) -> None:
    """Regroup "gives 20, 3, 21, 22 in that order"; the second program has no buffer, and so no 21."""
    if config is None:
        demand("regroup", case["regroup"], {"answer": 20, "list": []})
        return
    answer, choices = namakviz.regroup(program, config, choices_of(case))
    if answer != namakviz.OUT_OF_RANGE and case["room"] < len(case["list"]):
        answer, choices = 21, []
    demand("regroup", case["regroup"], {"answer": answer, "list": [256 * machine + bits for machine, bits in choices]})


def compare_shown(case: Dict, config: Optional[Config]) -> None:
    """fit, live and machine: what is shown of a machine are its kind, stack, variables and queue."""
    answer = 20 if config is None else 0
    demand("fit", case["fit"], answer)
    live = [] if config is None else [machine.number for machine in config.live_machines()]
    demand("live", case["live"], {"answer": answer, "machines": live})
    machine = None if config is None else config.find(case["machine"])
    if machine is None:
        nothing = {"kind": 0, "depth": 0, "state": 0, "values": [], "pairs": []}
        demand("machine", case["shown"], {"answer": 20 if config is None else 19, **nothing})
        return
    demand("machine", case["shown"], {
        "answer": 0,
        "kind": machine.kind,
        "depth": len(machine.stack),
        "state": machine.stack[0].state if machine.stack else 0,
        "values": [value_code(value) for value in machine.variables],
        "pairs": [pair_code(pair) for pair in machine.queue],
    })


def main() -> int:
    compared = left_out = 0
    for line in sys.stdin.buffer:
        case = json.loads(line)
        compared += 1
        try:
            compare_load(case)
            if len(lines_of(case["program"])) > namakviz.MAX_TEXT:
                left_out += 1
            else:
                compare_calls(case, sound_program(case["program"]))
        except Differs as difference:
            file = FOLDER / f"case-{case['seed']}-{case['case']}.json"
            FOLDER.mkdir(parents=True, exist_ok=True)
            file.write_bytes(line)
            print(f"the case is in {file}")
            print(f"seed {case['seed']}, case {case['case']}: {difference}")
            return 1
    print(f"the second program: {compared} cases, nothing differs; of {left_out} it could say the text only")
    return 0 if compared else 1


if __name__ == "__main__":
    sys.exit(main())
