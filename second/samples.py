#!/usr/bin/env python3
"""The texts of the samples in crates/samples; statements.py makes statements of them.

WRITTEN are texts written by hand, each for a sentence of document 01 that few generated texts come to, or none that is
small. PICKED are generated texts, by seed and number, of which at most 60 choices are taken. They are what
`statements.py --choose` prints.
"""

import textwrap
from typing import List, NamedTuple, Tuple

import generate
import namakviz

class Sample(NamedTuple):
    name: str
    shows: str
    text: bytes


def choice_lines(choices: str) -> List[str]:
    """`1*3 2:5` is three times machine 1, then machine 2 with bits 5."""
    lines = []
    for word in choices.split():
        choice, _, times = word.partition("*")
        machine, _, bits = choice.partition(":")
        lines += [f"choice={machine} bits={bits}" if bits else f"choice={machine}"] * int(times or 1)
    return lines


def written(name: str, shows: str, lines: str, choices: str = "") -> Sample:
    """A text written by hand: the lines of the program, then the choices."""
    return Sample(name, " ".join(shows.split()), generate.to_bytes(
        textwrap.dedent(lines).strip("\n").split("\n") + choice_lines(choices)))


def picked(seed: int, index: int, most_choices: int = 60) -> generate.Text:
    """A generated text, with its first choices only if it loads."""
    name, content = generate.make_text(seed, index)
    if isinstance(namakviz.load(content), namakviz.Loaded):
        lines = content.decode("latin-1").split("\n")[:-1]
        choices = [place for place, line in enumerate(lines) if line.startswith("choice=")]
        content = generate.to_bytes(lines[:choices[most_choices]] if len(choices) > most_choices else lines)
    return generate.Text(f"{name}-of-seed-{seed}", content)


# ---------------------------------------------------------------------------------------------------------------
# Texts that are refused
# ---------------------------------------------------------------------------------------------------------------

REFUSED = (
    Sample("one-byte-too-long", "60,001 bytes, and no other fault.", generate.to_bytes(generate.long_text(1))),
    written("no-start", '"for a missing `start`, the last line\'s number plus one, with choice lines or without"', """
        machine=1
        state=1 of=1 defer=none entry=0 exit=0
    """, "1*2"),
    Sample("no-last-LF", '"Lines end with LF, the last too."',
           b"event=1 type=int\nmachine=1\nstate=1 of=1 defer=none entry=0 exit=0\nstart=1\nchoice=1"),
    written("a-void-variable", "The own number out of sequence on the line behind it does not matter.", """
        machine=1
        var=1 of=1 type=void
        var=3 of=1 type=int
    """),
    written("not-ascending", "`defer=2,2`: ascending is strictly so.", """
        event=1 type=void
        event=2 type=void
        machine=1
        state=1 of=1 defer=2,2 entry=0 exit=0
        start=1
    """),
    written("two-before-three", '''
        "2 before 3" on one line: a minus where there is none, and the number 7 where 1 is due.
    ''', """
        machine=1
        expr=7 kind=var var=-1
        start=1
    """),
    written("val-out-of-range", "An int below the least one. The absent variable of line 3 does not matter yet.", """
        machine=1
        expr=1 kind=int val=-2147483648
        expr=2 kind=var var=9
        expr=3 kind=int val=-2147483649
        start=1
    """),
    written("new-into-an-int", '''
        "`new` into a variable not of type id" on line 4 comes before the 5 on line 3: "lower numbers first".
    ''', """
        machine=1
        var=1 of=1 type=int
        stmt=1 kind=seq first=1 second=0
        stmt=2 kind=new var=1 machine=1 init=none
        state=1 of=1 defer=none entry=2 exit=0
        start=1
    """),
    written("foreign-init", '"`init` variables are the created kind\'s, in a statement that serves none too"', """
        machine=1
        machine=2
        var=1 of=1 type=id
        var=2 of=1 type=int
        expr=1 kind=int val=1
        stmt=1 kind=new var=1 machine=2 init=2:1
        state=1 of=1 defer=none entry=0 exit=0
        state=2 of=2 defer=none entry=0 exit=0
        start=1
    """),
    written("foreign-after-five", '''
        "a foreign variable after 5": kind 2 reads a variable of kind 1 on line 4, and statement 1 is named twice on
        line 8.
    ''', """
        machine=1
        machine=2
        var=1 of=1 type=bool
        expr=1 kind=var var=1
        stmt=1 kind=assert expr=1
        action=1 of=2 do=1
        state=1 of=1 defer=none entry=0 exit=0
        state=2 of=2 defer=none entry=1 exit=0
        start=1
    """),
    written("foreign-variable", "The same without the doubling: the fault of the line that names the variable.", """
        machine=1
        machine=2
        var=1 of=1 type=bool
        expr=1 kind=var var=1
        stmt=1 kind=assert expr=1
        state=1 of=1 defer=none entry=0 exit=0
        state=2 of=2 defer=none entry=1 exit=0
        start=1
    """),
    written("a-call-beside-a-step", '''
        "two transitions ... for one state and event", at the later line; an action beside them is none.
    ''', """
        event=1 type=void
        machine=1
        action=1 of=1 do=0
        state=1 of=1 defer=1 entry=0 exit=0
        step=1 on=1 to=1
        call=1 on=1 to=1
        act=1 on=1 do=1
        start=1
    """),
    written("an-exit-that-leaves", '"an exit with raise, return or leave anywhere inside", at the state\'s line.', """
        event=1 type=void
        machine=1
        expr=1 kind=star
        stmt=1 kind=leave
        stmt=2 kind=while cond=1 body=1
        stmt=3 kind=seq first=0 second=2
        state=1 of=1 defer=none entry=0 exit=0
        state=2 of=1 defer=none entry=0 exit=3
        start=1
    """),
    Sample("nine-stars", '"At most 8 `*` in one statement": nine of them stand in the values of one `init`.',
           generate.to_bytes(generate.many_stars(1))),
    Sample("height-33", '"Nesting height of a statement or expression 32 (a leaf is 1, and so is 0 ...)"',
           generate.to_bytes(generate.high_statement(1))),
    written("a-kind-without-a-state", "Answer 9 has line 0.", """
        machine=1
        machine=2
        state=1 of=1 defer=none entry=0 exit=0
        start=1
    """, "1"),
)

# ---------------------------------------------------------------------------------------------------------------
# Texts that run
# ---------------------------------------------------------------------------------------------------------------

# Every machine creates another of its kind; it then creates one with a wrong `init` value.
CHAIN = """
    machine=1
    var=1 of=1 type=id
    var=2 of=1 type=bool
    expr=1 kind=int val=7
    stmt=1 kind=new var=1 machine=1 init=none
    stmt=2 kind=new var=1 machine=1 init=2:1
    stmt=3 kind=seq first=1 second=2
    state=1 of=1 defer=none entry=3 exit=0
    start=1
"""
CHAIN_CHOICES = " ".join(map(str, range(1, 32)))

# In a loop a machine sends itself two pairs each time. Behind the loop it sends a pair once more, then the value given.
FULL_QUEUE = """
    event=1 type=int
    event=2 type=int
    machine=1
    var=1 of=1 type=int
    expr=1 kind=int val=0
    expr=2 kind=this
    expr=3 kind=var var=1
    expr=4 kind=this
    expr=5 kind=var var=1
    expr=6 kind=var var=1
    expr=7 kind=int val=1
    expr=8 kind=add a=6 b=7
    expr=9 kind=star
    expr=10 kind=this
    expr=11 kind=int val=0
    expr=12 kind=this
    expr=13 kind={}
    stmt=1 kind=assign var=1 expr=1
    stmt=2 kind=send to=2 event=1 arg=3
    stmt=3 kind=send to=4 event=2 arg=5
    stmt=4 kind=assign var=1 expr=8
    stmt=5 kind=seq first=3 second=4
    stmt=6 kind=seq first=2 second=5
    stmt=7 kind=while cond=9 body=6
    stmt=8 kind=send to=10 event=1 arg=11
    stmt=9 kind=send to=12 event=1 arg=13
    stmt=10 kind=seq first=8 second=9
    stmt=11 kind=seq first=7 second=10
    stmt=12 kind=seq first=1 second=11
    state=1 of=1 defer=none entry=12 exit=0
    start=1
"""
FULL_QUEUE_CHOICES = "1:1*58 1*5"

RUN = (
    written("there-and-back", '''
        A machine is created with `init`, is sent its creator's id, and sends an int back to `arg`.
    ''', """
        event=1 type=id
        event=2 type=int
        machine=1
        machine=2
        var=1 of=1 type=id
        var=2 of=1 type=int
        var=3 of=2 type=int
        var=4 of=2 type=id
        expr=1 kind=int val=5
        expr=2 kind=this
        expr=3 kind=var var=1
        expr=4 kind=this
        expr=5 kind=arg
        expr=6 kind=var var=3
        expr=7 kind=neg a=6
        expr=8 kind=arg
        stmt=1 kind=new var=1 machine=2 init=3:1,4:2
        stmt=2 kind=send to=3 event=1 arg=4
        stmt=3 kind=seq first=1 second=2
        stmt=4 kind=send to=5 event=2 arg=7
        stmt=5 kind=assign var=2 expr=8
        action=1 of=2 do=4
        action=2 of=1 do=5
        state=1 of=1 defer=none entry=3 exit=0
        state=2 of=2 defer=none entry=0 exit=0
        act=1 on=2 do=2
        act=2 on=1 do=1
        start=1
    """, "1*3 2*4 1*4"),
    written("freed-rooms", '''
        "A creation takes the lowest free room, a deleted machine's too." Machines 4 and 5 come into the rooms of 2
        and 3.
    ''', """
        machine=1
        machine=2
        var=1 of=1 type=id
        var=2 of=1 type=id
        expr=1 kind=bool val=1
        stmt=1 kind=new var=1 machine=2 init=none
        stmt=2 kind=new var=2 machine=2 init=none
        stmt=3 kind=seq first=1 second=2
        stmt=4 kind=while cond=1 body=3
        stmt=5 kind=delete
        state=1 of=1 defer=none entry=4 exit=0
        state=2 of=2 defer=none entry=5 exit=0
        start=1
    """, "1*4 2 1*3 3 1*2 2"),
    written("a-room-in-between", '''
        The last configuration has a free room between two machines, and a pair went with the machine.
    ''', """
        event=1 type=bool
        machine=1
        machine=2
        var=1 of=1 type=id
        var=2 of=1 type=id
        expr=1 kind=var var=1
        expr=2 kind=star
        stmt=1 kind=new var=1 machine=2 init=none
        stmt=2 kind=new var=2 machine=2 init=none
        stmt=3 kind=send to=1 event=1 arg=2
        stmt=4 kind=seq first=2 second=3
        stmt=5 kind=seq first=1 second=4
        stmt=6 kind=delete
        state=1 of=1 defer=none entry=5 exit=0
        state=2 of=2 defer=none entry=6 exit=0
        start=1
    """, "1*4 1:1 2"),
    written("an-empty-stack", '''
        A machine whose stack is empty still takes pairs; chosen, it gives 13, though it is idle.
    ''', """
        event=1 type=void
        machine=1
        machine=2
        var=1 of=1 type=id
        expr=1 kind=var var=1
        stmt=1 kind=new var=1 machine=2 init=none
        stmt=2 kind=send to=1 event=1 arg=0
        stmt=3 kind=seq first=1 second=2
        stmt=4 kind=return
        state=1 of=1 defer=none entry=3 exit=0
        state=2 of=2 defer=none entry=4 exit=0
        start=1
    """, "1 2*3 1*2 2"),
    written("twelve-before-fifteen", '''
        "target before payload": the target is not live, and the payload is of the wrong type.
    ''', """
        event=1 type=int
        machine=1
        machine=2
        var=1 of=1 type=id
        expr=1 kind=var var=1
        expr=2 kind=bool val=1
        stmt=1 kind=new var=1 machine=2 init=none
        stmt=2 kind=send to=1 event=1 arg=2
        stmt=3 kind=seq first=1 second=2
        stmt=4 kind=delete
        state=1 of=1 defer=none entry=3 exit=0
        state=2 of=2 defer=none entry=4 exit=0
        start=1
    """, "1 2 1*2"),
    written("eleven-before-fifteen", '''
        "target before payload": the target is undefined, and the payload is of the wrong type.
    ''', """
        event=1 type=void
        machine=1
        expr=1 kind=bot
        expr=2 kind=this
        stmt=1 kind=send to=1 event=1 arg=2
        state=1 of=1 defer=none entry=1 exit=0
        start=1
    """, "1"),
    written("a-raise-of-the-wrong-type", "The payload of a raise is held to the event's type as well.", """
        event=1 type=int
        machine=1
        expr=1 kind=this
        stmt=1 kind=raise event=1 arg=1
        state=1 of=1 defer=none entry=1 exit=0
        step=1 on=1 to=1
        start=1
    """, "1"),
    written("no-room", "Every machine creates the next one, up to the 32 there may be.",
            CHAIN, CHAIN_CHOICES + " 32"),
    written("init-before-no-room", 'All rooms are taken and an `init` value is of the wrong type: "then 16 to 18".',
            CHAIN, CHAIN_CHOICES + " 1*2"),
    written("queue-full", "A queue of 16 takes a pair that waits in it already, and no other.",
            FULL_QUEUE.format("var var=1"), FULL_QUEUE_CHOICES),
    written("payload-before-queue-full", 'The queue is full and the payload is of the wrong type: "then 16 to 18".',
            FULL_QUEUE.format("bool val=1"), FULL_QUEUE_CHOICES),
    written("assert-of-undefined", "The condition is undefined, which is not false.", """
        machine=1
        var=1 of=1 type=bool
        expr=1 kind=var var=1
        stmt=1 kind=assert expr=1
        state=1 of=1 defer=none entry=1 exit=0
        start=1
    """, "1*2"),
    written("own-deferral-and-map-action", '''
        State 2 defers event 2, for which its caller has an action. A raise of 2 finds the map's action; a pair of 2
        is held back.
    ''', """
        event=1 type=void
        event=2 type=void
        machine=1
        expr=1 kind=this
        stmt=1 kind=send to=1 event=2 arg=0
        stmt=2 kind=raise event=1 arg=0
        stmt=3 kind=seq first=1 second=2
        stmt=4 kind=raise event=2 arg=0
        action=1 of=1 do=0
        state=1 of=1 defer=none entry=3 exit=0
        state=2 of=1 defer=2 entry=4 exit=0
        call=1 on=1 to=2
        act=1 on=2 do=1
        start=1
    """, "1*9"),
    written("pop1-through-two-frames", '''
        "After POP1 no further exit is put in": the exit of state 3 runs, that of state 2 does not. The step keeps the
        first map.
    ''', """
        event=1 type=void
        event=2 type=int
        machine=1
        var=1 of=1 type=int
        expr=1 kind=bool val=0
        expr=2 kind=int val=7
        expr=3 kind=bool val=1
        expr=4 kind=arg
        stmt=1 kind=raise event=1 arg=0
        stmt=2 kind=raise event=1 arg=0
        stmt=3 kind=raise event=2 arg=2
        stmt=4 kind=assert expr=1
        stmt=5 kind=assert expr=3
        stmt=6 kind=assign var=1 expr=4
        state=1 of=1 defer=none entry=1 exit=0
        state=2 of=1 defer=none entry=2 exit=4
        state=3 of=1 defer=none entry=3 exit=5
        state=4 of=1 defer=none entry=6 exit=0
        step=1 on=2 to=4
        call=1 on=1 to=2
        call=2 on=1 to=3
        start=1
    """, "1*13"),
    written("an-action-behind-pop1", '''
        State 2 defers event 2 and hands that on, so that a raise of 2 pops state 3. State 2's own map has the action
        of state 1 for it.
    ''', """
        event=1 type=void
        event=2 type=event
        machine=1
        var=1 of=1 type=event
        expr=1 kind=msg
        expr=2 kind=arg
        stmt=1 kind=raise event=1 arg=0
        stmt=2 kind=raise event=1 arg=0
        stmt=3 kind=raise event=2 arg=1
        stmt=4 kind=assign var=1 expr=2
        action=1 of=1 do=4
        state=1 of=1 defer=none entry=1 exit=0
        state=2 of=1 defer=2 entry=2 exit=0
        state=3 of=1 defer=none entry=3 exit=0
        call=1 on=1 to=2
        call=2 on=1 to=3
        act=1 on=2 do=1
        start=1
    """, "1*11"),
    written("a-return", '''
        "A pop brings back the caller's own" map. State 2 has the action of state 1 in its map and steps to state 3
        with it; in state 1 again, a pair of event 2 finds the state's own action.
    ''', """
        event=1 type=void
        event=2 type=void
        event=3 type=void
        machine=1
        expr=1 kind=this
        expr=2 kind=this
        expr=3 kind=bool val=1
        stmt=1 kind=send to=1 event=3 arg=0
        stmt=2 kind=raise event=1 arg=0
        stmt=3 kind=seq first=1 second=2
        stmt=4 kind=send to=2 event=2 arg=0
        stmt=5 kind=return
        stmt=6 kind=seq first=4 second=5
        stmt=7 kind=assert expr=3
        action=1 of=1 do=7
        state=1 of=1 defer=3 entry=3 exit=0
        state=2 of=1 defer=none entry=0 exit=0
        state=3 of=1 defer=none entry=6 exit=0
        step=2 on=3 to=3
        call=1 on=1 to=2
        act=1 on=2 do=1
        start=1
    """, "1*16"),
    written("inherited-deferral", '''
        State 1 defers events 2 and 3; state 2, called, has a step on 3 and says nothing of 2. 3 is taken from behind
        2, and then 2 is still held back.
    ''', """
        event=1 type=void
        event=2 type=void
        event=3 type=void
        machine=1
        expr=1 kind=this
        expr=2 kind=this
        stmt=1 kind=send to=1 event=2 arg=0
        stmt=2 kind=send to=2 event=3 arg=0
        stmt=3 kind=raise event=1 arg=0
        stmt=4 kind=seq first=2 second=3
        stmt=5 kind=seq first=1 second=4
        state=1 of=1 defer=2,3 entry=5 exit=0
        state=2 of=1 defer=none entry=0 exit=0
        step=2 on=3 to=2
        call=1 on=1 to=2
        start=1
    """, "1*11"),
    written("old-entries", '''
        The map of state 3, called by state 2: of event 2 the old entry (deferred by state 1), of 3 the old entry (an
        action of state 1), of 4 nothing and of 5 nothing, where state 2 has a transition, of 6 the action of state 2.
    ''', """
        event=1 type=void
        event=2 type=void
        event=3 type=void
        event=4 type=void
        event=5 type=void
        event=6 type=void
        machine=1
        expr=1 kind=this
        expr=2 kind=this
        stmt=1 kind=send to=1 event=2 arg=0
        stmt=2 kind=send to=2 event=3 arg=0
        stmt=3 kind=raise event=1 arg=0
        stmt=4 kind=seq first=2 second=3
        stmt=5 kind=seq first=1 second=4
        stmt=6 kind=raise event=4 arg=0
        action=1 of=1 do=0
        action=2 of=1 do=0
        state=1 of=1 defer=2,6 entry=5 exit=0
        state=2 of=1 defer=none entry=6 exit=0
        state=3 of=1 defer=none entry=0 exit=0
        step=2 on=5 to=1
        call=1 on=1 to=2
        call=2 on=4 to=3
        act=1 on=3 do=1
        act=1 on=5 do=1
        act=2 on=6 do=2
        start=1
    """, "1*14"),
    written("the-rest-is-dropped", '''
        "RAISE, LEAVE and RETURN drop the rest of the row": a false assertion behind each of them.
    ''', """
        event=1 type=void
        event=2 type=void
        machine=1
        expr=1 kind=this
        expr=2 kind=bool val=0
        expr=3 kind=bool val=0
        expr=4 kind=bool val=0
        stmt=1 kind=send to=1 event=2 arg=0
        stmt=2 kind=raise event=1 arg=0
        stmt=3 kind=assert expr=2
        stmt=4 kind=seq first=2 second=3
        stmt=5 kind=seq first=1 second=4
        stmt=6 kind=leave
        stmt=7 kind=assert expr=3
        stmt=8 kind=seq first=6 second=7
        stmt=9 kind=return
        stmt=10 kind=assert expr=4
        stmt=11 kind=seq first=9 second=10
        state=1 of=1 defer=none entry=5 exit=0
        state=2 of=1 defer=none entry=8 exit=0
        state=3 of=1 defer=none entry=11 exit=0
        step=2 on=2 to=3
        call=1 on=1 to=2
        start=1
    """, "1*12"),
    written("edges-of-ints", '''
        2147483647+1 and neg -2147483648 are undefined; -2147483647-1 is the least int; false and undefined is
        undefined.
    ''', """
        machine=1
        var=1 of=1 type=int
        var=2 of=1 type=int
        var=3 of=1 type=int
        var=4 of=1 type=bool
        var=5 of=1 type=bool
        var=6 of=1 type=bool
        expr=1 kind=int val=2147483647
        expr=2 kind=int val=1
        expr=3 kind=add a=1 b=2
        expr=4 kind=int val=-2147483648
        expr=5 kind=neg a=4
        expr=6 kind=int val=-2147483647
        expr=7 kind=int val=1
        expr=8 kind=sub a=6 b=7
        expr=9 kind=bool val=0
        expr=10 kind=bot
        expr=11 kind=and a=9 b=10
        expr=12 kind=bool val=0
        expr=13 kind=int val=1
        expr=14 kind=not a=13
        expr=15 kind=not a=12
        expr=16 kind=or a=14 b=15
        expr=17 kind=int val=3
        expr=18 kind=bool val=1
        expr=19 kind=bool val=0
        expr=20 kind=and a=18 b=19
        stmt=1 kind=assign var=1 expr=17
        stmt=2 kind=assign var=1 expr=3
        stmt=3 kind=assign var=2 expr=5
        stmt=4 kind=assign var=3 expr=8
        stmt=5 kind=assign var=4 expr=11
        stmt=6 kind=assign var=5 expr=16
        stmt=7 kind=seq first=1 second=2
        stmt=8 kind=seq first=7 second=3
        stmt=9 kind=seq first=8 second=4
        stmt=10 kind=seq first=9 second=5
        stmt=11 kind=seq first=10 second=6
        stmt=12 kind=assign var=6 expr=20
        stmt=13 kind=seq first=11 second=12
        state=1 of=1 defer=none entry=13 exit=0
        start=1
    """, "1*13"),
    written("stars-over-init", '''
        "counted from 0 left to right": over the values of `init`, whatever the numbers of the expressions.
    ''', """
        machine=1
        var=1 of=1 type=id
        var=2 of=1 type=bool
        var=3 of=1 type=bool
        var=4 of=1 type=bool
        expr=1 kind=star
        expr=2 kind=star
        expr=3 kind=star
        expr=4 kind=star
        expr=5 kind=not a=2
        expr=6 kind=or a=4 b=1
        stmt=1 kind=new var=1 machine=1 init=2:6,3:3,4:5
        state=1 of=1 defer=none entry=1 exit=0
        start=1
    """, "1:2 2:12 3:4"),
    written("undefined-pairs", '''
        Undefined equals undefined: the second pair of event 1 is left out. Then `msg` is an event to send.
    ''', """
        event=1 type=event
        machine=1
        var=1 of=1 type=event
        expr=1 kind=this
        expr=2 kind=msg
        expr=3 kind=this
        expr=4 kind=var var=1
        expr=5 kind=msg
        expr=6 kind=this
        expr=7 kind=msg
        stmt=1 kind=send to=1 event=1 arg=2
        stmt=2 kind=send to=3 event=1 arg=4
        stmt=3 kind=seq first=1 second=2
        stmt=4 kind=assign var=1 expr=5
        stmt=5 kind=send to=6 event=1 arg=7
        stmt=6 kind=seq first=4 second=5
        action=1 of=1 do=6
        state=1 of=1 defer=none entry=3 exit=0
        act=1 on=1 do=1
        start=1
    """, "1*12"),
    written("an-exit-at-work", '''
        The exit of state 1 sends and creates before the step; the machine created chooses a branch and a loop by its
        bits.
    ''', """
        event=1 type=int
        machine=1
        machine=2
        var=1 of=1 type=id
        var=2 of=2 type=int
        expr=1 kind=int val=-1
        expr=2 kind=this
        expr=3 kind=int val=4
        expr=4 kind=star
        expr=5 kind=star
        expr=6 kind=and a=4 b=5
        expr=7 kind=int val=8
        expr=8 kind=star
        expr=9 kind=var var=2
        expr=10 kind=int val=10
        expr=11 kind=sub a=9 b=10
        stmt=1 kind=raise event=1 arg=1
        stmt=2 kind=send to=2 event=1 arg=3
        stmt=3 kind=new var=1 machine=2 init=none
        stmt=4 kind=seq first=2 second=3
        stmt=5 kind=assign var=2 expr=7
        stmt=6 kind=if cond=6 then=5 else=0
        stmt=7 kind=assign var=2 expr=11
        stmt=8 kind=while cond=8 body=7
        stmt=9 kind=seq first=6 second=8
        stmt=10 kind=skip
        state=1 of=1 defer=none entry=1 exit=4
        state=2 of=1 defer=none entry=10 exit=0
        state=3 of=2 defer=none entry=9 exit=0
        step=1 on=1 to=2
        start=1
    """, "1*6 2:3 2*2 2:1 2*2 2 1*3"),
)

WRITTEN = REFUSED + RUN

# ---------------------------------------------------------------------------------------------------------------
# Generated texts, by seed and number
# ---------------------------------------------------------------------------------------------------------------

PICKED: Tuple[Tuple[int, int], ...] = (
    (3, 432), (2, 233), (2, 182), (3, 332), (1, 293), (3, 253), (1, 361), (1, 220), (2, 290), (1, 100), (1, 360),
    (3, 190), (2, 20), (1, 34), (2, 42), (1, 183),
)
