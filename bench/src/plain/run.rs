//! The step, its rules, and the run over a list of choices.

use super::machine::{accepts, Config, Entry, Frame, Machine, Pair, Pending};
use super::program::{Choice, Expr, Number, Program, Stmt, Type, Value};
use super::sound::sound;
use super::{Answer, CHOICES, EVENTS, LIVE_NUMBERS, QUEUE, STACK};

#[derive(Clone, Copy, PartialEq, Eq, Debug)]
#[repr(u8)]
pub enum Rule {
    Assign,
    New,
    Delete,
    Assert,
    Seq,
    If,
    While,
    Send,
    Raise,
    Leave,
    Return,
    Dequeue,
    Step,
    Action,
    Call,
    Pop1,
    Pop2,
}

impl Rule {
    pub fn name(self) -> &'static str {
        match self {
            Rule::Assign => "ASSIGN",
            Rule::New => "NEW",
            Rule::Delete => "DELETE",
            Rule::Assert => "ASSERT",
            Rule::Seq => "SEQ",
            Rule::If => "IF",
            Rule::While => "WHILE",
            Rule::Send => "SEND",
            Rule::Raise => "RAISE",
            Rule::Leave => "LEAVE",
            Rule::Return => "RETURN",
            Rule::Dequeue => "DEQUEUE",
            Rule::Step => "STEP",
            Rule::Action => "ACTION",
            Rule::Call => "CALL",
            Rule::Pop1 => "POP1",
            Rule::Pop2 => "POP2",
        }
    }

    pub fn is_meeting(self) -> bool {
        matches!(self, Rule::New | Rule::Send | Rule::Delete | Rule::Dequeue)
    }
}

/// Expressions of one statement at work: the machine that they are worked out in, and the bits that the stars have left.
struct Evaluation<'a> {
    program: &'a Program,
    machine: &'a Machine,
    bits: u8,
}

impl<'a> Evaluation<'a> {
    fn new(program: &'a Program, machine: &'a Machine, bits: u8) -> Evaluation<'a> {
        Evaluation { program, machine, bits }
    }

    fn value(&mut self, expr: Number) -> Value {
        match self.program.expr(expr) {
            Expr::Add(a, b) => self.ints(a, b, i32::checked_add),
            Expr::Sub(a, b) => self.ints(a, b, i32::checked_sub),
            Expr::And(a, b) => self.bools(a, b, |x, y| x && y),
            Expr::Or(a, b) => self.bools(a, b, |x, y| x || y),
            Expr::Not(a) => match self.value(a) {
                Value::Bool(x) => Value::Bool(!x),
                _ => Value::Undefined,
            },
            Expr::Neg(a) => match self.value(a) {
                Value::Int(x) => x.checked_neg().map_or(Value::Undefined, Value::Int),
                _ => Value::Undefined,
            },
            Expr::Int(x) => Value::Int(x),
            Expr::Bool(x) => Value::Bool(x),
            Expr::Var(variable) => self.machine.variables[self.program.places[variable as usize] as usize],
            Expr::This => Value::Id(self.machine.this),
            Expr::Msg => self.machine.msg,
            Expr::Arg => self.machine.arg,
            Expr::Bot => Value::Undefined,
            Expr::Star => {
                let bit = self.bits & 1;
                self.bits >>= 1;
                Value::Bool(bit == 1)
            }
        }
    }

    fn ints(&mut self, a: Number, b: Number, apply: impl Fn(i32, i32) -> Option<i32>) -> Value {
        match (self.value(a), self.value(b)) {
            (Value::Int(x), Value::Int(y)) => apply(x, y).map_or(Value::Undefined, Value::Int),
            _ => Value::Undefined,
        }
    }

    fn bools(&mut self, a: Number, b: Number, apply: impl Fn(bool, bool) -> bool) -> Value {
        match (self.value(a), self.value(b)) {
            (Value::Bool(x), Value::Bool(y)) => Value::Bool(apply(x, y)),
            _ => Value::Undefined,
        }
    }

    /// 15: a value neither undefined nor of the wanted type.
    fn typed(&mut self, expr: Number, wanted: Type) -> Result<Value, Answer> {
        let value = self.value(expr);
        if value.suits(wanted) {
            Ok(value)
        } else {
            Err(15)
        }
    }

    /// 14: a condition that is not a bool.
    fn condition(&mut self, expr: Number) -> Result<bool, Answer> {
        match self.value(expr) {
            Value::Bool(x) => Ok(x),
            _ => Err(14),
        }
    }
}

/// One choice, in the configuration itself, which must be one of this program. A refused choice changes nothing.
pub fn step(program: &Program, config: &mut Config, choice: Choice) -> Result<Rule, Answer> {
    let room = config.room_of(choice.machine).ok_or(19)?;
    let machine = config.rooms[room].as_mut().ok_or(19)?;
    if machine.stack.is_empty() {
        return Err(13);
    }
    match machine.row.last() {
        Some(&head) => take_head(program, config, room, head, choice.bits),
        None => match machine.pending {
            Pending::Nothing => dequeue(program, machine),
            Pending::Return => Ok(pop_for_return(machine)),
            Pending::Raise(pair) => handle(program, machine, pair),
        },
    }
}

/// One choice of anything: 20 where the program or the configuration is not one.
pub fn checked_step(program: &Program, config: &mut Config, choice: Choice) -> Result<Rule, Answer> {
    if !sound(program) || !accepts(program, config) {
        return Err(20);
    }
    step(program, config, choice)
}

/// The rule of the statement at the head of the row.
fn take_head(program: &Program, config: &mut Config, room: usize, head: Number, bits: u8) -> Result<Rule, Answer> {
    let stmt = program.stmt(head);
    match *stmt {
        Stmt::Send { to, event, arg } => return send(program, config, room, to, event, arg, bits),
        Stmt::New { var, machine, ref init } => return create(program, config, room, var, machine, init, bits),
        Stmt::Delete => {
            config.numbers[room] = 0;
            config.rooms[room] = None;
            return Ok(Rule::Delete);
        }
        _ => {}
    }
    let machine = config.rooms[room].as_mut().ok_or(19)?;
    match *stmt {
        Stmt::Skip => {
            machine.row.pop();
            machine.settle(program);
            Ok(Rule::Seq)
        }
        Stmt::Assign { var, expr } => {
            let value = Evaluation::new(program, machine, bits).typed(expr, program.variable_type(var))?;
            machine.variables[program.places[var as usize] as usize] = value;
            machine.finish_head();
            Ok(Rule::Assign)
        }
        Stmt::Assert { expr } => {
            if !Evaluation::new(program, machine, bits).condition(expr)? {
                return Err(10);
            }
            machine.finish_head();
            Ok(Rule::Assert)
        }
        Stmt::If { cond, then, other } => {
            let taken = if Evaluation::new(program, machine, bits).condition(cond)? { then } else { other };
            machine.row.pop();
            machine.row.push(taken);
            machine.settle(program);
            Ok(Rule::If)
        }
        Stmt::While { cond, body } => {
            if Evaluation::new(program, machine, bits).condition(cond)? {
                machine.row.push(body);
                machine.settle(program);
            } else {
                machine.finish_head();
            }
            Ok(Rule::While)
        }
        Stmt::Raise { event, arg } => {
            let wanted = program.tables.events[event as usize];
            let value = Evaluation::new(program, machine, bits).typed(arg, wanted)?;
            begin_raise(program, machine, Pair { event: event as u8, value });
            Ok(Rule::Raise)
        }
        Stmt::Leave => {
            machine.remain(program, 0, Pending::Nothing);
            Ok(Rule::Leave)
        }
        Stmt::Return => {
            let exit = program.tables.states[top(machine).state as usize].exit;
            machine.remain(program, exit, Pending::Return);
            Ok(Rule::Return)
        }
        Stmt::Seq { .. } | Stmt::Send { .. } | Stmt::New { .. } | Stmt::Delete => unreachable!("taken above, or never at the head"),
    }
}

fn top(machine: &Machine) -> &Frame {
    machine.stack.last().expect("an empty stack was refused with 13")
}

fn send(program: &Program, config: &mut Config, room: usize, to: Number, event: Number, arg: Number, bits: u8) -> Result<Rule, Answer> {
    let machine = config.rooms[room].as_ref().ok_or(19)?;
    let mut evaluation = Evaluation::new(program, machine, bits);
    let target = match evaluation.value(to) {
        Value::Undefined => return Err(11),
        Value::Id(number) => config.room_of(number).ok_or(12)?,
        _ => return Err(15),
    };
    let value = evaluation.typed(arg, program.tables.events[event as usize])?;
    let pair = Pair { event: event as u8, value };
    let queue = &mut config.rooms[target].as_mut().ok_or(12)?.queue;
    if !queue.contains(&pair) {
        if queue.len() == QUEUE {
            return Err(16);
        }
        queue.push(pair);
    }
    config.rooms[room].as_mut().ok_or(19)?.finish_head();
    Ok(Rule::Send)
}

fn create(
    program: &Program,
    config: &mut Config,
    room: usize,
    var: Number,
    kind: Number,
    init: &[(Number, Number)],
    bits: u8,
) -> Result<Rule, Answer> {
    let creator = config.rooms[room].as_ref().ok_or(19)?;
    let mut created = Machine::new(program, kind, config.next);
    let mut evaluation = Evaluation::new(program, creator, bits);
    for &(variable, expr) in init {
        let value = evaluation.typed(expr, program.variable_type(variable))?;
        created.variables[program.places[variable as usize] as usize] = value;
    }
    let free = config.free_room().ok_or(18)?;
    if config.next > LIVE_NUMBERS {
        return Err(18);
    }
    config.numbers[free] = config.next;
    config.rooms[free] = Some(created);
    let creator = config.rooms[room].as_mut().ok_or(19)?;
    creator.variables[program.places[var as usize] as usize] = Value::Id(config.next);
    creator.finish_head();
    config.next += 1;
    Ok(Rule::New)
}

/// The first pair that is not held back.
fn dequeue(program: &Program, machine: &mut Machine) -> Result<Rule, Answer> {
    let frame = top(machine);
    let held_back = |event: u8| {
        let response = program.response(frame.state, event);
        let handled = response.has_transition() || response.action != 0;
        !handled && (response.defers || frame.map[event as usize - 1] == Entry::Deferred)
    };
    let place = machine.queue.iter().position(|pair| !held_back(pair.event)).ok_or(19)?;
    let pair = machine.queue.remove(place);
    begin_raise(program, machine, pair);
    Ok(Rule::Dequeue)
}

/// What RAISE and DEQUEUE do: the exit, where the state will be popped or left by a step, or else skip, before the pending raise.
fn begin_raise(program: &Program, machine: &mut Machine, pair: Pair) {
    let frame = top(machine);
    let response = program.response(frame.state, pair.event);
    let inherited = matches!(frame.map[pair.event as usize - 1], Entry::Action(_));
    let pops = !response.has_transition() && response.action == 0 && !inherited;
    let first = if response.step != 0 || pops { program.tables.states[frame.state as usize].exit } else { 0 };
    machine.msg = Value::Event(pair.event);
    machine.arg = pair.value;
    machine.remain(program, first, Pending::Raise(pair));
}

/// A pending raise: step, call, the state's action, the map's action, else POP1.
fn handle(program: &Program, machine: &mut Machine, pair: Pair) -> Result<Rule, Answer> {
    let frame = machine.stack.last_mut().expect("an empty stack was refused with 13");
    let response = program.response(frame.state, pair.event);
    if response.step != 0 {
        frame.state = response.step;
        machine.remain(program, program.tables.states[response.step as usize].entry, Pending::Nothing);
        return Ok(Rule::Step);
    }
    if response.call != 0 {
        let map = map_for_call(program, frame);
        if machine.stack.len() == STACK {
            return Err(17);
        }
        machine.stack.push(Frame { state: response.call, map });
        machine.remain(program, program.tables.states[response.call as usize].entry, Pending::Nothing);
        return Ok(Rule::Call);
    }
    let action = match frame.map[pair.event as usize - 1] {
        _ if response.action != 0 => response.action,
        Entry::Action(action) => action,
        _ => {
            machine.stack.pop();
            return Ok(Rule::Pop1);
        }
    };
    machine.remain(program, program.tables.actions[action as usize].body, Pending::Nothing);
    Ok(Rule::Action)
}

/// The map of a called state: nothing where the caller has a transition, else its action, else deferred if it defers, else the old entry.
fn map_for_call(program: &Program, caller: &Frame) -> [Entry; EVENTS] {
    let mut map = caller.map;
    for (entry, event) in map.iter_mut().zip(1..=program.tables.events()) {
        let response = program.response(caller.state, event as u8);
        if response.has_transition() {
            *entry = Entry::Nothing;
        } else if response.action != 0 {
            *entry = Entry::Action(response.action);
        } else if response.defers {
            *entry = Entry::Deferred;
        }
    }
    map
}

fn pop_for_return(machine: &mut Machine) -> Rule {
    machine.stack.pop();
    machine.row.clear();
    machine.pending = Pending::Nothing;
    Rule::Pop2
}

/// How a run ended: its answer, the place of a refused choice counted from 1, and the steps taken.
#[derive(Clone, Copy, PartialEq, Eq, Debug)]
pub struct Ended {
    pub answer: Answer,
    pub place: usize,
    pub steps: usize,
}

/// The choices in order, in the configuration itself. The rule of each step is put to the row.
pub fn run(program: &Program, config: &mut Config, choices: &[Choice], rules: &mut Vec<Rule>) -> Ended {
    rules.clear();
    if !sound(program) || !accepts(program, config) {
        return Ended { answer: 20, place: 0, steps: 0 };
    }
    if choices.len() > CHOICES {
        return Ended { answer: 3, place: 0, steps: 0 };
    }
    for (before, &choice) in choices.iter().enumerate() {
        match step(program, config, choice) {
            Ok(rule) => rules.push(rule),
            Err(answer) => return Ended { answer, place: before + 1, steps: before },
        }
    }
    Ended { answer: 0, place: 0, steps: choices.len() }
}
