//! Configurations that a program accepts: its start configuration, those that some steps lead to, and random ones.

use bench::plain::machine::{Entry, Frame, Machine, Pair, Pending};
use bench::plain::program::{Number, Program, Stmt, Type, Value};
use bench::plain::{self, Choice, Config, EVENTS, HEIGHT, QUEUE, ROOMS, STACK, VARIABLES};

use crate::rng::Rng;

/// As many parts as a row has places for.
const ROW: usize = HEIGHT + 1;

/// So many choices at most that take steps one after the other. The configuration is the one behind them.
pub fn walk(rng: &mut Rng, program: &Program, config: &mut Config, length: usize) -> Vec<Choice> {
    let mut choices: Vec<Choice> = Vec::new();
    let mut failures = 0;
    while choices.len() < length && failures < 12 {
        let live: Vec<u32> = config.numbers.iter().copied().filter(|&number| number != 0).collect();
        let again = choices.last().map(|choice| choice.machine).filter(|_| failures == 0 && rng.percent(50));
        let Some(machine) = again.or_else(|| rng.maybe_pick(&live)) else {
            break;
        };
        let choice = Choice { machine, bits: rng.any() as u8 };
        if plain::step(program, config, choice).is_ok() {
            choices.push(choice);
            failures = 0;
        } else {
            failures += 1;
        }
    }
    choices
}

/// The start configuration, or one that some steps lead to from it.
pub fn walked_config(rng: &mut Rng, program: &Program, steps: usize) -> Config {
    let mut config = plain::start(program);
    walk(rng, program, &mut config, steps);
    config
}

/// A random configuration that the program accepts, whether steps lead to it or not. One in three is tense: near what 12, 16, 17 and 18 refuse.
pub fn any_config(rng: &mut Rng, program: &Program) -> Config {
    let tense = rng.percent(35);
    let wanted = match rng.below(20) {
        0 => 0,
        1 => rng.between(8, ROOMS - 1),
        2..=8 if tense => ROOMS,
        2 => ROOMS,
        _ => rng.between(1, 5),
    };
    let next = match rng.below(10) {
        0 => rng.pick(&[1, 2, 3]),
        1 => rng.pick(&[65_535, 65_536]),
        2 => rng.between(1, 65_536) as u32,
        3..=5 if tense => 65_536,
        _ => (wanted + rng.between(2, 30)) as u32,
    };
    let mut config = Config { numbers: [0; ROOMS], rooms: [const { None }; ROOMS], next };
    let mut numbers: Vec<u32> = Vec::new();
    for _ in 0..8 * wanted {
        let number = if rng.percent(20) { next - 1 } else { rng.below(next as usize) as u32 };
        if number != 0 && numbers.len() < wanted && !numbers.contains(&number) {
            numbers.push(number);
        }
    }
    for &number in &numbers {
        let free: Vec<usize> = (0..ROOMS).filter(|&room| config.numbers[room] == 0).collect();
        let room = if rng.percent(50) { free[0] } else { rng.pick(&free) };
        config.numbers[room] = number;
        config.rooms[room] = Some(Making { rng, program, next, live: &numbers, tense }.machine(number));
    }
    config
}

/// A machine of a random configuration at work.
struct Making<'a> {
    rng: &'a mut Rng,
    program: &'a Program,
    next: u32,
    live: &'a [u32],
    tense: bool,
}

impl Making<'_> {
    fn machine(&mut self, this: u32) -> Machine {
        let kind = self.rng.between(1, self.program.tables.kinds) as u8;
        let depth = match self.rng.below(20) {
            0..=1 => 0,
            2..=4 => STACK,
            5..=14 if self.tense => STACK,
            _ => self.rng.between(1, 3),
        };
        let pending = self.pending();
        let mut variables = [Value::Undefined; VARIABLES];
        for (value, &variable) in variables.iter_mut().zip(&self.program.variables_of[kind as usize]) {
            *value = self.value(self.program.variable_type(variable));
        }
        let any = self.rng.pick(&[Type::Void, Type::Bool, Type::Int, Type::Event, Type::Id]);
        Machine {
            kind,
            this,
            stack: (0..depth).map(|_| self.frame(kind)).collect(),
            variables,
            msg: self.value(Type::Event),
            arg: self.value(any),
            row: self.row(kind, pending),
            pending,
            queue: self.queue(),
        }
    }

    /// A value of the type, or undefined.
    fn value(&mut self, ty: Type) -> Value {
        if self.rng.percent(12) {
            return Value::Undefined;
        }
        match ty {
            Type::Void => Value::Undefined,
            Type::Bool => Value::Bool(self.rng.percent(50)),
            Type::Int => Value::Int(match self.rng.below(3) {
                0 => self.rng.pick(&[i32::MIN, i32::MIN + 1, -1, 0, 1, i32::MAX - 1, i32::MAX]),
                1 => self.rng.any() as i32,
                _ => self.rng.below(4) as i32,
            }),
            Type::Event => match self.program.tables.events() {
                0 => Value::Undefined,
                events => Value::Event(self.rng.between(1, events) as u8),
            },
            Type::Id if self.next == 1 => Value::Undefined,
            Type::Id if self.rng.percent(if self.tense { 60 } else { 80 }) => Value::Id(self.rng.pick(self.live)),
            Type::Id => {
                let any = [(); 3].map(|()| self.rng.between(1, self.next as usize - 1) as u32);
                Value::Id(any.into_iter().find(|number| !self.live.contains(number)).unwrap_or(any[0]))
            }
        }
    }

    fn pair(&mut self) -> Option<Pair> {
        let events = self.program.tables.events();
        (events != 0).then(|| {
            let event = self.rng.between(1, events);
            Pair { event: event as u8, value: self.value(self.program.tables.events[event]) }
        })
    }

    fn pending(&mut self) -> Pending {
        match self.rng.below(10) {
            0 => Pending::Return,
            1..=3 => self.pair().map_or(Pending::Nothing, Pending::Raise),
            _ => Pending::Nothing,
        }
    }

    fn frame(&mut self, kind: u8) -> Frame {
        let tables = &self.program.tables;
        let of_kind = |of: Number| of == Number::from(kind);
        let states: Vec<u8> = (1..).zip(&tables.states[1..]).filter(|(_, state)| of_kind(state.of)).map(|(number, _)| number).collect();
        let actions: Vec<u8> = (1..).zip(&tables.actions[1..]).filter(|(_, action)| of_kind(action.of)).map(|(number, _)| number).collect();
        let mut map = [Entry::Nothing; EVENTS];
        for entry in &mut map[..tables.events()] {
            *entry = match (self.rng.below(4), self.rng.maybe_pick(&actions)) {
                (0, _) => Entry::Deferred,
                (1, Some(action)) => Entry::Action(action),
                _ => Entry::Nothing,
            };
        }
        Frame { state: self.rng.pick(&states), map }
    }

    /// Parts that serve the kind, the head last: each as high as the parts behind it let it be.
    fn row(&mut self, kind: u8, pending: Pending) -> Vec<Number> {
        let program = self.program;
        let counted = usize::from(pending != Pending::Nothing);
        let own: Vec<Number> = (1..).zip(&program.served[1..]).filter(|(_, served)| **served == kind).map(|(number, _)| number).collect();
        let wanted = match self.rng.below(20) {
            0 => ROW - counted,
            1 => self.rng.between(5, ROW - counted),
            2..=6 => 0,
            _ => self.rng.between(1, 4),
        };
        let mut row = Vec::new();
        for behind in 0..wanted {
            let part = if self.rng.percent(15) { 0 } else { self.rng.maybe_pick(&own).unwrap_or(0) };
            let high = program.heights[part as usize] as usize + behind + counted > ROW;
            row.push(if high { 0 } else { part });
        }
        self.in_form(row, pending)
    }

    /// No seq at the head, and no lone skip with nothing pending.
    fn in_form(&mut self, mut row: Vec<Number>, pending: Pending) -> Vec<Number> {
        if let Some(head) = row.last_mut() {
            if matches!(self.program.stmt(*head), Stmt::Seq { .. }) {
                *head = 0;
            }
        }
        match row[..] {
            [only] if matches!(self.program.stmt(only), Stmt::Skip) && pending == Pending::Nothing => Vec::new(),
            _ => row,
        }
    }

    fn queue(&mut self) -> Vec<Pair> {
        let wanted = match self.rng.below(10) {
            0 => 3 * QUEUE,
            1..=8 if self.tense => 6 * QUEUE,
            1..=4 => 0,
            _ => self.rng.between(1, 4),
        };
        let mut queue: Vec<Pair> = Vec::new();
        for _ in 0..wanted {
            if let Some(pair) = self.pair().filter(|pair| queue.len() < QUEUE && !queue.contains(pair)) {
                queue.push(pair);
            }
        }
        queue
    }
}
