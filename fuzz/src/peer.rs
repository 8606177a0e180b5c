//! What the peer says of a case: the answers, the rules, and the configurations written as the proved runtime's.

use bench::plain::program::Value;
use bench::plain::{self, Choice};
use bench::written;
use namakviz::raw::{
    Config, EndNumbers, Kind, LiveNumbers, LoadNumbers, MachineNumbers, PairNumbers, Program, StartNumbers, StepNumbers, ValueNumbers,
};

use crate::case::Case;
use crate::{rooms, tabled};

/// A program and a configuration as the peer reads them; none where it would answer 20.
pub struct Peer {
    program: Option<plain::Program>,
    config: Option<plain::Config>,
}

/// What a call leaves of the configuration: none where it is as it was.
pub type After = Option<Box<Config>>;

fn choice_of(word: u32) -> Choice {
    Choice { machine: word / 256, bits: word as u8 }
}

/// What a text is loaded as.
pub fn loaded(text: &[u8]) -> Box<LoadNumbers> {
    let (answer, line, program, choices) = match plain::load(text) {
        Ok((program, choices)) => (0, 0, tabled::written(&program.tables), choices.iter().map(written::choice).collect()),
        Err(refusal) => (refusal.answer, refusal.line, tabled::empty(), Vec::new()),
    };
    Box::new(LoadNumbers { program: *program, choices: tabled::choice_row(&choices), count: choices.len(), answer, line })
}

/// The value of a number.
pub fn value(number: u64) -> ValueNumbers {
    let (kind, number) = match rooms::value_of(number) {
        Value::Undefined => (0, 0),
        Value::Bool(x) => (1, i64::from(x)),
        Value::Int(x) => (2, i64::from(x)),
        Value::Event(event) => (3, i64::from(event)),
        Value::Id(number) => (4, i64::from(number)),
    };
    ValueNumbers { kind, number }
}

/// The pair of a number; its value has the number that is written for it.
pub fn pair(number: u64) -> PairNumbers {
    let (event, rest) = (number >> 40, number & ((1 << 40) - 1));
    PairNumbers { event: event as u32, value: written::value_code(rooms::value_of(rest)) }
}

/// Nothing but an answer.
fn no_machine(answer: u8) -> MachineNumbers {
    let (values, pairs) = ([0; Program::VARIABLES], [0; Program::QUEUE]);
    MachineNumbers { answer, kind: Kind(0), depth: 0, state: 0, variables: 0, values, waiting: 0, pairs }
}

impl Peer {
    pub fn new(case: &Case) -> Peer {
        let tables = tabled::read(&case.program);
        let program = plain::sound_tables(&tables).then(|| plain::Program::new(tables));
        let config = program.as_ref().and_then(|program| rooms::read(program, &case.config));
        Peer { program, config }
    }

    fn both(&self) -> Option<(&plain::Program, plain::Config)> {
        self.program.as_ref().zip(self.config.clone())
    }

    /// 0 or 20.
    pub fn fit(&self) -> u8 {
        if self.config.is_some() {
            0
        } else {
            20
        }
    }

    pub fn started(&self) -> Box<StartNumbers> {
        let nobody = plain::Config { numbers: [0; plain::ROOMS], rooms: [const { None }; plain::ROOMS], next: 1 };
        let (answer, config) = self.program.as_ref().map_or((20, nobody), |program| (0, plain::start(program)));
        Box::new(StartNumbers { config: *written::config(&config), answer })
    }

    pub fn stepped(&self, machine: u32, bits: u8) -> (StepNumbers, After) {
        let Some((program, mut config)) = self.both() else {
            return (StepNumbers { answer: 20, rule: 0 }, None);
        };
        match plain::step(program, &mut config, Choice { machine, bits }) {
            Ok(rule) => (StepNumbers { answer: 0, rule: written::rule(&rule) }, Some(written::config(&config))),
            Err(answer) => (StepNumbers { answer, rule: 0 }, None),
        }
    }

    pub fn ran(&self, list: &[u32]) -> (EndNumbers, Vec<u8>, After) {
        let Some((program, mut config)) = self.both() else {
            return (EndNumbers { answer: 20, place: 0, steps: 0 }, Vec::new(), None);
        };
        let mut rules = Vec::new();
        let choices: Vec<Choice> = list.iter().map(|&word| choice_of(word)).collect();
        let ended = plain::run(program, &mut config, &choices, &mut rules);
        let end = EndNumbers { answer: ended.answer, place: ended.place, steps: ended.steps };
        (end, rules.iter().map(written::rule).collect(), Some(written::config(&config)))
    }

    pub fn live(&self) -> LiveNumbers {
        let numbers = self.config.iter().flat_map(|config| config.numbers).filter(|&number| number != 0);
        let mut live = LiveNumbers { answer: self.fit(), count: 0, machines: [0; Program::ROOMS] };
        for number in numbers {
            live.machines[live.count] = number;
            live.count += 1;
        }
        live
    }

    pub fn machine(&self, number: u32) -> MachineNumbers {
        let Some((program, config)) = self.both() else {
            return no_machine(20);
        };
        let Some((room, machine)) = config.room_of(number).and_then(|room| Some((room, config.rooms[room].as_ref()?))) else {
            return no_machine(19);
        };
        let held = &written::config(&config).rooms[room];
        let variables = program.variables_of[machine.kind as usize].len();
        let mut shown =
            MachineNumbers { kind: Kind(machine.kind), depth: machine.stack.len(), variables, waiting: machine.queue.len(), ..no_machine(0) };
        shown.state = machine.stack.last().map_or(0, |frame| frame.state);
        shown.values[..variables].copy_from_slice(&held.values[..variables]);
        shown.pairs[..shown.waiting].copy_from_slice(&held.pairs[..shown.waiting]);
        shown
    }

    /// The answer, and what is written.
    pub fn regrouped(&self, list: &[u32], room: usize) -> (u8, Vec<u32>) {
        let Some((program, config)) = self.both() else {
            return (20, Vec::new());
        };
        let choices: Vec<Choice> = list.iter().map(|&word| choice_of(word)).collect();
        let mut out = vec![Choice { machine: 0, bits: 0 }; room];
        match plain::regroup(program, &config, &choices, &mut out) {
            Ok(length) => (0, out[..length].iter().map(written::choice).collect()),
            Err(answer) => (answer, Vec::new()),
        }
    }
}
