//! What is handed in is tested, lengths too, and what is refused is left as it was.

use namakviz::raw::{self, LoadNumbers};
use namakviz::{load, Answer, Choice, Config, Live, Program, Refusal, Rule, Stop, Value};

/// One machine that counts without end.
const COUNTER: &str = "\
machine=1
var=1 of=1 type=int
expr=1 kind=bool val=1
expr=2 kind=int val=-7
stmt=1 kind=assign var=1 expr=2
stmt=2 kind=while cond=1 body=1
state=1 of=1 defer=none entry=2 exit=0
start=1
choice=1 bits=3
";

const COUNTS: Choice = Choice { machine: Live(1), bits: 0 };

fn started() -> (Program, Config) {
    let (program, _) = load(COUNTER.as_bytes()).expect("the text is in the form");
    let config = program.start().expect("what was loaded is a program");
    (program, config)
}

fn refused(text: &[u8]) -> Option<Refusal> {
    load(text).err()
}

#[test]
fn texts() {
    let (_, choices) = load(COUNTER.as_bytes()).expect("the text is in the form");
    assert_eq!(choices, [Choice { machine: Live(1), bits: 3 }]);
    assert_eq!(refused(b""), Some(Refusal { answer: Answer::NotInForm, line: 1 }));
    assert_eq!(refused(&[b'\n'; 60000]), Some(Refusal { answer: Answer::NotInForm, line: 1 }));
    assert_eq!(refused(&[b'\n'; 60001]), Some(Refusal { answer: Answer::TextTooLong, line: 0 }));
    assert_eq!(refused(b"machine=1\nstart=1\n"), Some(Refusal { answer: Answer::NoState, line: 0 }));
    let LoadNumbers { count, answer, line, .. } = raw::load(b"start=1\n");
    assert_eq!((count, answer, line), (0, 4, 1));
}

#[test]
fn machines() {
    let (program, mut config) = started();
    assert_eq!(config.live(&program), Ok(vec![Live(1)]));
    assert_eq!(config.step(&program, Live(1), 0), Ok(Rule::While));
    assert_eq!(config.step(&program, Live(1), 0), Ok(Rule::Assign));
    assert_eq!(config.machine(&program, Live(1)).map(|machine| machine.variables), Ok(vec![Value::Int(-7)]));
    let before = config.clone();
    for number in [0, 2, 65535, 65536, 1 << 24, (1 << 24) + 1, u32::MAX] {
        assert_eq!(config.step(&program, Live(number), 0), Err(Answer::UnableToStep));
        assert_eq!(config.machine(&program, Live(number)), Err(Answer::UnableToStep));
        let run = config.run(&program, &[Choice { machine: Live(number), bits: 0 }]);
        assert_eq!(run.end, Err(Stop { answer: Answer::UnableToStep, place: 1 }));
    }
    assert!(config == before);
}

#[test]
fn lists() {
    let (program, mut config) = started();
    let before = config.clone();
    assert_eq!(config.run(&program, &[COUNTS; 4097]).end, Err(Stop { answer: Answer::OutOfRange, place: 0 }));
    assert_eq!(config.regroup(&program, &[COUNTS; 4097]), Err(Answer::OutOfRange));
    assert!(config == before);
    assert_eq!(config.regroup(&program, &[]), Ok(vec![]));
    let nobody = Choice { machine: Live(9), bits: 0 };
    assert_eq!(config.regroup(&program, &[nobody, COUNTS]), Err(Answer::TookNoStep));
    assert_eq!(config.regroup(&program, &[COUNTS, nobody]), Ok(vec![COUNTS, nobody]));
    let run = config.run(&program, &[COUNTS; 4096]);
    assert_eq!((run.rules.len(), run.end), (4096, Ok(())));
}

#[test]
fn rows() {
    let (program, mut config) = started();
    let choices = [COUNTS.number(); 3];
    let mut out = [77; 5];
    assert_eq!(raw::regroup(&program.raw, &config.raw, &choices, &mut out[..2]), Answer::BufferTooShort.number());
    assert_eq!(raw::regroup(&program.raw, &config.raw, &choices, &mut []), Answer::BufferTooShort.number());
    assert_eq!(out, [77; 5]);
    assert_eq!(raw::regroup(&program.raw, &config.raw, &choices, &mut out), 0);
    assert_eq!(out, [256, 256, 256, 77, 77]);
    let mut rules = [77; 4096];
    let ended = raw::run(&program.raw, &mut config.raw, &[256, 256, 0, 256], &mut rules);
    assert_eq!((ended.answer, ended.place, ended.steps), (Answer::UnableToStep.number(), 3, 2));
    assert_eq!(rules[..3], [Rule::While.number(), Rule::Assign.number(), 77]);
    assert!(rules[2..].iter().all(|&rule| rule == 77));
}

/// Every function answers 20, and changes nothing.
fn not_accepted(program: &Program, config: &Config) {
    let mut lent = config.clone();
    assert_eq!(lent.fit(program), Err(Answer::NotAccepted));
    assert_eq!(lent.step(program, Live(1), 0), Err(Answer::NotAccepted));
    assert_eq!(lent.run(program, &[COUNTS; 4097]).end, Err(Stop { answer: Answer::NotAccepted, place: 0 }));
    assert_eq!(lent.regroup(program, &[COUNTS; 4097]), Err(Answer::NotAccepted));
    assert_eq!(lent.live(program), Err(Answer::NotAccepted));
    assert_eq!(lent.machine(program, Live(9)), Err(Answer::NotAccepted));
    assert!(lent == *config);
}

#[test]
fn damaged() {
    let (program, config) = started();
    let damages: [fn(&mut raw::Config); 6] = [
        |config| config.next = 65537,
        |config| config.rooms[0].depth = usize::MAX,
        |config| config.rooms[0].values[1] = 1,
        |config| config.rooms[0].waiting = 17,
        |config| config.rooms[1].this = Live(1),
        |config| config.rooms[31].maps[511] = 1,
    ];
    for damage in damages {
        let mut config = config.clone();
        damage(&mut config.raw);
        not_accepted(&program, &config);
    }
    let mut program = program;
    program.raw.start = raw::Kind(200);
    assert_eq!(program.start().err(), Some(Answer::NotAccepted));
    not_accepted(&program, &config);
}

#[test]
fn numbers() {
    assert_eq!(Value::of(0), Value::Undefined);
    assert_eq!(Value::of((1 << 32) + 1), Value::Bool(true));
    assert_eq!(Value::of(2 << 32), Value::Int(i32::MIN));
    assert_eq!(Value::of((3 << 32) - 1), Value::Int(i32::MAX));
    assert_eq!(Value::of((3 << 32) + 64), Value::Event(64));
    assert_eq!(Value::of((4 << 32) + 65535), Value::Id(Live(65535)));
    assert_eq!(Value::of(u64::MAX), Value::Undefined);
    assert_eq!((raw::pair(u64::MAX).event, raw::pair(u64::MAX).value), ((1 << 24) - 1, 0));
    for answer in Answer::ALL {
        assert_eq!(Answer::ALL[usize::from(answer.number()) - 1], answer);
    }
    for rule in Rule::ALL {
        assert_eq!(Rule::ALL[usize::from(rule.number()) - 1], rule);
    }
}
