//! What is measured, and how it is printed.

use std::hint::black_box;

use bench::plain::{self, Choice};
use bench::timing::{alternate, Times};
use bench::{stack, texts, written};
use namakviz::raw::{self as proved, Config, Live, LoadNumbers, StepNumbers};

/// A text as both sides have loaded it.
struct Loaded {
    text: String,
    ours: Box<LoadNumbers>,
    program: plain::Program,
    choices: Vec<Choice>,
}

impl Loaded {
    /// Both sides must load the same choices.
    fn new(text: String) -> Loaded {
        let ours = Box::new(proved::load(text.as_bytes()));
        let (program, choices) = plain::load(text.as_bytes()).expect("the texts are in the form");
        assert_eq!(ours.answer, 0);
        assert_eq!(ours.choices[..ours.count], choices.iter().map(written::choice).collect::<Vec<_>>());
        Loaded { text, ours, program, choices }
    }

    fn our_choices(&self) -> &[u32] {
        &self.ours.choices[..self.ours.count]
    }

    fn our_start(&self) -> Box<Config> {
        let started = proved::start(&self.ours.program);
        assert_eq!(started.answer, 0);
        Box::new(started.config)
    }

    fn our_step(&self, config: &mut Config, choice: u32) -> StepNumbers {
        proved::step(&self.ours.program, config, Live(choice / 256), (choice % 256) as u8)
    }
}

/// A whole run from the start configuration, which is copied for each call.
fn run(loaded: &Loaded) -> Times {
    let ours_begin = loaded.our_start();
    let peer_begin = plain::start(&loaded.program);
    let (mut ours, mut peer) = (ours_begin.clone(), peer_begin.clone());
    let mut our_rules = [0; 4096];
    let mut peer_rules = Vec::with_capacity(4096);
    let our_end = proved::run(&loaded.ours.program, &mut ours, loaded.our_choices(), &mut our_rules);
    let peer_end = plain::run(&loaded.program, &mut peer, &loaded.choices, &mut peer_rules);
    assert_eq!((our_end.answer, our_end.place, our_end.steps), (peer_end.answer, peer_end.place, peer_end.steps));
    assert_eq!(our_end.steps, loaded.choices.len(), "every choice takes a step");
    assert_eq!(our_rules[..our_end.steps], peer_rules.iter().map(written::rule).collect::<Vec<_>>());
    assert!(ours == written::config(&peer), "both end in the same configuration");
    alternate(
        || {
            ours.clone_from(&ours_begin);
            black_box(proved::run(&loaded.ours.program, &mut ours, black_box(loaded.our_choices()), &mut our_rules));
        },
        || {
            peer.clone_from(&peer_begin);
            black_box(plain::run(&loaded.program, &mut peer, black_box(&loaded.choices), &mut peer_rules));
        },
    )
}

/// The checked step: the last choices of the text, at most this many, one call each.
fn checked_step(loaded: &Loaded) -> Times {
    const STEPS: usize = 64;
    let first = loaded.choices.len().saturating_sub(STEPS);
    let (our_last, peer_last) = (&loaded.our_choices()[first..], &loaded.choices[first..]);
    let mut ours_begin = loaded.our_start();
    let mut peer_begin = plain::start(&loaded.program);
    proved::run(&loaded.ours.program, &mut ours_begin, &loaded.our_choices()[..first], &mut [0; 4096]);
    plain::run(&loaded.program, &mut peer_begin, &loaded.choices[..first], &mut Vec::new());
    let (mut ours, mut peer) = (ours_begin.clone(), peer_begin.clone());
    for (word, choice) in our_last.iter().zip(peer_last) {
        let stepped = loaded.our_step(&mut ours, *word);
        let rule = plain::checked_step(&loaded.program, &mut peer, *choice).expect("every choice takes a step");
        assert_eq!((stepped.answer, stepped.rule), (0, written::rule(&rule)));
    }
    assert!(ours == written::config(&peer), "both end in the same configuration");
    let all = alternate(
        || {
            ours.clone_from(&ours_begin);
            for word in our_last {
                black_box(loaded.our_step(&mut ours, *word));
            }
        },
        || {
            peer.clone_from(&peer_begin);
            for choice in peer_last {
                let _ = black_box(plain::checked_step(&loaded.program, &mut peer, *choice));
            }
        },
    );
    let steps = our_last.len() as f64;
    Times { ours: all.ours / steps, peer: all.peer / steps, ..all }
}

fn load(loaded: &Loaded) -> Times {
    let text = loaded.text.as_bytes();
    alternate(
        || {
            black_box(proved::load(black_box(text)).count);
        },
        || {
            black_box(plain::load(black_box(text)).is_ok());
        },
    )
}

fn regroup(loaded: &Loaded) -> Times {
    let ours = loaded.our_start();
    let peer = plain::start(&loaded.program);
    let mut our_list = vec![0; loaded.choices.len()];
    let mut peer_list = vec![Choice { machine: 0, bits: 0 }; loaded.choices.len()];
    assert_eq!(proved::regroup(&loaded.ours.program, &ours, loaded.our_choices(), &mut our_list), 0);
    assert_eq!(plain::regroup(&loaded.program, &peer, &loaded.choices, &mut peer_list), Ok(loaded.choices.len()));
    assert_eq!(our_list, peer_list.iter().map(written::choice).collect::<Vec<_>>());
    alternate(
        || {
            black_box(proved::regroup(&loaded.ours.program, &ours, black_box(loaded.our_choices()), &mut our_list));
        },
        || {
            let _ = black_box(plain::regroup(&loaded.program, &peer, black_box(&loaded.choices), &mut peer_list));
        },
    )
}

fn print(what: &str, times: &Times) {
    println!("{what:<58} {:>9.2} {:>9.2}   {:>5.2}  ({:.2} to {:.2})", times.ours * 1e6, times.peer * 1e6, times.ratio(), times.low, times.high);
}

/// The table of times.
pub fn times() {
    println!("{:<58} {:>9} {:>9}   {:>5}  quartiles", "microseconds a call, medians of alternating rounds", "ours", "peer", "ratio");
    for (what, text) in [
        ("run, ping-pong of two machines, 4,092 choices", texts::ping_pong(4092)),
        ("run, private WHILE, ASSIGN, SEQ, 4,092 choices", texts::private(4092)),
        ("run, 32 machines in turn, 4,092 choices", texts::ring(32, 4092)),
        ("run, expression of height 32, 4,092 choices", texts::chain(32, 4092)),
        ("run, full tree of 511 expressions, 3,900 choices", texts::tree(9, 3900)),
        ("run, creations and deletions, 4,092 choices", texts::births(4092)),
    ] {
        print(what, &run(&Loaded::new(text)));
    }
    for (what, text) in [
        ("checked step, ping-pong", texts::ping_pong(4092)),
        ("checked step, 32 live machines", texts::ring(32, 4092)),
        ("checked step, a program that fills its tables", texts::large()),
    ] {
        print(what, &checked_step(&Loaded::new(text)));
    }
    for (what, text) in [("many choices", texts::ping_pong(4092)), ("a program that fills its tables", texts::large())] {
        let what = format!("load, {what}, {} bytes", text.len());
        print(&what, &load(&Loaded::new(text)));
    }
    for (what, text) in [
        ("regroup, 4,096 choices of 2 machines", texts::ring(2, 4096)),
        ("regroup, 4,096 choices of 32 machines", texts::ring(32, 4096)),
        ("regroup, 4,096 choices, machines created and deleted", texts::births(4096)),
    ] {
        print(what, &regroup(&Loaded::new(text)));
    }
}

fn print_steps(what: &str, text: String) {
    let loaded = Loaded::new(text);
    let times = run(&loaded);
    let steps = loaded.choices.len() as f64;
    println!("{what:<40} {:>9.1} {:>9.1}   {:>5.2}", times.ours * 1e9 / steps, times.peer * 1e9 / steps, times.ratio());
}

/// How the time of a step, in a run, grows.
pub fn growth() {
    println!("{:<40} {:>9} {:>9}   {:>5}", "nanoseconds a step, in a whole run", "ours", "peer", "ratio");
    for choices in [1, 16, 64, 256, 1024, 4092] {
        print_steps(&format!("ping-pong, {choices} choices"), texts::ping_pong(choices));
    }
    for machines in [2, 4, 8, 16, 32] {
        print_steps(&format!("ring of {machines} machines, 4,092 choices"), texts::ring(machines, 4092));
    }
    for height in [2, 4, 8, 16, 32] {
        print_steps(&format!("expression of height {height}, 4,092 choices"), texts::chain(height, 4092));
    }
    for height in [1, 3, 5, 7, 9] {
        print_steps(&format!("full tree of height {height}, 3,900 choices"), texts::tree(height, 3900));
    }
}

fn print_stack(what: &str, work: impl FnOnce() + Send) {
    println!("{what:<40} {:>9}", stack::used(work));
}

/// The stack that each function uses. The expressions' part of it, 64 bytes a level, is read off the compiled code (docs/SPEED.md).
pub fn stacks() {
    println!("{:<40} {:>9}", "bytes of stack", "ours");
    let loaded = Loaded::new(texts::ping_pong(4092));
    let mut config = loaded.our_start();
    let begin = config.clone();
    let mut rules = [0; 4096];
    let mut out = vec![0; loaded.choices.len()];
    print_stack("nothing", || {});
    print_stack("load", || {
        black_box(proved::load(black_box(loaded.text.as_bytes())).count);
    });
    print_stack("start", || {
        black_box(proved::start(&loaded.ours.program).answer);
    });
    print_stack("step", || {
        black_box(loaded.our_step(&mut config, 256));
    });
    print_stack("run", || {
        black_box(proved::run(&loaded.ours.program, &mut config, loaded.our_choices(), &mut rules));
    });
    print_stack("regroup", || {
        black_box(proved::regroup(&loaded.ours.program, &begin, loaded.our_choices(), &mut out));
    });
    print_stack("fit", || {
        black_box(proved::fit(&loaded.ours.program, &begin));
    });
    print_stack("live", || {
        black_box(proved::live(&loaded.ours.program, &begin).count);
    });
    print_stack("machine", || {
        black_box(proved::machine(&loaded.ours.program, &begin, Live(1)).answer);
    });
}
