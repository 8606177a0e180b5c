//! The texts that are timed: programs of known shape, each with choices that all take steps.

use std::fmt::Write;

use crate::plain::{self, Choice, Program, ROOMS};

/// Collects the lines of a program, each table in its own order.
#[derive(Default)]
struct Builder {
    events: Vec<String>,
    machines: usize,
    variables: Vec<String>,
    exprs: Vec<String>,
    stmts: Vec<String>,
    actions: Vec<String>,
    states: Vec<String>,
    steps: String,
    acts: String,
}

fn add(table: &mut Vec<String>, fields: &str) -> usize {
    table.push(fields.to_string());
    table.len()
}

impl Builder {
    fn event(&mut self, ty: &str) -> usize {
        add(&mut self.events, &format!("type={ty}"))
    }

    fn machine(&mut self) -> usize {
        self.machines += 1;
        self.machines
    }

    fn variable(&mut self, of: usize, ty: &str) -> usize {
        add(&mut self.variables, &format!("of={of} type={ty}"))
    }

    fn expr(&mut self, fields: &str) -> usize {
        add(&mut self.exprs, &format!("kind={fields}"))
    }

    fn int(&mut self, value: i32) -> usize {
        self.expr(&format!("int val={value}"))
    }

    fn read(&mut self, variable: usize) -> usize {
        self.expr(&format!("var var={variable}"))
    }

    fn binary(&mut self, kind: &str, a: usize, b: usize) -> usize {
        self.expr(&format!("{kind} a={a} b={b}"))
    }

    fn stmt(&mut self, fields: &str) -> usize {
        add(&mut self.stmts, &format!("kind={fields}"))
    }

    fn assign(&mut self, variable: usize, expr: usize) -> usize {
        self.stmt(&format!("assign var={variable} expr={expr}"))
    }

    fn send(&mut self, to: usize, event: usize, arg: usize) -> usize {
        self.stmt(&format!("send to={to} event={event} arg={arg}"))
    }

    /// The statements one after the other, as a tree of seqs that is as low as it can be.
    fn row(&mut self, stmts: &[usize]) -> usize {
        match stmts {
            [] => 0,
            [one] => *one,
            _ => {
                let (left, right) = stmts.split_at(stmts.len() / 2);
                let (first, second) = (self.row(left), self.row(right));
                self.stmt(&format!("seq first={first} second={second}"))
            }
        }
    }

    /// `while true` over a body.
    fn forever(&mut self, body: usize) -> usize {
        let cond = self.expr("bool val=1");
        self.stmt(&format!("while cond={cond} body={body}"))
    }

    fn action(&mut self, of: usize, body: usize) -> usize {
        add(&mut self.actions, &format!("of={of} do={body}"))
    }

    fn state(&mut self, of: usize, entry: usize) -> usize {
        add(&mut self.states, &format!("of={of} defer=none entry={entry} exit=0"))
    }

    fn step(&mut self, from: usize, on: usize, to: usize) {
        writeln!(self.steps, "step={from} on={on} to={to}").unwrap();
    }

    fn act(&mut self, from: usize, on: usize, action: usize) {
        writeln!(self.acts, "act={from} on={on} do={action}").unwrap();
    }

    /// The program's lines; kind 1 starts.
    fn text(&self) -> String {
        let mut text = String::new();
        let machines = vec![String::new(); self.machines];
        let numbered = [
            ("event", &self.events),
            ("machine", &machines),
            ("var", &self.variables),
            ("expr", &self.exprs),
            ("stmt", &self.stmts),
            ("action", &self.actions),
            ("state", &self.states),
        ];
        for (name, table) in numbered {
            for (before, fields) in table.iter().enumerate() {
                let space = if fields.is_empty() { "" } else { " " };
                writeln!(text, "{name}={}{space}{fields}", before + 1).unwrap();
            }
        }
        text + &self.steps + &self.acts + "start=1\n"
    }
}

/// How the next machine is chosen among those that are able to step.
#[derive(Clone, Copy)]
enum Turns {
    /// the same machine as long as it is able, then the next one
    Long,
    /// one step each
    Short,
}

/// A program's text with so many choices behind it, all of which take steps.
fn scheduled(text: &str, turns: Turns, count: usize) -> String {
    let (program, _) = plain::load(text.as_bytes()).unwrap_or_else(|refusal| panic!("{refusal:?} in a text of {} bytes", text.len()));
    let mut whole = text.to_string();
    for choice in schedule(&program, turns, count) {
        writeln!(whole, "choice={}", choice.machine).unwrap();
    }
    whole
}

fn schedule(program: &Program, turns: Turns, count: usize) -> Vec<Choice> {
    let mut config = plain::start(program);
    let mut choices = Vec::with_capacity(count);
    let mut room = 0;
    while choices.len() < count {
        let able = (0..ROOMS).map(|turn| (room + turn) % ROOMS).find(|&room| {
            let choice = Choice { machine: config.numbers[room], bits: 0 };
            let taken = plain::step(program, &mut config, choice).is_ok();
            if taken {
                choices.push(choice);
            }
            taken
        });
        let able = able.expect("some machine is able to step");
        room = match turns {
            Turns::Long => able,
            Turns::Short => able + 1,
        };
    }
    choices
}

/// Two machines that send an int to and fro: one takes it by an action, the other by a step.
pub fn ping_pong(choices: usize) -> String {
    let mut b = Builder::default();
    let (ping, pong) = (b.event("int"), b.event("int"));
    let (first, second) = (b.machine(), b.machine());
    let (to_second, count) = (b.variable(first, "id"), b.variable(first, "int"));
    let (to_first, seen) = (b.variable(second, "id"), b.variable(second, "int"));
    let this = b.expr("this");
    let zero = b.int(0);
    let new = b.stmt(&format!("new var={to_second} machine={second} init={to_first}:{this}"));
    let begin = b.assign(count, zero);
    let (to, payload) = (b.read(to_second), b.read(count));
    let serve = b.send(to, ping, payload);
    let entry = b.row(&[new, begin, serve]);
    let (got, one) = (b.expr("arg"), b.int(1));
    let more = b.binary("add", got, one);
    let counted = b.assign(count, more);
    let (to, payload) = (b.read(to_second), b.read(count));
    let back = b.send(to, ping, payload);
    let body = b.row(&[counted, back]);
    let action = b.action(first, body);
    let got = b.expr("arg");
    let kept = b.assign(seen, got);
    let (to, payload) = (b.read(to_first), b.read(seen));
    let back = b.send(to, pong, payload);
    let work = b.row(&[kept, back]);
    let play = b.state(first, entry);
    let (wait, again) = (b.state(second, 0), b.state(second, work));
    b.step(wait, ping, again);
    b.step(again, ping, again);
    b.act(play, pong, action);
    scheduled(&b.text(), Turns::Long, choices)
}

/// One machine that counts in a loop: WHILE, ASSIGN and SEQ, and no meeting.
pub fn private(choices: usize) -> String {
    let mut b = Builder::default();
    let kind = b.machine();
    let (x, y) = (b.variable(kind, "int"), b.variable(kind, "int"));
    let begin: Vec<usize> = [x, y]
        .map(|variable| {
            let zero = b.int(0);
            b.assign(variable, zero)
        })
        .to_vec();
    let (old, one) = (b.read(x), b.int(1));
    let sum = b.binary("add", old, one);
    let up = b.assign(x, sum);
    let (left, right) = (b.read(x), b.read(y));
    let difference = b.binary("sub", left, right);
    let across = b.assign(y, difference);
    let body = b.row(&[up, across]);
    let forever = b.forever(body);
    let entry = b.row(&[begin[0], begin[1], forever]);
    b.state(kind, entry);
    scheduled(&b.text(), Turns::Long, choices)
}

/// So many machines in a ring, from 2 to 32, each of which adds one to what it gets and sends it on; one step each in turn.
pub fn ring(machines: usize, choices: usize) -> String {
    let mut b = Builder::default();
    let token = b.event("int");
    let (first, other) = (b.machine(), b.machine());
    let (last, count) = (b.variable(first, "id"), b.variable(first, "int"));
    let (to, got) = (b.variable(other, "id"), b.variable(other, "int"));
    let mut entry = Vec::new();
    for created in 1..machines {
        let before = if created == 1 { b.expr("this") } else { b.read(last) };
        entry.push(b.stmt(&format!("new var={last} machine={other} init={to}:{before}")));
    }
    let (target, zero) = (b.read(last), b.int(0));
    entry.push(b.send(target, token, zero));
    let entry = b.row(&entry);
    let work = |b: &mut Builder, variable, to| {
        let (arg, one) = (b.expr("arg"), b.int(1));
        let sum = b.binary("add", arg, one);
        let kept = b.assign(variable, sum);
        let (target, payload) = (b.read(to), b.read(variable));
        let on = b.send(target, token, payload);
        b.row(&[kept, on])
    };
    let body = work(&mut b, count, last);
    let in_first = b.action(first, body);
    let body = work(&mut b, got, to);
    let in_other = b.action(other, body);
    let (target, zero) = (b.read(to), b.int(0));
    let begin = b.send(target, token, zero);
    let (centre, around) = (b.state(first, entry), b.state(other, begin));
    b.act(centre, token, in_first);
    b.act(around, token, in_other);
    scheduled(&b.text(), Turns::Short, choices)
}

/// One machine that works out an expression again and again: a chain of this height, from 2 on, over a variable.
pub fn chain(height: usize, choices: usize) -> String {
    expressions(choices, |b, variable| {
        let mut whole = b.read(variable);
        for level in 1..height {
            let one = b.int(1);
            whole = b.binary(if level % 2 == 0 { "add" } else { "sub" }, whole, one);
        }
        whole
    })
}

/// The same with a full tree of this height over constants, at most 9: 2 to the height, less one, expressions.
pub fn tree(height: usize, choices: usize) -> String {
    fn full(b: &mut Builder, height: usize) -> usize {
        if height == 1 {
            return b.int(1);
        }
        let (left, right) = (full(b, height - 1), full(b, height - 1));
        b.binary(if height == 2 { "sub" } else { "add" }, left, right)
    }
    expressions(choices, |b, _| full(b, height))
}

fn expressions(choices: usize, whole: impl Fn(&mut Builder, usize) -> usize) -> String {
    let mut b = Builder::default();
    let kind = b.machine();
    let (x, y) = (b.variable(kind, "int"), b.variable(kind, "int"));
    let value = whole(&mut b, x);
    let put = b.assign(y, value);
    let forever = b.forever(put);
    let one = b.int(1);
    let begin = b.assign(x, one);
    let entry = b.row(&[begin, forever]);
    b.state(kind, entry);
    scheduled(&b.text(), Turns::Long, choices)
}

/// One machine that creates others without end, each of which deletes itself.
pub fn births(choices: usize) -> String {
    let mut b = Builder::default();
    let (mother, child) = (b.machine(), b.machine());
    let born = b.variable(mother, "id");
    let new = b.stmt(&format!("new var={born} machine={child} init=none"));
    let forever = b.forever(new);
    let delete = b.stmt("delete");
    b.state(mother, forever);
    b.state(child, delete);
    scheduled(&b.text(), Turns::Short, choices)
}

/// A program of nearly 60,000 bytes, with few choices: 64 events, 16 kinds, 960 expressions, 576 statements, and 35 actions to each of 16 states.
pub fn large() -> String {
    let mut b = Builder::default();
    for _ in 0..64 {
        b.event("int");
    }
    let kinds: Vec<usize> = (0..16).map(|_| b.machine()).collect();
    let variables: Vec<usize> = kinds.iter().map(|&kind| b.variable(kind, "int")).collect();
    for (&kind, &variable) in kinds.iter().zip(&variables) {
        let bodies: Vec<usize> = (0..4).map(|amount| additions(&mut b, variable, amount)).collect();
        let actions: Vec<usize> = bodies[1..].iter().map(|&body| b.action(kind, body)).collect();
        let state = b.state(kind, bodies[0]);
        for event in 1..=35 {
            b.act(state, event, actions[event % actions.len()]);
        }
    }
    scheduled(&b.text(), Turns::Long, 8)
}

/// Five assignments that each add an amount to a variable.
fn additions(b: &mut Builder, variable: usize, amount: i32) -> usize {
    let mut stmts = Vec::new();
    for _ in 0..5 {
        let (old, more) = (b.read(variable), b.int(amount));
        let sum = b.binary("add", old, more);
        stmts.push(b.assign(variable, sum));
    }
    b.row(&stmts)
}
