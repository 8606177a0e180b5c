//! A case and its results as one line of JSON, for the second program and for a file when something differs.
//!
//! Arrays are written without the zeros at their end. A configuration behind a call is `null` where it is as it was.

use std::fmt::Write;

use namakviz::raw::{Config, MachineNumbers, Program, Room};

use crate::case::Case;
use crate::check::Results;

/// An array without the zeros at its end.
fn row<T: Copy + Default + PartialEq + std::fmt::Display>(numbers: &[T]) -> String {
    let length = numbers.iter().rposition(|&number| number != T::default()).map_or(0, |last| last + 1);
    list(&numbers[..length])
}

fn list<T: std::fmt::Display>(numbers: &[T]) -> String {
    let mut json = String::from("[");
    for (place, number) in numbers.iter().enumerate() {
        write!(json, "{}{number}", if place == 0 { "" } else { "," }).expect("a string takes everything");
    }
    json + "]"
}

fn program(p: &Program) -> String {
    let arrays = [
        ("event_types", row(&p.event_types)),
        ("variable_of", row(&p.variable_of)),
        ("variable_type", row(&p.variable_type)),
        ("exprs", row(&p.exprs)),
        ("stmts", row(&p.stmts)),
        ("inits", row(&p.inits)),
        ("action_of", row(&p.action_of)),
        ("action_body", row(&p.action_body)),
        ("state_of", row(&p.state_of)),
        ("state_entry", row(&p.state_entry)),
        ("state_exit", row(&p.state_exit)),
        ("defers", row(&p.defers)),
        ("moves", row(&p.moves)),
    ];
    let arrays: Vec<String> = arrays.iter().map(|(name, json)| format!("\"{name}\":{json}")).collect();
    format!("{{{},\"kinds\":{},\"steps\":{},\"calls\":{},\"acts\":{},\"start\":{}}}", arrays.join(","), p.kinds, p.steps, p.calls, p.acts, p.start.0)
}

fn room(r: &Room) -> String {
    format!(
        "{{\"this\":{},\"kind\":{},\"depth\":{},\"states\":{},\"maps\":{},\"values\":{},\"count\":{},\"parts\":{},\"held\":{},\"waiting\":{},\"pairs\":{}}}",
        r.this.0,
        r.kind.0,
        r.depth,
        row(&r.states),
        row(&r.maps),
        row(&r.values),
        r.count,
        row(&r.parts),
        r.held,
        r.waiting,
        row(&r.pairs)
    )
}

/// Every room, `null` for one with nothing but zeros.
fn config(c: &Config) -> String {
    let rooms: Vec<String> = c.rooms.iter().map(|it| if is_free(it) { "null".into() } else { room(it) }).collect();
    format!("{{\"next\":{},\"rooms\":[{}]}}", c.next, rooms.join(","))
}

fn is_free(r: &Room) -> bool {
    let numbers = r.this.0 == 0 && r.kind.0 == 0 && r.depth == 0 && r.count == 0 && r.held == 0 && r.waiting == 0;
    let bytes = r.states.iter().chain(&r.maps).all(|&number| number == 0);
    let words = r.values.iter().chain(&r.pairs).all(|&number| number == 0);
    numbers && bytes && words && r.parts.iter().all(|&number| number == 0)
}

fn machine(m: &MachineNumbers) -> String {
    format!(
        "{{\"answer\":{},\"kind\":{},\"depth\":{},\"state\":{},\"values\":{},\"pairs\":{}}}",
        m.answer,
        m.kind.0,
        m.depth,
        m.state,
        list(&m.values[..m.variables]),
        list(&m.pairs[..m.waiting])
    )
}

fn after(before: &Config, behind: &Config) -> String {
    if before == behind {
        "null".into()
    } else {
        config(behind)
    }
}

/// Bytes as the characters of their numbers.
fn text(bytes: &[u8]) -> String {
    let mut json = String::from("\"");
    for &byte in bytes {
        match byte {
            b'"' | b'\\' => json.extend(['\\', byte as char]),
            b' '..=b'~' => json.push(byte as char),
            _ => write!(json, "\\u{byte:04x}").expect("a string takes everything"),
        }
    }
    json + "\""
}

/// What was handed in.
fn handed(seed: u64, number: u64, case: &Case) -> String {
    format!(
        "\"seed\":{seed},\"case\":{number},\"text\":{},\"program\":{},\"config\":{},\"machine\":{},\"bits\":{},\"list\":{},\"room\":{}",
        text(&case.text),
        program(&case.program),
        config(&case.config),
        case.machine,
        case.bits,
        list(&case.list),
        case.room
    )
}

/// The case alone.
pub fn case(seed: u64, number: u64, case: &Case) -> String {
    format!("{{{}}}\n", handed(seed, number, case))
}

/// The case with its results.
pub fn case_with_results(seed: u64, number: u64, case: &Case, results: &Results) -> String {
    let loaded = &results.loaded;
    let (stepped, end) = (results.stepped, results.end);
    format!(
        "{{{},\"load\":{{\"answer\":{},\"line\":{},\"program\":{},\"choices\":{}}},\"start\":{{\"answer\":{},\"config\":{}}},\
         \"step\":{{\"answer\":{},\"rule\":{},\"config\":{}}},\"run\":{{\"answer\":{},\"place\":{},\"steps\":{},\"rules\":{},\"config\":{}}},\
         \"regroup\":{{\"answer\":{},\"list\":{}}},\"fit\":{},\"live\":{{\"answer\":{},\"machines\":{}}},\"shown\":{}}}\n",
        handed(seed, number, case),
        loaded.answer,
        loaded.line,
        program(&loaded.program),
        list(&loaded.choices[..loaded.count]),
        results.started.answer,
        config(&results.started.config),
        stepped.answer,
        stepped.rule,
        after(&case.config, &results.after_step),
        end.answer,
        end.place,
        end.steps,
        list(&results.rules),
        after(&case.config, &results.after_run),
        results.regrouped,
        list(&results.out),
        results.shown.fit,
        results.shown.live.answer,
        list(&results.shown.live.machines[..results.shown.live.count]),
        machine(&results.shown.machine)
    )
}
