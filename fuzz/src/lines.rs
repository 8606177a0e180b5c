//! A program and choices written as a text.

use std::fmt::Write;

use bench::plain::program::{Expr, Move, Number, Stmt, Tables, Type};
use bench::plain::Choice;

pub fn type_name(ty: Type) -> &'static str {
    match ty {
        Type::Void => "void",
        Type::Bool => "bool",
        Type::Int => "int",
        Type::Event => "event",
        Type::Id => "id",
    }
}

fn expr_fields(expr: &Expr) -> String {
    match *expr {
        Expr::Add(a, b) => format!("add a={a} b={b}"),
        Expr::Sub(a, b) => format!("sub a={a} b={b}"),
        Expr::And(a, b) => format!("and a={a} b={b}"),
        Expr::Or(a, b) => format!("or a={a} b={b}"),
        Expr::Not(a) => format!("not a={a}"),
        Expr::Neg(a) => format!("neg a={a}"),
        Expr::Int(value) => format!("int val={value}"),
        Expr::Bool(value) => format!("bool val={}", u8::from(value)),
        Expr::Var(variable) => format!("var var={variable}"),
        Expr::This => "this".into(),
        Expr::Msg => "msg".into(),
        Expr::Arg => "arg".into(),
        Expr::Bot => "bot".into(),
        Expr::Star => "star".into(),
    }
}

fn stmt_fields(stmt: &Stmt) -> String {
    match stmt {
        Stmt::Skip => "skip".into(),
        Stmt::Assign { var, expr } => format!("assign var={var} expr={expr}"),
        Stmt::New { var, machine, init } => format!("new var={var} machine={machine} init={}", listed(init, |(x, e)| format!("{x}:{e}"))),
        Stmt::Delete => "delete".into(),
        Stmt::Send { to, event, arg } => format!("send to={to} event={event} arg={arg}"),
        Stmt::Raise { event, arg } => format!("raise event={event} arg={arg}"),
        Stmt::Leave => "leave".into(),
        Stmt::Return => "return".into(),
        Stmt::Assert { expr } => format!("assert expr={expr}"),
        Stmt::Seq { first, second } => format!("seq first={first} second={second}"),
        Stmt::If { cond, then, other } => format!("if cond={cond} then={then} else={other}"),
        Stmt::While { cond, body } => format!("while cond={cond} body={body}"),
    }
}

fn listed<T>(list: &[T], item: impl Fn(&T) -> String) -> String {
    if list.is_empty() {
        return "none".into();
    }
    list.iter().map(item).collect::<Vec<_>>().join(",")
}

/// The lines of a table, numbered from 1; place 0 of it is no line.
fn numbered<T>(text: &mut String, name: &str, table: &[T], fields: impl Fn(&T) -> String) {
    for (number, row) in table.iter().enumerate().skip(1) {
        writeln!(text, "{name}={number} {}", fields(row)).expect("a string takes everything");
    }
}

fn moves(text: &mut String, name: &str, to: &str, moves: &[Move]) {
    for line in moves {
        writeln!(text, "{name}={} on={} {to}={}", line.from, line.on, line.to).expect("a string takes everything");
    }
}

/// The lines of a program, up to `start`.
pub fn program_text(tables: &Tables) -> String {
    let mut text = String::new();
    numbered(&mut text, "event", &tables.events, |&ty| format!("type={}", type_name(ty)));
    for kind in 1..=tables.kinds {
        writeln!(text, "machine={kind}").expect("a string takes everything");
    }
    numbered(&mut text, "var", &tables.variables, |it| format!("of={} type={}", it.of, type_name(it.ty)));
    numbered(&mut text, "expr", &tables.exprs, |it| format!("kind={}", expr_fields(it)));
    numbered(&mut text, "stmt", &tables.stmts, |it| format!("kind={}", stmt_fields(it)));
    numbered(&mut text, "action", &tables.actions, |it| format!("of={} do={}", it.of, it.body));
    numbered(&mut text, "state", &tables.states, |it| {
        format!("of={} defer={} entry={} exit={}", it.of, listed(&it.defer, Number::to_string), it.entry, it.exit)
    });
    moves(&mut text, "step", "to", &tables.steps);
    moves(&mut text, "call", "to", &tables.calls);
    moves(&mut text, "act", "do", &tables.acts);
    writeln!(text, "start={}", tables.start).expect("a string takes everything");
    text
}

/// The line of a choice, without `bits` where they are 0 and `short` is asked for.
pub fn choice_line(choice: &Choice, short: bool) -> String {
    if short && choice.bits == 0 {
        return format!("choice={}\n", choice.machine);
    }
    format!("choice={} bits={}\n", choice.machine, choice.bits)
}
