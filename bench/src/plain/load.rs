//! The loader: the lines of a text read into tables.

use super::program::{Action, Expr, Move, Number, State, Stmt, Tables, Type, Variable};
use super::sound::fault;
use super::{Answer, Choice, Program, ACTIONS, CHOICES, EVENTS, EXPRESSIONS, KINDS, LIVE_NUMBERS, STATEMENTS, STATES, TEXT, VARIABLES};

/// Why a text was refused, and its faulty line.
#[derive(Clone, Copy, PartialEq, Eq, Debug)]
pub struct Refusal {
    pub answer: Answer,
    pub line: usize,
}

/// A line that is not in the form.
struct NotInForm;

type Form<T> = Result<T, NotInForm>;

/// One line of the text, with its own number where it has one.
enum Line {
    Event(u64, Type),
    Machine(u64),
    Var(u64, Variable),
    Expr(u64, ReadExpr),
    Stmt(u64, Stmt),
    Action(u64, Action),
    State(u64, State),
    Step(Move),
    Call(Move),
    Act(Move),
    Start(Number),
    Choice(u64, u64),
}

/// An expression as it is read: a constant may still be out of range.
enum ReadExpr {
    Int(i64),
    Bool(i64),
    Other(Expr),
}

impl Line {
    /// Its place in the order of the kinds of line.
    fn rank(&self) -> u8 {
        match self {
            Line::Event(..) => 0,
            Line::Machine(..) => 1,
            Line::Var(..) => 2,
            Line::Expr(..) => 3,
            Line::Stmt(..) => 4,
            Line::Action(..) => 5,
            Line::State(..) => 6,
            Line::Step(..) => 7,
            Line::Call(..) => 8,
            Line::Act(..) => 9,
            Line::Start(..) => 10,
            Line::Choice(..) => 11,
        }
    }
}

/// The fields of a line that are still to be read.
struct Fields<'a> {
    rest: &'a [u8],
}

impl<'a> Fields<'a> {
    fn at_end(&self) -> bool {
        self.rest.is_empty()
    }

    /// The value of the next field, which must have this key.
    fn value(&mut self, key: &str) -> Form<&'a [u8]> {
        let after_space = self.rest.strip_prefix(b" ").ok_or(NotInForm)?;
        self.value_here(after_space, key)
    }

    fn value_here(&mut self, at: &'a [u8], key: &str) -> Form<&'a [u8]> {
        let value = at.strip_prefix(key.as_bytes()).and_then(|rest| rest.strip_prefix(b"=")).ok_or(NotInForm)?;
        let length = value.iter().position(|&byte| byte == b' ').unwrap_or(value.len());
        self.rest = &value[length..];
        Ok(&value[..length])
    }

    /// The key and the number of the first field.
    fn first(&mut self) -> Form<(&'a [u8], u64)> {
        let length = self.rest.iter().position(|&byte| byte == b'=').ok_or(NotInForm)?;
        let (key, value) = self.rest.split_at(length);
        let value = &value[1..];
        let length = value.iter().position(|&byte| byte == b' ').unwrap_or(value.len());
        self.rest = &value[length..];
        Ok((key, number(&value[..length])?))
    }

    fn number(&mut self, key: &str) -> Form<u64> {
        number(self.value(key)?)
    }

    fn reference(&mut self, key: &str) -> Form<Number> {
        self.number(key).map(reference)
    }

    fn type_of(&mut self, key: &str) -> Form<Type> {
        match self.value(key)? {
            b"void" => Ok(Type::Void),
            b"bool" => Ok(Type::Bool),
            b"int" => Ok(Type::Int),
            b"event" => Ok(Type::Event),
            b"id" => Ok(Type::Id),
            _ => Err(NotInForm),
        }
    }
}

/// A decimal number without leading zeros; one that is too large for the type is above every range.
fn number(digits: &[u8]) -> Form<u64> {
    if digits.is_empty() || (digits.len() > 1 && digits[0] == b'0') {
        return Err(NotInForm);
    }
    let mut value = 0u64;
    for &digit in digits {
        if !digit.is_ascii_digit() {
            return Err(NotInForm);
        }
        value = value.saturating_mul(10).saturating_add(u64::from(digit - b'0'));
    }
    Ok(value)
}

fn signed_number(text: &[u8]) -> Form<i64> {
    let small = |value: u64| i64::try_from(value).unwrap_or(i64::MAX);
    match text.strip_prefix(b"-") {
        None => number(text).map(small),
        Some(digits) => match number(digits)? {
            0 => Err(NotInForm),
            value => Ok(-small(value)),
        },
    }
}

/// A number by which a line refers to something; one that is too large is no line's number.
fn reference(number: u64) -> Number {
    Number::try_from(number).unwrap_or(Number::MAX)
}

/// Whether the digits of one number are below those of another, however long they are.
fn below(left: &[u8], right: &[u8]) -> bool {
    (left.len(), left) < (right.len(), right)
}

/// A list `2,5`, ascending, or `none`.
fn defer_list(text: &[u8]) -> Form<Vec<Number>> {
    if text == b"none" {
        return Ok(Vec::new());
    }
    let mut list = Vec::new();
    let mut last: Option<&[u8]> = None;
    for item in text.split(|&byte| byte == b',') {
        list.push(reference(number(item)?));
        if last.is_some_and(|last| !below(last, item)) {
            return Err(NotInForm);
        }
        last = Some(item);
    }
    Ok(list)
}

/// Pairs `3:7,4:1` of variable and expression, the variables ascending, or `none`.
fn init_list(text: &[u8]) -> Form<Box<[(Number, Number)]>> {
    if text == b"none" {
        return Ok(Box::default());
    }
    let mut list = Vec::new();
    let mut last: Option<&[u8]> = None;
    for item in text.split(|&byte| byte == b',') {
        let colon = item.iter().position(|&byte| byte == b':').ok_or(NotInForm)?;
        let (variable, expr) = (&item[..colon], &item[colon + 1..]);
        list.push((reference(number(variable)?), reference(number(expr)?)));
        if last.is_some_and(|last| !below(last, variable)) {
            return Err(NotInForm);
        }
        last = Some(variable);
    }
    Ok(list.into_boxed_slice())
}

/// A line in the form.
fn read_line(text: &[u8]) -> Form<Line> {
    let mut fields = Fields { rest: text };
    let (key, own) = fields.first()?;
    let line = match key {
        b"event" => Line::Event(own, fields.type_of("type")?),
        b"machine" => Line::Machine(own),
        b"var" => {
            let of = fields.reference("of")?;
            let ty = fields.type_of("type")?;
            Line::Var(own, Variable { of, ty })
        }
        b"expr" => Line::Expr(own, read_expr(&mut fields)?),
        b"stmt" => Line::Stmt(own, read_stmt(&mut fields)?),
        b"action" => {
            let of = fields.reference("of")?;
            let body = fields.reference("do")?;
            Line::Action(own, Action { of, body })
        }
        b"state" => {
            let of = fields.reference("of")?;
            let defer = defer_list(fields.value("defer")?)?;
            let entry = fields.reference("entry")?;
            let exit = fields.reference("exit")?;
            Line::State(own, State { of, defer, entry, exit })
        }
        b"step" => Line::Step(read_move(own, &mut fields, "to")?),
        b"call" => Line::Call(read_move(own, &mut fields, "to")?),
        b"act" => Line::Act(read_move(own, &mut fields, "do")?),
        b"start" => Line::Start(reference(own)),
        b"choice" => {
            let bits = if fields.at_end() { 0 } else { fields.number("bits")? };
            Line::Choice(own, bits)
        }
        _ => return Err(NotInForm),
    };
    if fields.at_end() {
        Ok(line)
    } else {
        Err(NotInForm)
    }
}

fn read_move(own: u64, fields: &mut Fields, to: &str) -> Form<Move> {
    let on = fields.reference("on")?;
    let to = fields.reference(to)?;
    Ok(Move { from: reference(own), on, to })
}

fn read_expr(fields: &mut Fields) -> Form<ReadExpr> {
    let expr = match fields.value("kind")? {
        b"add" => Expr::Add(fields.reference("a")?, fields.reference("b")?),
        b"sub" => Expr::Sub(fields.reference("a")?, fields.reference("b")?),
        b"and" => Expr::And(fields.reference("a")?, fields.reference("b")?),
        b"or" => Expr::Or(fields.reference("a")?, fields.reference("b")?),
        b"not" => Expr::Not(fields.reference("a")?),
        b"neg" => Expr::Neg(fields.reference("a")?),
        b"int" => return signed_number(fields.value("val")?).map(ReadExpr::Int),
        b"bool" => return signed_number(fields.value("val")?).map(ReadExpr::Bool),
        b"var" => Expr::Var(fields.reference("var")?),
        b"this" => Expr::This,
        b"msg" => Expr::Msg,
        b"arg" => Expr::Arg,
        b"bot" => Expr::Bot,
        b"star" => Expr::Star,
        _ => return Err(NotInForm),
    };
    Ok(ReadExpr::Other(expr))
}

fn read_stmt(fields: &mut Fields) -> Form<Stmt> {
    let stmt = match fields.value("kind")? {
        b"assign" => Stmt::Assign { var: fields.reference("var")?, expr: fields.reference("expr")? },
        b"skip" => Stmt::Skip,
        b"delete" => Stmt::Delete,
        b"leave" => Stmt::Leave,
        b"return" => Stmt::Return,
        b"new" => {
            let var = fields.reference("var")?;
            let machine = fields.reference("machine")?;
            Stmt::New { var, machine, init: init_list(fields.value("init")?)? }
        }
        b"send" => {
            let to = fields.reference("to")?;
            let event = fields.reference("event")?;
            Stmt::Send { to, event, arg: fields.reference("arg")? }
        }
        b"raise" => Stmt::Raise { event: fields.reference("event")?, arg: fields.reference("arg")? },
        b"assert" => Stmt::Assert { expr: fields.reference("expr")? },
        b"seq" => Stmt::Seq { first: fields.reference("first")?, second: fields.reference("second")? },
        b"if" => {
            let cond = fields.reference("cond")?;
            let then = fields.reference("then")?;
            Stmt::If { cond, then, other: fields.reference("else")? }
        }
        b"while" => Stmt::While { cond: fields.reference("cond")?, body: fields.reference("body")? },
        _ => return Err(NotInForm),
    };
    Ok(stmt)
}

const NOT_IN_FORM: Answer = 2;
const OUT_OF_RANGE: Answer = 3;

/// The text as far as it is read.
struct Reader {
    tables: Tables,
    choices: Vec<Choice>,
    last_rank: u8,
    has_start: bool,
    variables: [usize; KINDS + 1],
}

/// A line's own number must be the next of its table, and the table must have a place for it.
fn in_sequence(own: u64, count: usize, size: usize) -> Result<(), Answer> {
    if own == count as u64 + 1 && count < size {
        Ok(())
    } else {
        Err(OUT_OF_RANGE)
    }
}

impl Reader {
    fn take(&mut self, line: Line) -> Result<(), Answer> {
        let rank = line.rank();
        if rank < self.last_rank {
            return Err(NOT_IN_FORM);
        }
        self.last_rank = rank;
        let tables = &mut self.tables;
        match line {
            Line::Event(own, ty) => {
                in_sequence(own, tables.events(), EVENTS)?;
                tables.events.push(ty);
            }
            Line::Machine(own) => {
                in_sequence(own, tables.kinds, KINDS)?;
                tables.kinds += 1;
            }
            Line::Var(own, variable) => {
                if variable.ty == Type::Void {
                    return Err(NOT_IN_FORM);
                }
                in_sequence(own, tables.variables.len() - 1, usize::MAX)?;
                if (1..=tables.kinds).contains(&(variable.of as usize)) {
                    let count = &mut self.variables[variable.of as usize];
                    if *count == VARIABLES {
                        return Err(OUT_OF_RANGE);
                    }
                    *count += 1;
                }
                tables.variables.push(variable);
            }
            Line::Expr(own, read) => {
                in_sequence(own, tables.exprs.len() - 1, EXPRESSIONS)?;
                tables.exprs.push(match read {
                    ReadExpr::Int(value) => Expr::Int(i32::try_from(value).map_err(|_| OUT_OF_RANGE)?),
                    ReadExpr::Bool(0) => Expr::Bool(false),
                    ReadExpr::Bool(1) => Expr::Bool(true),
                    ReadExpr::Bool(_) => return Err(OUT_OF_RANGE),
                    ReadExpr::Other(expr) => expr,
                });
            }
            Line::Stmt(own, stmt) => {
                in_sequence(own, tables.stmts.len() - 1, STATEMENTS)?;
                tables.stmts.push(stmt);
            }
            Line::Action(own, action) => {
                in_sequence(own, tables.actions.len() - 1, ACTIONS)?;
                tables.actions.push(action);
            }
            Line::State(own, state) => {
                in_sequence(own, tables.states.len() - 1, STATES)?;
                tables.states.push(state);
            }
            Line::Step(line) => tables.steps.push(line),
            Line::Call(line) => tables.calls.push(line),
            Line::Act(line) => tables.acts.push(line),
            Line::Start(kind) => {
                if self.has_start {
                    return Err(NOT_IN_FORM);
                }
                self.has_start = true;
                tables.start = kind;
            }
            Line::Choice(machine, bits) => {
                if self.choices.len() == CHOICES || !(1..=u64::from(LIVE_NUMBERS)).contains(&machine) {
                    return Err(OUT_OF_RANGE);
                }
                let bits = u8::try_from(bits).map_err(|_| OUT_OF_RANGE)?;
                self.choices.push(Choice { machine: machine as u32, bits });
            }
        }
        Ok(())
    }
}

/// Reads a text, and judges its program.
pub fn load(text: &[u8]) -> Result<(Program, Vec<Choice>), Refusal> {
    if text.len() > TEXT {
        return Err(Refusal { answer: 1, line: 0 });
    }
    let mut reader = Reader { tables: Tables::default(), choices: Vec::new(), last_rank: 0, has_start: false, variables: [0; KINDS + 1] };
    let mut rest = text;
    let mut lines = 0;
    while let Some(length) = rest.iter().position(|&byte| byte == b'\n') {
        lines += 1;
        read_line(&rest[..length])
            .map_err(|NotInForm| NOT_IN_FORM)
            .and_then(|line| reader.take(line))
            .map_err(|answer| Refusal { answer, line: lines })?;
        rest = &rest[length + 1..];
    }
    if !rest.is_empty() || !reader.has_start {
        return Err(Refusal { answer: NOT_IN_FORM, line: lines + 1 });
    }
    match fault(&reader.tables) {
        Some((answer, line)) => Err(Refusal { answer, line }),
        None => Ok((Program::new(reader.tables), reader.choices)),
    }
}
