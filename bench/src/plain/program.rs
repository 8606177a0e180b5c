//! A program: its lines as tables, and what a step looks up in them.

#[derive(Clone, Copy, PartialEq, Eq, Debug)]
pub enum Type {
    Void,
    Bool,
    Int,
    Event,
    Id,
}

#[derive(Clone, Copy, PartialEq, Eq, Debug)]
pub enum Value {
    Undefined,
    Bool(bool),
    Int(i32),
    Event(u8),
    Id(u32),
}

impl Value {
    /// Undefined suits every type; void wants undefined.
    pub fn suits(self, wanted: Type) -> bool {
        match self {
            Value::Undefined => true,
            Value::Bool(_) => wanted == Type::Bool,
            Value::Int(_) => wanted == Type::Int,
            Value::Event(_) => wanted == Type::Event,
            Value::Id(_) => wanted == Type::Id,
        }
    }
}

/// The number of something in its table. Tables are numbered from 1; place 0 of the expressions is undefined, and place 0 of the statements is skip.
pub type Number = u16;

#[derive(Clone, Copy, PartialEq, Eq, Debug)]
pub enum Expr {
    Add(Number, Number),
    Sub(Number, Number),
    And(Number, Number),
    Or(Number, Number),
    Not(Number),
    Neg(Number),
    Int(i32),
    Bool(bool),
    Var(Number),
    This,
    Msg,
    Arg,
    Bot,
    Star,
}

impl Expr {
    /// The expressions in it, left to right.
    pub fn parts(&self) -> impl Iterator<Item = Number> {
        let (a, b) = match *self {
            Expr::Add(a, b) | Expr::Sub(a, b) | Expr::And(a, b) | Expr::Or(a, b) => (Some(a), Some(b)),
            Expr::Not(a) | Expr::Neg(a) => (Some(a), None),
            _ => (None, None),
        };
        a.into_iter().chain(b)
    }
}

#[derive(Clone, PartialEq, Eq, Debug)]
pub enum Stmt {
    Skip,
    Assign { var: Number, expr: Number },
    New { var: Number, machine: Number, init: Box<[(Number, Number)]> },
    Delete,
    Send { to: Number, event: Number, arg: Number },
    Raise { event: Number, arg: Number },
    Leave,
    Return,
    Assert { expr: Number },
    Seq { first: Number, second: Number },
    If { cond: Number, then: Number, other: Number },
    While { cond: Number, body: Number },
}

impl Stmt {
    /// What stands in its places for statements, left to right; 0 is skip.
    pub fn places(&self) -> impl Iterator<Item = Number> {
        let (a, b) = match *self {
            Stmt::Seq { first, second } => (Some(first), Some(second)),
            Stmt::If { then, other, .. } => (Some(then), Some(other)),
            Stmt::While { body, .. } => (Some(body), None),
            _ => (None, None),
        };
        a.into_iter().chain(b)
    }

    /// The statements in it, left to right.
    pub fn parts(&self) -> impl Iterator<Item = Number> {
        self.places().filter(|&part| part != 0)
    }

    /// The expressions that it names, left to right; a payload 0 is none.
    pub fn exprs(&self) -> impl Iterator<Item = Number> + '_ {
        let (a, b, init): (_, _, &[(Number, Number)]) = match self {
            Stmt::Assign { expr, .. } | Stmt::Assert { expr } => (Some(*expr), None, &[]),
            Stmt::If { cond, .. } | Stmt::While { cond, .. } => (Some(*cond), None, &[]),
            Stmt::Send { to, arg, .. } => (Some(*to), Some(*arg).filter(|&arg| arg != 0), &[]),
            Stmt::Raise { arg, .. } => (Some(*arg).filter(|&arg| arg != 0), None, &[]),
            Stmt::New { init, .. } => (None, None, init),
            _ => (None, None, &[]),
        };
        a.into_iter().chain(b).chain(init.iter().map(|&(_, expr)| expr))
    }
}

#[derive(Clone, Debug)]
pub struct Variable {
    pub of: Number,
    pub ty: Type,
}

#[derive(Clone, Debug)]
pub struct Action {
    pub of: Number,
    pub body: Number,
}

#[derive(Clone, Debug)]
pub struct State {
    pub of: Number,
    pub defer: Vec<Number>,
    pub entry: Number,
    pub exit: Number,
}

/// A step, call or act line: from a state, on an event, to a state or an action.
#[derive(Clone, Debug)]
pub struct Move {
    pub from: Number,
    pub on: Number,
    pub to: Number,
}

#[derive(Clone, Copy, PartialEq, Eq, Debug)]
pub struct Choice {
    pub machine: u32,
    pub bits: u8,
}

/// What a state does on an event; 0 for no step, no call, no action.
#[derive(Clone, Copy, Default, Debug)]
pub struct Response {
    pub step: u8,
    pub call: u8,
    pub action: u8,
    pub defers: bool,
}

impl Response {
    pub fn has_transition(self) -> bool {
        self.step != 0 || self.call != 0
    }
}

/// The lines of a text without its choices. Tables with a place 0 that no line fills: events, variables, expressions, statements, actions, states.
#[derive(Clone, Debug)]
pub struct Tables {
    pub events: Vec<Type>,
    pub kinds: usize,
    pub variables: Vec<Variable>,
    pub exprs: Vec<Expr>,
    pub stmts: Vec<Stmt>,
    pub actions: Vec<Action>,
    pub states: Vec<State>,
    pub steps: Vec<Move>,
    pub calls: Vec<Move>,
    pub acts: Vec<Move>,
    pub start: Number,
}

impl Default for Tables {
    /// No lines.
    fn default() -> Tables {
        Tables {
            events: vec![Type::Void],
            kinds: 0,
            variables: vec![Variable { of: 0, ty: Type::Void }],
            exprs: vec![Expr::Bot],
            stmts: vec![Stmt::Skip],
            actions: vec![Action { of: 0, body: 0 }],
            states: vec![State { of: 0, defer: Vec::new(), entry: 0, exit: 0 }],
            steps: Vec::new(),
            calls: Vec::new(),
            acts: Vec::new(),
            start: 0,
        }
    }
}

impl Tables {
    pub fn events(&self) -> usize {
        self.events.len() - 1
    }

    /// The height of each statement: a leaf is 1, and so is 0.
    pub fn heights(&self) -> Vec<u8> {
        let mut heights: Vec<u8> = Vec::with_capacity(self.stmts.len());
        for stmt in &self.stmts {
            let below = stmt.places().map(|part| heights[part as usize]).max().unwrap_or(0);
            heights.push(below.saturating_add(1));
        }
        heights
    }

    /// The kind that each statement serves, 0 for none: that of the state or the action that it belongs to.
    pub fn served(&self) -> Vec<u8> {
        let mut served = vec![0; self.stmts.len()];
        for action in &self.actions[1..] {
            served[action.body as usize] = action.of as u8;
        }
        for state in &self.states[1..] {
            served[state.entry as usize] = state.of as u8;
            served[state.exit as usize] = state.of as u8;
        }
        for number in (1..self.stmts.len()).rev() {
            for part in self.stmts[number].parts() {
                served[part as usize] = served[number];
            }
        }
        served[0] = 0;
        served
    }
}

/// A program that can be run: its tables, and what is worked out of them once.
#[derive(Clone, Debug)]
pub struct Program {
    pub tables: Tables,
    /// what state n does on event e, at n * (events + 1) + e
    pub responses: Vec<Response>,
    /// the place of each variable among its kind's
    pub places: Vec<u8>,
    /// the variables of each kind
    pub variables_of: Vec<Vec<Number>>,
    /// the first state of each kind
    pub initial: Vec<Number>,
    pub heights: Vec<u8>,
    pub served: Vec<u8>,
}

impl Program {
    /// The tables must have passed `sound::fault`.
    pub fn new(tables: Tables) -> Program {
        let width = tables.events() + 1;
        let mut responses = vec![Response::default(); tables.states.len() * width];
        for (number, state) in tables.states.iter().enumerate() {
            for &event in &state.defer {
                responses[number * width + event as usize].defers = true;
            }
        }
        for step in &tables.steps {
            responses[step.from as usize * width + step.on as usize].step = step.to as u8;
        }
        for call in &tables.calls {
            responses[call.from as usize * width + call.on as usize].call = call.to as u8;
        }
        for act in &tables.acts {
            responses[act.from as usize * width + act.on as usize].action = act.to as u8;
        }
        let mut variables_of = vec![Vec::new(); tables.kinds + 1];
        let mut places = vec![0; tables.variables.len()];
        for (number, variable) in tables.variables.iter().enumerate().skip(1) {
            let own = &mut variables_of[variable.of as usize];
            places[number] = own.len() as u8;
            own.push(number as Number);
        }
        let mut initial = vec![0; tables.kinds + 1];
        for (number, state) in tables.states.iter().enumerate().skip(1).rev() {
            initial[state.of as usize] = number as Number;
        }
        let heights = tables.heights();
        let served = tables.served();
        Program { tables, responses, places, variables_of, initial, heights, served }
    }

    pub fn response(&self, state: u8, event: u8) -> Response {
        self.responses[state as usize * self.tables.events.len() + event as usize]
    }

    pub fn stmt(&self, number: Number) -> &Stmt {
        &self.tables.stmts[number as usize]
    }

    pub fn expr(&self, number: Number) -> Expr {
        self.tables.exprs[number as usize]
    }

    pub fn variable_type(&self, number: Number) -> Type {
        self.tables.variables[number as usize].ty
    }
}
