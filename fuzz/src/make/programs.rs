//! Random sound programs: mostly small, sometimes as large as the sizes let them be.

use bench::plain::program::{Action, Move, Number, State, Tables, Type, Variable};
use bench::plain::{ACTIONS, EVENTS, EXPRESSIONS, HEIGHT, KINDS, STATEMENTS, STATES, VARIABLES};
use namakviz::raw;

use super::statements::Inside;
use crate::rng::Rng;

/// A program as far as it is made.
pub struct Maker<'a> {
    pub rng: &'a mut Rng,
    pub tables: Tables,
    /// the variables of each kind
    pub own: Vec<Vec<(Number, Type)>>,
    /// the chance in a hundred of an expression of another type than is wanted
    pub slips: usize,
    /// how many more `*` the statement that is being made may have
    pub stars: usize,
}

pub fn sound_program(rng: &mut Rng) -> Tables {
    let slips = rng.pick(&[0, 2, 5, 12]);
    let mut maker = Maker { rng, tables: Tables::default(), own: Vec::new(), slips, stars: 0 };
    maker.events();
    maker.kinds();
    for _ in 0..maker.rng.below(3) {
        let kind = maker.any_kind();
        maker.statement(kind, 2, Inside::Entry);
    }
    maker.actions();
    maker.states();
    maker.tables.start = maker.any_kind();
    maker.tables
}

impl Maker<'_> {
    fn events(&mut self) {
        let count = match self.rng.below(100) {
            0..=2 => 0,
            3..=4 => EVENTS,
            5..=12 => self.rng.between(7, 20),
            _ => self.rng.between(1, 5),
        };
        for _ in 0..count {
            let ty = self.rng.pick(&[Type::Void, Type::Bool, Type::Int, Type::Int, Type::Int, Type::Event, Type::Id, Type::Id]);
            self.tables.events.push(ty);
        }
    }

    fn kinds(&mut self) {
        self.tables.kinds = if self.rng.percent(2) { KINDS } else { self.rng.between(1, 3) };
        self.own = vec![Vec::new(); self.tables.kinds + 1];
        let mut wanted = Vec::new();
        for kind in 1..=self.tables.kinds {
            let count = match self.rng.below(100) {
                0..=4 => 0,
                5..=7 => VARIABLES,
                _ => self.rng.between(3, 6),
            };
            for place in 0..count {
                let ty =
                    if place < 3 { [Type::Id, Type::Int, Type::Bool][place] } else { self.rng.pick(&[Type::Bool, Type::Int, Type::Event, Type::Id]) };
                wanted.push((kind, ty));
            }
        }
        self.rng.shuffle(&mut wanted);
        for (kind, ty) in wanted {
            self.own[kind].push((self.tables.variables.len() as Number, ty));
            self.tables.variables.push(Variable { of: kind as Number, ty });
        }
    }

    pub fn any_kind(&mut self) -> Number {
        self.rng.between(1, self.tables.kinds) as Number
    }

    pub fn any_event(&mut self) -> Option<Number> {
        let events = self.tables.events();
        (events != 0).then(|| self.rng.between(1, events) as Number)
    }

    /// There are so many statements or expressions that only small ones may follow.
    pub fn full(&self) -> bool {
        self.tables.stmts.len() > STATEMENTS / 2 || self.tables.exprs.len() > EXPRESSIONS / 2
    }

    /// There is hardly room for another statement.
    pub fn crowded(&self) -> bool {
        self.tables.stmts.len() + 2 * HEIGHT > STATEMENTS || self.tables.exprs.len() + 3 * HEIGHT > EXPRESSIONS
    }

    fn actions(&mut self) {
        let many = self.rng.percent(2);
        for kind in 1..=self.tables.kinds {
            for _ in 0..if many { ACTIONS / self.tables.kinds } else { self.rng.below(3) } {
                let body = self.statement_or_skip(kind as Number, 2, Inside::Entry);
                self.tables.actions.push(Action { of: kind as Number, body });
            }
        }
    }

    fn states(&mut self) {
        let many = self.rng.percent(2);
        let mut kinds = Vec::new();
        for kind in 1..=self.tables.kinds {
            let count = if many { STATES / self.tables.kinds } else { self.rng.between(1, 3) };
            kinds.extend(std::iter::repeat_n(kind as Number, count));
        }
        self.rng.shuffle(&mut kinds);
        for of in kinds {
            let entry = self.body(of);
            let exit = if self.rng.percent(40) { self.statement_or_skip(of, 2, Inside::Exit) } else { 0 };
            let defer = (1..=self.tables.events() as Number).filter(|_| self.rng.percent(20)).collect();
            self.tables.states.push(State { of, defer, entry, exit });
        }
        for state in 1..self.tables.states.len() as Number {
            for event in 1..=self.tables.events() as Number {
                if self.tables.steps.len() + self.tables.calls.len() + self.tables.acts.len() + 2 <= raw::Program::MOVES {
                    self.moves(state, event);
                }
            }
        }
    }

    /// A few statements one after the other, or a tower.
    fn body(&mut self, kind: Number) -> Number {
        if self.rng.percent(2) && !self.crowded() {
            return self.tower(kind);
        }
        let mut whole = self.statement_or_skip(kind, 3, Inside::Entry);
        for _ in 0..if self.crowded() { 0 } else { self.rng.below(4) } {
            let first = self.statement(kind, 2, Inside::Entry);
            whole = self.seq(first, whole);
        }
        whole
    }

    /// What a state does on an event: a step, a call or nothing; an action beside it or not.
    fn moves(&mut self, from: Number, on: Number) {
        let of = self.tables.states[from as usize].of;
        let states: Vec<Number> = (1..).zip(&self.tables.states[1..]).filter(|(_, it)| it.of == of).map(|(number, _)| number).collect();
        let actions: Vec<Number> = (1..).zip(&self.tables.actions[1..]).filter(|(_, it)| it.of == of).map(|(number, _)| number).collect();
        let to = self.rng.pick(&states);
        let sort = self.rng.below(10);
        match sort {
            0..=2 => self.tables.steps.push(Move { from, on, to }),
            3..=5 => self.tables.calls.push(Move { from, on, to }),
            _ => {}
        }
        if sort == 6 || self.rng.percent(15) {
            if let Some(to) = self.rng.maybe_pick(&actions) {
                self.tables.acts.push(Move { from, on, to });
            }
        }
    }
}
