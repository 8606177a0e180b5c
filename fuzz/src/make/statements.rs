//! The statements and expressions of a random sound program: parts before their wholes, so that each is lower, and each named once.

use bench::plain::program::{Expr, Number, Stmt, Type};
use bench::plain::{HEIGHT, STARS};

use super::programs::Maker;

/// Where a statement will stand: an exit has no raise, return or leave.
#[derive(Clone, Copy, PartialEq, Eq)]
pub enum Inside {
    Entry,
    Exit,
}

impl Maker<'_> {
    fn expr(&mut self, expr: Expr) -> Number {
        self.tables.exprs.push(expr);
        (self.tables.exprs.len() - 1) as Number
    }

    fn stmt(&mut self, stmt: Stmt) -> Number {
        self.tables.stmts.push(stmt);
        (self.tables.stmts.len() - 1) as Number
    }

    pub fn seq(&mut self, first: Number, second: Number) -> Number {
        self.stmt(Stmt::Seq { first, second })
    }

    pub fn statement_or_skip(&mut self, kind: Number, depth: usize, inside: Inside) -> Number {
        if self.rng.percent(20) {
            return 0;
        }
        self.statement(kind, depth, inside)
    }

    /// A statement of a kind, with at most `depth` statements around its innermost ones.
    pub fn statement(&mut self, kind: Number, depth: usize, inside: Inside) -> Number {
        if self.crowded() {
            return 0;
        }
        self.stars = STARS;
        let sort =
            self.rng.weighed(&[if depth > 0 && !self.full() { 30 } else { 0 }, 14, 20, 9, 8, 4, 3, if inside == Inside::Entry { 12 } else { 0 }]);
        match sort {
            0 => self.compound(kind, depth, inside),
            1 => self.assign(kind),
            2 => self.send(kind),
            3 => self.creation(kind),
            4 => {
                let expr = self.assertion(kind);
                self.stmt(Stmt::Assert { expr })
            }
            5 => self.stmt(Stmt::Skip),
            6 => self.stmt(Stmt::Delete),
            _ => self.breaking_off(kind),
        }
    }

    /// Seqs around a statement, up to the height that is let through.
    pub fn tower(&mut self, kind: Number) -> Number {
        self.stars = STARS;
        let mut whole = self.assign(kind);
        let to_the_left = self.rng.percent(50);
        for _ in 1..self.rng.between(HEIGHT - 2, HEIGHT) {
            whole = if to_the_left { self.seq(whole, 0) } else { self.seq(0, whole) };
        }
        whole
    }

    fn compound(&mut self, kind: Number, depth: usize, inside: Inside) -> Number {
        let one = self.statement_or_skip(kind, depth - 1, inside);
        let two = self.statement_or_skip(kind, depth - 1, inside);
        let (one, two) = if self.rng.percent(50) { (one, two) } else { (two, one) };
        let sort = self.rng.below(4);
        if sort < 2 {
            return self.seq(one, two);
        }
        self.stars = STARS;
        let cond = self.value(kind, Type::Bool, 2);
        if sort == 2 {
            self.stmt(Stmt::If { cond, then: one, other: two })
        } else {
            let body = if one == 0 { two } else { one };
            self.stmt(Stmt::While { cond, body })
        }
    }

    fn assign(&mut self, kind: Number) -> Number {
        let Some((var, ty)) = self.rng.maybe_pick(&self.own[kind as usize]) else {
            return self.stmt(Stmt::Skip);
        };
        let expr = if self.rng.percent(2) { self.expr_tower(kind, ty) } else { self.value(kind, ty, 2) };
        self.stmt(Stmt::Assign { var, expr })
    }

    fn send(&mut self, kind: Number) -> Number {
        let Some(event) = self.any_event() else {
            return self.stmt(Stmt::Skip);
        };
        let (to, arg) = if self.rng.percent(50) {
            let to = self.value(kind, Type::Id, 0);
            (to, self.payload(kind, event))
        } else {
            let arg = self.payload(kind, event);
            (self.value(kind, Type::Id, 0), arg)
        };
        self.stmt(Stmt::Send { to, event, arg })
    }

    fn payload(&mut self, kind: Number, event: Number) -> Number {
        let ty = self.tables.events[event as usize];
        if ty == Type::Void && !self.rng.percent(self.slips) || self.rng.percent(10) {
            return 0;
        }
        self.value(kind, ty, 1)
    }

    fn creation(&mut self, kind: Number) -> Number {
        let ids: Vec<Number> = self.own[kind as usize].iter().filter(|(_, ty)| *ty == Type::Id).map(|&(number, _)| number).collect();
        let Some(var) = self.rng.maybe_pick(&ids) else {
            return self.stmt(Stmt::Skip);
        };
        let machine = self.any_kind();
        let wanted: Vec<(Number, Type)> = self.own[machine as usize].clone();
        let mut init = Vec::new();
        for (variable, ty) in wanted {
            if self.rng.percent(40) {
                init.push((variable, self.value(kind, ty, 1)));
            }
        }
        self.stmt(Stmt::New { var, machine, init: init.into_boxed_slice() })
    }

    /// True more often than not, so that runs go on.
    fn assertion(&mut self, kind: Number) -> Number {
        let left = self.value(kind, Type::Bool, 2);
        if self.rng.percent(60) {
            return left;
        }
        let right = self.expr(Expr::Bool(true));
        self.expr(Expr::Or(left, right))
    }

    fn breaking_off(&mut self, kind: Number) -> Number {
        match (self.rng.below(4), self.any_event()) {
            (0, _) => self.stmt(Stmt::Leave),
            (1, _) | (_, None) => self.stmt(Stmt::Return),
            (_, Some(event)) => {
                let arg = self.payload(kind, event);
                self.stmt(Stmt::Raise { event, arg })
            }
        }
    }

    /// An expression that mostly has the type that is wanted.
    fn value(&mut self, kind: Number, wanted: Type, depth: usize) -> Number {
        let wanted = if self.rng.percent(self.slips) { self.rng.pick(&[Type::Bool, Type::Int, Type::Event, Type::Id]) } else { wanted };
        let operators = matches!(wanted, Type::Bool | Type::Int);
        if depth == 0 || !operators || self.full() || self.rng.percent(40) {
            return self.leaf(kind, wanted);
        }
        let a = self.value(kind, wanted, depth - 1);
        if self.rng.percent(30) {
            return self.expr(if wanted == Type::Int { Expr::Neg(a) } else { Expr::Not(a) });
        }
        let b = self.value(kind, wanted, depth - 1);
        let (a, b) = if self.rng.percent(50) { (a, b) } else { (b, a) };
        let operator = match (wanted, self.rng.percent(50)) {
            (Type::Int, true) => Expr::Add(a, b),
            (Type::Int, false) => Expr::Sub(a, b),
            (_, true) => Expr::And(a, b),
            (_, false) => Expr::Or(a, b),
        };
        self.expr(operator)
    }

    /// Operators over a leaf, up to the height that is let through.
    fn expr_tower(&mut self, kind: Number, wanted: Type) -> Number {
        let mut whole = self.leaf(kind, wanted);
        for _ in 1..self.rng.between(HEIGHT - 1, HEIGHT) {
            whole = self.expr(if wanted == Type::Int { Expr::Neg(whole) } else { Expr::Not(whole) });
        }
        whole
    }

    fn leaf(&mut self, kind: Number, wanted: Type) -> Number {
        let mut leaves: Vec<Expr> = self.own[kind as usize].iter().filter(|(_, ty)| *ty == wanted).map(|&(number, _)| Expr::Var(number)).collect();
        match wanted {
            Type::Int => {
                let value = match self.rng.below(4) {
                    0 => self.rng.pick(&[i32::MIN, i32::MIN + 1, i32::MAX - 1, i32::MAX]),
                    1 => self.rng.any() as i32,
                    _ => self.rng.below(9) as i32 - 3,
                };
                leaves.extend([Expr::Int(value), Expr::Int(value)]);
            }
            Type::Bool => {
                leaves.push(Expr::Bool(self.rng.percent(50)));
                if self.stars > 0 {
                    leaves.extend([Expr::Star, Expr::Star]);
                }
            }
            Type::Id => leaves.push(Expr::This),
            Type::Event => leaves.push(Expr::Msg),
            Type::Void => leaves.push(Expr::Bot),
        }
        if self.rng.percent(6) {
            leaves = vec![Expr::Arg, Expr::Arg, Expr::Bot];
        }
        let leaf = self.rng.pick(&leaves);
        self.stars -= usize::from(leaf == Expr::Star);
        self.expr(leaf)
    }
}
