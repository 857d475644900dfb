//! Rules made at random that have a type, and worked rules with long runs.

use crate::host::{Profile, Shape};
use crate::rng::Rng;
use crate::term::{Node, Term};
use crate::types::{Entry, Form, Table, NAT, UNIT, VOID};
use crate::words;
use std::rc::Rc;

/// A rule: its nodes and its whole type table.
#[derive(Clone)]
pub struct Rule {
    pub nodes: Vec<Node>,
    pub entries: Vec<Entry>,
}

/// A type as a tree.
#[derive(Clone, PartialEq, Eq)]
enum Ty {
    Nat,
    Unit,
    Void,
    Join(Form, Rc<Ty>, Rc<Ty>),
}

impl Ty {
    fn join(form: Form, left: Ty, right: Ty) -> Ty {
        Ty::Join(form, Rc::new(left), Rc::new(right))
    }

    fn of_shape(shape: Shape) -> Ty {
        match shape {
            Shape::Number => Ty::Nat,
            Shape::Flag => Ty::join(Form::Sum, Ty::Unit, Ty::Unit),
            Shape::Maybe => Ty::join(Form::Sum, Ty::Unit, Ty::Nat),
            Shape::Pair => Ty::join(Form::Prod, Ty::Nat, Ty::Nat),
        }
    }
}

/// A well-typed rule of about so many nodes, for hosts with this profile.
pub fn well_typed(rng: &mut Rng, profile: Profile, budget: usize) -> Rule {
    let mut builder = Builder {
        rng,
        table: Table::given(),
        profile,
        context: Vec::new(),
    };
    for _ in 0..builder.rng.below(4) {
        let extra = builder.ty(2);
        builder.number(&extra);
    }
    let term = loop {
        let ty = builder.ty(2);
        let is_function = matches!(ty, Ty::Join(Form::Fun, ..));
        if is_function && builder.rng.chance(60) {
            continue; // a function has few steps of its own
        }
        let term = if builder.rng.chance(75) {
            builder.busy(&ty, budget)
        } else {
            builder.term(&ty, budget)
        };
        if let Some(term) = term {
            break term;
        }
    };
    Rule {
        nodes: term.flat(),
        entries: builder.table.entries().to_vec(),
    }
}

struct Builder<'a> {
    rng: &'a mut Rng,
    /// The types that annotations name.
    table: Table,
    profile: Profile,
    /// The types of the variables, innermost last.
    context: Vec<Ty>,
}

impl Builder<'_> {
    /// A type, joined at most so deep.
    fn ty(&mut self, depth: usize) -> Ty {
        match self.rng.below(if depth == 0 { 10 } else { 24 }) {
            0..=6 => Ty::Nat,
            7 | 8 => Ty::Unit,
            9 => {
                if self.rng.chance(30) {
                    Ty::Void
                } else {
                    Ty::Nat
                }
            }
            10..=14 => Ty::join(Form::Fun, self.ty(depth - 1), self.ty(depth - 1)),
            15..=19 => Ty::join(Form::Prod, self.ty(depth - 1), self.ty(depth - 1)),
            _ => Ty::join(Form::Sum, self.ty(depth - 1), self.ty(depth - 1)),
        }
    }

    /// The number of a type, laid down where it is missing.
    fn number(&mut self, ty: &Ty) -> u16 {
        match ty {
            Ty::Nat => NAT,
            Ty::Unit => UNIT,
            Ty::Void => VOID,
            Ty::Join(form, left, right) => {
                let (left, right) = (self.number(left), self.number(right));
                self.table.add(Entry::new(*form, left, right))
            }
        }
    }

    /// A variable of this type, if there is one.
    fn variable(&mut self, ty: &Ty) -> Option<Term> {
        let fitting: Vec<usize> = (0..self.context.len())
            .filter(|index| self.context[self.context.len() - 1 - index] == *ty)
            .collect();
        if fitting.is_empty() {
            return None;
        }
        let index = *self.rng.pick(&fitting);
        Some(Term::Var(u16::try_from(index).expect("few variables")))
    }

    /// A term under one more variable.
    fn under(&mut self, variable: &Ty, ty: &Ty, budget: usize) -> Option<Box<Term>> {
        self.context.push(variable.clone());
        let term = self.term(ty, budget);
        self.context.pop();
        term.map(Box::new)
    }

    fn boxed(&mut self, ty: &Ty, budget: usize) -> Option<Box<Term>> {
        self.term(ty, budget).map(Box::new)
    }

    /// A term of this type with about so many nodes, where there is one at all.
    fn term(&mut self, ty: &Ty, budget: usize) -> Option<Term> {
        if budget <= 1 {
            return self.smallest(ty);
        }
        if self.rng.chance(25) {
            if let Some(variable) = self.variable(ty) {
                return Some(variable);
            }
        }
        for _ in 0..3 {
            let term = match self.rng.below(20) {
                0..=6 => self.introduced(ty, budget - 1),
                7..=9 => self.applied(ty, budget - 1),
                10 | 11 => self.projected(ty, budget - 1),
                12..=14 => self.by_cases(ty, budget - 1),
                15 | 16 => self.recursive(ty, budget - 1),
                17 | 18 => self.asked(ty, budget - 1),
                _ => self.aborted(ty),
            };
            if term.is_some() {
                return term;
            }
        }
        self.smallest(ty)
    }

    /// A term of this type that is no value yet, where there is one.
    fn busy(&mut self, ty: &Ty, budget: usize) -> Option<Term> {
        match self.rng.below(6) {
            0 | 1 => self.applied(ty, budget),
            2 => self.projected(ty, budget),
            3 => self.by_cases(ty, budget),
            _ => self.recursive(ty, budget),
        }
    }

    /// A short term of this type.
    fn smallest(&mut self, ty: &Ty) -> Option<Term> {
        if let Some(variable) = self.variable(ty) {
            return Some(variable);
        }
        match ty {
            Ty::Nat => Some(Term::Zero),
            Ty::Unit => Some(Term::Triv),
            Ty::Void => None,
            Ty::Join(Form::Fun, left, right) => {
                self.context.push((**left).clone());
                let body = self.smallest(right);
                self.context.pop();
                Some(Term::Lam(self.number(left), Box::new(body?)))
            }
            Ty::Join(Form::Prod, left, right) => {
                let (a, b) = (self.smallest(left)?, self.smallest(right)?);
                Some(Term::Pair(Box::new(a), Box::new(b)))
            }
            Ty::Join(_, left, right) => match self.smallest(left) {
                Some(a) => Some(Term::Inl(self.number(right), Box::new(a))),
                None => {
                    let b = self.smallest(right)?;
                    Some(Term::Inr(self.number(left), Box::new(b)))
                }
            },
        }
        .or_else(|| self.aborted(ty))
    }

    fn introduced(&mut self, ty: &Ty, budget: usize) -> Option<Term> {
        match ty {
            Ty::Nat if self.rng.chance(60) => {
                let most = budget.min(12);
                Some(Term::numeral(self.rng.within(0, most)))
            }
            Ty::Nat => Some(Term::Succ(self.boxed(&Ty::Nat, budget)?)),
            Ty::Unit => Some(Term::Triv),
            Ty::Void => None,
            Ty::Join(Form::Fun, left, right) => {
                let body = self.under(left, right, budget)?;
                Some(Term::Lam(self.number(left), body))
            }
            Ty::Join(Form::Prod, left, right) => {
                let share = self.rng.within(0, budget);
                Some(Term::Pair(
                    self.boxed(left, share)?,
                    self.boxed(right, budget - share)?,
                ))
            }
            Ty::Join(_, left, right) => {
                if self.rng.chance(50) {
                    let a = self.boxed(left, budget)?;
                    Some(Term::Inl(self.number(right), a))
                } else {
                    let b = self.boxed(right, budget)?;
                    Some(Term::Inr(self.number(left), b))
                }
            }
        }
    }

    fn applied(&mut self, ty: &Ty, budget: usize) -> Option<Term> {
        let argument = self.ty(1);
        let share = self.rng.within(budget / 3, budget);
        let function = Ty::join(Form::Fun, argument.clone(), ty.clone());
        let f = self.boxed(&function, share)?;
        Some(Term::App(f, self.boxed(&argument, budget - share)?))
    }

    fn projected(&mut self, ty: &Ty, budget: usize) -> Option<Term> {
        let other = self.ty(1);
        if self.rng.chance(50) {
            let pair = Ty::join(Form::Prod, ty.clone(), other);
            Some(Term::Fst(self.boxed(&pair, budget)?))
        } else {
            let pair = Ty::join(Form::Prod, other, ty.clone());
            Some(Term::Snd(self.boxed(&pair, budget)?))
        }
    }

    fn by_cases(&mut self, ty: &Ty, budget: usize) -> Option<Term> {
        let (left, right) = match self.rng.below(4) {
            0 => (Ty::Unit, Ty::Unit),
            1 => (Ty::Unit, Ty::Nat),
            _ => (self.ty(1), self.ty(1)),
        };
        let sum = Ty::join(Form::Sum, left.clone(), right.clone());
        let scrutinee = self.boxed(&sum, budget / 3)?;
        let on_left = self.under(&left, ty, budget / 3)?;
        Some(Term::Case(
            scrutinee,
            on_left,
            self.under(&right, ty, budget / 3)?,
        ))
    }

    fn recursive(&mut self, ty: &Ty, budget: usize) -> Option<Term> {
        let scrutinee = self.boxed(&Ty::Nat, budget / 3)?;
        let base = self.boxed(ty, budget / 4)?;
        self.context.push(Ty::Nat);
        let body = self.under(ty, ty, budget / 3);
        self.context.pop();
        let step = Term::Lam(self.number(ty), body?);
        Some(Term::Rec(scrutinee, base, Box::new(step)))
    }

    /// A query, where some question has answers of this type.
    fn asked(&mut self, ty: &Ty, budget: usize) -> Option<Term> {
        let fitting: Vec<u16> = (0..8)
            .filter(|q| {
                self.profile
                    .shape(*q)
                    .is_some_and(|shape| Ty::of_shape(shape) == *ty)
            })
            .collect();
        if fitting.is_empty() {
            return None;
        }
        let question = *self.rng.pick(&fitting);
        Some(Term::Query(question, self.boxed(&Ty::Nat, budget / 2)?))
    }

    /// An abort, where a variable of type void is there.
    fn aborted(&mut self, ty: &Ty) -> Option<Term> {
        let absurd = self.variable(&Ty::Void)?;
        Some(Term::Abort(self.number(ty), Box::new(absurd)))
    }
}

/// A rule from words. `#n` stands for the numeral n; types come first.
pub fn from_words(text: &str) -> Rule {
    let mut table = Table::given();
    let mut nodes = Vec::new();
    for word in text.split_whitespace() {
        if let Some(n) = word.strip_prefix('#') {
            nodes.extend(Term::numeral(n.parse().expect("a number")).flat());
        } else if let Some(node) = words::node(word) {
            nodes.push(node);
        } else {
            table.add(words::entry(word).expect("a node or an entry"));
        }
    }
    Rule {
        nodes,
        entries: table.entries().to_vec(),
    }
}

/// A rule with a long run. Those with queries are for the profile of a listing.
pub fn worked(rng: &mut Rng, queries: bool) -> Rule {
    let (m, n) = (rng.within(0, 40), rng.within(0, 40));
    let (small, deep) = (rng.within(0, 9), rng.within(1, 300));
    from_words(&match rng.below(if queries { 15 } else { 11 }) {
        0 => format!("RE #{m} #{n} LA0 SU VA0"),
        1 => format!("RE #{m} ZE LA0 RE #{n} VA0 LA0 SU VA0"),
        2 => format!("TF1/1 AP RE #{small} LA1 VA0 LA6 LA1 AP VA1 AP VA1 VA0 TR"),
        3 => format!("FS RE #{small} PA ZE SU ZE LA5 PA SN VA0 RE FS VA0 SN VA0 LA0 SU VA0"),
        4 => format!("RE #{m} ZE LA0 VA1"),
        5 => format!("TF0/0 AP RE #{m} LA0 VA0 LA6 LA0 AP VA1 SU VA0 #{n}"),
        6 => format!("RE #{n} #{m} LA0 RE VA0 ZE LA0 VA1"),
        7 => format!("{} ZE", "AP LA0 VA0 ".repeat(deep)),
        8 => format!("RE #{m} IL0 TR LA4 CA VA0 IR1 VA2 IL0 TR"),
        9 => format!("TF0/0 TF6/6 AP AP AP LA7 VA0 LA6 LA0 AP VA1 AP VA1 VA0 LA0 SU VA0 #{n}"),
        10 => loops(small),
        11 => SCAN.to_string(),
        12 => "RE QU0 ZE ZE LA0 CA QU1 VA1 VA1 SU VA1".to_string(),
        13 => "RE QU0 ZE ZE LA0 RE FS QU3 VA1 VA0 LA0 SU VA0".to_string(),
        _ => format!("PA QU1 #{m} PA QU2 #{small} PA QU3 #{n} QU0 #{deep}"),
    })
}

/// Loops of two rounds, so deep inside each other: many steps, and few nodes.
pub fn loops(depth: usize) -> String {
    format!("RE #2 TR {}LA1 VA0", "LA1 RE #2 VA0 ".repeat(depth))
}

/// How many versions of a listing are not withdrawn, each asked in turn.
pub const SCAN: &str = "SN RE QU0 ZE PA ZE ZE LA5 PA SU FS VA0 CA QU2 FS VA0 SU SN VA1 SN VA1";
