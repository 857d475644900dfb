//! Steps and runs.

use crate::host::{Answer, Host, Profile};
use crate::refusal::{Refusal, RUN};
use crate::term::{read, Bounds, Node, Term, ANY_TYPE, MOST_NODES};
use std::mem::replace;

/// The most steps of a run in all.
pub const MOST_STEPS: u32 = 1_000_000;

/// Why a run stopped.
#[derive(Clone, Copy, PartialEq, Eq, Debug)]
pub enum Cause {
    Value,
    Stuck,
    Spent,
    Full,
}

impl Cause {
    pub fn word(self) -> &'static str {
        match self {
            Cause::Value => "value",
            Cause::Stuck => "stuck",
            Cause::Spent => "spent",
            Cause::Full => "full",
        }
    }
}

/// Makes steps in place until the first cause to stop, tried in the order of the causes.
/// Answers the cause and the steps made.
pub fn evaluate(term: &mut Term, fuel: u32, room: usize, host: &Host) -> (Cause, u32) {
    let mut stepper = Stepper {
        host,
        size: term.size(),
        room,
        fuel,
    };
    loop {
        if let Some(cause) = stepper.step(term) {
            return (cause, fuel - stepper.fuel);
        }
        debug_assert_eq!(stepper.size, term.size());
    }
}

struct Stepper<'a> {
    host: &'a Host,
    /// The nodes of the whole term.
    size: usize,
    /// The most nodes that it may have.
    room: usize,
    /// The steps that may still be made.
    fuel: u32,
}

impl Stepper<'_> {
    /// Makes the next step inside this subterm, or says the cause why there is none. The cause
    /// `Value` is that of the subterm alone: the caller then looks further.
    fn step(&mut self, e: &mut Term) -> Option<Cause> {
        let within = match e {
            Term::Zero | Term::Triv | Term::Lam(..) => return Some(Cause::Value),
            Term::Var(_) => return Some(Cause::Stuck),
            Term::Succ(a) | Term::Inl(_, a) | Term::Inr(_, a) => return self.step(a),
            Term::Pair(a, b) => {
                return match self.step(a) {
                    Some(Cause::Value) => self.step(b),
                    other => other,
                }
            }
            Term::App(a, b) => match self.step(a) {
                Some(Cause::Value) => self.step(b),
                other => other,
            },
            Term::Rec(a, ..)
            | Term::Fst(a)
            | Term::Snd(a)
            | Term::Abort(_, a)
            | Term::Case(a, ..)
            | Term::Query(_, a) => self.step(a),
        };
        // Every form that is left becomes another term once its first parts are values.
        match within {
            Some(Cause::Value) => self.contract(e),
            other => other,
        }
    }

    /// Makes the step of a term whose evaluated parts are values.
    fn contract(&mut self, e: &mut Term) -> Option<Cause> {
        let Some((gone, come, answer)) = self.change(e) else {
            return Some(Cause::Stuck);
        };
        if self.fuel == 0 {
            return Some(Cause::Spent);
        }
        let size = self.size + come - gone;
        if size > self.room {
            return Some(Cause::Full);
        }
        self.fuel -= 1;
        self.size = size;
        *e = match answer {
            Some(answer) => answer.term(),
            None => next_of(replace(e, Term::Triv)),
        };
        None
    }

    /// How many nodes go and how many come when the term becomes another, and the host's answer
    /// where it is a query; nothing where it becomes none.
    fn change(&self, e: &Term) -> Option<(usize, usize, Option<Answer>)> {
        // A value goes from its place, and stands wherever its variable stood.
        let moved = |body: &Term, v: &Term| {
            let (uses, size) = (body.uses(0), v.size());
            (size + uses, uses * size)
        };
        let (gone, come) = match e {
            Term::App(f, v) => match &**f {
                Term::Lam(_, body) => {
                    let (gone, come) = moved(body, v);
                    (2 + gone, come)
                }
                _ => return None,
            },
            Term::Rec(n, _, step) => match &**n {
                Term::Zero => (2 + step.size(), 0),
                Term::Succ(n) => {
                    let uses = step.uses(0);
                    (1 + uses, 1 + step.size() + uses * n.size())
                }
                _ => return None,
            },
            Term::Fst(p) => match &**p {
                Term::Pair(_, b) => (2 + b.size(), 0),
                _ => return None,
            },
            Term::Snd(p) => match &**p {
                Term::Pair(a, _) => (2 + a.size(), 0),
                _ => return None,
            },
            Term::Case(s, on_left, on_right) => {
                let (body, other, v) = match &**s {
                    Term::Inl(_, v) => (on_left, on_right, v),
                    Term::Inr(_, v) => (on_right, on_left, v),
                    _ => return None,
                };
                let (gone, come) = moved(body, v);
                (2 + other.size() + gone, come)
            }
            Term::Query(question, n) => {
                let n = n.as_numeral()?;
                let answer = self.host.query(*question, u16::try_from(n).ok()?)?;
                return Some((2 + n, answer.term().size(), Some(answer)));
            }
            _ => return None,
        };
        Some((gone, come, None))
    }
}

/// The term that a term becomes, where it is known to become one without the host.
fn next_of(e: Term) -> Term {
    let filled = |mut body: Box<Term>, v: Box<Term>| {
        body.put(*v);
        body
    };
    match e {
        Term::App(f, v) => match *f {
            Term::Lam(_, body) => *filled(body, v),
            _ => unreachable!("only a function is applied"),
        },
        Term::Rec(n, base, step) => match *n {
            Term::Succ(n) => {
                let uses = step.uses(0);
                let f = if uses == 0 {
                    step.clone()
                } else {
                    filled(step.clone(), n.clone())
                };
                Term::App(f, Box::new(Term::Rec(n, base, step)))
            }
            _ => *base,
        },
        Term::Fst(p) => match *p {
            Term::Pair(a, _) => *a,
            _ => unreachable!("only a pair has a first part"),
        },
        Term::Snd(p) => match *p {
            Term::Pair(_, b) => *b,
            _ => unreachable!("only a pair has a second part"),
        },
        Term::Case(s, on_left, on_right) => match *s {
            Term::Inl(_, v) => *filled(on_left, v),
            Term::Inr(_, v) => *filled(on_right, v),
            _ => unreachable!("only a sum has cases"),
        },
        _ => unreachable!("no other term becomes one"),
    }
}

/// What check found out about a rule.
#[derive(Clone)]
pub struct Acceptance {
    pub nodes: Vec<Node>,
    pub type_number: u16,
    pub profile: Profile,
}

/// What a run records of its term.
#[derive(Clone, Copy)]
pub struct Held {
    pub length: usize,
    pub records: usize,
    pub steps: u32,
    pub type_number: u16,
    pub profile: Profile,
}

/// A run, which holds nothing where its tables did not fit.
#[derive(Clone)]
pub struct Run {
    pub held: Option<Held>,
    pub front: Vec<Node>,
    pub back: Vec<Node>,
}

/// What a call of run answers.
pub struct Ran {
    pub cause: Cause,
    pub made: u32,
    pub total: u32,
    pub records: usize,
}

impl Run {
    /// Begins a run in these tables.
    pub fn start(acceptance: &Acceptance, mut front: Vec<Node>, mut back: Vec<Node>) -> Run {
        let records = acceptance.nodes.len();
        let fits = front.len() == back.len() && (records..=MOST_NODES).contains(&front.len());
        if !fits {
            return Run {
                held: None,
                front,
                back,
            };
        }
        fill(&mut front, &acceptance.nodes);
        back.fill(Node::BLANK);
        let held = Held {
            length: front.len(),
            records,
            steps: 0,
            type_number: acceptance.type_number,
            profile: acceptance.profile,
        };
        Run {
            held: Some(held),
            front,
            back,
        }
    }

    /// Question 30 for front alone.
    fn held_in_front(&self) -> Result<Held, Refusal> {
        match self.held {
            Some(held) if held.length == self.front.len() => Ok(held),
            _ => Err(Refusal::plain(RUN, 30)),
        }
    }

    /// Question 33: the term in front.
    fn term(&self, held: &Held) -> Result<Term, Refusal> {
        let bounds = Bounds {
            types: ANY_TYPE,
            closed: true,
        };
        read(&self.front[..held.records], bounds).map_err(|place| Refusal::at(RUN, 33, place))
    }

    /// Runs on.
    pub fn run(&mut self, fuel: u32, host: &Host) -> Result<Ran, Refusal> {
        let mut held = self.held_in_front()?;
        if self.back.len() != held.length {
            return Err(Refusal::plain(RUN, 30));
        }
        if fuel > MOST_STEPS - held.steps {
            return Err(Refusal::plain(RUN, 31));
        }
        if host.profile() != held.profile {
            return Err(Refusal::plain(RUN, 32));
        }
        let mut term = self.term(&held)?;
        let (cause, made) = evaluate(&mut term, fuel, held.length, host);
        let nodes = term.flat();
        held.records = nodes.len();
        held.steps += made;
        fill(&mut self.front, &nodes);
        self.back.fill(Node::BLANK);
        self.held = Some(held);
        Ok(Ran {
            cause,
            made,
            total: held.steps,
            records: held.records,
        })
    }

    /// The held nodes.
    pub fn look(&self) -> Result<&[Node], Refusal> {
        let held = self.held_in_front()?;
        Ok(&self.front[..held.records])
    }

    /// What the run records, if its term is a value.
    pub fn close(&self) -> Result<Held, Refusal> {
        let held = self.held_in_front()?;
        if self.term(&held)?.is_value() {
            Ok(held)
        } else {
            Err(Refusal::plain(RUN, 34))
        }
    }
}

/// The table becomes these nodes and then blanks.
pub fn fill(table: &mut [Node], nodes: &[Node]) {
    table[..nodes.len()].copy_from_slice(nodes);
    table[nodes.len()..].fill(Node::BLANK);
}
