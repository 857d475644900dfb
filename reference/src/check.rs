//! The checker: the type of a rule, or the first question that is answered no.

use crate::host::{Profile, Shape};
use crate::refusal::{Refusal, CHECK};
use crate::term::Term;
use crate::types::{Entry, Form, Table, FLAG, MAYBE, NAT, TWO, UNIT, VOID};

/// The number of the term's type. Types that are missing are added to the table.
pub fn type_of(term: &Term, table: &mut Table, profile: Profile) -> Result<u16, Refusal> {
    Checker {
        table,
        profile,
        context: Vec::new(),
        reached: 0,
    }
    .infer(term)
}

struct Checker<'a> {
    table: &'a mut Table,
    profile: Profile,
    /// The types of the variables around the node, innermost last.
    context: Vec<u16>,
    /// How many nodes were reached, so the place of the next one.
    reached: usize,
}

impl Checker<'_> {
    fn infer(&mut self, term: &Term) -> Result<u16, Refusal> {
        let place = self.reached;
        self.reached += 1;
        let no = |number, child| Refusal::child(CHECK, number, place, child);
        match term {
            Term::Var(index) => {
                let depth = usize::from(*index) + 1;
                if depth > self.context.len() {
                    return Err(no(20, 0));
                }
                Ok(self.context[self.context.len() - depth])
            }
            Term::Zero => Ok(NAT),
            Term::Triv => Ok(UNIT),
            Term::Succ(e) => {
                self.infer_as(e, NAT, no(22, 1))?;
                Ok(NAT)
            }
            Term::Rec(e, base, step) => {
                self.infer_as(e, NAT, no(22, 1))?;
                let result = self.infer(base)?;
                let found = self.infer_under(NAT, step)?;
                if self.table.entry(found) != Entry::new(Form::Fun, result, result) {
                    return Err(no(23, 3));
                }
                if !matches!(**step, Term::Lam(..)) {
                    return Err(no(24, 3));
                }
                Ok(result)
            }
            Term::Lam(parameter, body) => {
                let result = self.infer_under(*parameter, body)?;
                Ok(self.table.add(Entry::new(Form::Fun, *parameter, result)))
            }
            Term::App(function, argument) => {
                let joined = self.infer_joined(function, Form::Fun, no(22, 1))?;
                self.infer_as(argument, joined.left, no(23, 2))?;
                Ok(joined.right)
            }
            Term::Pair(a, b) => {
                let left = self.infer(a)?;
                let right = self.infer(b)?;
                Ok(self.table.add(Entry::new(Form::Prod, left, right)))
            }
            Term::Fst(e) => Ok(self.infer_joined(e, Form::Prod, no(22, 1))?.left),
            Term::Snd(e) => Ok(self.infer_joined(e, Form::Prod, no(22, 1))?.right),
            Term::Abort(result, e) => {
                self.infer_as(e, VOID, no(22, 1))?;
                Ok(*result)
            }
            Term::Inl(other, e) => {
                let left = self.infer(e)?;
                Ok(self.table.add(Entry::new(Form::Sum, left, *other)))
            }
            Term::Inr(other, e) => {
                let right = self.infer(e)?;
                Ok(self.table.add(Entry::new(Form::Sum, *other, right)))
            }
            Term::Case(e, on_left, on_right) => {
                let joined = self.infer_joined(e, Form::Sum, no(22, 1))?;
                let result = self.infer_under(joined.left, on_left)?;
                if self.infer_under(joined.right, on_right)? != result {
                    return Err(no(23, 3));
                }
                Ok(result)
            }
            Term::Query(question, e) => {
                let Some(shape) = self.profile.shape(*question) else {
                    return Err(no(21, 0));
                };
                self.infer_as(e, NAT, no(22, 1))?;
                Ok(match shape {
                    Shape::Number => NAT,
                    Shape::Flag => FLAG,
                    Shape::Maybe => MAYBE,
                    Shape::Pair => TWO,
                })
            }
        }
    }

    /// The child must have this type.
    fn infer_as(&mut self, child: &Term, needed: u16, no: Refusal) -> Result<(), Refusal> {
        if self.infer(child)? == needed {
            Ok(())
        } else {
            Err(no)
        }
    }

    /// The child must have a type of this form.
    fn infer_joined(&mut self, child: &Term, form: Form, no: Refusal) -> Result<Entry, Refusal> {
        let found = self.infer(child)?;
        let entry = self.table.entry(found);
        if entry.form == form {
            Ok(entry)
        } else {
            Err(no)
        }
    }

    /// The type of the child under one more variable.
    fn infer_under(&mut self, variable: u16, child: &Term) -> Result<u16, Refusal> {
        self.context.push(variable);
        let found = self.infer(child);
        self.context.pop();
        found
    }
}
