//! Terms as trees, and the flat nodes that they are written as.

/// The kind of a node. A blank is the content of an unused place in a table.
#[derive(Clone, Copy, PartialEq, Eq, Debug, Default)]
pub enum Kind {
    #[default]
    Blank,
    Var,
    Zero,
    Succ,
    Rec,
    Lam,
    App,
    Triv,
    Pair,
    Fst,
    Snd,
    Abort,
    Inl,
    Inr,
    Case,
    Query,
}

/// Every kind that a term may have, with its mark and the number of its children.
pub const KINDS: [(Kind, &str, usize); 15] = [
    (Kind::Var, "VA", 0),
    (Kind::Zero, "ZE", 0),
    (Kind::Succ, "SU", 1),
    (Kind::Rec, "RE", 3),
    (Kind::Lam, "LA", 1),
    (Kind::App, "AP", 2),
    (Kind::Triv, "TR", 0),
    (Kind::Pair, "PA", 2),
    (Kind::Fst, "FS", 1),
    (Kind::Snd, "SN", 1),
    (Kind::Abort, "AB", 1),
    (Kind::Inl, "IL", 1),
    (Kind::Inr, "IR", 1),
    (Kind::Case, "CA", 3),
    (Kind::Query, "QU", 1),
];

/// Indices are below this number.
pub const INDICES: u32 = 4096;
/// Questions are below this number.
pub const QUESTIONS: u32 = 8;
/// Type numbers are below this number where they are free.
pub const ANY_TYPE: u32 = 65536;
/// The most nodes that a rule or a table of a run may have.
pub const MOST_NODES: usize = 4096;

impl Kind {
    pub fn mark(self) -> &'static str {
        KINDS
            .iter()
            .find(|row| row.0 == self)
            .map_or("--", |row| row.1)
    }

    pub fn of_mark(mark: &[u8]) -> Option<Kind> {
        KINDS
            .iter()
            .find(|row| row.1.as_bytes() == mark)
            .map(|row| row.0)
    }

    pub fn children(self) -> usize {
        KINDS
            .iter()
            .find(|row| row.0 == self)
            .map_or(0, |row| row.2)
    }

    /// Whether a node of this kind says something by its number.
    pub fn has_number(self) -> bool {
        matches!(
            self,
            Kind::Var | Kind::Lam | Kind::Abort | Kind::Inl | Kind::Inr | Kind::Query
        )
    }

    /// Whether the number is a type number.
    pub fn has_type(self) -> bool {
        matches!(self, Kind::Lam | Kind::Abort | Kind::Inl | Kind::Inr)
    }

    /// The bound below which a number is in range, with so many types.
    pub fn bound(self, types: u32) -> u32 {
        match self {
            Kind::Blank => 0,
            Kind::Var => INDICES,
            Kind::Query => QUESTIONS,
            _ if self.has_type() => types,
            _ => 1,
        }
    }
}

/// A node of a flat term or a place of a node table.
#[derive(Clone, Copy, PartialEq, Eq, Debug, Default)]
pub struct Node {
    pub kind: Kind,
    pub number: u16,
}

impl Node {
    pub const BLANK: Node = Node {
        kind: Kind::Blank,
        number: 0,
    };

    pub fn new(kind: Kind, number: u16) -> Self {
        Node { kind, number }
    }
}

/// A term.
#[derive(Clone, PartialEq, Eq, Debug)]
pub enum Term {
    Var(u16),
    Zero,
    Succ(Box<Term>),
    Rec(Box<Term>, Box<Term>, Box<Term>),
    Lam(u16, Box<Term>),
    App(Box<Term>, Box<Term>),
    Triv,
    Pair(Box<Term>, Box<Term>),
    Fst(Box<Term>),
    Snd(Box<Term>),
    Abort(u16, Box<Term>),
    Inl(u16, Box<Term>),
    Inr(u16, Box<Term>),
    Case(Box<Term>, Box<Term>, Box<Term>),
    Query(u16, Box<Term>),
}

impl Term {
    /// The numeral n.
    pub fn numeral(n: usize) -> Term {
        (0..n).fold(Term::Zero, |e, _| Term::Succ(Box::new(e)))
    }

    /// The n whose numeral this is, if it is one.
    pub fn as_numeral(&self) -> Option<usize> {
        let mut n = 0;
        let mut e = self;
        while let Term::Succ(inner) = e {
            n += 1;
            e = inner;
        }
        matches!(e, Term::Zero).then_some(n)
    }

    /// The node at the root.
    pub fn node(&self) -> Node {
        let (kind, number) = match self {
            Term::Var(i) => (Kind::Var, *i),
            Term::Zero => (Kind::Zero, 0),
            Term::Succ(_) => (Kind::Succ, 0),
            Term::Rec(..) => (Kind::Rec, 0),
            Term::Lam(t, _) => (Kind::Lam, *t),
            Term::App(..) => (Kind::App, 0),
            Term::Triv => (Kind::Triv, 0),
            Term::Pair(..) => (Kind::Pair, 0),
            Term::Fst(_) => (Kind::Fst, 0),
            Term::Snd(_) => (Kind::Snd, 0),
            Term::Abort(t, _) => (Kind::Abort, *t),
            Term::Inl(t, _) => (Kind::Inl, *t),
            Term::Inr(t, _) => (Kind::Inr, *t),
            Term::Case(..) => (Kind::Case, 0),
            Term::Query(q, _) => (Kind::Query, *q),
        };
        Node { kind, number }
    }

    /// How many nodes the term has.
    pub fn size(&self) -> usize {
        match self {
            Term::Var(_) | Term::Zero | Term::Triv => 1,
            Term::Succ(a)
            | Term::Lam(_, a)
            | Term::Fst(a)
            | Term::Snd(a)
            | Term::Abort(_, a)
            | Term::Inl(_, a)
            | Term::Inr(_, a)
            | Term::Query(_, a) => 1 + a.size(),
            Term::App(a, b) | Term::Pair(a, b) => 1 + a.size() + b.size(),
            Term::Rec(a, b, c) | Term::Case(a, b, c) => 1 + a.size() + b.size() + c.size(),
        }
    }

    /// The term as nodes, each before its children.
    pub fn flat(&self) -> Vec<Node> {
        let mut out = Vec::new();
        self.write(&mut out);
        out
    }

    fn write(&self, out: &mut Vec<Node>) {
        out.push(self.node());
        match self {
            Term::Var(_) | Term::Zero | Term::Triv => {}
            Term::Succ(a)
            | Term::Lam(_, a)
            | Term::Fst(a)
            | Term::Snd(a)
            | Term::Abort(_, a)
            | Term::Inl(_, a)
            | Term::Inr(_, a)
            | Term::Query(_, a) => a.write(out),
            Term::App(a, b) | Term::Pair(a, b) => {
                a.write(out);
                b.write(out);
            }
            Term::Rec(a, b, c) | Term::Case(a, b, c) => {
                a.write(out);
                b.write(out);
                c.write(out);
            }
        }
    }

    /// How often the variable with this index, seen from outside the term, stands in it.
    pub fn uses(&self, index: usize) -> usize {
        match self {
            Term::Var(i) => usize::from(usize::from(*i) == index),
            Term::Zero | Term::Triv => 0,
            Term::Lam(_, a) => a.uses(index + 1),
            Term::Succ(a)
            | Term::Fst(a)
            | Term::Snd(a)
            | Term::Abort(_, a)
            | Term::Inl(_, a)
            | Term::Inr(_, a)
            | Term::Query(_, a) => a.uses(index),
            Term::App(a, b) | Term::Pair(a, b) => a.uses(index) + b.uses(index),
            Term::Rec(a, b, c) => a.uses(index) + b.uses(index) + c.uses(index + 1),
            Term::Case(a, b, c) => a.uses(index) + b.uses(index + 1) + c.uses(index + 1),
        }
    }

    /// Puts a closed term in place of the variable with index 0. The last place gets the term
    /// itself, the others get copies.
    pub fn put(&mut self, closed: Term) {
        let places = self.uses(0);
        self.put_in(
            0,
            &mut Supply {
                term: Some(closed),
                places,
            },
        );
    }

    fn put_in(&mut self, index: usize, supply: &mut Supply) {
        if supply.places == 0 {
            return;
        }
        match self {
            Term::Var(i) => {
                if usize::from(*i) == index {
                    *self = supply.next();
                }
            }
            Term::Zero | Term::Triv => {}
            Term::Lam(_, a) => a.put_in(index + 1, supply),
            Term::Succ(a)
            | Term::Fst(a)
            | Term::Snd(a)
            | Term::Abort(_, a)
            | Term::Inl(_, a)
            | Term::Inr(_, a)
            | Term::Query(_, a) => a.put_in(index, supply),
            Term::App(a, b) | Term::Pair(a, b) => {
                a.put_in(index, supply);
                b.put_in(index, supply);
            }
            Term::Rec(a, b, c) => {
                a.put_in(index, supply);
                b.put_in(index, supply);
                c.put_in(index + 1, supply);
            }
            Term::Case(a, b, c) => {
                a.put_in(index, supply);
                b.put_in(index + 1, supply);
                c.put_in(index + 1, supply);
            }
        }
    }

    /// Whether the term is a value.
    pub fn is_value(&self) -> bool {
        match self {
            Term::Zero | Term::Lam(..) | Term::Triv => true,
            Term::Succ(a) | Term::Inl(_, a) | Term::Inr(_, a) => a.is_value(),
            Term::Pair(a, b) => a.is_value() && b.is_value(),
            _ => false,
        }
    }
}

/// A term for so many places.
struct Supply {
    term: Option<Term>,
    places: usize,
}

impl Supply {
    fn next(&mut self) -> Term {
        self.places -= 1;
        let term = if self.places == 0 {
            self.term.take()
        } else {
            self.term.clone()
        };
        term.expect("there are as many places as were counted")
    }
}

/// What nodes must keep to so that they are a term.
#[derive(Clone, Copy)]
pub struct Bounds {
    /// Type numbers are below this.
    pub types: u32,
    /// Whether each index must be below the number of binders around it.
    pub closed: bool,
}

/// Reads nodes that are exactly one term; otherwise says the place of the first node at fault,
/// which is the number of nodes where the term is not ended.
pub fn read(nodes: &[Node], bounds: Bounds) -> Result<Term, usize> {
    let mut reader = Reader {
        nodes,
        at: 0,
        bounds,
    };
    let term = reader.term(0)?;
    if reader.at < nodes.len() {
        return Err(reader.at);
    }
    Ok(term)
}

struct Reader<'a> {
    nodes: &'a [Node],
    at: usize,
    bounds: Bounds,
}

impl Reader<'_> {
    fn boxed(&mut self, binders: usize) -> Result<Box<Term>, usize> {
        self.term(binders).map(Box::new)
    }

    /// The term that begins here, under so many binders.
    fn term(&mut self, binders: usize) -> Result<Term, usize> {
        let place = self.at;
        let Some(&Node { kind, number }) = self.nodes.get(place) else {
            return Err(place);
        };
        if u32::from(number) >= kind.bound(self.bounds.types) {
            return Err(place);
        }
        if self.bounds.closed && kind == Kind::Var && usize::from(number) >= binders {
            return Err(place);
        }
        self.at += 1;
        Ok(match kind {
            Kind::Blank => return Err(place),
            Kind::Var => Term::Var(number),
            Kind::Zero => Term::Zero,
            Kind::Succ => Term::Succ(self.boxed(binders)?),
            Kind::Rec => Term::Rec(
                self.boxed(binders)?,
                self.boxed(binders)?,
                self.boxed(binders + 1)?,
            ),
            Kind::Lam => Term::Lam(number, self.boxed(binders + 1)?),
            Kind::App => Term::App(self.boxed(binders)?, self.boxed(binders)?),
            Kind::Triv => Term::Triv,
            Kind::Pair => Term::Pair(self.boxed(binders)?, self.boxed(binders)?),
            Kind::Fst => Term::Fst(self.boxed(binders)?),
            Kind::Snd => Term::Snd(self.boxed(binders)?),
            Kind::Abort => Term::Abort(number, self.boxed(binders)?),
            Kind::Inl => Term::Inl(number, self.boxed(binders)?),
            Kind::Inr => Term::Inr(number, self.boxed(binders)?),
            Kind::Case => Term::Case(
                self.boxed(binders)?,
                self.boxed(binders + 1)?,
                self.boxed(binders + 1)?,
            ),
            Kind::Query => Term::Query(number, self.boxed(binders)?),
        })
    }
}
