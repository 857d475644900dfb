//! Hosts: the listing and the sheet.

use crate::refusal::{Refusal, HOST};
use crate::term::Term;
use crate::types::{NAT, UNIT};
use std::collections::HashMap;

/// The most versions of a listing.
pub const MOST_VERSIONS: usize = 200;
/// The most lines of a sheet.
pub const MOST_LINES: usize = 1024;
/// The largest number that a question is put at.
pub const LARGEST_ASKED: u16 = 4095;
/// The largest number in an answer.
pub const LARGEST_ANSWER: u16 = 255;

/// Eight digits, the lowest for question 0.
#[derive(Clone, Copy, PartialEq, Eq, Debug)]
pub struct Profile(pub u32);

/// The shape of the answers to a question.
#[derive(Clone, Copy, PartialEq, Eq, Debug)]
pub enum Shape {
    Number,
    Flag,
    Maybe,
    Pair,
}

impl Profile {
    pub fn digit(self, question: u16) -> u32 {
        if question > 7 {
            0
        } else {
            self.0 >> (4 * question) & 15
        }
    }

    pub fn shape(self, question: u16) -> Option<Shape> {
        match self.digit(question) {
            1 => Some(Shape::Number),
            2 => Some(Shape::Flag),
            3 => Some(Shape::Maybe),
            4 => Some(Shape::Pair),
            _ => None,
        }
    }
}

/// An answer of a host.
#[derive(Clone, Copy, PartialEq, Eq, Debug)]
pub enum Answer {
    Number(u16),
    Flag(bool),
    Maybe(Option<u16>),
    Pair(u16, u16),
}

impl Answer {
    /// The answer as a term.
    pub fn term(self) -> Term {
        let numeral = |n| Box::new(Term::numeral(usize::from(n)));
        let triv = Box::new(Term::Triv);
        match self {
            Answer::Number(n) => *numeral(n),
            Answer::Flag(false) => Term::Inl(UNIT, triv),
            Answer::Flag(true) => Term::Inr(UNIT, triv),
            Answer::Maybe(None) => Term::Inl(NAT, triv),
            Answer::Maybe(Some(n)) => Term::Inr(UNIT, numeral(n)),
            Answer::Pair(m, n) => Term::Pair(numeral(m), numeral(n)),
        }
    }
}

/// A version of a listing.
#[derive(Clone, Copy, PartialEq, Eq, Debug)]
pub struct Version {
    pub published: u16,
    pub withdrawn: u16,
    pub line: u8,
    pub patch: u8,
}

/// A line of a sheet.
#[derive(Clone, Copy, PartialEq, Eq, Debug)]
pub struct Line {
    pub question: u16,
    pub number: u16,
    pub a: u16,
    pub b: u16,
}

#[derive(Clone, Debug)]
pub enum Host {
    Listing {
        today: u16,
        versions: Vec<Version>,
    },
    Sheet {
        profile: Profile,
        answers: HashMap<(u16, u16), Answer>,
    },
}

impl Host {
    /// The listing of these versions on this day.
    pub fn listing(today: u16, versions: Vec<Version>) -> Result<Host, Refusal> {
        if versions.len() > MOST_VERSIONS {
            return Err(Refusal::plain(HOST, 40));
        }
        Ok(Host::Listing { today, versions })
    }

    /// The sheet of this profile and these lines.
    pub fn sheet(profile: Profile, lines: &[Line]) -> Result<Host, Refusal> {
        if lines.len() > MOST_LINES {
            return Err(Refusal::plain(HOST, 41));
        }
        if let Some(question) = (0..8).find(|&question| profile.digit(question) > 4) {
            return Err(Refusal::at(HOST, 42, usize::from(question)));
        }
        let mut answers = HashMap::new();
        for (place, line) in lines.iter().enumerate() {
            let Some(answer) = legal_answer(profile, line) else {
                return Err(Refusal::at(HOST, 43, place));
            };
            if answers
                .insert((line.question, line.number), answer)
                .is_some()
            {
                return Err(Refusal::at(HOST, 44, place));
            }
        }
        Ok(Host::Sheet { profile, answers })
    }

    pub fn profile(&self) -> Profile {
        match self {
            Host::Listing { .. } => Profile(0x4231),
            Host::Sheet { profile, .. } => *profile,
        }
    }

    /// The answer to a question at a number, or none.
    pub fn query(&self, question: u16, number: u16) -> Option<Answer> {
        let shape = self.profile().shape(question)?;
        if number > LARGEST_ASKED {
            return None;
        }
        Some(match self {
            Host::Listing { today, versions } => {
                let version = versions.get(usize::from(number));
                match question {
                    0 => Answer::Number(u16::try_from(versions.len()).expect("at most 200")),
                    1 => Answer::Maybe(
                        version.map(|v| today.saturating_sub(v.published).min(LARGEST_ANSWER)),
                    ),
                    2 => Answer::Flag(match version {
                        Some(v) => v.withdrawn != 0 && v.withdrawn <= *today,
                        None => true,
                    }),
                    _ => {
                        let (line, patch) = version.map_or((0, 0), |v| (v.line, v.patch));
                        Answer::Pair(line.into(), patch.into())
                    }
                }
            }
            Host::Sheet { answers, .. } => match answers.get(&(question, number)) {
                Some(answer) => *answer,
                None => match shape {
                    Shape::Number => Answer::Number(0),
                    Shape::Flag => Answer::Flag(false),
                    Shape::Maybe => Answer::Maybe(None),
                    Shape::Pair => Answer::Pair(0, 0),
                },
            },
        })
    }
}

/// The answer in a line, if the line is legal.
fn legal_answer(profile: Profile, line: &Line) -> Option<Answer> {
    let shape = profile.shape(line.question)?;
    if line.number > LARGEST_ASKED || line.a > LARGEST_ANSWER || line.b > LARGEST_ANSWER {
        return None;
    }
    match (shape, line.a, line.b) {
        (Shape::Number, a, 0) => Some(Answer::Number(a)),
        (Shape::Flag, 0, 0) => Some(Answer::Flag(false)),
        (Shape::Flag, 1, 0) => Some(Answer::Flag(true)),
        (Shape::Maybe, 0, 0) => Some(Answer::Maybe(None)),
        (Shape::Maybe, 1, b) => Some(Answer::Maybe(Some(b))),
        (Shape::Pair, a, b) => Some(Answer::Pair(a, b)),
        _ => None,
    }
}
