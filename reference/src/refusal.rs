//! A refusal: the question that was answered no.

/// The four numbers of a refusal. Place and child are 0 where there is none.
#[derive(Clone, Copy, PartialEq, Eq, Debug)]
pub struct Refusal {
    pub layer: u32,
    pub number: u32,
    pub place: usize,
    pub child: u32,
}

/// The layers of the calls.
pub const FILE: u32 = 1;
pub const CHECK: u32 = 2;
pub const RUN: u32 = 3;
pub const HOST: u32 = 4;

impl Refusal {
    /// A refusal without a place.
    pub fn plain(layer: u32, number: u32) -> Self {
        Refusal {
            layer,
            number,
            place: 0,
            child: 0,
        }
    }

    /// A refusal at a place.
    pub fn at(layer: u32, number: u32, place: usize) -> Self {
        Refusal {
            layer,
            number,
            place,
            child: 0,
        }
    }

    /// A refusal of a node because of one of its children.
    pub fn child(layer: u32, number: u32, place: usize, child: u32) -> Self {
        Refusal {
            layer,
            number,
            place,
            child,
        }
    }
}
