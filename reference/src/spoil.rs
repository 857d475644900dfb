//! Noise, and rules spoiled in one place.

use crate::rng::Rng;
use crate::rules::from_words;
use crate::term::{Kind, Node, KINDS};
use crate::types::{Entry, Form};

/// The place just past the subterm that begins at `at`, or the end of the nodes.
pub fn end_of(nodes: &[Node], at: usize) -> usize {
    let mut open = 1;
    let mut place = at;
    while open > 0 && place < nodes.len() {
        open = open - 1 + nodes[place].kind.children();
        place += 1;
    }
    place
}

/// A number at an edge or any other.
pub fn noisy_number(rng: &mut Rng) -> u16 {
    if rng.chance(10) {
        return rng.short();
    }
    *rng.pick(&[
        0, 0, 0, 1, 2, 3, 4, 5, 6, 7, 8, 9, 1023, 1029, 1030, 4095, 4096, 65535,
    ])
}

/// Any node at all.
pub fn noisy_node(rng: &mut Rng) -> Node {
    let kind = if rng.chance(8) {
        Kind::Blank
    } else {
        rng.pick(&KINDS).0
    };
    let number = if kind.has_number() || rng.chance(10) {
        noisy_number(rng)
    } else {
        0
    };
    Node::new(kind, number)
}

/// Any entry at all.
pub fn noisy_entry(rng: &mut Rng) -> Entry {
    let forms = [
        Form::Fun,
        Form::Prod,
        Form::Sum,
        Form::Fun,
        Form::Nat,
        Form::Unit,
        Form::Void,
        Form::Blank,
    ];
    let form = *rng.pick(&forms);
    if form.joins() || rng.chance(10) {
        Entry::new(form, noisy_number(rng), noisy_number(rng))
    } else {
        Entry::new(form, 0, 0)
    }
}

/// A node with as many children as this one.
pub fn sibling(rng: &mut Rng, node: Node) -> Node {
    let fitting: Vec<Kind> = KINDS
        .iter()
        .filter(|row| row.2 == node.kind.children())
        .map(|row| row.0)
        .collect();
    let kind = *rng.pick(&fitting);
    let number = if kind.has_number() {
        u16::try_from(rng.below(6)).expect("small")
    } else {
        0
    };
    Node::new(kind, number)
}

/// A closed term of exactly so many nodes, at least one, whatever its types may be.
pub fn untyped(rng: &mut Rng, size: usize) -> Vec<Node> {
    let mut nodes = Vec::with_capacity(size);
    put_untyped(rng, size, 0, &mut nodes);
    nodes
}

fn put_untyped(rng: &mut Rng, size: usize, binders: usize, out: &mut Vec<Node>) {
    let fits = |children: usize| {
        if size == 1 {
            children == 0
        } else {
            (1..size).contains(&children)
        }
    };
    let fitting: Vec<(Kind, usize)> = KINDS
        .iter()
        .filter(|row| fits(row.2) && (row.0 != Kind::Var || binders > 0))
        .map(|row| (row.0, row.2))
        .collect();
    let &(kind, children) = rng.pick(&fitting);
    let small = |n: usize| u16::try_from(n).expect("small");
    let number = match kind {
        Kind::Var => small(rng.below(binders)),
        Kind::Query => small(rng.below(8)),
        _ if kind.has_type() => noisy_number(rng),
        _ => 0,
    };
    out.push(Node::new(kind, number));
    let mut left = size - 1;
    for child in 1..=children {
        let later = children - child;
        let share = if later == 0 {
            left
        } else {
            rng.within(1, left - later)
        };
        left -= share;
        let binds = match kind {
            Kind::Lam => true,
            Kind::Rec => child == 3,
            Kind::Case => child > 1,
            _ => false,
        };
        put_untyped(rng, share, binders + usize::from(binds), out);
    }
}

/// Spoils the nodes in one place.
pub fn spoil(rng: &mut Rng, nodes: &mut Vec<Node>, count: usize) {
    let count = u16::try_from(count).unwrap_or(u16::MAX);
    let at = rng.below(nodes.len());
    let place_of = |kinds: &[Kind]| {
        (0..nodes.len())
            .map(|i| (at + i) % nodes.len())
            .find(|&i| kinds.contains(&nodes[i].kind))
    };
    match rng.below(12) {
        0 => {
            if let Some(i) = place_of(&[Kind::Var]) {
                let number = nodes[i].number;
                nodes[i].number = *rng.pick(&[0, 1, 2, number + 1, number + 2, 9, 4095, 4096]);
            }
        }
        1 => {
            if let Some(i) = place_of(&[Kind::Lam, Kind::Abort, Kind::Inl, Kind::Inr]) {
                nodes[i].number = *rng.pick(&[0, 1, 2, 3, 4, 5, count - 1, count, 65535]);
            }
        }
        2 => {
            if let Some(i) = place_of(&[Kind::Query]) {
                nodes[i].number = *rng.pick(&[0, 1, 2, 3, 4, 5, 6, 7, 8]);
            }
        }
        3 => {
            let child = *rng.pick(&[
                "ZE", "TR", "LA0 VA0", "PA ZE TR", "IL1 TR", "SU TR", "LA2 VA0",
            ]);
            let end = end_of(nodes, at);
            nodes.splice(at..end, from_words(child).nodes);
        }
        4 => {
            let mut places = [at, rng.below(nodes.len())];
            places.sort_unstable();
            let [first, second] = places;
            let first_end = end_of(nodes, first);
            if first_end <= second {
                let second_end = end_of(nodes, second);
                let mut swapped = nodes[..first].to_vec();
                swapped.extend_from_slice(&nodes[second..second_end]);
                swapped.extend_from_slice(&nodes[first_end..second]);
                swapped.extend_from_slice(&nodes[first..first_end]);
                swapped.extend_from_slice(&nodes[second_end..]);
                *nodes = swapped;
            }
        }
        5 => nodes[at] = Node::BLANK,
        6 => nodes.push(noisy_node(rng)),
        7 => {
            nodes.pop();
        }
        8 => nodes[at] = sibling(rng, nodes[at]),
        9 => nodes[at].number = noisy_number(rng),
        10 => {
            // The third child of an RE, or else any subterm, in a pair that is taken apart at once.
            let at = match place_of(&[Kind::Rec]) {
                Some(i) => end_of(nodes, end_of(nodes, i + 1)).min(nodes.len() - 1),
                None => at,
            };
            let end = end_of(nodes, at);
            nodes.insert(end, Node::new(Kind::Triv, 0));
            nodes.splice(at..at, [Node::new(Kind::Fst, 0), Node::new(Kind::Pair, 0)]);
        }
        _ => nodes[at] = noisy_node(rng),
    }
}
