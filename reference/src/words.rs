//! Numbers, nodes, entries and bytes as words, and back.

use crate::term::{Kind, Node};
use crate::types::{Entry, Form};

/// A number of decimal digits alone, at most `most`.
pub fn number(word: &str, most: u64) -> Option<u64> {
    if word.is_empty() || !word.bytes().all(|b| b.is_ascii_digit()) {
        return None;
    }
    let mut value = 0u64;
    for b in word.bytes() {
        value = value.checked_mul(10)?.checked_add(u64::from(b - b'0'))?;
        if value > most {
            return None;
        }
    }
    Some(value)
}

/// A number of 16 bits.
pub fn short(word: &str) -> Option<u16> {
    number(word, 65535).and_then(|n| u16::try_from(n).ok())
}

/// Numbers of 16 bits with strokes between them.
pub fn shorts<const N: usize>(word: &str) -> Option<[u16; N]> {
    let parts: Option<Vec<u16>> = word.split('/').map(short).collect();
    parts?.try_into().ok()
}

/// The first two bytes of a word and what follows them.
fn marked(word: &str) -> Option<(&str, &str)> {
    word.is_char_boundary(2)
        .then(|| word.split_at_checked(2))
        .flatten()
}

pub fn node(word: &str) -> Option<Node> {
    let (mark, rest) = marked(word)?;
    let kind = if mark == "--" {
        Kind::Blank
    } else {
        Kind::of_mark(mark.as_bytes())?
    };
    if rest.is_empty() {
        return (!kind.has_number()).then_some(Node::new(kind, 0));
    }
    Some(Node::new(kind, short(rest)?))
}

pub fn node_word(node: Node) -> String {
    let mark = node.kind.mark();
    if node.kind.has_number() || node.number != 0 {
        format!("{mark}{}", node.number)
    } else {
        mark.to_string()
    }
}

pub fn entry(word: &str) -> Option<Entry> {
    let (mark, rest) = marked(word)?;
    let form = if mark == "--" {
        Form::Blank
    } else {
        Form::of_mark(mark.as_bytes())?
    };
    if rest.is_empty() {
        return (!form.joins()).then_some(Entry::new(form, 0, 0));
    }
    let [left, right] = shorts(rest)?;
    Some(Entry::new(form, left, right))
}

pub fn entry_word(entry: Entry) -> String {
    let mark = entry.form.mark();
    if entry.form.joins() || entry.left != 0 || entry.right != 0 {
        format!("{mark}{}/{}", entry.left, entry.right)
    } else {
        mark.to_string()
    }
}

/// Bytes of two hexadecimal digits each.
pub fn bytes(word: &str) -> Option<Vec<u8>> {
    if !word.len().is_multiple_of(2) {
        return None;
    }
    let digit = |b: u8| {
        char::from(b)
            .to_digit(16)
            .and_then(|d| u8::try_from(d).ok())
    };
    word.as_bytes()
        .chunks(2)
        .map(|two| Some(digit(two[0])? << 4 | digit(two[1])?))
        .collect()
}

pub fn hex(bytes: &[u8]) -> String {
    const DIGITS: &[u8; 16] = b"0123456789abcdef";
    let mut out = String::with_capacity(2 * bytes.len());
    for b in bytes {
        out.push(char::from(DIGITS[usize::from(b >> 4)]));
        out.push(char::from(DIGITS[usize::from(b & 15)]));
    }
    out
}

/// Words with blanks before them, equal neighbours written once.
pub fn neighbours<T: Copy + PartialEq>(items: &[T], word: impl Fn(T) -> String) -> String {
    let mut out = String::new();
    let mut at = 0;
    while at < items.len() {
        let same = items[at..]
            .iter()
            .take_while(|item| **item == items[at])
            .count();
        out.push(' ');
        out.push_str(&word(items[at]));
        if same > 1 {
            out.push_str(&format!("*{same}"));
        }
        at += same;
    }
    out
}
