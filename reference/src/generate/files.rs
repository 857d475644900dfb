//! Hostile files, tables full of noise, and round trips.

use super::{spoil, Generator};
use crate::file::bytes_of;
use crate::rng::Rng;
use crate::term::Node;
use crate::types::GIVEN;
use crate::words;

impl Generator {
    pub(super) fn hostile_file(&mut self) {
        let rule = self.any_rule();
        let mut bytes = bytes_of(&rule.nodes, &rule.entries);
        let places = rule.nodes.len() + rule.entries.len() + 20;
        let room = self.rng.below(200);
        self.say(format!("tables {places} {} 0 {room}", 2 * places));
        for _ in 0..self.rng.within(1, 4) {
            let at = self.rng.below(bytes.len().max(1));
            match self.rng.below(12) {
                0..=4 if !bytes.is_empty() => {
                    bytes[at] = *self
                        .rng
                        .pick(&[0, 1, 5, 6, 8, 16, 255, b'A', b'T', b'U', b'V']);
                }
                5 => bytes.truncate(at),
                6 => bytes.truncate(at / 6 * 6),
                7 => bytes.push(self.rng.byte()),
                8 => bytes.extend_from_slice(b"ZE\0\0\0\0"),
                9 if bytes.len() > 4 => {
                    let record = self.rng.pick(&[2usize, 4]);
                    bytes[*record] = bytes[*record].wrapping_add(*self.rng.pick(&[1, 255]));
                }
                10 if self.rng.chance(20) => {
                    let length = self.rng.below(60);
                    bytes = (0..length).map(|_| self.rng.byte()).collect();
                }
                _ if bytes.len() > 12 => {
                    // A record twice, or a record less, with counts that fit.
                    let record = 6 * self.rng.within(1, bytes.len() / 6 - 1);
                    let six: Vec<u8> = bytes[record..record + 6].to_vec();
                    let in_types = six[0] == b'T' && six[1] != b'R';
                    let count = if in_types { 2 } else { 4 };
                    if self.rng.chance(50) && bytes.len() - record >= 6 {
                        bytes.splice(record..record, six);
                        bytes[count] = bytes[count].wrapping_add(1);
                    } else {
                        bytes.drain(record..record + 6);
                        bytes[count] = bytes[count].wrapping_sub(1);
                    }
                }
                _ => {}
            }
            self.say_file(&bytes);
            let answer = self.say("load");
            self.aside();
            if self.rng.chance(30) {
                self.dump(&["nodes", "types"]);
            }
            if answer.starts_with("loaded") && self.rng.chance(50) {
                self.say("write");
            }
        }
    }

    pub(super) fn noisy_tables(&mut self) {
        let rule = self.any_rule();
        let nodes = rule.nodes.len();
        let places = rule.entries.len() + nodes + self.rng.below(30);
        let scratch = 4 * nodes + self.rng.below(3);
        let bytes = self.rng.below(6 * places);
        self.say(format!("tables 5 {places} {scratch} {bytes}"));
        self.say_types(&rule.entries[GIVEN.len()..]);
        self.say_nodes(&rule.nodes);
        for _ in 0..self.rng.within(1, 6) {
            match self.rng.below(9) {
                0..=2 => {
                    let entry = words::entry_word(spoil::noisy_entry(&mut self.rng));
                    let place = match self.rng.below(4) {
                        0 => self.rng.below(places + 2),
                        _ => self.rng.below(rule.entries.len() + 2),
                    };
                    self.say(format!("entry {place} {entry}"));
                }
                3 => {
                    // An entry that is there already, or one that may follow.
                    let place = self.rng.within(6, rule.entries.len());
                    let word = if self.rng.chance(50) {
                        words::entry_word(*self.rng.pick(&rule.entries))
                    } else {
                        format!("TF{}/0", place - 1)
                    };
                    self.say(format!("entry {place} {word}"));
                    self.say(format!("count {}", place + 1));
                }
                4 | 5 => {
                    let near = rule.entries.len();
                    let count = *self.rng.pick(&[
                        0,
                        5,
                        6,
                        7,
                        near - 1,
                        near,
                        near + 1,
                        places,
                        1030,
                        1031,
                        65535,
                    ]);
                    self.say(format!("count {count}"));
                }
                6 => {
                    let noise: Vec<Node> = (0..self.rng.below(6))
                        .map(|_| spoil::noisy_node(&mut self.rng))
                        .collect();
                    self.say_nodes(&noise);
                }
                _ => {
                    let mut nodes = rule.nodes.clone();
                    spoil::spoil(&mut self.rng, &mut nodes, rule.entries.len());
                    self.say_nodes(&nodes);
                }
            }
            self.aside();
            if self.rng.chance(40) {
                self.say("write");
            }
            if self.say("check").starts_with("accepted") {
                if self.rng.chance(30) {
                    self.run_once();
                }
                self.settle();
            }
            if self.rng.chance(20) {
                self.dump(&["types", "scratch", "bytes", "nodes"]);
            }
        }
    }

    /// Load, write and load again, with tables of edge lengths.
    pub(super) fn round_trip(&mut self) {
        let rule = self.any_rule();
        let bytes = bytes_of(&rule.nodes, &rule.entries);
        let (nodes, count) = (rule.nodes.len(), rule.entries.len());
        self.say_file(&bytes);
        for _ in 0..2 {
            let less = |rng: &mut Rng| if rng.chance(20) { 1 } else { 0 };
            let more = |rng: &mut Rng| if rng.chance(40) { rng.below(5) } else { 0 };
            let a = nodes - less(&mut self.rng) + more(&mut self.rng);
            let b = count + nodes - less(&mut self.rng) + more(&mut self.rng);
            let c = bytes.len() - less(&mut self.rng) + more(&mut self.rng);
            self.say(format!("tables {a} {b} 0 {c}"));
            self.say("load");
            self.say("dump nodes");
            self.say("dump types");
            self.say("write");
            self.say("dump bytes");
        }
        self.say("check");
    }
}
