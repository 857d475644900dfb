//! Rules under a host, checked and run, with noise between the calls.

use super::{rules, spoil, Generator};
use crate::file::bytes_of;
use crate::host::Profile;
use crate::step::{evaluate, Cause, MOST_STEPS};
use crate::term::{read, Bounds, Node, ANY_TYPE, MOST_NODES};
use crate::types::{Entry, GIVEN};
use crate::words;
use rules::Rule;

impl Generator {
    /// A well-typed rule for the host that stands.
    pub(super) fn any_rule(&mut self) -> Rule {
        let profile = self.session.host.profile();
        if self.rng.chance(35) {
            return rules::worked(&mut self.rng, profile == Profile(0x4231));
        }
        let budget = *self.rng.pick(&[1, 4, 10, 20, 40, 40, 80, 80, 150, 300]);
        rules::well_typed(&mut self.rng, profile, budget)
    }

    /// Makes tables that have room for the rule, or by chance one place too few, and puts the
    /// rule into them.
    pub(super) fn deliver(&mut self, rule: &Rule) {
        let nodes = rule.nodes.len();
        let count = rule.entries.len();
        let bytes = 6 * (1 + count - GIVEN.len() + nodes);
        let mut lengths = [nodes, count + nodes, 4 * nodes, bytes];
        let short = if self.rng.chance(6) {
            Some(self.rng.below(4))
        } else {
            None
        };
        for (i, length) in lengths.iter_mut().enumerate() {
            if short == Some(i) {
                *length -= 1.min(*length);
            } else if self.rng.chance(50) {
                *length += self.rng.within(1, 9);
            }
        }
        let [a, b, c, d] = lengths;
        self.say(format!("tables {a} {b} {c} {d}"));
        self.aside();
        if self.rng.chance(50) {
            self.say_file(&bytes_of(&rule.nodes, &rule.entries));
            self.say("load");
        } else {
            self.say_types(&rule.entries[GIVEN.len()..]);
            self.aside();
            self.say_nodes(&rule.nodes);
        }
        self.aside();
    }

    pub(super) fn say_file(&mut self, bytes: &[u8]) {
        let mut digits = words::hex(bytes);
        if self.rng.chance(20) {
            digits = digits.to_uppercase();
        }
        self.say(if digits.is_empty() {
            "file".to_string()
        } else {
            format!("file {digits}")
        });
    }

    pub(super) fn say_nodes(&mut self, nodes: &[Node]) {
        let words: Vec<String> = nodes.iter().map(|node| words::node_word(*node)).collect();
        let gap = if self.rng.chance(5) { "   " } else { " " };
        self.say(format!("nodes {}", words.join(gap)));
    }

    pub(super) fn say_types(&mut self, entries: &[Entry]) {
        let words: Vec<String> = entries
            .iter()
            .map(|entry| words::entry_word(*entry))
            .collect();
        self.say(format!("types {}", words.join(" ")));
    }

    /// A rule under a host, checked and run.
    pub(super) fn rule_and_runs(&mut self) {
        if self.rng.chance(60) {
            let large = self.rng.chance(4);
            self.any_host(large);
        }
        let rule = self.any_rule();
        self.deliver(&rule);
        if self.rng.chance(10) {
            self.say("write");
        }
        self.check_and_run();
    }

    pub(super) fn spoiled_rule(&mut self) {
        if self.rng.chance(40) {
            self.any_host(false);
        }
        let mut rule = self.any_rule();
        spoil::spoil(&mut self.rng, &mut rule.nodes, rule.entries.len());
        if rule.nodes.is_empty() {
            return;
        }
        self.deliver(&rule);
        self.dump(&["nodes", "types"]);
        if self.rng.chance(15) {
            self.say("write");
            self.say("dump bytes");
        }
        self.check_and_run();
    }

    pub(super) fn check_and_run(&mut self) {
        let answer = self.say("check");
        self.aside();
        if self.rng.chance(35) {
            self.dump(&["types", "types", "scratch", "nodes"]);
        }
        if self.rng.chance(8) {
            self.say("write");
        }
        if answer.starts_with("accepted") {
            for _ in 0..self.rng.within(1, 2) {
                self.run_once();
                self.aside();
            }
        }
    }

    /// Starts a run of what is accepted, does things with it, and closes it.
    pub(super) fn run_once(&mut self) {
        let Some(acceptance) = &self.session.acceptance else {
            return;
        };
        let nodes = acceptance.nodes.len();
        let room = match self.rng.below(12) {
            0 => nodes,
            1 => nodes + 1,
            2 => nodes + self.rng.below(20),
            3..=5 => nodes + self.rng.below(400),
            6..=8 => self.peak(),
            _ => MOST_NODES,
        };
        let room = room.min(MOST_NODES);
        let (front, back) = match self.rng.below(25) {
            0 => (nodes - 1, nodes - 1),
            1 => (MOST_NODES + 1, MOST_NODES + 1),
            2 => (room, room + 1),
            3 => (0, 0),
            _ => (room, room),
        };
        self.say(format!("start {front} {back}"));
        if self.rng.chance(15) {
            self.dump(&["front", "back"]);
        }
        if self.rng.chance(25) {
            self.untyped_term();
        }
        for _ in 0..self.rng.within(0, 9) {
            self.run_action();
            self.aside();
        }
        if self.rng.chance(60) {
            let fuel = self.bounded(MOST_STEPS - self.steps());
            self.say(format!("run {fuel}"));
        }
        if self.rng.chance(30) {
            self.dump(&["front", "back"]);
        }
        self.say("close");
    }

    /// Writes a term into front that may have no type, and runs it.
    pub(super) fn untyped_term(&mut self) {
        let held = self.session.run.as_ref().and_then(|run| run.held);
        let Some(records) = held
            .map(|held| held.records)
            .filter(|records| *records <= 16)
        else {
            return;
        };
        let nodes = spoil::untyped(&mut self.rng, records);
        for (place, node) in nodes.iter().enumerate() {
            self.say(format!("poke front {place} {}", words::node_word(*node)));
        }
        for _ in 0..self.rng.within(1, 3) {
            let fuel = *self.rng.pick(&[0, 1, 2, 5, 1000]);
            let fuel = self.bounded(fuel);
            self.say(format!("run {fuel}"));
            self.say("look");
        }
    }

    pub(super) fn steps(&self) -> u32 {
        self.session
            .run
            .as_ref()
            .and_then(|run| run.held)
            .map_or(0, |held| held.steps)
    }

    /// The most nodes that the accepted rule has in the first part of its run, or one less.
    pub(super) fn peak(&mut self) -> usize {
        let Some(acceptance) = &self.session.acceptance else {
            return 1;
        };
        let bounds = Bounds {
            types: ANY_TYPE,
            closed: true,
        };
        let Ok(mut term) = read(&acceptance.nodes, bounds) else {
            return 1;
        };
        let mut most = acceptance.nodes.len();
        for _ in 0..200 {
            let (cause, made) = evaluate(&mut term, 1, MOST_NODES, &self.session.host);
            most = most.max(term.size());
            if cause != Cause::Spent || made == 0 {
                break;
            }
        }
        (most - self.rng.below(2)).max(acceptance.nodes.len())
    }

    /// This fuel, or a small one where the run would take too long for a test.
    pub(super) fn bounded(&mut self, fuel: u32) -> u32 {
        let Some(run) = &self.session.run else {
            return fuel;
        };
        let records = run.held.map_or(1, |held| held.records).max(60);
        let cap = u32::try_from(400_000 / records).expect("small");
        if fuel <= cap || fuel > MOST_STEPS - self.steps() {
            return fuel;
        }
        match run.clone().run(cap, &self.session.host) {
            Ok(ran) if ran.cause == Cause::Spent => {
                *self.rng.pick(&[0, 1, 2, 7, 50, 300, 1000.min(cap), cap])
            }
            _ => fuel,
        }
    }

    pub(super) fn run_action(&mut self) {
        let Some(run) = &self.session.run else { return };
        let length = run.front.len();
        let records = run.held.map_or(0, |held| held.records);
        match self.rng.below(30) {
            0..=10 => {
                let left = MOST_STEPS - self.steps();
                let fuel = *self.rng.pick(&[
                    0,
                    1,
                    1,
                    2,
                    2,
                    3,
                    7,
                    7,
                    20,
                    100,
                    1000,
                    MOST_STEPS,
                    MOST_STEPS + 1,
                    left,
                    left + 1,
                    u32::MAX,
                ]);
                let fuel = self.bounded(fuel);
                self.say(format!("run {fuel}"));
                if self.rng.chance(35) {
                    self.say("look");
                }
            }
            11..=13 => {
                self.say("look");
            }
            14..=16 => self.dump(&["front", "back"]),
            17..=19 => {
                // Noise where it does not matter.
                let word = words::node_word(spoil::noisy_node(&mut self.rng));
                if self.rng.chance(50) || records >= length {
                    let place = self.rng.below(length + 2);
                    self.say(format!("poke back {place} {word}"));
                } else {
                    let place = self.rng.within(records, length);
                    self.say(format!("poke front {place} {word}"));
                }
            }
            20 | 21 if records > 0 && length > 0 => {
                // Noise where it does.
                let place = self.rng.below(records.min(length));
                let there = self
                    .session
                    .run
                    .as_ref()
                    .map_or(Node::BLANK, |run| run.front[place]);
                let node = match self.rng.below(4) {
                    0 => spoil::noisy_node(&mut self.rng),
                    _ => spoil::sibling(&mut self.rng, there),
                };
                self.say(format!("poke front {place} {}", words::node_word(node)));
                if self.rng.chance(50) {
                    let fuel = self.bounded(1000);
                    self.say(format!("run {fuel}"));
                    if self.rng.chance(50) {
                        self.say(format!("poke front {place} {}", words::node_word(there)));
                    }
                }
            }
            22 | 23 => {
                let table = *self.rng.pick(&["front", "back"]);
                let other = self.rng.below(length + 3);
                let size =
                    *self
                        .rng
                        .pick(&[length.saturating_sub(1), length + 1, 0, other, records]);
                self.say(format!("resize {table} {size}"));
                let line = *self
                    .rng
                    .pick(&["run 1", "look", "run 0", "dump front", "run 1000001"]);
                self.say(line);
                if self.rng.chance(85) {
                    self.say(format!("resize {table} {length}"));
                    self.say(format!("dump {table}"));
                }
            }
            24 | 25 => {
                // Another host, mostly of the same profile.
                let profile = self.session.host.profile();
                match self.rng.below(4) {
                    0 => self.any_host(false),
                    1 if profile == Profile(0x4231) => self.any_listing(false),
                    _ => self.any_sheet(profile, false),
                }
                if self.session.host.profile() != profile {
                    self.say("run 3");
                    if self.rng.chance(80) {
                        self.any_sheet(profile, false);
                    }
                }
            }
            26 => {
                self.say("write");
            }
            27 => {
                let number = self.rng.below(12);
                let question = self.rng.below(8);
                self.say(format!("ask {question} {number}"));
            }
            28 => {
                self.say("close");
            }
            _ => self.dump(&["nodes", "types", "scratch", "bytes", "front"]),
        }
    }
}
