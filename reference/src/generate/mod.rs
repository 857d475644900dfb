//! Scripts made from a seed, with the answers that the model gives.

mod edges;
mod files;
mod hosts;
mod runs;

use crate::rng::Rng;
use crate::script::Session;
use crate::{rules, spoil};

/// A script and what it is answered.
#[derive(Default)]
pub struct Script {
    pub lines: Vec<Vec<u8>>,
    /// The answers, each with the number of its line, counted from 0.
    pub answers: Vec<(usize, String)>,
}

impl Script {
    /// The script of these lines.
    pub fn of(lines: impl Iterator<Item = Vec<u8>>) -> Self {
        let mut session = Session::default();
        let mut script = Script::default();
        for line in lines {
            script.add(&mut session, line);
        }
        script
    }

    /// Adds a line, and answers it.
    fn add(&mut self, session: &mut Session, line: Vec<u8>) -> Option<String> {
        let answer = session.answer(&line);
        if let Some(answer) = &answer {
            self.answers.push((self.lines.len(), answer.clone()));
        }
        self.lines.push(line);
        answer
    }
}

/// The script with this number from this seed, with at least so many lines.
pub fn script(seed: u64, number: u64, lines: usize) -> Script {
    let mut rng = Rng::new(seed.wrapping_mul(0x1000_0000_01b3) ^ number);
    rng.next();
    let mut generator = Generator {
        rng,
        session: Session::default(),
        script: Script::default(),
    };
    if number == 0 {
        generator.million_steps();
    }
    if number.is_multiple_of(4) {
        generator.edges();
    }
    while generator.script.lines.len() < lines {
        generator.scene();
    }
    generator.script
}

struct Generator {
    rng: Rng,
    session: Session,
    script: Script,
}

const MALFORMED: [&str; 76] = [
    "frobnicate",
    "LOAD",
    "load now",
    "tables 1 2 3",
    "tables 1 2 3 4 5",
    "tables 1000001 0 0 0",
    "tables 0 0 0 1000001",
    "tables -1 0 0 0",
    "tables 1 x 0 0",
    "tables 1 2 3 +4",
    "tables",
    "file 0",
    "file 0g",
    "file 00 00",
    "file 0x00",
    "nodes XX",
    "nodes VA",
    "nodes VA65536",
    "nodes VA-1",
    "nodes QU",
    "nodes ZE va0",
    "nodes ZEx",
    "nodes Z",
    "nodes ---",
    "nodes RU0",
    "types TF0",
    "types TF0/",
    "types TF/0",
    "types TF0/65536",
    "types TF",
    "types TX0/0",
    "types TF0/0/0",
    "types ZE",
    "entry 0",
    "entry x TN",
    "entry 0 TN TN",
    "entry 1000000 TN",
    "entry 0 VA0",
    "count",
    "count x",
    "count 1 2",
    "count -1",
    "dump",
    "dump all",
    "dump nodes types",
    "listing",
    "listing x",
    "listing 65536",
    "listing 1 1/2/3",
    "listing 1 1/2/3/4/5",
    "listing 1 1/2/256/0",
    "listing 1 65536/0/0/0",
    "listing 1 1/2/3/",
    "sheet",
    "sheet 4321",
    "sheet 0000432g",
    "sheet 000004321",
    "sheet 00004321 0/0/0",
    "sheet 00004321 0/0/0/65536",
    "check now",
    "drop it",
    "start",
    "start 1",
    "start 1 2 3",
    "start x 1",
    "run",
    "run x",
    "run 1 2",
    "run 4294967296",
    "look here",
    "poke front 0",
    "poke middle 0 ZE",
    "resize middle 3",
    "close it",
    "profile 1",
    "ask 1",
];

const UNANSWERED: [&str; 5] = ["", "   ", "# a comment", "  #another", "#"];

const NOT_TEXT: [&[u8]; 3] = [b"load \xff", b"\xc3\x28", b"nodes ZE\x80"];

impl Generator {
    /// Adds a line and answers it. The answer is empty where there is none.
    fn say(&mut self, line: impl AsRef<[u8]>) -> String {
        let line = line.as_ref().to_vec();
        self.script.add(&mut self.session, line).unwrap_or_default()
    }

    /// Sometimes a line that changes nothing: one that cannot be read, has another phase, or gets
    /// no answer.
    fn aside(&mut self) {
        match self.rng.below(60) {
            0 | 1 => {
                let line = *self.rng.pick(&MALFORMED);
                self.say(line);
            }
            2 => {
                let line = *self.rng.pick(&UNANSWERED);
                self.say(line);
            }
            3 if self.rng.chance(30) => {
                let line = *self.rng.pick(&NOT_TEXT);
                self.say(line);
            }
            4 | 5 => self.other_phase(),
            _ => {}
        }
    }

    /// A command of a phase that is not this one.
    fn other_phase(&mut self) {
        let free = [
            "tables 1 2 3 4",
            "load",
            "nodes ZE",
            "types",
            "types TF0/0",
            "entry 0 TN",
            "count 6",
            "check",
            "file",
            "file 5255",
        ];
        let running = [
            "run 1",
            "look",
            "poke front 0 ZE",
            "poke back 0 ZE",
            "resize front 3",
            "resize back 3",
            "close",
            "dump front",
            "dump back",
        ];
        let mut lines: Vec<&str> = Vec::new();
        if self.session.acceptance.is_some() {
            lines.extend(free);
        } else {
            lines.extend(["drop", "start 1 1", "start 5 5"]);
        }
        if self.session.run.is_some() {
            lines.extend(["drop", "start 8 8"]);
        } else {
            lines.extend(running);
        }
        let line = *self.rng.pick(&lines);
        self.say(line);
    }

    /// A few commands about one thing.
    fn scene(&mut self) {
        self.settle();
        match self.rng.below(20) {
            0..=7 => self.rule_and_runs(),
            8..=11 => self.spoiled_rule(),
            12 | 13 => self.hostile_file(),
            14 | 15 => self.noisy_tables(),
            16 | 17 => self.hosts(),
            18 => self.round_trip(),
            _ => self.small_edges(),
        }
        self.settle();
    }

    /// Back to the phase in which nothing is accepted.
    fn settle(&mut self) {
        if self.session.run.is_some() {
            self.say("close");
        }
        if self.session.acceptance.is_some() {
            self.say("drop");
        }
    }

    fn dump(&mut self, tables: &[&str]) {
        let table = *self.rng.pick(tables);
        self.say(format!("dump {table}"));
    }
}
