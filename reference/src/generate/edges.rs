//! Every question and every size at its edge.

use super::{rules, Generator, MALFORMED};
use crate::file::bytes_of;
use crate::host::{Host, Profile};
use crate::types::GIVEN;
use crate::words;
use rules::Rule;

impl Generator {
    /// A run that makes a million steps, and then no more.
    pub(super) fn million_steps(&mut self) {
        self.say("tables 200 400 800 0");
        let rule = rules::from_words(&rules::loops(17));
        self.say_types(&rule.entries[GIVEN.len()..]);
        self.say_nodes(&rule.nodes);
        self.say("check");
        self.say("start 4096 4096");
        for line in [
            "run 7",
            "run 999993",
            "look",
            "run 0",
            "run 1",
            "look",
            "dump back",
            "close",
            "start 500 500",
            "run 1000",
            "close",
        ] {
            self.say(line);
        }
        self.settle();
    }

    /// The edges of every size.
    pub(super) fn edges(&mut self) {
        self.most_nodes();
        self.most_types();
        self.most_binders();
        self.each_question();
        self.each_file_question();
        self.any_host(true);
        self.any_listing(true);
        let profile = Profile(0x1234_4321);
        self.any_sheet(profile, true);
        for line in [
            "sheet 00004321 2/5/1/9 2/5/0/0 7/7/7/7",
            "sheet 00004321 2/5/1/9 2/5/1/9",
            "sheet 00004321 2/5/1/9 2/6/1/256 2/5/1/9",
            "sheet 00004321 0/4095/255/0 1/4095/1/0 2/4095/1/255 3/4095/255/255",
            "sheet 00004321 0/4096/0/0",
            "sheet 00004321 0/0/256/0",
            "sheet 00004321 0/0/0/1",
            "sheet 00004321 1/0/2/0",
            "sheet 00004321 1/0/1/1",
            "sheet 00004321 2/0/0/1",
            "sheet 00004321 2/0/2/0",
            "sheet 00004321 3/0/256/0",
            "sheet 00004321 3/0/0/256",
            "sheet 00004321 4/0/0/0",
            "sheet 00004321 8/0/0/0",
            "sheet 00054321",
            "sheet 60504321 9/9/9/9",
            "sheet 50000005",
            "sheet FFFFFFFF",
            "sheet 44444444 7/0/1/2 0/0/3/4",
            "ask 7 0",
            "ask 0 0",
            "ask 8 0",
        ] {
            self.say(line);
            self.aside();
        }
        self.full_scan();
    }

    /// A listing with 200 versions, each asked.
    pub(super) fn full_scan(&mut self) {
        let versions: Vec<String> = (0..200)
            .map(|i| format!("{}/{}/{}/{}", i, i % 3 * 300, i % 256, i % 7))
            .collect();
        self.say(format!("listing 300 {}", versions.join(" ")));
        let rule = rules::from_words(rules::SCAN);
        self.deliver(&rule);
        if self.say("check").starts_with("accepted") {
            self.say("start 4096 4096");
            self.say("run 1000");
            self.say("look");
            self.say("run 100000");
            self.say("close");
        }
        self.settle();
        self.say("listing 0");
    }

    pub(super) fn most_nodes(&mut self) {
        let numeral = |n: usize| rules::from_words(&format!("#{n}")).nodes;
        for nodes in [4095, 4096, 4097] {
            let places = 6 + nodes;
            self.say(format!(
                "tables {nodes} {places} {} {}",
                4 * nodes,
                6 * (1 + nodes)
            ));
            let rule = Rule {
                nodes: numeral(nodes - 1),
                entries: GIVEN.to_vec(),
            };
            self.say_file(&bytes_of(&rule.nodes, &rule.entries));
            self.say("load");
            self.say("types");
            self.say_nodes(&rule.nodes);
            self.say("write");
            self.say("check");
            self.say(format!("start {nodes} {nodes}"));
            self.say("run 5");
            self.say("resize front 4098");
            self.say("close");
            self.settle();
        }
        // Terms that grow over the edge, or just reach it.
        let grown = self.rng.within(0, 2);
        for (line, fuel) in [
            (format!("SU AP LA5 FS VA0 PA #{} ZE", 4087 + grown), 9),
            (format!("AP LA0 PA VA0 VA0 #{}", 2046 + grown), 9),
            (format!("RE #{} ZE LA0 SU VA0", 810 + grown), 5000),
            (format!("{} ZE", "AP LA0 VA0 ".repeat(1365)), 40),
            (
                format!("{} ZE {}", "PA ".repeat(1300), "ZE ".repeat(1300)),
                40,
            ),
            (format!("{} TR", "IL1 ".repeat(4095)), 40),
        ] {
            let rule = rules::from_words(&line);
            self.deliver(&rule);
            self.say("check");
            if self.session.acceptance.is_some() {
                self.say("start 4096 4096");
                self.say(format!("run {fuel}"));
                self.dump(&["front", "back"]);
                self.say("close");
            }
            self.settle();
        }
    }

    pub(super) fn most_types(&mut self) {
        for records in [1024usize, 1025] {
            let entries: Vec<String> = (0..records).map(|i| format!("TF{}/0", 5 + i)).collect();
            let mut text = entries.join(" ");
            text.push_str(" LA1029 VA0");
            let rule = rules::from_words(&text);
            self.say("tables 2 1033 8 7000");
            self.say_file(&bytes_of(&rule.nodes, &rule.entries));
            self.say("load");
            self.say_types(&rule.entries[GIVEN.len()..]);
            self.say_nodes(&rule.nodes);
            self.say("write");
            self.say("check");
            if self.session.acceptance.is_some() {
                self.say("dump types");
            }
            self.settle();
        }
    }

    pub(super) fn most_binders(&mut self) {
        for (number, nodes) in [(4094, 4096), (4095, 4096), (0, 4096)] {
            self.say("tables 0 5000 17000 0");
            self.say("types");
            let text = format!("{}VA{number}", "LA0 ".repeat(nodes - 1));
            self.say_nodes(&rules::from_words(&text).nodes);
            self.say("check");
            self.say("tables 0 5126 16384 0");
            self.say("types");
            self.say_nodes(&rules::from_words(&text).nodes);
            self.say("check");
            if self.rng.chance(30) {
                self.say("dump types");
            }
            self.settle();
        }
    }

    /// Each question about types, and the orders in which they are put.
    pub(super) fn each_question(&mut self) {
        self.say("tables 0 60 200 60");
        self.say("listing 10 1/0/2/3");
        for (types, nodes) in [
            ("", "VA0"),
            ("", "LA0 VA1"),
            ("", "QU4 TR"),
            ("", "QU7 VA0"),
            ("", "QU0 TR"),
            ("", "SU TR"),
            ("", "RE TR VA0 VA5"),
            ("", "RE ZE VA0 VA5"),
            ("", "RE ZE ZE VA1"),
            ("", "RE ZE ZE VA0"),
            ("", "RE ZE TR LA0 SU VA0"),
            ("TF0/0", "RE ZE ZE AP LA6 VA0 LA0 VA0"),
            ("TF0/0", "LA6 RE ZE ZE VA1"),
            ("TF1/0", "LA6 RE ZE ZE VA1"),
            ("", "AB0 ZE"),
            ("", "LA2 AB9 VA0"),
            ("", "LA2 AB4 VA0"),
            ("", "AP ZE VA0"),
            ("", "AP LA0 VA0 TR"),
            ("", "FS ZE"),
            ("", "SN IL1 TR"),
            ("", "CA TR VA0 VA0"),
            ("", "CA QU2 ZE VA0 ZE"),
            ("", "CA QU2 ZE VA0 VA0"),
            ("", "CA QU1 ZE VA0 VA0"),
            ("", "PA LA0 VA0 PA LA1 VA0 LA0 VA0"),
            ("TS0/0 TS0/1", "PA IL0 ZE PA IR0 ZE PA IL1 ZE IR0 TR"),
            ("TP0/0", "ZE"),
            ("TF7/0 TF6/0", "ZE"),
        ] {
            self.say(format!("types {types}"));
            self.say(format!("nodes {nodes}"));
            self.say("check");
            if self.rng.chance(30) {
                self.say("dump types");
            }
            self.aside();
            self.settle();
        }
        self.each_answer();
        // Stuck terms, made by writing into front.
        self.say("types");
        self.say("nodes AP LA0 VA0 SU ZE");
        self.say("check");
        for pokes in [
            &["0 PA", "1 TR", "2 ZE", "3 FS"][..],
            &["1 ZE", "2 ZE", "3 --"],
            &["1 SU"],
            &["1 QU3", "2 ZE"],
            &["1 QU7", "2 ZE"],
            &["1 AB65535", "2 TR"],
            &["1 IL65535", "2 TR"],
            &["2 VA1"],
            &["2 VA4096"],
            &["3 ZE"],
            &["4 SU"],
            &["0 ZE3"],
            &["1 QU8", "2 ZE"],
            &["1 LA60000"],
            &["0 PA", "1 LA0", "2 VA0", "3 TR", "4 --"],
        ] {
            self.say("start 5 5");
            for poke in pokes {
                self.say(format!("poke front {poke}"));
            }
            self.say("run 0");
            self.say("run 1");
            self.say("run 9");
            self.say("look");
            self.dump(&["front", "back"]);
            self.say("close");
        }
        self.settle();
        // A function that is none, before an argument that steps, and other terms without a type.
        self.say("nodes AP LA0 VA0 AP LA0 VA0 ZE");
        self.say("check");
        for pokes in [
            &["1 SU", "2 ZE"][..],
            &["1 IL7", "2 TR"],
            &["0 RE", "1 SU", "2 TR", "3 ZE", "4 LA0", "5 VA0", "6 ZE"],
            &["0 RE", "1 SU", "2 TR", "3 ZE", "4 SU", "5 SU", "6 VA0"],
            &["0 CA", "1 IL0", "2 ZE", "3 SU", "4 VA0", "5 SU", "6 VA0"],
            &["0 CA", "1 SU", "2 ZE", "3 SU", "4 VA0", "5 SU", "6 VA0"],
            &["0 AB0", "1 FS", "2 PA", "3 TR", "4 SN", "5 SU", "6 ZE"],
            &["0 QU0", "1 SU", "2 SU", "3 FS", "4 PA", "5 TR", "6 ZE"],
            &["0 AP", "1 LA0", "2 AP", "3 VA0", "4 VA0", "5 LA0", "6 VA0"],
        ] {
            self.say("start 12 12");
            for poke in pokes {
                self.say(format!("poke front {poke}"));
            }
            for line in ["run 0", "run 1", "look", "run 9", "look", "close"] {
                self.say(line);
            }
        }
        self.settle();
    }

    /// Each answer of both hosts as a term.
    pub(super) fn each_answer(&mut self) {
        self.say("types");
        for host in [
            "listing 300 1/0/2/3 50/300/255/0 300/301/0/255 301/1/9/9",
            "sheet 00004231 0/0/255/0 1/1/1/255 1/2/1/0 2/3/1/0 3/1/255/255 3/4095/1/2",
        ] {
            self.say(host);
            for question in 0..4 {
                self.say(format!("nodes LA0 QU{question} VA0"));
                self.say("check");
                self.settle();
                for number in 0..5 {
                    let argument = format!("{}ZE", "SU ".repeat(number));
                    self.say(format!("nodes QU{question} {argument}"));
                    self.say("check");
                    // The longest answer has 513 nodes.
                    let room = *self.rng.pick(&[number + 2, 256, 257, 258, 513, 600]);
                    self.say(format!("start {room} {room}"));
                    self.say("run 1");
                    self.say("look");
                    self.settle();
                }
            }
        }
        self.say("listing 10 1/0/2/3");
    }

    /// Each question about a file.
    pub(super) fn each_file_question(&mut self) {
        self.say("tables 9 30 0 0");
        for records in [
            &[][..],
            &["RU0/0"],
            &["RU1025/1", "ZE0/0"],
            &["RU0/4097", "ZE0/0"],
            &["RV0/1", "ZE0/0"],
            &["RU0/1"],
            &["RU0/2", "ZE0/0"],
            &["RU0/2", "ZE0/0", "ZE0/0"],
            &["RU0/2", "ZE0/0", "XX9/9"],
            &["RU0/1", "XX0/0"],
            &["RU0/1", "TF0/0"],
            &["RU0/1", "RU0/1"],
            &["RU1/1", "ZE0/0", "ZE0/0"],
            &["RU1/1", "TN0/0", "ZE0/0"],
            &["RU1/1", "TF6/0", "ZE0/0"],
            &["RU1/1", "TF0/6", "ZE0/0"],
            &["RU1/1", "TP0/0", "ZE0/0"],
            &["RU1/1", "TS1/0", "ZE0/0"],
            &["RU2/1", "TF0/0", "TF0/0", "ZE0/0"],
            &["RU2/1", "TF0/0", "TF6/6", "LA7/0"],
            &["RU2/2", "TF0/0", "TF6/6", "LA8/0", "VA0/0"],
            &["RU2/2", "TF0/0", "TF6/6", "LA7/0", "VA4095/0"],
            &["RU2/2", "TF0/0", "TF6/6", "LA7/0", "VA4096/0"],
            &["RU0/2", "QU7/0", "ZE0/0"],
            &["RU0/2", "QU8/0", "ZE0/0"],
            &["RU0/1", "ZE1/0"],
            &["RU0/1", "ZE0/1"],
            &["RU0/1", "VA0/256"],
            &["RU0/1", "SU0/0"],
            &["RU0/3", "RE0/0", "ZE0/0", "ZE0/0"],
        ] {
            let mut bytes = Vec::new();
            for record in records {
                let (mark, numbers) = record.split_at(2);
                bytes.extend_from_slice(mark.as_bytes());
                for number in words::shorts::<2>(numbers).expect("two numbers") {
                    bytes.extend_from_slice(&number.to_le_bytes());
                }
            }
            self.say_file(&bytes);
            self.say("load");
            if self.rng.chance(20) {
                self.dump(&["nodes", "types"]);
            }
            self.aside();
        }
    }

    /// Calls without what they need.
    pub(super) fn small_edges(&mut self) {
        match self.rng.below(6) {
            0 => {
                self.say("tables 0 0 0 0");
                for line in [
                    "load",
                    "write",
                    "check",
                    "types",
                    "dump nodes",
                    "dump types",
                    "dump bytes",
                ] {
                    self.say(line);
                }
            }
            1 => {
                self.say("tables 3 20 30 40");
                for line in [
                    "dump nodes",
                    "dump types",
                    "dump scratch",
                    "dump bytes",
                    "count 6",
                    "nodes",
                    "check",
                    "nodes ZE",
                    "check",
                    "types",
                    "write",
                    "dump bytes",
                    "file",
                    "load",
                ] {
                    self.say(line);
                }
            }
            2 => {
                // The rule is the first nodes of a longer table.
                self.say("tables 9 40 40 60");
                self.say("file 525500000200535500000000");
                self.say("load");
                self.say("file 5255000002005355000000005a4500000000");
                self.say("load");
                self.say("dump nodes");
                self.say("write");
                self.say("check");
                self.say("start 2 2");
                self.say("close");
                self.settle();
                self.say("check");
            }
            3 => {
                let k = self.rng.below(5);
                self.say(format!("tables {k} {} {} {}", k + 5, 4 * k, 6 * k));
                for line in [
                    "types",
                    "nodes SU ZE",
                    "check",
                    "nodes ZE",
                    "check",
                    "write",
                ] {
                    self.say(line);
                }
            }
            4 => {
                for _ in 0..6 {
                    let line = *self.rng.pick(&MALFORMED);
                    self.say(line);
                    self.other_phase();
                    self.settle();
                }
            }
            _ => {
                self.any_host(true);
                if let Host::Listing { .. } = self.session.host {
                    let rule = rules::worked(&mut self.rng, true);
                    self.deliver(&rule);
                    self.check_and_run();
                }
            }
        }
    }
}
