//! A model of the program's script: one answer for each command line.

use crate::check::type_of;
use crate::file::{load, rule_for_check, write};
use crate::host::{Answer, Host, Line, Profile, Version};
use crate::refusal::Refusal;
use crate::step::{fill, Acceptance, Run};
use crate::term::{Kind, Node};
use crate::types::{Entry, Form, GIVEN};
use crate::words;

/// The longest table that a command makes.
pub const LONGEST: u64 = 1_000_000;
/// What a new table is filled with.
const NODE_FILLER: Node = Node {
    kind: Kind::Fst,
    number: 9,
};
const ENTRY_FILLER: Entry = Entry::new(Form::Prod, 9, 9);

/// Why a command is not answered as it would be.
pub enum Not {
    /// The line cannot be read, or the command has another phase.
    Read(&'static str),
    Refused(Refusal),
}

impl From<Refusal> for Not {
    fn from(refusal: Refusal) -> Self {
        Not::Refused(refusal)
    }
}

type Answered = Result<String, Not>;

/// The state of a script.
#[derive(Clone)]
pub struct Session {
    pub nodes: Vec<Node>,
    /// How many of the nodes are the rule.
    pub rule: usize,
    pub types: Vec<Entry>,
    pub count: usize,
    pub scratch: Vec<u32>,
    pub bytes: Vec<u8>,
    pub file: Vec<u8>,
    pub host: Host,
    pub acceptance: Option<Acceptance>,
    pub run: Option<Run>,
    /// Front and back of the last run that was closed, empty before.
    pub closed: (Vec<Node>, Vec<Node>),
}

impl Default for Session {
    fn default() -> Self {
        Session {
            nodes: Vec::new(),
            rule: 0,
            types: Vec::new(),
            count: 0,
            scratch: Vec::new(),
            bytes: Vec::new(),
            file: Vec::new(),
            host: Host::Listing {
                today: 0,
                versions: Vec::new(),
            },
            acceptance: None,
            run: None,
            closed: (Vec::new(), Vec::new()),
        }
    }
}

impl Session {
    /// The answer to a line, if it gets one.
    pub fn answer(&mut self, line: &[u8]) -> Option<String> {
        let answered = match std::str::from_utf8(line) {
            Ok(text) => {
                let words: Vec<&str> = text.split_ascii_whitespace().collect();
                if words.first().is_none_or(|word| word.starts_with('#')) {
                    return None;
                }
                self.command(words[0], &words[1..])
            }
            Err(_) => Err(Not::Read("the line is not UTF-8 text")),
        };
        Some(match answered {
            Ok(answer) => answer,
            Err(Not::Read(why)) => format!("error: {why}"),
            Err(Not::Refused(refusal)) => format!("refused {}", said(&refusal)),
        })
    }

    fn command(&mut self, name: &str, words: &[&str]) -> Answered {
        match name {
            "tables" => self.tables(words),
            "file" => self.file(words),
            "load" => self.load(words),
            "nodes" => self.nodes(words),
            "types" => self.types(words),
            "entry" => self.entry(words),
            "count" => self.count(words),
            "write" => self.write(words),
            "dump" => self.dump(words),
            "listing" => self.listing(words),
            "sheet" => self.sheet(words),
            "check" => self.check(words),
            "drop" => self.drop(words),
            "start" => self.start(words),
            "run" => self.run(words),
            "look" => self.look(words),
            "poke" => self.poke(words),
            "resize" => self.resize(words),
            "close" => self.close(words),
            "profile" => {
                let [] = exactly(words)?;
                Ok(format!("profile {:08x}", self.host.profile().0))
            }
            "ask" => self.ask(words),
            _ => Err(Not::Read("there is no such command")),
        }
    }

    /// Nothing may be accepted.
    fn free(&self) -> Result<(), Not> {
        match self.acceptance {
            None => Ok(()),
            Some(_) => Err(Not::Read("an acceptance stands")),
        }
    }

    fn standing_run(&mut self) -> Result<&mut Run, Not> {
        self.run.as_mut().ok_or(Not::Read("no run stands"))
    }

    /// Front and back of the run that stands, or else of the last one.
    fn run_tables(&self) -> (&[Node], &[Node]) {
        match &self.run {
            Some(run) => (&run.front, &run.back),
            None => (&self.closed.0, &self.closed.1),
        }
    }

    fn rule(&self) -> &[Node] {
        &self.nodes[..self.rule]
    }

    fn tables(&mut self, words: &[&str]) -> Answered {
        let [nodes, types, scratch, bytes] = exactly(words)?;
        let lengths = (
            length(nodes)?,
            length(types)?,
            length(scratch)?,
            length(bytes)?,
        );
        self.free()?;
        self.nodes = vec![NODE_FILLER; lengths.0];
        self.types = vec![ENTRY_FILLER; lengths.1];
        self.scratch = vec![9; lengths.2];
        self.bytes = vec![9; lengths.3];
        self.rule = 0;
        self.count = 0;
        Ok(format!(
            "tables {} {} {} {}",
            lengths.0, lengths.1, lengths.2, lengths.3
        ))
    }

    fn file(&mut self, words: &[&str]) -> Answered {
        let bytes = match words {
            [] => Vec::new(),
            [word] => words::bytes(word).ok_or(Not::Read("no bytes"))?,
            _ => return Err(Not::Read("too many words")),
        };
        self.free()?;
        self.file = bytes;
        Ok(format!("file {}", self.file.len()))
    }

    fn load(&mut self, words: &[&str]) -> Answered {
        let [] = exactly(words)?;
        self.free()?;
        let loaded = load(&self.file, self.nodes.len(), self.types.len())?;
        fill(&mut self.nodes, &loaded.nodes);
        let count = loaded.entries.len();
        self.types[..count].copy_from_slice(&loaded.entries);
        self.types[count..].fill(Entry::BLANK);
        self.rule = loaded.nodes.len();
        self.count = count;
        Ok(format!("loaded {} {}", self.rule, self.count))
    }

    fn nodes(&mut self, words: &[&str]) -> Answered {
        let nodes: Option<Vec<Node>> = words.iter().map(|word| words::node(word)).collect();
        let nodes = nodes.ok_or(Not::Read("a word is no node"))?;
        self.free()?;
        self.rule = nodes.len();
        self.nodes = nodes;
        Ok(format!("nodes {}", self.rule))
    }

    fn types(&mut self, words: &[&str]) -> Answered {
        let entries: Option<Vec<Entry>> = words.iter().map(|word| words::entry(word)).collect();
        let entries = entries.ok_or(Not::Read("a word is no entry"))?;
        self.free()?;
        let count = GIVEN.len() + entries.len();
        if self.types.len() < count {
            return Err(Not::Read("the type table is too short"));
        }
        self.types[..GIVEN.len()].copy_from_slice(&GIVEN);
        self.types[GIVEN.len()..count].copy_from_slice(&entries);
        self.count = count;
        Ok(format!("types {count}"))
    }

    fn entry(&mut self, words: &[&str]) -> Answered {
        let [place, word] = exactly(words)?;
        let place = any_number(place)?;
        let entry = words::entry(word).ok_or(Not::Read("the word is no entry"))?;
        self.free()?;
        let slot = self
            .types
            .get_mut(place)
            .ok_or(Not::Read("there is no such entry"))?;
        *slot = entry;
        Ok(format!("entry {place}"))
    }

    fn count(&mut self, words: &[&str]) -> Answered {
        let [count] = exactly(words)?;
        let count = any_number(count)?;
        self.free()?;
        self.count = count;
        Ok(format!("count {count}"))
    }

    fn write(&mut self, words: &[&str]) -> Answered {
        let [] = exactly(words)?;
        let bytes = write(self.rule(), &self.types, self.count, self.bytes.len())?;
        self.bytes[..bytes.len()].copy_from_slice(&bytes);
        Ok(format!("wrote {} {}", bytes.len(), words::hex(&bytes)))
    }

    fn dump(&mut self, words: &[&str]) -> Answered {
        let [table] = exactly(words)?;
        let items = match table {
            "nodes" => words::neighbours(&self.nodes, words::node_word),
            "types" => words::neighbours(&self.types, words::entry_word),
            "scratch" => words::neighbours(&self.scratch, |n| n.to_string()),
            "bytes" => words::neighbours(&self.bytes, |b| words::hex(&[b])),
            "front" => words::neighbours(self.run_tables().0, words::node_word),
            "back" => words::neighbours(self.run_tables().1, words::node_word),
            _ => return Err(Not::Read("there is no such table")),
        };
        Ok(format!("dump{items}"))
    }

    fn listing(&mut self, words: &[&str]) -> Answered {
        let [today, rest @ ..] = words else {
            return Err(Not::Read("the day is missing"));
        };
        let today = words::short(today).ok_or(Not::Read("the day is no number"))?;
        let versions: Option<Vec<Version>> = rest.iter().map(|word| version(word)).collect();
        let versions = versions.ok_or(Not::Read("a word is no version"))?;
        self.host = Host::listing(today, versions)?;
        Ok(format!("host listing {}", rest.len()))
    }

    fn sheet(&mut self, words: &[&str]) -> Answered {
        let [profile, rest @ ..] = words else {
            return Err(Not::Read("the profile is missing"));
        };
        let profile = profile_of(profile).ok_or(Not::Read("the profile is none"))?;
        let lines: Option<Vec<Line>> = rest.iter().map(|word| line(word)).collect();
        let lines = lines.ok_or(Not::Read("a word is no line"))?;
        self.host = Host::sheet(profile, &lines)?;
        Ok(format!("host sheet {}", rest.len()))
    }

    fn check(&mut self, words: &[&str]) -> Answered {
        let [] = exactly(words)?;
        self.free()?;
        let (term, mut table) =
            rule_for_check(self.rule(), &self.types, self.count, self.scratch.len())?;
        let profile = self.host.profile();
        let found = type_of(&term, &mut table, profile);
        self.scratch.fill(0);
        self.types[self.count..].fill(Entry::BLANK);
        let type_number = found?;
        let count = table.len();
        self.types[..count].copy_from_slice(table.entries());
        let nodes = self.rule().to_vec();
        self.acceptance = Some(Acceptance {
            nodes,
            type_number,
            profile,
        });
        Ok(format!("accepted {type_number} {count} {:08x}", profile.0))
    }

    fn drop(&mut self, words: &[&str]) -> Answered {
        let [] = exactly(words)?;
        if self.acceptance.is_none() || self.run.is_some() {
            return Err(Not::Read("no acceptance can be dropped"));
        }
        self.acceptance = None;
        Ok("dropped".to_string())
    }

    fn start(&mut self, words: &[&str]) -> Answered {
        let [front, back] = exactly(words)?;
        let (front, back) = (length(front)?, length(back)?);
        if self.run.is_some() {
            return Err(Not::Read("a run stands"));
        }
        let acceptance = self
            .acceptance
            .as_ref()
            .ok_or(Not::Read("nothing is accepted"))?;
        let run = Run::start(
            acceptance,
            vec![NODE_FILLER; front],
            vec![NODE_FILLER; back],
        );
        let answer = match run.held {
            Some(held) => format!("started {} {}", held.records, held.length),
            None => "started nothing".to_string(),
        };
        self.run = Some(run);
        Ok(answer)
    }

    fn run(&mut self, words: &[&str]) -> Answered {
        let [fuel] = exactly(words)?;
        let fuel = words::number(fuel, u64::from(u32::MAX)).and_then(|n| u32::try_from(n).ok());
        let fuel = fuel.ok_or(Not::Read("the fuel is no number"))?;
        let run = self.run.as_mut().ok_or(Not::Read("no run stands"))?;
        let ran = run.run(fuel, &self.host)?;
        Ok(format!(
            "{} {} {} {}",
            ran.cause.word(),
            ran.made,
            ran.total,
            ran.records
        ))
    }

    fn look(&mut self, words: &[&str]) -> Answered {
        let [] = exactly(words)?;
        let nodes = self.standing_run()?.look()?;
        let mut answer = "look".to_string();
        for node in nodes {
            answer.push(' ');
            answer.push_str(&words::node_word(*node));
        }
        Ok(answer)
    }

    fn poke(&mut self, words: &[&str]) -> Answered {
        let [table, place, word] = exactly(words)?;
        let place = any_number(place)?;
        let node = words::node(word).ok_or(Not::Read("the word is no node"))?;
        let slot = self.run_table(table)?.get_mut(place);
        *slot.ok_or(Not::Read("the table has no such place"))? = node;
        Ok("poke".to_string())
    }

    fn resize(&mut self, words: &[&str]) -> Answered {
        let [table, size] = exactly(words)?;
        let size = length(size)?;
        self.run_table(table)?.resize(size, NODE_FILLER);
        Ok("resize".to_string())
    }

    fn run_table(&mut self, name: &str) -> Result<&mut Vec<Node>, Not> {
        let run = self.standing_run()?;
        match name {
            "front" => Ok(&mut run.front),
            "back" => Ok(&mut run.back),
            _ => Err(Not::Read("a run has front and back")),
        }
    }

    fn close(&mut self, words: &[&str]) -> Answered {
        let [] = exactly(words)?;
        let closing = self.standing_run()?.close();
        if let Some(run) = self.run.take() {
            self.closed = (run.front, run.back);
        }
        Ok(match closing {
            Ok(held) => format!(
                "decided {} {} {}",
                held.records, held.steps, held.type_number
            ),
            Err(refusal) => format!("undecided {}", said(&refusal)),
        })
    }

    fn ask(&mut self, words: &[&str]) -> Answered {
        let [question, number] = exactly(words)?;
        let question = words::short(question).ok_or(Not::Read("the question is no number"))?;
        let number = words::short(number).ok_or(Not::Read("the number is none"))?;
        Ok(match self.host.query(question, number) {
            None => "missing".to_string(),
            Some(Answer::Number(n)) => format!("number {n}"),
            Some(Answer::Flag(yes)) => format!("flag {}", if yes { "yes" } else { "no" }),
            Some(Answer::Maybe(None)) => "maybe none".to_string(),
            Some(Answer::Maybe(Some(n))) => format!("maybe {n}"),
            Some(Answer::Pair(m, n)) => format!("pair {m} {n}"),
        })
    }
}

/// A refusal as it is said. The words after the colon are our own.
fn said(refusal: &Refusal) -> String {
    let Refusal {
        layer,
        number,
        place,
        child,
    } = refusal;
    format!("{layer} {number} {place} {child}: answered no")
}

/// Exactly so many words.
fn exactly<'a, const N: usize>(words: &[&'a str]) -> Result<[&'a str; N], Not> {
    words
        .try_into()
        .map_err(|_| Not::Read("too few or too many words"))
}

fn any_number(word: &str) -> Result<usize, Not> {
    let number = words::number(word, u64::MAX).and_then(|n| usize::try_from(n).ok());
    number.ok_or(Not::Read("the word is no number"))
}

fn length(word: &str) -> Result<usize, Not> {
    let number = words::number(word, LONGEST).and_then(|n| usize::try_from(n).ok());
    number.ok_or(Not::Read("the word is no length"))
}

fn version(word: &str) -> Option<Version> {
    let [published, withdrawn, line, patch] = words::shorts(word)?;
    let (line, patch) = (u8::try_from(line).ok()?, u8::try_from(patch).ok()?);
    Some(Version {
        published,
        withdrawn,
        line,
        patch,
    })
}

fn line(word: &str) -> Option<Line> {
    let [question, number, a, b] = words::shorts(word)?;
    Some(Line {
        question,
        number,
        a,
        b,
    })
}

fn profile_of(word: &str) -> Option<Profile> {
    if word.len() != 8 || !word.bytes().all(|b| b.is_ascii_hexdigit()) {
        return None;
    }
    u32::from_str_radix(word, 16).ok().map(Profile)
}
