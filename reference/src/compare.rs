//! Compares the answers of a program with those of the model.

use crate::generate::{script, Script};
use crate::play::{first_difference, Player};
use std::collections::BTreeMap;
use std::fs;
use std::time::{Duration, Instant};

/// About how many lines a script has.
pub const BATCH: usize = 2000;
/// How long a program may take for a script.
const PATIENCE: Duration = Duration::from_secs(300);
/// How long a short script is looked for.
const SHRINKING: Duration = Duration::from_secs(20);

/// Every word with which an answer may begin.
const ANSWERS: [&str; 31] = [
    "tables",
    "file",
    "loaded",
    "nodes",
    "types",
    "entry",
    "count",
    "wrote",
    "dump",
    "host listing",
    "host sheet",
    "accepted",
    "dropped",
    "started",
    "started nothing",
    "value",
    "stuck",
    "spent",
    "full",
    "look",
    "poke",
    "resize",
    "decided",
    "undecided",
    "profile",
    "number",
    "flag",
    "maybe",
    "pair",
    "missing",
    "error:",
];

/// Every number of a refusal.
fn refusal_numbers() -> impl Iterator<Item = u32> {
    (1..=14).chain(20..=24).chain(30..=34).chain(40..=44)
}

/// Counts of what was answered.
#[derive(Default)]
struct Counts {
    calls: usize,
    answers: BTreeMap<String, usize>,
    refusals: BTreeMap<u32, usize>,
}

impl Counts {
    fn add(&mut self, answer: &str) {
        self.calls += 1;
        let words: Vec<&str> = answer.split(' ').collect();
        if matches!(words[0], "refused" | "undecided") {
            if let Some(number) = words.get(2).and_then(|word| word.parse().ok()) {
                *self.refusals.entry(number).or_default() += 1;
            }
        }
        let key = match words.as_slice() {
            ["host", kind, ..] => format!("host {kind}"),
            ["started", "nothing"] => answer.to_string(),
            _ => words[0].to_string(),
        };
        *self.answers.entry(key).or_default() += 1;
    }

    /// Prints all counts, and answers whether everything occurred.
    fn print(&self) -> bool {
        println!("calls {}", self.calls);
        let mut complete = true;
        for word in ANSWERS.iter().chain(&["refused"]) {
            let times = self.answers.get(*word).copied().unwrap_or(0);
            complete &= times > 0;
            println!("  {word:<16}{times:>8}");
        }
        println!("refusals");
        for number in refusal_numbers() {
            let times = self.refusals.get(&number).copied().unwrap_or(0);
            complete &= times > 0;
            println!("  {number:<16}{times:>8}");
        }
        complete
    }
}

/// Compares the program on scripts from the seed, with at least so many calls in all. Answers
/// whether everything was equal, and every answer and every refusal occurred.
pub fn compare(program: &str, seed: u64, calls: usize) -> Result<bool, String> {
    let player = Player::new(program, &format!("reference-{seed}"))?;
    println!("seed {seed}");
    let mut counts = Counts::default();
    let mut number = 0;
    while counts.calls < calls {
        let script = script(seed, number, BATCH);
        if !equal(&player, &script, &number.to_string())? {
            return Ok(false);
        }
        for (_, answer) in &script.answers {
            counts.add(answer);
        }
        number += 1;
    }
    let complete = counts.print();
    if !complete {
        println!("some answer or refusal never occurred");
        return Ok(false);
    }
    println!("no difference");
    Ok(true)
}

/// Compares the program on the script in a file.
pub fn replay(program: &str, path: &str) -> Result<bool, String> {
    let text = fs::read(path).map_err(|e| format!("{path}: {e}"))?;
    let text = text.strip_suffix(b"\n").unwrap_or(&text);
    let script = Script::of(text.split(|b| *b == b'\n').map(<[u8]>::to_vec));
    let player = Player::new(program, "reference-replay")?;
    let equal = equal(&player, &script, "replay")?;
    if equal {
        println!("{} calls, no difference", script.answers.len());
    }
    Ok(equal)
}

/// Whether the program answers the script as the model does. Tells the first difference, and
/// saves the script up to there and a short script with a difference.
fn equal(player: &Player, script: &Script, name: &str) -> Result<bool, String> {
    let played = player.play(script, name, PATIENCE)?;
    let Some(difference) = first_difference(script, &played) else {
        return Ok(true);
    };
    let so_far = &script.lines[..=difference.line];
    println!("script {name}, line {}:", difference.line + 1);
    let text = String::from_utf8_lossy(&script.lines[difference.line]);
    println!("  command   {}", shortened(&text));
    println!("  expected  {}", shortened(&difference.expected));
    println!("  answered  {}", shortened(&difference.answered));
    let saved = player.save(&format!("{name}.difference"), so_far)?;
    println!("the script up to this line: {}", saved.display());
    let short = shrunk(player, so_far.to_vec())?;
    let saved = player.save(&format!("{name}.short"), &short)?;
    println!(
        "a short script with a difference, {} lines: {}",
        short.len(),
        saved.display()
    );
    Ok(false)
}

/// Leaves out lines as long as a difference stays and time is left.
fn shrunk(player: &Player, mut lines: Vec<Vec<u8>>) -> Result<Vec<Vec<u8>>, String> {
    let begin = Instant::now();
    let mut chunk = lines.len() / 2;
    while chunk > 0 {
        let mut at = 0;
        while at < lines.len() && begin.elapsed() < SHRINKING {
            let mut fewer = lines[..at].to_vec();
            fewer.extend_from_slice(&lines[(at + chunk).min(lines.len())..]);
            let script = Script::of(fewer.iter().cloned());
            let played = player.play(&script, "shrunk", SHRINKING)?;
            match first_difference(&script, &played) {
                Some(difference) => {
                    fewer.truncate(difference.line + 1);
                    lines = fewer;
                }
                None => at += chunk,
            }
        }
        chunk /= 2;
    }
    Ok(lines)
}

/// The beginning of a long line.
fn shortened(line: &str) -> String {
    if line.chars().count() <= 400 {
        line.to_string()
    } else {
        line.chars().take(400).chain("...".chars()).collect()
    }
}
