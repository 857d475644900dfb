//! Runs a program on a script, and finds the first answer that differs.

use crate::generate::Script;
use std::fs::{self, File};
use std::io;
use std::path::{Path, PathBuf};
use std::process::{Command, Stdio};
use std::thread::sleep;
use std::time::{Duration, Instant};

/// A program, and a folder for what it reads and prints.
pub struct Player {
    program: String,
    folder: PathBuf,
}

/// What a program printed, and why it did not end well, if so.
pub struct Played {
    printed: String,
    fault: Option<String>,
}

fn told(path: &Path, e: &io::Error) -> String {
    format!("{}: {e}", path.display())
}

impl Player {
    /// With a folder of this name among the temporary files.
    pub fn new(program: &str, folder: &str) -> Result<Self, String> {
        let folder = std::env::temp_dir().join(folder);
        fs::create_dir_all(&folder).map_err(|e| told(&folder, &e))?;
        Ok(Player {
            program: program.to_string(),
            folder,
        })
    }

    /// Saves lines in a file of this name, and answers its path.
    pub fn save<L: AsRef<[u8]>>(&self, name: &str, lines: &[L]) -> Result<PathBuf, String> {
        let mut text = Vec::new();
        for line in lines {
            text.extend_from_slice(line.as_ref());
            text.push(b'\n');
        }
        let path = self.folder.join(name);
        fs::write(&path, text).map_err(|e| told(&path, &e))?;
        Ok(path)
    }

    /// Runs the program with the script on its standard input, for at most so long.
    pub fn play(&self, script: &Script, name: &str, limit: Duration) -> Result<Played, String> {
        let input = self.save(&format!("{name}.script"), &script.lines)?;
        let answers: Vec<&str> = script
            .answers
            .iter()
            .map(|(_, answer)| answer.as_str())
            .collect();
        self.save(&format!("{name}.expected"), &answers)?;
        let output = self.folder.join(format!("{name}.answered"));
        let stdin = File::open(&input).map_err(|e| told(&input, &e))?;
        let stdout = File::create(&output).map_err(|e| told(&output, &e))?;
        let failed = |e: io::Error| format!("{}: {e}", self.program);
        let mut child = Command::new(&self.program)
            .arg("script")
            .stdin(Stdio::from(stdin))
            .stdout(Stdio::from(stdout))
            .spawn()
            .map_err(failed)?;
        let begin = Instant::now();
        let fault = loop {
            match child.try_wait().map_err(failed)? {
                Some(status) if status.success() => break None,
                Some(status) => break Some(format!("the program ended with {status}")),
                None if begin.elapsed() > limit => {
                    child.kill().and_then(|()| child.wait()).map_err(failed)?;
                    break Some(format!("the program did not end within {limit:?}"));
                }
                None => sleep(Duration::from_millis(1)),
            }
        };
        let printed = fs::read(&output).map_err(|e| told(&output, &e))?;
        Ok(Played {
            printed: String::from_utf8_lossy(&printed).into_owned(),
            fault,
        })
    }
}

/// An answer that is not the expected one.
pub struct Difference {
    /// The line of the script, counted from 0.
    pub line: usize,
    pub expected: String,
    pub answered: String,
}

/// What is compared of an answer: not the words that explain it.
pub fn compared(answer: &str) -> &str {
    let explained = ["refused ", "undecided ", "error:"];
    if explained.iter().any(|start| answer.starts_with(start)) {
        answer.find(':').map_or(answer, |colon| &answer[..=colon])
    } else {
        answer
    }
}

/// The first answer that differs, if one does or the program did not end well.
pub fn first_difference(script: &Script, played: &Played) -> Option<Difference> {
    let mut lines = played.printed.lines();
    let nothing = || played.fault.clone().unwrap_or("(nothing)".to_string());
    for (line, expected) in &script.answers {
        let found = lines.next();
        if found.map(compared) != Some(compared(expected)) {
            let answered = found.map_or_else(nothing, str::to_string);
            return Some(Difference {
                line: *line,
                expected: expected.clone(),
                answered,
            });
        }
    }
    let answered = lines
        .next()
        .map(str::to_string)
        .or_else(|| played.fault.clone())?;
    let line = script.lines.len().saturating_sub(1);
    Some(Difference {
        line,
        expected: "(nothing)".to_string(),
        answered,
    })
}
