//! Times of load, check and run on a few rules.

use crate::check::type_of;
use crate::file::{bytes_of, load, rule_for_check};
use crate::host::{Host, Version};
use crate::rules::{from_words, loops, SCAN};
use crate::step::{Acceptance, Cause, Run};
use crate::term::{Node, MOST_NODES};
use crate::types::Entry;
use std::hint::black_box;
use std::time::{Duration, Instant};

const ROUNDS: usize = 9;
const ROUND: Duration = Duration::from_millis(20);

/// The best time of one call, over several rounds of at least 20 milliseconds.
fn best(mut call: impl FnMut()) -> f64 {
    let mut best = f64::INFINITY;
    for _ in 0..ROUNDS {
        let begin = Instant::now();
        let mut calls = 0u32;
        while begin.elapsed() < ROUND {
            call();
            calls += 1;
        }
        best = best.min(begin.elapsed().as_secs_f64() / f64::from(calls));
    }
    best * 1e6
}

/// Prints the table of times.
pub fn bench() {
    let versions = (0..200u8)
        .map(|i| Version {
            published: u16::from(i),
            withdrawn: u16::from(i % 3) * 300,
            line: i,
            patch: i % 7,
        })
        .collect();
    let host = Host::listing(300, versions).unwrap_or_else(|_| unreachable!("200 versions"));
    println!(
        "{:<20}{:>7}{:>10}{:>10}{:>9}{:>12}{:>14}{:>10}",
        "rule", "nodes", "load, us", "check, us", "steps", "run, us", "steps/s", "us/step"
    );
    for (name, words) in [
        ("100 + 100", "RE #100 #100 LA0 SU VA0".to_string()),
        ("300 + 300", "RE #300 #300 LA0 SU VA0".to_string()),
        ("200 versions", SCAN.to_string()),
        (
            "deeply nested",
            format!("{} ZE", "AP LA0 VA0 ".repeat(1365)),
        ),
        ("nested loops", loops(9)),
    ] {
        row(name, &words, &host);
    }
}

fn row(name: &str, words: &str, host: &Host) {
    let rule = from_words(words);
    let file = bytes_of(&rule.nodes, &rule.entries);
    let places = rule.nodes.len() + rule.entries.len();
    let load_time = best(|| {
        let _ = black_box(load(black_box(&file), rule.nodes.len(), places));
    });
    let mut types = rule.entries.clone();
    types.resize(places, Entry::BLANK);
    let scratch = 4 * rule.nodes.len();
    let profile = host.profile();
    let mut accepted = None;
    let check_time = best(|| {
        let checked = rule_for_check(black_box(&rule.nodes), &types, rule.entries.len(), scratch);
        accepted = checked.ok().and_then(|(term, mut table)| {
            let type_number = type_of(&term, &mut table, profile).ok()?;
            let nodes = rule.nodes.clone();
            Some(Acceptance {
                nodes,
                type_number,
                profile,
            })
        });
    });
    let acceptance = accepted.expect("the rules of the benchmark have a type");
    let tables = vec![Node::BLANK; MOST_NODES];
    let mut steps = 0;
    let run_time = best(|| {
        let mut run = Run::start(&acceptance, tables.clone(), tables.clone());
        match run.run(1_000_000, host) {
            Ok(ran) if ran.cause == Cause::Value => steps = ran.made,
            _ => unreachable!("the rules of the benchmark have values"),
        }
        black_box(run.close().is_ok());
    });
    let each = run_time / f64::from(steps);
    println!(
        "{name:<20}{:>7}{load_time:>10.1}{check_time:>10.1}{steps:>9}{run_time:>12.1}{:>14.0}{each:>10.3}",
        rule.nodes.len(),
        1e6 / each
    );
}
