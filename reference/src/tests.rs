//! What the documents say, as scripts: each command with the beginning of its answer.

use crate::generate;
use crate::play::compared;
use crate::script::Session;

fn plays(script: &[(&str, &str)]) {
    let mut session = Session::default();
    for (command, answer) in script {
        let found = session.answer(command.as_bytes()).unwrap_or_default();
        assert_eq!(compared(&found), *answer, "answer to {command}");
    }
}

#[test]
fn the_file_of_the_example() {
    let file = "5255000005004150000000004c41000000005355000000005641000000005a4500000000";
    plays(&[
        ("tables 6 12 20 36", "tables 6 12 20 36"),
        (&format!("file {file}"), "file 36"),
        ("load", "loaded 5 6"),
        ("dump nodes", "dump AP LA0 SU VA0 ZE --"),
        ("dump types", "dump TN TU TV TS1/1 TS1/0 TP0/0 --*6"),
        ("write", &format!("wrote 36 {file}")),
        ("check", "accepted 0 7 00004231"),
        ("dump types", "dump TN TU TV TS1/1 TS1/0 TP0/0 TF0/0 --*5"),
        ("dump scratch", "dump 0*20"),
        ("start 5 5", "started 5 5"),
        ("run 0", "spent 0 0 5"),
        ("run 9", "value 1 1 2"),
        ("dump front", "dump SU ZE --*3"),
        ("close", "decided 2 1 0"),
        ("drop", "dropped"),
    ]);
}

#[test]
fn the_listing_of_the_example() {
    plays(&[
        ("listing 200 100/0/3/7", "host listing 1"),
        ("profile", "profile 00004231"),
        ("ask 0 9", "number 1"),
        ("ask 1 0", "maybe 100"),
        ("ask 1 1", "maybe none"),
        ("ask 2 0", "flag no"),
        ("ask 2 1", "flag yes"),
        ("ask 3 0", "pair 3 7"),
        ("ask 3 4096", "missing"),
        ("ask 4 0", "missing"),
    ]);
}

#[test]
fn the_sheet_of_the_example() {
    plays(&[
        ("sheet 00004321 2/5/1/9", "host sheet 1"),
        ("ask 0 5", "number 0"),
        ("ask 1 5", "flag no"),
        ("ask 2 5", "maybe 9"),
        ("ask 2 4", "maybe none"),
        ("ask 3 0", "pair 0 0"),
        ("ask 4 0", "missing"),
        (
            "sheet 00004321 2/5/1/9 2/6/2/0 2/5/1/9",
            "refused 4 43 1 0:",
        ),
        (
            "sheet 00004321 2/5/1/9 2/5/1/9 2/6/2/0",
            "refused 4 44 1 0:",
        ),
        ("sheet 60504321 9/9/9/9", "refused 4 42 5 0:"),
        ("ask 2 5", "maybe 9"),
    ]);
}

#[test]
fn the_order_of_causes() {
    plays(&[
        ("tables 0 40 40 0", "tables 0 40 40 0"),
        ("types", "types 6"),
        ("nodes AP LA0 PA VA0 VA0 SU SU ZE", "nodes 8"),
        ("check", "accepted 5 7 00004231"),
        ("start 8 8", "started 8 8"),
        ("run 5", "value 1 1 7"),
        ("close", "decided 7 1 5"),
        ("drop", "dropped"),
        ("nodes AP LA0 PA VA0 PA VA0 VA0 ZE", "nodes 8"),
        ("check", "accepted 6 8 00004231"),
        ("start 8 8", "started 8 8"),
        ("poke front 7 SU", "poke"),
        ("run 1", "refused 3 33 8 0:"),
        ("poke front 7 QU0", "poke"),
        ("close", "undecided 3 33 8 0:"),
        ("start 8 9", "started nothing"),
        ("run 1", "refused 3 30 0 0:"),
        ("close", "undecided 3 30 0 0:"),
    ]);
}

#[test]
fn the_order_of_questions() {
    for (nodes, answer) in [
        ("RE TR VA0 VA5", "refused 2 22 0 1:"),
        ("RE ZE VA0 VA5", "refused 2 20 2 0:"),
        ("RE ZE ZE VA0", "refused 2 23 0 3:"),
        ("QU4 VA0", "refused 2 21 0 0:"),
        ("AP ZE VA0", "refused 2 22 0 1:"),
        ("AP LA0 VA0 TR", "refused 2 23 0 2:"),
        ("CA QU2 ZE VA0 ZE", "refused 2 23 0 3:"),
        ("RE ZE ZE FS PA LA0 VA0 TR", "refused 2 24 0 3:"),
        ("SU SU", "refused 2 13 2 0:"),
        ("ZE SU", "refused 2 13 1 0:"),
        ("LA6 VA0", "refused 2 13 0 0:"),
    ] {
        plays(&[
            ("tables 0 40 40 0", "tables 0 40 40 0"),
            ("types", "types 6"),
            (
                &format!("nodes {nodes}"),
                &format!("nodes {}", nodes.split(' ').count()),
            ),
            ("check", answer),
        ]);
    }
}

#[test]
fn a_script_comes_out_the_same_from_the_same_seed() {
    let make = || [1, 1, 2].map(|seed| generate::script(seed, 1, 300).lines);
    let thread = std::thread::Builder::new()
        .stack_size(crate::STACK)
        .spawn(make);
    let scripts = thread.expect("a thread").join().expect("scripts");
    assert_eq!(scripts[0], scripts[1]);
    assert_ne!(scripts[0], scripts[2]);
}
