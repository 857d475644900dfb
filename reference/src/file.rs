//! Rule files: load and write.

use crate::refusal::{Refusal, CHECK, FILE};
use crate::term::{read, Bounds, Kind, Node, Term, MOST_NODES};
use crate::types::{Entry, Form, Table, GIVEN};

/// The bytes of a record.
const RECORD: usize = 6;
/// The most type records of a file.
pub const MOST_RECORDS: usize = 1024;
/// The most entries that check and write are given.
pub const MOST_ENTRIES: usize = GIVEN.len() + MOST_RECORDS;

/// One record: a mark and two numbers.
struct Record {
    mark: [u8; 2],
    first: u16,
    second: u16,
}

fn record_at(file: &[u8], place: usize) -> Record {
    let b = &file[place * RECORD..(place + 1) * RECORD];
    Record {
        mark: [b[0], b[1]],
        first: u16::from_le_bytes([b[2], b[3]]),
        second: u16::from_le_bytes([b[4], b[5]]),
    }
}

fn put_record(out: &mut Vec<u8>, mark: &str, first: u16, second: u16) {
    out.extend_from_slice(mark.as_bytes());
    out.extend_from_slice(&first.to_le_bytes());
    out.extend_from_slice(&second.to_le_bytes());
}

/// What a file says: the nodes of its term, and its whole type table.
pub struct Loaded {
    pub nodes: Vec<Node>,
    pub entries: Vec<Entry>,
}

/// Reads a file for tables with so many places.
pub fn load(file: &[u8], node_places: usize, type_places: usize) -> Result<Loaded, Refusal> {
    let no = |number| Err(Refusal::plain(FILE, number));
    if file.is_empty() || !file.len().is_multiple_of(RECORD) {
        return no(1);
    }
    let head = record_at(file, 0);
    let (types, count) = (usize::from(head.first), usize::from(head.second));
    if &head.mark != b"RU" || types > MOST_RECORDS || count == 0 || count > MOST_NODES {
        return no(2);
    }
    if file.len() != RECORD * (1 + types + count) {
        return no(3);
    }
    if node_places < count || type_places < GIVEN.len() + types + count {
        return no(4);
    }
    let mut table = Table::given();
    for place in 1..=types {
        let record = record_at(file, place);
        let no = |number| Err(Refusal::at(FILE, number, place));
        let Some(form) = Form::of_mark(&record.mark).filter(|form| form.joins()) else {
            return no(6);
        };
        let entry = Entry::new(form, record.first, record.second);
        if !table.has_below(entry) {
            return no(7);
        }
        if !table.is_new(entry) {
            return no(8);
        }
        table.add(entry);
    }
    let bound = u32::try_from(GIVEN.len() + types).expect("small");
    let mut nodes = Vec::with_capacity(count);
    let mut open = 1; // terms that are still to come
    for place in 1 + types..=types + count {
        let record = record_at(file, place);
        let no = |number| Err(Refusal::at(FILE, number, place));
        if open == 0 {
            return no(5);
        }
        let Some(kind) = Kind::of_mark(&record.mark) else {
            return no(6);
        };
        if u32::from(record.first) >= kind.bound(bound) || record.second != 0 {
            return no(7);
        }
        open = open - 1 + kind.children();
        nodes.push(Node::new(kind, record.first));
    }
    if open > 0 {
        return Err(Refusal::at(FILE, 9, 1 + types + count));
    }
    Ok(Loaded {
        nodes,
        entries: table.entries().to_vec(),
    })
}

/// The file of these nodes and entries, which are known to be a rule.
pub fn bytes_of(nodes: &[Node], entries: &[Entry]) -> Vec<u8> {
    let records = &entries[GIVEN.len()..];
    let mut out = Vec::with_capacity(RECORD * (1 + records.len() + nodes.len()));
    let short = |n: usize| u16::try_from(n).expect("counts of a file have 16 bits");
    put_record(&mut out, "RU", short(records.len()), short(nodes.len()));
    for entry in records {
        put_record(&mut out, entry.form.mark(), entry.left, entry.right);
    }
    for node in nodes {
        put_record(&mut out, node.kind.mark(), node.number, 0);
    }
    out
}

/// Writes a rule as a file into a list of so many bytes.
pub fn write(
    nodes: &[Node],
    types: &[Entry],
    count: usize,
    byte_places: usize,
) -> Result<Vec<u8>, Refusal> {
    question_10(FILE, nodes, types, count)?;
    questions_12_13(FILE, nodes, &types[..count])?;
    let bytes = bytes_of(nodes, &types[..count]);
    if bytes.len() > byte_places {
        return Err(Refusal::plain(FILE, 14));
    }
    Ok(bytes)
}

/// Questions 10 to 13 as check puts them.
pub fn rule_for_check(
    nodes: &[Node],
    types: &[Entry],
    count: usize,
    scratch_places: usize,
) -> Result<(Term, Table), Refusal> {
    question_10(CHECK, nodes, types, count)?;
    if types.len() < count + nodes.len() || scratch_places < 4 * nodes.len() {
        return Err(Refusal::plain(CHECK, 11));
    }
    questions_12_13(CHECK, nodes, &types[..count])
}

fn question_10(layer: u32, nodes: &[Node], types: &[Entry], count: usize) -> Result<(), Refusal> {
    let nodes_fit = (1..=MOST_NODES).contains(&nodes.len());
    let count_fits = (GIVEN.len()..=MOST_ENTRIES).contains(&count) && count <= types.len();
    if nodes_fit && count_fits {
        Ok(())
    } else {
        Err(Refusal::plain(layer, 10))
    }
}

fn questions_12_13(
    layer: u32,
    nodes: &[Node],
    entries: &[Entry],
) -> Result<(Term, Table), Refusal> {
    let table = Table::of(entries).map_err(|place| Refusal::at(layer, 12, place))?;
    let bounds = Bounds {
        types: u32::try_from(entries.len()).expect("small"),
        closed: false,
    };
    let term = read(nodes, bounds).map_err(|place| Refusal::at(layer, 13, place))?;
    Ok((term, table))
}
