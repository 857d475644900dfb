//! Types as trees that are interned by a table: a type is the number of its entry.

use std::collections::HashMap;

/// The form of an entry.
#[derive(Clone, Copy, PartialEq, Eq, Hash, Debug, Default)]
pub enum Form {
    #[default]
    Blank,
    Nat,
    Unit,
    Void,
    Fun,
    Prod,
    Sum,
}

/// Every form but the blank, with its mark.
pub const FORMS: [(Form, &str); 6] = [
    (Form::Nat, "TN"),
    (Form::Unit, "TU"),
    (Form::Void, "TV"),
    (Form::Fun, "TF"),
    (Form::Prod, "TP"),
    (Form::Sum, "TS"),
];

impl Form {
    pub fn mark(self) -> &'static str {
        FORMS
            .iter()
            .find(|row| row.0 == self)
            .map_or("--", |row| row.1)
    }

    pub fn of_mark(mark: &[u8]) -> Option<Form> {
        FORMS
            .iter()
            .find(|row| row.1.as_bytes() == mark)
            .map(|row| row.0)
    }

    /// Whether entries of this form join two others.
    pub fn joins(self) -> bool {
        matches!(self, Form::Fun | Form::Prod | Form::Sum)
    }
}

/// An entry of a type table.
#[derive(Clone, Copy, PartialEq, Eq, Hash, Debug, Default)]
pub struct Entry {
    pub form: Form,
    pub left: u16,
    pub right: u16,
}

impl Entry {
    pub const BLANK: Entry = Entry {
        form: Form::Blank,
        left: 0,
        right: 0,
    };

    pub const fn new(form: Form, left: u16, right: u16) -> Self {
        Entry { form, left, right }
    }
}

pub const NAT: u16 = 0;
pub const UNIT: u16 = 1;
pub const VOID: u16 = 2;
pub const FLAG: u16 = 3;
pub const MAYBE: u16 = 4;
pub const TWO: u16 = 5;

/// The entries with which every table begins.
pub const GIVEN: [Entry; 6] = [
    Entry::new(Form::Nat, 0, 0),
    Entry::new(Form::Unit, 0, 0),
    Entry::new(Form::Void, 0, 0),
    Entry::new(Form::Sum, UNIT, UNIT),
    Entry::new(Form::Sum, UNIT, NAT),
    Entry::new(Form::Prod, NAT, NAT),
];

/// A table in which every entry is laid down, with the number of each.
pub struct Table {
    entries: Vec<Entry>,
    numbers: HashMap<Entry, u16>,
}

impl Table {
    /// The table of the given entries alone.
    pub fn given() -> Self {
        let entries = GIVEN.to_vec();
        let numbers = (0u16..)
            .zip(&entries)
            .map(|(number, entry)| (*entry, number))
            .collect();
        Table { entries, numbers }
    }

    /// The table of these entries, or the place of the first at fault.
    pub fn of(entries: &[Entry]) -> Result<Self, usize> {
        for (place, given) in GIVEN.iter().enumerate() {
            if entries.get(place) != Some(given) {
                return Err(place);
            }
        }
        let mut table = Table::given();
        for (place, &entry) in entries.iter().enumerate().skip(GIVEN.len()) {
            if !entry.form.joins() || !table.has_below(entry) || !table.is_new(entry) {
                return Err(place);
            }
            table.add(entry);
        }
        Ok(table)
    }

    pub fn len(&self) -> usize {
        self.entries.len()
    }

    pub fn entries(&self) -> &[Entry] {
        &self.entries
    }

    pub fn entry(&self, number: u16) -> Entry {
        self.entries[usize::from(number)]
    }

    /// Whether both numbers of the entry are those of entries that are there.
    pub fn has_below(&self, entry: Entry) -> bool {
        usize::from(entry.left.max(entry.right)) < self.len()
    }

    /// Whether no entry equals this one.
    pub fn is_new(&self, entry: Entry) -> bool {
        !self.numbers.contains_key(&entry)
    }

    /// The number of the entry, which is added at the end where it is missing.
    pub fn add(&mut self, entry: Entry) -> u16 {
        if let Some(&number) = self.numbers.get(&entry) {
            return number;
        }
        let number = u16::try_from(self.len()).expect("a type table has at most 65,535 entries");
        self.entries.push(entry);
        self.numbers.insert(entry, number);
        number
    }
}
