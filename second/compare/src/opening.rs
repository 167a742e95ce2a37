//! Counts what request 6 of document 02 brings: catalogues set and refused, tables
//! that are not sound for a sharing code or for the catalogue alone, what became of
//! each OPEN_ANDX, and of FID 0xFFFF behind it and elsewhere.

mod asked;

use crate::catalogues::{broken, RULES};
use crate::counts::Counts;
use crate::places;
use crate::sides::Given;
use crate::tally::Around;
use second::call::Call;
use second::tables::{Tables, DENY_NONE};
use second::words::{unpack, Words, CATALOGUE};
use std::collections::BTreeSet;

const CATALOGUES: [&str; 4] = [
    "catalogue set: empty",
    "catalogue set: some names",
    "catalogue set: 16 names",
    "catalogue set beside opens",
];
const SHARING: [&str; 3] = [
    "not sound: sharing code 0 alone",
    "not sound: sharing code above 4 alone",
    "not sound: sharing code that does not fit alone",
];

#[derive(Default)]
pub struct Opening {
    counts: Counts,
    /// The FIDs that the host's calls gave last.
    hosts: BTreeSet<u16>,
}

impl Opening {
    pub fn begin_history(&mut self) {
        self.hosts.clear();
    }

    /// Counts a call, these being the words before it and, if it was done, the
    /// tables around it.
    pub fn count(
        &mut self,
        call: &Call,
        given: Given,
        reply: &[u8],
        words: &Words,
        around: Option<&Around>,
    ) {
        if given.number == 4 {
            self.count_unsound(words);
        }
        match (call, around) {
            (Call::SetCatalogue { catalogue }, _) => {
                self.count_set(&catalogue[..], given.number, words);
            }
            (Call::AddOpen { .. }, Some(_)) => {
                self.hosts.insert(given.value as u16);
            }
            (Call::TakeMessage { message, .. }, Some(Around { before, after })) => {
                self.count_message(message, reply, before, after);
            }
            _ => {}
        }
        if let (Some(by), Some(Around { before, after })) = (removal(call), around) {
            self.count_gone(by, before, after);
        }
    }

    /// An open by name that is there no more.
    fn count_gone(&mut self, by: &str, before: &Tables, after: &Tables) {
        let opens = before.opens.in_use().iter();
        let mut named = opens.filter(|open| !self.hosts.contains(&open.fid));
        let gone = named.any(|open| !after.opens.in_use().contains(open));
        self.counts.met_if(gone, &asked::removed(by));
    }

    fn count_set(&mut self, given: &[u64], number: u8, before: &Words) {
        match number {
            0 => {
                let which = match given[0] {
                    0 => CATALOGUES[0],
                    16 => CATALOGUES[2],
                    _ => CATALOGUES[1],
                };
                self.counts.met(which);
                self.counts.met_if(before[places::OPENS] > 0, CATALOGUES[3]);
            }
            7 => self.count_rule("catalogue refused", given),
            _ => {}
        }
    }

    /// The one rule that a catalogue breaks, if it is one.
    fn count_rule(&mut self, what: &str, words: &[u64]) {
        let broken = broken(words);
        let mut rules = RULES.iter().zip(broken).filter(|(_, broken)| *broken);
        if let (Some((rule, _)), None) = (rules.next(), rules.next()) {
            self.counts.met(format!("{what}: {rule} alone"));
        }
    }

    /// Tables that would be sound with another catalogue or other sharing codes.
    fn count_unsound(&mut self, before: &Words) {
        let sound = |words: &Words| unpack(words).is_some_and(|tables| tables.sound());
        let mut other = *before;
        other[CATALOGUE..].fill(0);
        if sound(&other) {
            self.count_rule("not sound", &before[CATALOGUE..]);
        }
        let mut other = *before;
        let opens = places::opens_in_use(before);
        let codes = opens.map(|open| places::open_word(open, places::SHARING));
        for word in codes.clone() {
            other[word] = DENY_NONE.into();
        }
        if sound(&other) {
            for code in codes.map(|word| before[word]) {
                match code {
                    1..=4 => {}
                    0 => self.counts.met(SHARING[0]),
                    5..=255 => self.counts.met(SHARING[1]),
                    _ => self.counts.met(SHARING[2]),
                }
            }
        }
    }

    /// Prints the counts. False if something was met too seldom.
    pub fn print(&self) -> bool {
        self.counts.print("opening by name", required())
    }
}

/// The name of a host's call that removes opens.
fn removal(call: &Call) -> Option<&'static str> {
    match call {
        Call::DropConnection { .. } => Some("drop"),
        Call::EndSession { .. } => Some("end_session"),
        Call::EndTree { .. } => Some("end_tree"),
        Call::EndOpen { .. } => Some("end_open"),
        _ => None,
    }
}

/// All that must be met.
fn required() -> Vec<String> {
    let single = CATALOGUES.iter().chain(&SHARING);
    let mut all: Vec<String> = single.map(|what| what.to_string()).collect();
    for rule in RULES {
        all.push(format!("catalogue refused: {rule} alone"));
        all.push(format!("not sound: {rule} alone"));
    }
    all.extend(asked::required());
    all
}
