//! Counts what a history reaches of the host's ends of sessions, trees and opens.

use super::Tally;
use crate::calls::Answer;
use second::tables::Tables;

/// With the least count.
const REQUIRED: [(&str, usize); 16] = [
    ("end a session: alone", 5),
    ("end a session: with trees alone", 2),
    ("end a session: with trees and opens", 2),
    ("end a session: with trees, opens and locks", 4),
    ("end a session: 6 for a number of its table", 5),
    ("end a session: 6 for another number", 5),
    ("end a tree: alone", 5),
    ("end a tree: with opens alone", 2),
    ("end a tree: with opens and locks", 5),
    ("end a tree: 6 for a number of its table", 5),
    ("end a tree: 6 for another number", 5),
    ("end an open: alone", 3),
    ("end an open: with locks", 10),
    ("end an open: 6 for a number of its table", 10),
    ("end an open: 6 for another number", 5),
    ("end: records behind it move up", 20),
];

pub fn required() -> Vec<(String, usize)> {
    REQUIRED
        .map(|(what, least)| (what.to_string(), least))
        .into()
}

/// What can go with an end, by how much hangs on it.
const WITH_SESSION: [&str; 4] = [
    "alone",
    "with trees alone",
    "with trees and opens",
    "with trees, opens and locks",
];
const WITH_TREE: [&str; 3] = ["alone", "with opens alone", "with opens and locks"];
const WITH_OPEN: [&str; 2] = ["alone", "with locks"];

/// An end: what it is of, its number, and the largest number of that table.
struct End {
    of: &'static str,
    number: u32,
    largest: u32,
}

impl Tally {
    pub(super) fn note_end_of_session(
        &mut self,
        uid: u32,
        answer: &Answer,
        around: (&Tables, &Tables),
    ) {
        let end = End {
            of: "a session",
            number: uid,
            largest: 16,
        };
        let last = around.0.sessions.in_use().last();
        let last = last.map(|session| session.uid);
        self.note_end(end, &WITH_SESSION, last, answer, around);
    }

    pub(super) fn note_end_of_tree(
        &mut self,
        tid: u32,
        answer: &Answer,
        around: (&Tables, &Tables),
    ) {
        let end = End {
            of: "a tree",
            number: tid,
            largest: 32,
        };
        let last = around.0.trees.in_use().last().map(|tree| tree.tid);
        self.note_end(end, &WITH_TREE, last, answer, around);
    }

    pub(super) fn note_end_of_open(
        &mut self,
        fid: u32,
        answer: &Answer,
        around: (&Tables, &Tables),
    ) {
        let end = End {
            of: "an open",
            number: fid,
            largest: 64,
        };
        let last = around.0.opens.in_use().last().map(|open| open.fid);
        self.note_end(end, &WITH_OPEN, last, answer, around);
    }

    /// The last record of the table had this number.
    fn note_end(
        &mut self,
        end: End,
        with: &[&str],
        last: Option<u16>,
        answer: &Answer,
        (before, after): (&Tables, &Tables),
    ) {
        let what = match answer.number {
            0 => {
                let moves = last.map(u32::from) != Some(end.number);
                self.count_if(moves, "end: records behind it move up");
                with[depth(with.len() - 1, before, after)].to_string()
            }
            number => match (1..=end.largest).contains(&end.number) {
                true => format!("{number} for a number of its table"),
                false => format!("{number} for another number"),
            },
        };
        self.count(format!("end {}: {what}", end.of));
    }
}

/// Of the last tables, each hanging on the one before, how many lost records.
fn depth(tables: usize, before: &Tables, after: &Tables) -> usize {
    let lost = [
        after.trees.count < before.trees.count,
        after.opens.count < before.opens.count,
        after.locks.count < before.locks.count,
    ];
    let below = &lost[lost.len() - tables..];
    below.iter().filter(|lost| **lost).count()
}
