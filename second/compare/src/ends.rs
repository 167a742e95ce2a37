//! Counts the host's ends of sessions, trees and opens: what went with each, what
//! stands beside it, and what each refusal was for.

use crate::counts::Counts;
use crate::places;
use crate::tally::Around;
use second::call::Call;
use second::tables::{Lock, Tables, OPENS, SESSIONS, TREES};
use second::words::Words;

/// What is ended.
#[derive(Clone, Copy, PartialEq, Eq)]
enum Kind {
    Session,
    Tree,
    Open,
}

const KINDS: [Kind; 3] = [Kind::Session, Kind::Tree, Kind::Open];

const ALONE: &str = "done alone";
const DONE: [&str; 5] = [
    "done, records behind it move up",
    "done, others of its connection, session or tree stand",
    "done, locks that stand are behind one that goes",
    "done, a record of another kind that stands has the number",
    "done, its table was full",
];
const UNKNOWN: [&str; 7] = [
    "6 for 0",
    "6 for a number of the table's range",
    "6 for a number above that",
    "6 for a number that a record of another kind has",
    "6 for the number that the last call ended",
    "6 for a number of more than 16 bits",
    "6 for a number of more than 16 bits, somebody's by the lower 16",
];
const UNSOUND: [&str; 3] = [
    "4 for a number in use",
    "4 for an unknown number",
    "4 for a number of more than 16 bits",
];

impl Kind {
    fn name(self) -> &'static str {
        match self {
            Kind::Session => "end_session",
            Kind::Tree => "end_tree",
            Kind::Open => "end_open",
        }
    }

    /// What can go with it, by how much hangs on it.
    fn with(self) -> &'static [&'static str] {
        match self {
            Kind::Session => &[
                "done with trees alone",
                "done with trees and opens",
                "done with trees, opens and locks",
            ],
            Kind::Tree => &["done with opens alone", "done with opens and locks"],
            Kind::Open => &["done with locks"],
        }
    }

    /// The largest number of its table.
    fn largest(self) -> usize {
        match self {
            Kind::Session => SESSIONS,
            Kind::Tree => TREES,
            Kind::Open => OPENS,
        }
    }

    /// Whether a record in use has the number, in words that need not be sound.
    fn in_use(self, words: &Words, number: u32) -> bool {
        let (count, fields) = match self {
            Kind::Session => (places::SESSIONS, 2),
            Kind::Tree => (places::TREES, 3),
            Kind::Open => (places::OPENS, 9),
        };
        let used = words[count].min(self.largest() as u64) as usize;
        let mut records = words[count + 1..].chunks(fields).take(used);
        records.any(|record| record[0] == number.into())
    }

    fn others(self) -> impl Iterator<Item = Kind> {
        KINDS.into_iter().filter(move |other| *other != self)
    }

    /// All that must be met.
    fn required(self) -> impl Iterator<Item = String> {
        let lists: [&[&str]; 5] = [&[ALONE], self.with(), &DONE, &UNKNOWN, &UNSOUND];
        lists.concat().into_iter().map(move |what| self.what(what))
    }

    fn what(self, what: &str) -> String {
        format!("{}: {what}", self.name())
    }
}

/// What a call ends, and by what number.
fn ended(call: &Call) -> Option<(Kind, u32)> {
    match *call {
        Call::EndSession { uid } => Some((Kind::Session, uid)),
        Call::EndTree { tid } => Some((Kind::Tree, tid)),
        Call::EndOpen { fid } => Some((Kind::Open, fid)),
        _ => None,
    }
}

/// The numbers in use: UIDs, TIDs and FIDs.
pub fn numbers(tables: &Tables) -> [Vec<u16>; 3] {
    [
        tables.sessions.in_use().iter().map(|s| s.uid).collect(),
        tables.trees.in_use().iter().map(|t| t.tid).collect(),
        tables.opens.in_use().iter().map(|o| o.fid).collect(),
    ]
}

#[derive(Default)]
pub struct Ends {
    counts: Counts,
    /// What the last call ended.
    last: Option<(Kind, u32)>,
}

impl Ends {
    /// Counts a call that returned this number, these being the words before it and,
    /// if it was done, the tables around it.
    pub fn count(&mut self, call: &Call, returned: u8, words: &Words, around: Option<&Around>) {
        let last = self.last.take();
        let Some((kind, number)) = ended(call) else {
            return;
        };
        match (returned, around) {
            (0, Some(around)) => {
                self.last = Some((kind, number));
                self.count_done(kind, number as u16, around);
            }
            (6, _) => {
                let again = last == Some((kind, number));
                self.count_unknown(kind, number, words, again);
            }
            _ => self.count_unsound(kind, number, words),
        }
    }

    fn met_each<const N: usize>(&mut self, kind: Kind, holds: [bool; N], names: [&str; N]) {
        for (holds, name) in holds.into_iter().zip(names) {
            self.counts.met_if(holds, &kind.what(name));
        }
    }

    fn count_done(&mut self, kind: Kind, number: u16, Around { before, after }: &Around) {
        let gone = |count: fn(&Tables) -> usize| count(after) < count(before);
        // Each hangs on the one before.
        let gone = [
            gone(|tables| tables.trees.count),
            gone(|tables| tables.opens.count),
            gone(|tables| tables.locks.count),
        ];
        let below = &gone[kind as usize..];
        let depth = below.iter().filter(|gone| **gone).count();
        let with = match depth {
            0 => ALONE,
            _ => kind.with()[depth - 1],
        };
        self.counts.met(kind.what(with));
        let (old, new) = (&numbers(before)[kind as usize], numbers(after));
        let holds = [
            old.last() != Some(&number),
            others_stand(kind, number, before, after),
            locks_move(before, after),
            kind.others().any(|of| new[of as usize].contains(&number)),
            old.len() == kind.largest(),
        ];
        self.met_each(kind, holds, DONE);
    }

    fn count_unknown(&mut self, kind: Kind, number: u32, words: &Words, again: bool) {
        let wide = number > u16::MAX.into();
        let largest = kind.largest() as u32;
        let holds = [
            number == 0,
            (1..=largest).contains(&number),
            number > largest && !wide,
            kind.others().any(|other| other.in_use(words, number)),
            again,
            wide,
            wide && kind.in_use(words, number & 0xFFFF),
        ];
        self.met_each(kind, holds, UNKNOWN);
    }

    fn count_unsound(&mut self, kind: Kind, number: u32, words: &Words) {
        let known = kind.in_use(words, number);
        let wide = number > u16::MAX.into();
        self.met_each(kind, [known, !known, wide], UNSOUND);
    }

    /// Prints the counts. False if something was met too seldom.
    pub fn print(&self) -> bool {
        let required = KINDS.into_iter().flat_map(Kind::required);
        let title = "ends of sessions, trees and opens";
        self.counts.print(title, required)
    }
}

/// Whether another record stands of what the one ended was of: a session's
/// connection, a tree's session, an open's tree.
fn others_stand(kind: Kind, number: u16, before: &Tables, after: &Tables) -> bool {
    match kind {
        Kind::Session => {
            let connection = before.session(number).map(|session| session.connection);
            let mut left = after.sessions.in_use().iter();
            left.any(|session| Some(session.connection) == connection)
        }
        Kind::Tree => {
            let mut trees = before.trees.in_use().iter();
            let uid = trees.find(|tree| tree.tid == number).map(|tree| tree.uid);
            let mut left = after.trees.in_use().iter();
            left.any(|tree| Some(tree.uid) == uid)
        }
        Kind::Open => {
            let tid = before.open_of(number).map(|open| open.tid);
            let mut left = after.opens.in_use().iter();
            left.any(|open| Some(open.tid) == tid)
        }
    }
}

/// Whether a lock that stands was behind one that goes.
fn locks_move(before: &Tables, after: &Tables) -> bool {
    let stands = |lock: &Lock| after.open_of(lock.fid).is_some();
    let mut behind = before.locks.in_use().iter().skip_while(|lock| stands(lock));
    behind.any(stands)
}
