//! The answers to the question, each with what made it so.

use super::{Changes, Event};
use crate::places::{open_word, opens_in_use};
use second::tables::{Tables, LARGEST_CHANGE};
use second::words::{unchanged, Words};
use std::collections::BTreeSet;

const REFUSED: [&str; 8] = [
    "4",
    "4 for an unknown FID",
    "4 for a FID of more than 16 bits",
    "6 for a FID of 1 to 64",
    "6 for FID 0",
    "6 for a FID above 64",
    "6 for a FID of more than 16 bits",
    "6 for a FID of more than 16 bits, unchanged by the lower 16",
];
const CHANGED: [&str; 9] = [
    "changed: never read",
    "changed: never read, the numbers being equal and not 0",
    "changed: another open of the file has read and is unchanged",
    "changed: a new open has the FID, unchanged by what the last one remembered",
    "changed: bytes written by the same open alone",
    "changed: bytes written by another open alone",
    "changed: a size set by count 0 alone",
    "changed: the largest number, though the numbers are equal",
    "changed: the number is raised by one to the largest",
];
const UNCHANGED: [&str; 8] = [
    "unchanged",
    "unchanged, the number being one below the largest",
    "unchanged after a refused write",
    "unchanged after a refused size",
    "unchanged after a WRITE_ANDX of length 0",
    "unchanged after a WRITE of count 0 with the same size",
    "unchanged after a refused READ",
    "unchanged after another open's READ or CLOSE",
];
/// Asked right behind these.
const BEHIND: [&str; 7] = [
    "READ",
    "WRITE",
    "CLOSE",
    "open added",
    "load",
    "drop",
    "end",
];

/// All that must be met.
pub(super) fn required() -> Vec<String> {
    let lists: [&[&str]; 3] = [&REFUSED, &CHANGED, &UNCHANGED];
    let all = lists.concat().into_iter().map(str::to_string);
    all.chain(BEHIND.map(asked_behind)).collect()
}

fn asked_behind(what: &str) -> String {
    format!("asked right behind: {what}")
}

impl Changes {
    /// An answer, with what made it so.
    pub(super) fn count_answer(&mut self, fid: u16, unchanged: bool, tables: &Tables) {
        let Some(open) = tables.open_of(fid) else {
            return;
        };
        let number = tables.files[usize::from(open.file)].changes;
        let since = self.since.get(&fid).cloned();
        if unchanged {
            return self.count_unchanged(number, since);
        }
        let mut others = tables.opens.in_use().iter();
        let beside = others.any(|other| other.file == open.file && tables.unchanged(other));
        let kept = (open.file, number);
        let again = self.gone.get(&fid) == Some(&kept) && number < LARGEST_CHANGE;
        let equal = open.seen == number;
        let changing = since.unwrap_or_default();
        let changing: Vec<Event> = changing.into_iter().filter(|e| e.changes()).collect();
        let alone = |event| open.read && !equal && changing == [event];
        for (holds, what) in [
            !open.read,
            !open.read && equal && number > 0,
            beside,
            !open.read && again,
            alone(Event::OwnBytes),
            alone(Event::OthersBytes),
            alone(Event::Size),
            open.read && equal && number == LARGEST_CHANGE,
            open.read && number == LARGEST_CHANGE && open.seen + 1 == number,
        ]
        .into_iter()
        .zip(CHANGED)
        {
            self.counts.met_if(holds, what);
        }
    }

    fn count_unchanged(&mut self, number: u64, since: Option<BTreeSet<Event>>) {
        self.counts.met(UNCHANGED[0]);
        let before_largest = number == LARGEST_CHANGE - 1;
        self.counts.met_if(before_largest, UNCHANGED[1]);
        for event in since.unwrap_or_default() {
            match event {
                Event::RefusedWrite => self.counts.met(UNCHANGED[2]),
                Event::RefusedSize => self.counts.met(UNCHANGED[3]),
                Event::NoByte => self.counts.met(UNCHANGED[4]),
                Event::SameSize => self.counts.met(UNCHANGED[5]),
                Event::RefusedRead => self.counts.met(UNCHANGED[6]),
                Event::OthersReadOrEnd => self.counts.met(UNCHANGED[7]),
                Event::OwnBytes | Event::OthersBytes | Event::Size => {}
            }
        }
    }

    /// What the call before the question was.
    pub(super) fn count_behind(&mut self) {
        if let Some(last) = self.last.take() {
            self.counts.met(asked_behind(last));
        }
    }

    /// A FID that no open has.
    pub(super) fn count_unknown(&mut self, fid: u32, words: &Words) {
        self.counts.met(match fid {
            0 => REFUSED[4],
            1..=64 => REFUSED[3],
            65..=0xFFFF => REFUSED[5],
            _ => REFUSED[6],
        });
        let cut = fid > 0xFFFF && unchanged(words, fid & 0xFFFF) == Ok(true);
        self.counts.met_if(cut, REFUSED[7]);
    }

    /// A question on tables that are not sound.
    pub(super) fn count_question_refused(&mut self, fid: u32, words: &Words) {
        let mut opens = opens_in_use(words);
        let known = opens.any(|open| words[open_word(open, 0)] == fid.into());
        self.counts.met(REFUSED[0]);
        self.counts.met_if(!known, REFUSED[1]);
        self.counts.met_if(fid > 0xFFFF, REFUSED[2]);
    }
}
