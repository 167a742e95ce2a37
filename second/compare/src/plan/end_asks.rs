//! Plans the host's ends of sessions, trees and opens.

use super::{Planner, END_OPEN, END_SESSION, END_TREE};
use crate::call::Trial;
use crate::ends::numbers;
use second::call::Call;
use second::tables::{Open, Tables};

/// What the last call was to end: its kind, and the number.
pub(super) type Ended = (usize, u16);

impl Planner {
    /// Mostly of a number in use; now and then of the one that the last call ended,
    /// or of one that a record of another kind has.
    pub(super) fn end(&mut self, kind: usize, last: Option<Ended>, tables: &Tables) -> Trial {
        let all = numbers(tables);
        let own = &all[kind - END_SESSION];
        let number = match (last, self.rng.below(10)) {
            (Some((of, number)), 0..=6) if of == kind => number,
            (_, 0 | 1) => self.any_number(),
            (_, 2) if !all.concat().is_empty() => self.rng.pick(&all.concat()),
            _ if !own.is_empty() => self.rng.pick(own),
            _ => self.any_number(),
        };
        self.note_ended(kind, number, tables);
        let number = u32::from(number);
        let number = match self.once_in(6) {
            true => number + 0x1_0000,
            false => self.seldom_wide(number),
        };
        Trial::plain(match kind {
            END_SESSION => Call::EndSession { uid: number },
            END_TREE => Call::EndTree { tid: number },
            _ => Call::EndOpen { fid: number },
        })
    }

    /// Keeps what is to end for the next call, and its opens: their FIDs are asked for
    /// and given out again like those that a message names.
    fn note_ended(&mut self, kind: usize, number: u16, tables: &Tables) {
        self.ended = Some((kind, number));
        let goes = |open: &&Open| match kind {
            END_SESSION => open.uid == number,
            END_TREE => open.tid == number,
            _ => open.fid == number,
        };
        let opens = tables.opens.in_use().iter().filter(goes);
        self.named = opens.clone().map(|open| open.fid).take(4).collect();
        self.closed = match kind {
            END_OPEN => opens.map(|open| open.file).next(),
            _ => None,
        };
    }
}
