//! Damage to the tables: some of it makes them unsound, some doesn't.

use crate::catalogues;
use crate::places;
use second::rng::Rng;
use second::tables::LARGEST_CHANGE;
use second::words::{Words, CATALOGUE};

/// A table in the words: its count's place, its records and their fields'
/// largest values.
struct Layout {
    count: usize,
    records: usize,
    widths: &'static [u64],
}

const U8: u64 = 0xFF;
const U16: u64 = 0xFFFF;
const U32: u64 = 0xFFFF_FFFF;
const U64: u64 = u64::MAX;
/// Among the layouts.
const OPENS: usize = 2;
const LOCKS: usize = 3;

const LAYOUTS: [Layout; 5] = [
    Layout {
        count: places::SESSIONS,
        records: 16,
        widths: &[U16, U32],
    },
    Layout {
        count: places::TREES,
        records: 32,
        widths: &[U16, U16, U8],
    },
    Layout {
        count: places::OPENS,
        records: 64,
        widths: &[U16, U16, U16, U32, U8, U8, U8, 1, U64],
    },
    Layout {
        count: places::LOCKS,
        records: 128,
        widths: &[U16, U32, U64, U64, 1],
    },
    Layout {
        count: places::NAMES,
        records: 16,
        widths: &[U8; 14],
    },
];

const VALUES: [u64; 24] = [
    0,
    1,
    2,
    3,
    15,
    16,
    17,
    31,
    32,
    33,
    63,
    64,
    65,
    127,
    128,
    129,
    255,
    256,
    4096,
    4097,
    U16,
    U16 + 1,
    U32 + 1,
    U64,
];

impl Layout {
    fn word(&self, record: usize, field: usize) -> usize {
        self.count + 1 + record * self.widths.len() + field
    }

    fn used(&self, words: &Words) -> usize {
        (words[self.count] as usize).min(self.records)
    }
}

/// Fills records that are not in use with anything, within their widths or
/// not: no call looks at them.
pub fn litter(words: &mut Words, rng: &mut Rng) {
    for layout in &LAYOUTS {
        for record in layout.used(words)..layout.records {
            for (field, &width) in layout.widths.iter().enumerate() {
                if rng.below(4) != 0 {
                    words[layout.word(record, field)] = match width {
                        U64 => rng.number(),
                        _ if rng.below(2) == 0 => rng.number(),
                        _ => rng.number() % (width + 1),
                    };
                }
            }
        }
    }
}

/// Changes the words in one way or another.
pub fn damage(words: &mut Words, rng: &mut Rng) {
    let layout = &LAYOUTS[rng.below(LAYOUTS.len())];
    let used = layout.used(words);
    let field = rng.below(layout.widths.len());
    match rng.below(21) {
        0 => words[rng.below(words.len())] = rng.pick(&VALUES),
        1 => words[layout.count] = rng.pick(&VALUES),
        2 => words[layout.count] = (words[layout.count] + 2).wrapping_sub(rng.below(4) as u64),
        3 => {
            let size = places::file_word(rng.below(16), places::SIZE);
            words[size] = rng.pick(&[0, 5, 4095, 4096, 4097, U64]);
        }
        4 => past_the_width(words, rng, layout),
        5 => litter(words, rng),
        6 | 7 if used > 0 => {
            let word = layout.word(rng.below(used), field);
            let value = words[word];
            words[word] = rng.pick(&[value.wrapping_add(1), value.wrapping_sub(1), value ^ 1]);
        }
        8 if used > 0 => words[layout.word(rng.below(used), field)] = rng.pick(&VALUES),
        9 if used > 1 => {
            // One record's field in another.
            let (one, other) = (rng.below(used), rng.below(used));
            words[layout.word(one, field)] = words[layout.word(other, field)];
        }
        10 if used > 1 => swap(words, layout, rng.below(used), rng.below(used)),
        11 => rename(words, rng),
        12 | 13 => past_the_list(words, rng),
        14 => catalogues::spoil(&mut words[CATALOGUE..], rng),
        15..=18 => damage_numbers(words, rng),
        _ => damage_locks(words, rng),
    }
}

/// Gives a session, tree or open another number, in what names it too: one
/// in use or not, or just outside the limits.
fn rename(words: &mut Words, rng: &mut Rng) {
    let table = rng.below(3);
    let layout = &LAYOUTS[table];
    let used = layout.used(words);
    if used == 0 {
        return;
    }
    let record = layout.word(rng.below(used), 0);
    let limit = layout.records as u64;
    let inside = 1 + rng.number() % limit;
    let old = words[record];
    let new = rng.pick(&[inside, inside, limit, limit + 1, 0]);
    words[record] = new;
    // The fields that name a session, a tree, an open.
    let naming: &[(usize, usize)] = match table {
        0 => &[(1, 1), (OPENS, 1)],
        1 => &[(OPENS, 2)],
        _ => &[(LOCKS, 0)],
    };
    for &(table, field) in naming {
        for record in 0..LAYOUTS[table].used(words) {
            let word = LAYOUTS[table].word(record, field);
            if words[word] == old {
                words[word] = new;
            }
        }
    }
}

/// Sets a right, file or access to the largest listed, or one more; a sharing
/// code to any from 0 to 5, or to one that just fits or doesn't.
fn past_the_list(words: &mut Words, rng: &mut Rng) {
    let code = rng.pick(&[0, 0, 0, 1, 2, 3, 4, U8, U8]);
    let (table, field, largest) = rng.pick(&[
        (1, 2, 1),
        (OPENS, 4, 15),
        (OPENS, 5, 2),
        (OPENS, 6, code),
        (OPENS, 6, code),
    ]);
    let used = LAYOUTS[table].used(words);
    if used > 0 {
        let word = LAYOUTS[table].word(rng.below(used), field);
        words[word] = largest + rng.below(2) as u64;
    }
}

/// Makes a field, of any record, just or far too wide.
fn past_the_width(words: &mut Words, rng: &mut Rng, layout: &Layout) {
    let field = rng.below(layout.widths.len());
    let width = layout.widths[field];
    let word = layout.word(rng.below(layout.records), field);
    words[word] = match width {
        U64 => U64,
        _ => rng.pick(&[width, width + 1, words[word] + width + 1, U64]),
    };
}

fn swap(words: &mut Words, layout: &Layout, one: usize, other: usize) {
    for field in 0..layout.widths.len() {
        words.swap(layout.word(one, field), layout.word(other, field));
    }
}

/// Change numbers to set: a few small ones, and the largest and those before it.
const NUMBERS: [u64; 8] = [
    0,
    1,
    255,
    65_535,
    LARGEST_CHANGE - 2,
    LARGEST_CHANGE - 1,
    LARGEST_CHANGE - 1,
    LARGEST_CHANGE,
];

/// Gives every file another change number.
pub fn renumber_all(words: &mut Words, rng: &mut Rng) {
    for file in 0..16 {
        renumber(words, file, rng);
    }
}

/// Gives a file another change number, and its opens others to remember: equal,
/// one below or far below.
fn renumber(words: &mut Words, file: usize, rng: &mut Rng) {
    let number = rng.pick(&NUMBERS);
    words[places::file_word(file, places::CHANGES)] = number;
    for open in places::opens_in_use(words) {
        if words[places::open_word(open, places::FILE)] == file as u64 {
            words[places::open_word(open, places::READ)] = rng.pick(&[0, 1, 1, 1]);
            words[places::open_word(open, places::SEEN)] =
                rng.pick(&[number, number, number.saturating_sub(1), number / 2, 0]);
        }
    }
}

/// Changes change numbers and what opens remember: half of the time soundly. Else a
/// change number is above 32 bits, a number that is remembered above its file's,
/// or a word for whether an open has read no such word; or they are the words of an
/// open that is not in use.
fn damage_numbers(words: &mut Words, rng: &mut Rng) {
    let opens = places::opens_in_use(words);
    let any = rng.below(16);
    let (open, file) = match opens.is_empty() {
        true => (None, any),
        false => {
            let open = rng.below(opens.end);
            let file = words[places::open_word(open, places::FILE)].min(15) as usize;
            (Some(open), rng.pick(&[file, file, any]))
        }
    };
    let change = places::file_word(file, places::CHANGES);
    let number = words[change];
    let no_flag = rng.pick(&[2, 3, 255, 256, U32 + 1, U32 + 2, U64]);
    let above = rng.pick(&[U32 + 1, U32 + 2, number.wrapping_add(U32 + 1), U64]);
    match (rng.below(10), open) {
        (5 | 6, _) => words[change] = above,
        (7, Some(open)) => {
            let file = words[places::open_word(open, places::FILE)].min(15) as usize;
            let number = words[places::file_word(file, places::CHANGES)];
            words[places::open_word(open, places::READ)] = rng.below(2) as u64;
            words[places::open_word(open, places::SEEN)] =
                rng.pick(&[number.wrapping_add(1), number.wrapping_add(2), above, U64]);
        }
        (8, Some(open)) => words[places::open_word(open, places::READ)] = no_flag,
        (9, _) if opens.end < 64 => {
            let behind = opens.end + rng.below(64 - opens.end);
            words[places::open_word(behind, places::READ)] = no_flag;
            words[places::open_word(behind, places::SEEN)] = above;
        }
        _ => renumber(words, file, rng),
    }
}

/// Changes a lock's range or sharing so that it may overlap or pass 2^64,
/// or the file of an open that has locks.
fn damage_locks(words: &mut Words, rng: &mut Rng) {
    let locks = &LAYOUTS[LOCKS];
    let used = locks.used(words);
    if used == 0 {
        return;
    }
    let (one, other) = (rng.below(used), rng.below(used));
    let (offset, length, shared) = (locks.word(one, 2), locks.word(one, 3), locks.word(one, 4));
    match rng.below(6) {
        0 => {
            words[offset] = words[locks.word(other, 2)];
            words[length] = words[locks.word(other, 3)];
        }
        1 => {
            // Just beside the other, or overlapping it by a byte.
            let end = words[locks.word(other, 2)].wrapping_add(words[locks.word(other, 3)]);
            words[offset] = end.wrapping_sub(rng.below(2) as u64);
            words[length] = 1;
        }
        2 => {
            words[length] = 0u64
                .wrapping_sub(words[offset])
                .wrapping_add(rng.below(2) as u64)
        }
        3 => words[shared] ^= 1,
        4 => words[length] = rng.pick(&[0, 1, U64]),
        _ => {
            let opens = &LAYOUTS[OPENS];
            let used = opens.used(words);
            if used > 0 {
                words[opens.word(rng.below(used), 4)] = rng.below(4) as u64;
            }
        }
    }
}
