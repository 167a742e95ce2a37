//! Both programs side by side: the state of each, and a call made on both.

use crate::call::{own, theirs, Places, Trial};
use crate::report;
use linked::guarded::{Guarded, Side};
use second::header::HEADER;
use second::rng::Rng;
use second::status::Status;
use second::tables::MEMORY_BYTES;
use second::words::{HolderWords, Words, HOLDER_WORDS, WORDS};

/// Largest message, contents or odd memory handed over.
pub const LARGEST: usize = 140_000;
/// Largest reply room handed over.
pub const LARGEST_ROOM: usize = 20_000;
const TABLE_BYTES: usize = 8 * WORDS;

/// The state, what the second program wrote, and the library's places.
pub struct Sides {
    pub words: Words,
    pub memory: Vec<u8>,
    /// The second program's reply room after the last call.
    pub room: Vec<u8>,
    out: Vec<u8>,
    holder: HolderWords,
    odd_memory: Vec<u8>,
    library: Library,
    /// Bytes that rooms, odd memories and out parameters are prefilled with.
    pattern: Vec<u8>,
}

/// What a call gave, the same on both sides.
#[derive(Clone, Copy, Debug)]
pub struct Given {
    pub number: u8,
    /// The out parameter, where there is one.
    pub value: usize,
    /// The words for the holder of a lock; none if nothing was written to them.
    pub holder: Option<HolderWords>,
}

impl Sides {
    pub fn new(rng: &mut Rng) -> Sides {
        let memory = rng.bytes(MEMORY_BYTES);
        Sides {
            words: [0; WORDS],
            library: Library::new(&memory),
            memory,
            room: Vec::new(),
            out: Vec::new(),
            holder: [0; HOLDER_WORDS],
            odd_memory: Vec::new(),
            pattern: rng.bytes(LARGEST + 4096),
        }
    }

    /// Sets both sides to this state.
    pub fn restore(&mut self, words: &Words, memory: &[u8]) {
        self.words = *words;
        self.memory.copy_from_slice(memory);
        self.library.memory.put(memory, Side::Start);
    }

    /// Makes the call on both sides and compares everything. The error is a
    /// report. The library's places are against the side; what is prefilled
    /// is so from place `shift` of the pattern.
    pub fn make(&mut self, trial: &Trial, side: Side, shift: usize) -> Result<Given, String> {
        let before = self.words;
        self.prefill(trial, shift);
        let lent = self.holder;
        let their_number = self.make_theirs(trial, side);
        let number = self.make_own(trial);
        let mut differences = self.differences(trial, side);
        differences.extend(self.holders_differing(trial, side, &lent));
        if number != their_number {
            differences.insert(0, format!("number: {number}, library's {their_number}"));
        } else if !differences.is_empty() && number == 0 && trial.room() >= HEADER {
            let room = self.library.room.place(trial.room(), side);
            let (own, theirs) = (Status::of(&self.room), Status::of(room));
            differences.insert(0, format!("status: {own}, library's {theirs}"));
        }
        if !differences.is_empty() {
            return Err(report::whole(trial, side, &before, &differences));
        }
        let mut value = [0; 8];
        value[..self.out.len()].copy_from_slice(&self.out);
        Ok(Given {
            number,
            value: usize::from_ne_bytes(value),
            holder: (self.holder != lent).then_some(self.holder),
        })
    }

    fn prefill(&mut self, trial: &Trial, shift: usize) {
        let filling = &self.pattern[shift..];
        let odd = trial.other_memory().unwrap_or(0);
        for (bytes, length) in [
            (&mut self.room, trial.room()),
            (&mut self.out, trial.out_bytes()),
            (&mut self.odd_memory, odd),
        ] {
            bytes.clear();
            bytes.extend_from_slice(&filling[..length]);
        }
        get_words(filling, &mut self.holder);
    }

    /// By the library, on copies of what the second program gets.
    fn make_theirs(&mut self, trial: &Trial, side: Side) -> u8 {
        let library = &mut self.library;
        let tables = library.tables.place(TABLE_BYTES, side);
        put_words(&self.words, tables);
        let places = Places {
            input: library.input.put(&trial.input(), side),
            memory: match trial.other_memory() {
                None => library.memory.place(MEMORY_BYTES, side),
                Some(_) => library.odd_memory.put(&self.odd_memory, side),
            },
            room: library.room.put(&self.room, side),
            out: library.out.put(&self.out, side),
        };
        let holder = library.holder.place(8 * trial.holder_words(), side);
        put_words(&self.holder, holder);
        theirs(trial, tables, holder, places)
    }

    fn make_own(&mut self, trial: &Trial) -> u8 {
        let places = Places {
            input: &trial.input(),
            memory: match trial.other_memory() {
                None => &mut self.memory,
                Some(_) => &mut self.odd_memory,
            },
            room: &mut self.room,
            out: &mut self.out,
        };
        own(trial, &mut self.words, &mut self.holder, places)
    }

    /// What differs after a call: tables, out parameter, room and memory, and
    /// the input, which nobody may write.
    fn differences(&mut self, trial: &Trial, side: Side) -> Vec<String> {
        let library = &mut self.library;
        let mut words = [0; WORDS];
        get_words(library.tables.place(TABLE_BYTES, side), &mut words);
        let mut found = report::words(&self.words, &words);
        let mut compare = |name, own: &[u8], theirs: &mut Guarded| {
            found.extend(report::bytes(name, own, theirs.place(own.len(), side)));
        };
        compare("out parameter", &self.out, &mut library.out);
        compare("reply room", &self.room, &mut library.room);
        compare("file memory", &self.memory, &mut library.memory);
        compare("odd memory", &self.odd_memory, &mut library.odd_memory);
        compare("input", &trial.input(), &mut library.input);
        found
    }

    /// What differs in the words for the holder, which were lent so.
    fn holders_differing(&mut self, trial: &Trial, side: Side, lent: &HolderWords) -> Vec<String> {
        let bytes = self.library.holder.place(8 * trial.holder_words(), side);
        let mut theirs = self.holder;
        get_words(bytes, &mut theirs);
        report::holders(&self.holder, &theirs, lent)
    }
}

/// What is handed to the library.
struct Library {
    tables: Guarded,
    /// Whole pages: against both guards at once. It lives from call to call.
    memory: Guarded,
    odd_memory: Guarded,
    input: Guarded,
    room: Guarded,
    out: Guarded,
    holder: Guarded,
}

impl Library {
    fn new(contents: &[u8]) -> Library {
        let mut memory = Guarded::new(MEMORY_BYTES);
        memory.put(contents, Side::Start);
        Library {
            tables: Guarded::new(TABLE_BYTES),
            memory,
            odd_memory: Guarded::new(LARGEST),
            input: Guarded::new(LARGEST),
            room: Guarded::new(LARGEST_ROOM),
            out: Guarded::new(8),
            holder: Guarded::new(8 * HOLDER_WORDS),
        }
    }
}

/// As many words as there are bytes for.
fn put_words(words: &[u64], bytes: &mut [u8]) {
    for (place, word) in bytes.chunks_exact_mut(8).zip(words) {
        place.copy_from_slice(&word.to_ne_bytes());
    }
}

fn get_words(bytes: &[u8], words: &mut [u64]) {
    for (word, place) in words.iter_mut().zip(bytes.chunks_exact(8)) {
        *word = u64::from_ne_bytes(place.try_into().unwrap());
    }
}
