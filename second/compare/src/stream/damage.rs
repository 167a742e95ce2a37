//! Readers in states that no stream leaves.

use super::Streams;
use second::stream_words::{unpack, StreamWords};

/// States that some stream leaves.
const STATES: [StreamWords; 14] = [
    [0, 0, 0, 0, 0, 0, 0],
    [0, 1, 0x85, 0, 0, 0, 0],
    [0, 1, 0, 0, 0, 0, 0],
    [0, 2, 0, 1, 0, 0, 0],
    [0, 3, 0, 0, 0, 0, 0],
    [0, 3, 0x42, 0xFF, 0x07, 0, 0],
    [0, 0, 0, 0, 0, 1, 0],
    [0, 0, 0, 0, 0, 9, 4],
    [0, 0, 0, 0, 0, 8192, 0],
    [0, 0, 0, 0, 0, 8192, 8191],
    [1, 0, 0, 0, 0, 0, 0],
    [2, 0, 0, 0, 0, 0, 0],
    [3, 0, 0, 0, 0, 0, 0],
    [4, 0, 0, 0, 0, 0, 0],
];

const VALUES: [u64; 26] = [
    0,
    1,
    2,
    3,
    4,
    5,
    6,
    8,
    9,
    10,
    254,
    255,
    256,
    257,
    8191,
    8192,
    8193,
    65_535,
    65_536,
    1 << 32,
    (1 << 32) + 1,
    (1 << 32) + 4,
    1 << 63,
    (1 << 63) + 3,
    u64::MAX - 1,
    u64::MAX,
];

/// Bytes for a reader in such a state.
const PIECES: [&[u8]; 4] = [&[], &[0], &[0, 0, 0, 0, 0x85], &[0x42; 9000]];

impl Streams {
    /// Each word alone to each value, then several at once.
    pub fn damaged(&mut self) -> Result<(), String> {
        for state in STATES {
            for word in 0..state.len() {
                for value in VALUES {
                    let mut words = state;
                    words[word] = value;
                    for piece in PIECES {
                        self.on_damaged(words, piece)?;
                    }
                }
            }
        }
        for _ in 0..20_000 {
            let words = self.any_words();
            let piece = self.rng().pick(&PIECES);
            self.on_damaged(words, piece)?;
        }
        Ok(())
    }

    /// A state with a few words changed, or words that are anything.
    fn any_words(&mut self) -> StreamWords {
        let rng = self.rng();
        let mut words = rng.pick(&STATES);
        if rng.below(8) == 0 {
            return words.map(|_| rng.number());
        }
        for _ in 0..2 + rng.below(3) {
            let (word, small) = (rng.below(words.len()), rng.below(300) as u64);
            let value = rng.pick(&VALUES);
            words[word] = rng.pick(&[value, value, small, 0]);
        }
        words
    }

    /// Words that no stream leaves, for one step; then the stream goes on.
    pub fn interrupted(&mut self, piece: &[u8]) -> Result<(), String> {
        let before = self.readers.words;
        let mut words = before;
        words[self.rng().below(before.len())] = self.rng().pick(&VALUES);
        if unpack(&words, &self.readers.buffer).is_none() {
            let what = "damaged in a stream, which then goes on";
            self.tally.counts.met(what);
            self.on_damaged(words, piece)?;
            self.readers.words = before;
        }
        Ok(())
    }

    fn on_damaged(&mut self, words: StreamWords, piece: &[u8]) -> Result<(), String> {
        self.readers.words = words;
        let (number, _) = self.step(piece)?;
        if number != 5 {
            self.tally.counts.met("damaged, but a state");
        } else {
            super::expect(&self.readers.words, &words, "words with 5")?;
        }
        if self.rng().below(3) == 0 {
            self.reset()?;
        }
        Ok(())
    }
}
