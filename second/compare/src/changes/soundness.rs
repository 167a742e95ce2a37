//! Tables that are not sound for change numbers and what opens remember alone, and
//! sound ones in which an open that is not in use has such words.

use super::Changes;
use crate::places::{self, file_word, open_word, opens_in_use};
use second::call::Call;
use second::tables::{FILES, LARGEST_CHANGE};
use second::words::{unpack, Words};

const NOT_SOUND: [&str; 5] = [
    "not sound: a remembered number above its file's alone, the open has read",
    "not sound: a remembered number above its file's alone, the open has not read",
    "not sound: a change number above 32 bits alone, of a file with an open",
    "not sound: a change number above 32 bits alone, of a file without an open",
    "not sound: a word for whether an open has read above 1 alone",
];
const SOUND: [&str; 2] = [
    "sound: a word for whether it has read above 1, of an open not in use",
    "sound: a remembered number above 32 bits, of an open not in use",
];

/// All that must be met.
pub(super) fn required() -> impl Iterator<Item = String> {
    NOT_SOUND.into_iter().chain(SOUND).map(str::to_string)
}

/// Whether tables are sound with these words altered so.
fn sound_with(
    words: &Words,
    altered: impl Iterator<Item = usize>,
    alter: impl Fn(u64) -> u64,
) -> bool {
    let mut other = *words;
    for word in altered {
        other[word] = alter(other[word]);
    }
    unpack(&other).is_some_and(|tables| tables.sound())
}

impl Changes {
    /// Tables that would be sound with other words of one kind.
    pub(super) fn count_unsound(&mut self, call: &Call, words: &Words) {
        if let Call::Unchanged { fid } = *call {
            self.count_question_refused(fid, words);
        }
        let opens = opens_in_use(words);
        let of_opens = |field| opens.clone().map(move |open| open_word(open, field));
        let numbers = (0..FILES).map(|file| file_word(file, places::CHANGES));
        let flags = sound_with(words, of_opens(places::READ), |word| word.min(1));
        self.counts.met_if(flags, NOT_SOUND[4]);
        if sound_with(words, numbers, |word| word.min(LARGEST_CHANGE)) {
            self.count_large(words);
        }
        if sound_with(words, of_opens(places::SEEN), |_| 0) {
            self.count_remembered(words);
        }
    }

    /// Change numbers above 32 bits.
    fn count_large(&mut self, words: &Words) {
        let above = |file: &usize| words[file_word(*file, places::CHANGES)] > LARGEST_CHANGE;
        for file in (0..FILES).filter(above) {
            let of_file = |open| words[open_word(open, places::FILE)] == file as u64;
            let has_open = opens_in_use(words).any(of_file);
            self.counts.met(NOT_SOUND[3 - usize::from(has_open)]);
        }
    }

    /// Remembered numbers above their files', in tables that are else sound.
    fn count_remembered(&mut self, words: &Words) {
        for open in opens_in_use(words) {
            let [file, read, seen] = [places::FILE, places::READ, places::SEEN]
                .map(|field| words[open_word(open, field)]);
            if seen > words[file_word(file as usize, places::CHANGES)] {
                self.counts.met(NOT_SOUND[1 - read as usize]);
            }
        }
    }

    /// The words of the open behind those in use, of tables that are sound.
    pub(super) fn count_not_in_use(&mut self, words: &Words) {
        let behind = opens_in_use(words).end;
        if behind < places::MOST_OPENS as usize {
            let above = words[open_word(behind, places::READ)] > 1;
            self.counts.met_if(above, SOUND[0]);
            let above = words[open_word(behind, places::SEEN)] > LARGEST_CHANGE;
            self.counts.met_if(above, SOUND[1]);
        }
    }
}
