//! A reader as the host keeps it: seven words of 64 bits, and a buffer for the
//! bytes of a message begun. Any words are legal; those that no stream leaves
//! are answered 5, "and nothing changes".
//!
//! A stopped reader has its number in `stopped`. Fewer than four header bytes
//! are counted in `begun` and stand in `first` to `third`. A message behind a
//! good header has its `length`, and the `got` bytes of it that are in stand at
//! the buffer's front. A word that does not apply is 0.

use crate::stream::{header_of, write, Handed, Reader, Step, Stop, HEADER, LONGEST_READ};

pub const STREAM_WORDS: usize = 7;
/// `stopped`, `begun`, `first`, `second`, `third`, `length`, `got`.
pub type StreamWords = [u64; STREAM_WORDS];
pub type Buffer = [u8; LONGEST_READ];

/// `taken`, `event`, `at`, `length`.
pub type StepWords = [u64; 4];

/// More bytes are wanted.
pub const WANTED: u64 = 0;
/// A message stands in the piece.
pub const IN_PIECE: u64 = 1;
/// A message stands in the buffer.
pub const IN_BUFFER: u64 = 2;

/// "A reader state that no stream leaves"
pub const NO_STATE: u8 = 5;

/// The words of a reader.
fn words_of(reader: &Reader) -> StreamWords {
    if let Some(stop) = reader.stopped {
        return [stop as u64, 0, 0, 0, 0, 0, 0];
    }
    let pending = &reader.pending;
    match pending.split_first_chunk::<HEADER>() {
        Some((&[_, _, high, low], body)) => {
            let length = u16::from_be_bytes([high, low]);
            [0, 0, 0, 0, 0, length.into(), body.len() as u64]
        }
        None => {
            let byte = |place| pending.get(place).map_or(0, |&byte| u64::from(byte));
            [0, pending.len() as u64, byte(0), byte(1), byte(2), 0, 0]
        }
    }
}

/// The reader that these words could stand for.
fn candidate(words: &StreamWords, buffer: &Buffer) -> Option<Reader> {
    let &[stopped, begun, first, second, third, length, got] = words;
    let mut reader = Reader::default();
    if stopped != 0 {
        let stop = Stop::ALL.into_iter().find(|&stop| stop as u64 == stopped);
        reader.stopped = Some(stop?);
    } else if length != 0 {
        if length > LONGEST_READ as u64 || got >= length {
            return None;
        }
        reader.pending.extend(header_of(length as usize));
        reader.pending.extend(&buffer[..got as usize]);
    } else {
        let bytes = [first, second, third].map(|word| word as u8);
        reader
            .pending
            .extend(bytes.get(..usize::try_from(begun).ok()?)?);
    }
    Some(reader)
}

/// The reader in the words; none if no stream leaves them.
pub fn unpack(words: &StreamWords, buffer: &Buffer) -> Option<Reader> {
    candidate(words, buffer).filter(|reader| words_of(reader) == *words)
}

/// Puts a reader into words and buffer. The buffer's bytes behind what is in of
/// a message stay.
pub fn pack(reader: &Reader, words: &mut StreamWords, buffer: &mut Buffer) {
    *words = words_of(reader);
    if let Some(body) = reader.pending.get(HEADER..) {
        buffer[..body.len()].copy_from_slice(body);
    }
}

/// A step of the reader in the words. Gives its number; only with 0 is a step
/// written, and only with 0 the buffer.
pub fn read(
    words: &mut StreamWords,
    buffer: &mut Buffer,
    piece: &[u8],
    step: &mut StepWords,
) -> u8 {
    let Some(mut reader) = unpack(words, buffer) else {
        return NO_STATE;
    };
    let done = reader.step(piece);
    pack(&reader, words, buffer);
    match done {
        Ok(done) => {
            *step = step_words(done, buffer);
            0
        }
        Err(stop) => stop as u8,
    }
}

/// The words of a step; a message gathered goes into the buffer.
fn step_words(step: Step, buffer: &mut Buffer) -> StepWords {
    let taken = step.taken as u64;
    match step.handed {
        None => [taken, WANTED, 0, 0],
        Some(Handed::InPiece { at, length }) => [taken, IN_PIECE, at as u64, length as u64],
        Some(Handed::Gathered(message)) => {
            buffer[..message.len()].copy_from_slice(&message);
            [taken, IN_BUFFER, 0, message.len() as u64]
        }
    }
}

/// "A reset gives the first state from any state".
pub fn reset(words: &mut StreamWords) {
    *words = words_of(&Reader::default());
}

/// The writer as the host calls it: its number.
pub fn write_to(message: &[u8], room: &mut [u8], written: &mut u64) -> u8 {
    match write(message, room) {
        Ok(length) => {
            *written = length as u64;
            0
        }
        Err(refusal) => refusal as u8,
    }
}
