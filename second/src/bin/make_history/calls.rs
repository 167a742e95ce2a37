//! A call's bytes in a history, and the line of its answer.

use second::call::Call;
use second::message::ROOM_BYTES;
use second::refusals::number;
use second::tables::MEMORY_BYTES;
use second::words::{HolderWords, Words, CATALOGUE_WORDS, HOLDER_WORDS, WORDS};

/// The digest counts modulo this prime.
const P: u64 = 4_294_967_291;

/// Puts the call's bytes behind a history.
pub fn encode(call: &Call, history: &mut Vec<u8>) {
    match call {
        Call::AddSession { connection } => {
            history.push(1);
            history.extend(connection.to_le_bytes());
        }
        Call::AddTree { uid, right } => {
            history.push(2);
            put_u16(history, *uid);
            put_u8(history, *right);
        }
        Call::AddOpen {
            uid,
            tid,
            process,
            file,
            access,
        } => {
            history.push(3);
            put_u16(history, *uid);
            put_u16(history, *tid);
            history.extend(process.to_le_bytes());
            put_u8(history, *file);
            put_u8(history, *access);
        }
        Call::LoadFile { file, contents } => {
            history.push(4);
            put_u8(history, *file);
            put_counted(history, contents);
        }
        Call::DropConnection { connection } => {
            history.push(5);
            history.extend(connection.to_le_bytes());
        }
        Call::TakeMessage {
            connection,
            message,
        } => {
            history.push(6);
            history.extend(connection.to_le_bytes());
            put_counted(history, message);
        }
        Call::SetCatalogue { catalogue } => {
            history.push(7);
            for &word in catalogue.iter() {
                history.push(u8::try_from(word).expect("a word of 8 bits"));
            }
        }
        Call::Unchanged { fid } => {
            history.push(8);
            put_u16(history, *fid);
        }
        Call::EndSession { uid } => {
            history.push(9);
            put_u16(history, *uid);
        }
        Call::EndTree { tid } => {
            history.push(10);
            put_u16(history, *tid);
        }
        Call::EndOpen { fid } => {
            history.push(11);
            put_u16(history, *fid);
        }
    }
}

/// Reads a call from the front of a history, which moves on behind it.
pub fn decode(history: &mut &[u8]) -> Option<Call> {
    let [kind] = take_array(history)?;
    Some(match kind {
        1 => Call::AddSession {
            connection: take_u32(history)?,
        },
        2 => Call::AddTree {
            uid: take_u16(history)?.into(),
            right: take_u8(history)?.into(),
        },
        3 => Call::AddOpen {
            uid: take_u16(history)?.into(),
            tid: take_u16(history)?.into(),
            process: take_u32(history)?,
            file: take_u8(history)?.into(),
            access: take_u8(history)?.into(),
        },
        4 => Call::LoadFile {
            file: take_u8(history)?.into(),
            contents: take_counted(history)?,
        },
        5 => Call::DropConnection {
            connection: take_u32(history)?,
        },
        6 => Call::TakeMessage {
            connection: take_u32(history)?,
            message: take_counted(history)?,
        },
        7 => Call::SetCatalogue {
            catalogue: Box::new(take_array::<CATALOGUE_WORDS>(history)?.map(u64::from)),
        },
        8 => Call::Unchanged {
            fid: take_u16(history)?.into(),
        },
        9 => Call::EndSession {
            uid: take_u16(history)?.into(),
        },
        10 => Call::EndTree {
            tid: take_u16(history)?.into(),
        },
        11 => Call::EndOpen {
            fid: take_u16(history)?.into(),
        },
        _ => return None,
    })
}

/// A history's numbers are as wide as the fields of the records.
fn put_u8(history: &mut Vec<u8>, value: u32) {
    history.push(u8::try_from(value).expect("a number of 8 bits"));
}

fn put_u16(history: &mut Vec<u8>, value: u32) {
    let value = u16::try_from(value).expect("a number of 16 bits");
    history.extend(value.to_le_bytes());
}

/// A 16-bit length, then the bytes.
fn put_counted(history: &mut Vec<u8>, bytes: &[u8]) {
    let length = u16::try_from(bytes.len()).expect("a length of 16 bits");
    history.extend(length.to_le_bytes());
    history.extend(bytes);
}

fn take_array<const N: usize>(history: &mut &[u8]) -> Option<[u8; N]> {
    let (front, rest) = history.split_first_chunk()?;
    *history = rest;
    Some(*front)
}

fn take_u8(history: &mut &[u8]) -> Option<u8> {
    take_array(history).map(u8::from_le_bytes)
}

fn take_u16(history: &mut &[u8]) -> Option<u16> {
    take_array(history).map(u16::from_le_bytes)
}

fn take_u32(history: &mut &[u8]) -> Option<u32> {
    take_array(history).map(u32::from_le_bytes)
}

fn take_counted(history: &mut &[u8]) -> Option<Vec<u8>> {
    let length = usize::from(take_u16(history)?);
    let (front, rest) = history.split_at_checked(length)?;
    *history = rest;
    Some(front.to_vec())
}

/// A polynomial in 257.
pub fn digest(numbers: impl Iterator<Item = u64>) -> u64 {
    numbers.fold(0, |d, x| (d * 257 + x % P + 1) % P)
}

/// Stands in the words for the holder before a call.
const LENT: HolderWords = [u64::MAX; HOLDER_WORDS];

/// What a call gave.
#[derive(Clone, Debug, PartialEq, Eq)]
pub struct Answer {
    /// The number returned.
    pub number: u8,
    /// The number given out by an add, 1 for "unchanged", or the reply's length;
    /// else 0.
    pub value: usize,
    pub reply: Vec<u8>,
    /// The words for the holder of a lock; none if nothing was written there.
    pub holder: Option<HolderWords>,
}

/// All that is carried from call to call.
#[derive(Clone)]
pub struct State {
    pub words: Words,
    pub memory: Vec<u8>,
    room: Vec<u8>,
}

impl State {
    /// Empty tables and zeros.
    pub fn new() -> State {
        State {
            words: [0; WORDS],
            memory: vec![0; MEMORY_BYTES],
            room: vec![0; ROOM_BYTES],
        }
    }

    pub fn make(&mut self, call: &Call) -> Answer {
        let mut holder = LENT;
        let (words, memory, room) = (&mut self.words, &mut self.memory, &mut self.room);
        let outcome = call.make(words, memory, room, &mut holder);
        let number = number(&outcome);
        let value = outcome.unwrap_or(0);
        let reply = match call {
            Call::TakeMessage { .. } => self.room[..value].to_vec(),
            _ => Vec::new(),
        };
        Answer {
            number,
            value,
            reply,
            holder: (holder != LENT).then_some(holder),
        }
    }

    /// The digest of the words and the file memory.
    pub fn digest(&self) -> u64 {
        let bytes = self.memory.iter().map(|&byte| u64::from(byte));
        digest(self.words.iter().copied().chain(bytes))
    }

    /// The line of an answer, this being the state after it: `NUMBER VALUE
    /// REPLYHEX DIGEST`, the reply in upper-case hex, the others decimal. Of a
    /// message refused 1/33 ` FID PROCESS PLACE OFFSET LENGTH` of the holder
    /// follow, decimal too.
    pub fn line(&self, answer: &Answer) -> String {
        let hex: String = answer.reply.iter().map(|b| format!("{b:02X}")).collect();
        let Answer { number, value, .. } = answer;
        let behind: String = match answer.holder {
            Some([1, holder @ ..]) => holder.iter().map(|word| format!(" {word}")).collect(),
            _ => String::new(),
        };
        format!("{number} {value} {hex} {}{behind}\n", self.digest())
    }
}
