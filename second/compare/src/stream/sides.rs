//! A reader of each program side by side, and both writers.

use crate::crash;
use crate::report;
use linked as gateway;
use linked::guarded::{Guarded, Side};
use second::rng::Rng;
use second::stream_words::{self, Buffer, StepWords, StreamWords, STREAM_WORDS};

const STATE_BYTES: usize = 8 * STREAM_WORDS;
const STEP_BYTES: usize = 32;
const BUFFER_BYTES: usize = 8192;
/// Largest piece, message or room handed over.
pub const LARGEST: usize = 140_000;

const STATE_NAMES: [&str; STREAM_WORDS] = [
    "stopped", "begun", "first", "second", "third", "length", "got",
];
const STEP_NAMES: [&str; 4] = ["taken", "event", "at", "length"];

/// A reader's state, the same on both sides, and the library's places.
pub struct Readers {
    pub words: StreamWords,
    pub buffer: Box<Buffer>,
    /// The number of the call to print.
    show: Option<usize>,
    state: Guarded,
    /// Whole pages: against both guards at once. It lives from call to call.
    their_buffer: Guarded,
    piece: Guarded,
    step: Guarded,
    room: Guarded,
    written: Guarded,
}

/// How a call's places stand, and what its out parameter is prefilled with.
#[derive(Clone, Copy, Debug)]
pub struct Setting {
    pub side: Side,
    pub fill: u64,
}

impl Setting {
    pub fn any(rng: &mut Rng) -> Setting {
        Setting {
            side: rng.pick(&[Side::Start, Side::End]),
            fill: rng.number(),
        }
    }

    /// Four words of a step that was not written.
    fn step(&self) -> StepWords {
        [1, 3, 5, 7].map(|factor| self.fill.wrapping_mul(factor))
    }
}

impl Readers {
    pub fn new(show: Option<usize>, rng: &mut Rng) -> Readers {
        let mut readers = Readers {
            words: [0; STREAM_WORDS],
            buffer: Box::new([0; BUFFER_BYTES]),
            show,
            state: Guarded::new(STATE_BYTES),
            their_buffer: Guarded::new(BUFFER_BYTES),
            piece: Guarded::new(LARGEST),
            step: Guarded::new(STEP_BYTES),
            room: Guarded::new(LARGEST),
            written: Guarded::new(8),
        };
        readers.litter(rng);
        readers
    }

    /// Fills the buffers with anything.
    pub fn litter(&mut self, rng: &mut Rng) {
        for place in self.buffer.chunks_exact_mut(8) {
            place.copy_from_slice(&rng.number().to_ne_bytes());
        }
        self.their_buffer.put(&self.buffer[..], Side::Start);
    }

    /// A step of both readers: its number, and the step if that is 0.
    pub fn read(&mut self, piece: &[u8], setting: Setting) -> Result<(u8, StepWords), String> {
        let before = self.words;
        self.begin(|| described("read", &before, piece, setting));
        let mut step = setting.step();
        let their_number = self.read_theirs(piece, setting);
        let number = stream_words::read(&mut self.words, &mut self.buffer, piece, &mut step);
        let side = setting.side;
        let mut found = self.numbers_and_state(number, their_number, side);
        let theirs: StepWords = get(self.step.place(STEP_BYTES, side));
        found.extend(report::named_words("step", &STEP_NAMES, &step, &theirs));
        let their_buffer = self.their_buffer.place(BUFFER_BYTES, side);
        found.extend(report::bytes("buffer", &self.buffer[..], their_buffer));
        let their_piece = self.piece.place(piece.len(), side);
        found.extend(report::bytes("piece", piece, their_piece));
        judged(found, || described("read", &before, piece, setting))?;
        Ok((number, step))
    }

    fn read_theirs(&mut self, piece: &[u8], setting: Setting) -> u8 {
        let side = setting.side;
        let state = put(&self.words, &mut self.state, side);
        let step = put(&setting.step(), &mut self.step, side);
        let buffer = self.their_buffer.place(BUFFER_BYTES, side).as_mut_ptr();
        let piece = self.piece.put(piece, side);
        // SAFETY: the pointers are to whole places that stand apart, aligned
        // for their types, and the length is the piece's.
        unsafe { gateway::gateway_stream_read(state, buffer, piece.as_ptr(), piece.len(), step) }
    }

    /// Both readers reset.
    pub fn reset(&mut self, side: Side) -> Result<(), String> {
        let (before, setting) = (self.words, Setting { side, fill: 0 });
        self.begin(|| described("reset", &before, &[], setting));
        let state = put(&self.words, &mut self.state, side);
        // SAFETY: the pointer is to seven words.
        unsafe { gateway::gateway_stream_reset(state) };
        stream_words::reset(&mut self.words);
        let found = self.numbers_and_state(0, 0, side);
        judged(found, || described("reset", &before, &[], setting))
    }

    /// A message written by both: the number and, if that is 0, how much was
    /// written to the room.
    pub fn write(
        &mut self,
        message: &[u8],
        room: &mut [u8],
        setting: Setting,
    ) -> Result<(u8, usize), String> {
        let (side, words, length) = (setting.side, [0; STREAM_WORDS], room.len());
        let told = || {
            let call = described("write", &words, message, setting);
            format!("room of {length} bytes, {call}")
        };
        self.begin(told);
        let their_message = self.piece.put(message, side).as_ptr();
        let their_room = self.room.put(room, side).as_mut_ptr();
        let out = put(&[setting.fill], &mut self.written, side);
        // SAFETY: as for a step.
        let their_number = unsafe {
            let (message_length, out) = (message.len(), out.cast());
            gateway::gateway_stream_write(their_message, message_length, their_room, length, out)
        };
        let mut written = setting.fill;
        let number = stream_words::write_to(message, room, &mut written);
        let mut found = numbers(number, their_number);
        let theirs: [u64; 1] = get(self.written.place(8, side));
        found.extend(report::named_words(
            "out",
            &["written"],
            &[written],
            &theirs,
        ));
        found.extend(report::bytes("room", room, self.room.place(length, side)));
        let their_message = self.piece.place(message.len(), side);
        found.extend(report::bytes("message", message, their_message));
        judged(found, told)?;
        Ok((number, written as usize))
    }

    fn begin(&self, described: impl Fn() -> String) {
        let call = crash::begin_call();
        if self.show == Some(call) {
            println!("call {call}:\n{}", described());
        }
    }

    fn numbers_and_state(&mut self, number: u8, their_number: u8, side: Side) -> Vec<String> {
        let mut found = numbers(number, their_number);
        let theirs: StreamWords = get(self.state.place(STATE_BYTES, side));
        found.extend(report::named_words(
            "state",
            &STATE_NAMES,
            &self.words,
            &theirs,
        ));
        found
    }
}

fn numbers(own: u8, theirs: u8) -> Vec<String> {
    match own == theirs {
        true => Vec::new(),
        false => vec![format!("number: {own}, library's {theirs}")],
    }
}

fn judged(found: Vec<String>, described: impl Fn() -> String) -> Result<(), String> {
    if found.is_empty() {
        return Ok(());
    }
    let lines: Vec<String> = found.iter().map(|line| format!("  {line}\n")).collect();
    let lines = lines.concat();
    Err(format!(
        "differences (second program first):\n{lines}{}",
        described()
    ))
}

/// A call, and the state that it gets.
fn described(call: &str, words: &StreamWords, input: &[u8], setting: Setting) -> String {
    let each = STATE_NAMES.iter().zip(words);
    let each: Vec<String> = each.map(|(name, word)| format!("{name} {word}")).collect();
    format!(
        "stream's {call}, {} bytes, buffers against the guard page at their {:?}\nstate before: {}\n{}\n",
        input.len(),
        setting.side,
        each.join(", "),
        report::hex(input)
    )
}

/// The words against a side.
fn put(words: &[u64], place: &mut Guarded, side: Side) -> *mut u64 {
    let bytes = place.place(8 * words.len(), side);
    for (place, word) in bytes.chunks_exact_mut(8).zip(words) {
        place.copy_from_slice(&word.to_ne_bytes());
    }
    bytes.as_mut_ptr().cast()
}

fn get<const N: usize>(bytes: &[u8]) -> [u64; N] {
    std::array::from_fn(|place| {
        let bytes = &bytes[8 * place..8 * place + 8];
        u64::from_ne_bytes(bytes.try_into().unwrap())
    })
}
