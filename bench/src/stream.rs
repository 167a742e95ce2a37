//! What the stream's reader and writer cost, and how much stack they use. A
//! stream that is measured leaves nothing begun, so each reading of it starts
//! as the one before and nothing is to be restored.

use crate::measure::{in_turns, Batch};
use crate::requests;
use crate::scene::Scene;
use crate::stack::Stack;
use linked as gateway;
use second::stream::{self, Handed, Reader, LONGEST_READ, LONGEST_WRITTEN};
use second::stream_words::{self, Buffer, StepWords, StreamWords, IN_BUFFER, IN_PIECE};
use std::hint::black_box;

/// A program's reader.
trait Reading {
    /// Hands in a piece. It shows the message handed out, if there is one,
    /// and gives how many bytes were taken.
    fn step(&mut self, piece: &[u8], see: &mut impl FnMut(&[u8])) -> usize;
}

/// A reader in words and a buffer.
struct InWords {
    words: StreamWords,
    buffer: Box<Buffer>,
    read: fn(&mut StreamWords, &mut Buffer, &[u8], &mut StepWords) -> u8,
}

impl InWords {
    fn new(read: fn(&mut StreamWords, &mut Buffer, &[u8], &mut StepWords) -> u8) -> InWords {
        InWords {
            words: [0; 7],
            buffer: Box::new([0; LONGEST_READ]),
            read,
        }
    }
}

impl Reading for InWords {
    fn step(&mut self, piece: &[u8], see: &mut impl FnMut(&[u8])) -> usize {
        let mut step = [0; 4];
        let number = (self.read)(&mut self.words, &mut self.buffer, piece, &mut step);
        assert_eq!(number, 0);
        let [taken, event, at, length] = step;
        match event {
            IN_PIECE => see(&piece[at as usize..][..length as usize]),
            IN_BUFFER => see(&self.buffer[..length as usize]),
            _ => {}
        }
        taken as usize
    }
}

impl Reading for Reader {
    fn step(&mut self, piece: &[u8], see: &mut impl FnMut(&[u8])) -> usize {
        let step = Reader::step(self, piece).unwrap();
        match &step.handed {
            Some(Handed::InPiece { at, length }) => see(&piece[*at..][..*length]),
            Some(Handed::Gathered(message)) => see(message),
            None => {}
        }
        step.taken
    }
}

/// A step of the library's reader.
fn library_read(
    words: &mut StreamWords,
    buffer: &mut Buffer,
    piece: &[u8],
    step: &mut StepWords,
) -> u8 {
    // SAFETY: pointers and lengths are of slices that do not overlap.
    unsafe {
        gateway::gateway_stream_read(
            words.as_mut_ptr(),
            buffer.as_mut_ptr(),
            piece.as_ptr(),
            piece.len(),
            step.as_mut_ptr(),
        )
    }
}

/// A message written by the library: its number and how much was written.
fn library_write(message: &[u8], room: &mut [u8]) -> (u8, usize) {
    let mut written = 0;
    // SAFETY: as for a step.
    let number = unsafe {
        gateway::gateway_stream_write(
            message.as_ptr(),
            message.len(),
            room.as_mut_ptr(),
            room.len(),
            &mut written,
        )
    };
    (number, written)
}

/// A stream of so many messages, and the length of the pieces that it comes
/// in.
struct Stream {
    name: &'static str,
    bytes: Vec<u8>,
    messages: usize,
    piece: usize,
}

impl Stream {
    fn read(&self, reader: &mut impl Reading, see: &mut impl FnMut(&[u8])) {
        for piece in black_box(&self.bytes).chunks(self.piece) {
            let mut rest = piece;
            while !rest.is_empty() {
                rest = &rest[reader.step(rest, see)..];
            }
        }
    }

    /// So many readings of it.
    fn readings<'a>(&'a self, mut reader: impl Reading + 'a) -> Batch<'a> {
        Box::new(move |times| {
            for _ in 0..times {
                self.read(&mut reader, &mut |message| {
                    black_box(message);
                });
            }
        })
    }

    fn messages(&self, mut reader: impl Reading) -> Vec<Vec<u8>> {
        let mut messages = Vec::new();
        self.read(&mut reader, &mut |message| messages.push(message.to_vec()));
        messages
    }

    /// The programs agree on it.
    fn check(&self) {
        let own = self.messages(Reader::default());
        assert_eq!(own.len(), self.messages, "{}", self.name);
        let in_words = self.messages(InWords::new(stream_words::read));
        let library = self.messages(InWords::new(library_read));
        let same = library == own && in_words == own;
        assert!(same, "the programs differ: {}", self.name);
    }

    /// Nanoseconds for a message by the library, and by the second program
    /// over the same words and by itself.
    fn costs(&self, rounds: usize) -> Vec<f64> {
        self.check();
        let batches = vec![
            self.readings(InWords::new(library_read)),
            self.readings(InWords::new(stream_words::read)),
            self.readings(Reader::default()),
        ];
        let times = in_turns(rounds, batches).into_iter();
        times.map(|time| time / self.messages as f64).collect()
    }
}

fn framed(message: &[u8]) -> Vec<u8> {
    let mut room = vec![0; message.len() + stream::HEADER];
    stream::write(message, &mut room).unwrap();
    room
}

/// The ways in which a message comes.
fn streams(message: &[u8]) -> [Stream; 3] {
    let stream = |name, messages, piece| Stream {
        name,
        bytes: framed(message).repeat(messages),
        messages,
        piece,
    };
    [
        stream("read, in one piece", 1, usize::MAX),
        stream("read, in pieces of one byte", 1, 1),
        stream("read, two messages in one piece", 2, usize::MAX),
    ]
}

/// Nanoseconds for a message written, by the library and the second program.
fn write_costs(message: &[u8], rounds: usize) -> (f64, f64) {
    let mut room = vec![0; LONGEST_WRITTEN + stream::HEADER];
    let mut other = room.clone();
    let written = stream::write(message, &mut other).unwrap();
    assert_eq!(library_write(message, &mut room), (0, written));
    assert_eq!(room, other, "the programs differ: a message written");
    let batches: Vec<Batch> = vec![
        Box::new(|times| {
            for _ in 0..times {
                black_box(library_write(black_box(message), &mut room));
            }
        }),
        Box::new(|times| {
            for _ in 0..times {
                black_box(stream::write(black_box(message), &mut other)).unwrap();
            }
        }),
    ];
    let times = in_turns(rounds, batches);
    (times[0], times[1])
}

/// A short request, and a message of most bytes.
fn messages(scene: &Scene) -> [Vec<u8>; 2] {
    [
        requests::all(scene)[1].bytes.clone(),
        vec![0x5B; LONGEST_READ],
    ]
}

pub fn table(scene: &Scene, rounds: usize) {
    println!("Nanoseconds for a message of a stream, median of {rounds} rounds.");
    println!("(a) the library; (b) the second program over the same words and buffer; (c) by its own reader, or writer.");
    println!();
    println!("| a message of | | a | b | c | a/b | a/c |");
    println!("|--:|---|--:|--:|--:|--:|--:|");
    for message in messages(scene) {
        let length = message.len();
        for stream in streams(&message) {
            let [a, b, c] = stream.costs(rounds)[..] else {
                unreachable!("three programs");
            };
            let name = stream.name;
            let (by_b, by_c) = (a / b, a / c);
            println!("| {length} | {name} | {a:.1} | {b:.1} | {c:.1} | {by_b:.2} | {by_c:.2} |");
        }
        let (a, c) = write_costs(&message, rounds);
        let by_c = a / c;
        println!("| {length} | written | {a:.1} | | {c:.1} | | {by_c:.2} |");
    }
    println!();
}

/// Bytes of stack for each call of the library's, the most over the streams.
pub fn stack_used(scene: &Scene, stack: &mut Stack) -> [(&'static str, usize); 3] {
    let [mut reset, mut read, mut write] = [0; 3];
    let mut room = vec![0; LONGEST_WRITTEN + stream::HEADER];
    for message in messages(scene) {
        for stream in streams(&message) {
            let mut reader = InWords::new(library_read);
            let used = stack.used(&mut || {
                stream.read(&mut reader, &mut |message| {
                    black_box(message);
                })
            });
            read = read.max(used);
        }
        let used = stack.used(&mut || {
            black_box(library_write(&message, &mut room));
        });
        write = write.max(used);
        let mut words = [0; 7];
        // SAFETY: the pointer is to seven words.
        let used = stack.used(&mut || unsafe { gateway::gateway_stream_reset(words.as_mut_ptr()) });
        reset = reset.max(used);
    }
    [
        ("gateway_stream_reset", reset),
        ("gateway_stream_read", read),
        ("gateway_stream_write", write),
    ]
}
