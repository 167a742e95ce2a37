//! Makes what one terminal sends, and the lines expected for it.
//!
//! `make_stream STREAM LINES` writes two files, the same on every run. The
//! stream is binary: messages behind their session headers, keep-alives, then
//! a header that stops the reader and bytes behind it. It comes on one
//! connection, to tables that [`calls_before`] makes from empty ones.
//!
//! The lines are this package's own answers: `message LENGTH NUMBER VALUE
//! DIGEST` for each message that this package's reader hands out, the digest of
//! its reply behind a header, or of nothing; then `reader NUMBER WORDS STATE`,
//! the number that stopped it, the digest of its seven words, and that of the
//! tables and files. The program ends with a failure and writes nothing if
//! something that the stream must reach was not reached.
#![forbid(unsafe_code)]

// What the plan of `make_history` uses alone is not used here.
#[allow(dead_code)]
#[path = "make_history/calls.rs"]
mod calls;
#[allow(dead_code)]
#[path = "make_history/day.rs"]
mod day;
#[allow(dead_code)]
#[path = "make_history/maker.rs"]
mod maker;
#[path = "make_stream/messages.rs"]
mod messages;
#[allow(dead_code)]
#[path = "make_history/tally.rs"]
mod tally;

use calls::{decode, digest, State};
use maker::{words_of, Maker};
use messages::{send_all, CONNECTION, NAMES};
use second::call::Call;
use second::grammar::{Why, SERVED};
use second::message::ROOM_BYTES;
use second::refusals::WireRefusal;
use second::rng::Rng;
use second::stream::{write, Reader, Stop, HEADER, LONGEST_READ};
use second::stream_words::{pack, STREAM_WORDS};
use std::process::ExitCode;
use tally::status_tally::in_both_forms;
use tally::{name, refusal_name};

const LEAST_MESSAGES: usize = 150;
const MOST_STREAM: usize = 60_000;
/// No message, and no length.
const KEEP_ALIVE: [u8; HEADER] = [0x85, 0, 0, 0];
/// File 0 when the terminal connects.
const REVOKED: &[u8] = b"Certificates revoked by the office, one to a line, as of this morning: \
    0017 0042 0311 0768 0901 1024 1183 1399 1777 2048";

fn main() -> ExitCode {
    let mut arguments = std::env::args_os().skip(1);
    let (Some(stream), Some(lines), None) = (arguments.next(), arguments.next(), arguments.next())
    else {
        eprintln!("usage: make_stream STREAM LINES");
        return ExitCode::from(2);
    };
    let made = made();
    eprint!("{}", made.summary);
    if !made.complaints.is_empty() {
        eprintln!("make_stream: failed\n{}", made.complaints.join("\n"));
        return ExitCode::FAILURE;
    }
    let written =
        std::fs::write(stream, &made.stream).and_then(|()| std::fs::write(lines, &made.lines));
    if let Err(error) = written {
        eprintln!("make_stream: {error}");
        return ExitCode::FAILURE;
    }
    eprintln!("make_stream: all reached");
    ExitCode::SUCCESS
}

#[derive(PartialEq, Eq)]
struct Made {
    stream: Vec<u8>,
    lines: String,
    summary: String,
    complaints: Vec<String>,
}

/// The host's calls before the first byte comes.
fn calls_before() -> Vec<Call> {
    let load = |file, contents: &[u8]| Call::LoadFile {
        file,
        contents: contents.to_vec(),
    };
    let open = |process, file, access| Call::AddOpen {
        uid: 1,
        tid: 1,
        process,
        file,
        access,
    };
    vec![
        load(0, REVOKED),
        Call::AddSession {
            connection: CONNECTION,
        },
        Call::AddTree { uid: 1, right: 1 },
        open(7, 0, 2),
        load(1, b"0017 0042 0311 0768"),
        open(8, 0, 2),
        open(7, 1, 0),
        Call::SetCatalogue {
            catalogue: Box::new(words_of(&NAMES)),
        },
    ]
}

fn made() -> Made {
    let mut maker = Maker::new();
    for call in calls_before() {
        maker.host(call, 0);
    }
    send_all(&mut maker);
    let planned = messages(&maker.history);
    let stream = framed(&mut maker, &planned);
    let mut complaints = maker.complaints.clone();
    complaints.extend(maker.tally.missing(required()));
    let (lines, more) = replayed(&stream, &planned);
    complaints.extend(more);
    if planned.len() < LEAST_MESSAGES || stream.len() > MOST_STREAM {
        complaints.push("too few messages, or too many bytes".to_string());
    }
    let sizes = (planned.len(), stream.len(), lines.len());
    let summary = format!(
        "{}{} messages, stream {} bytes, lines {} bytes\n",
        maker.tally.summary(),
        sizes.0,
        sizes.1,
        sizes.2
    );
    Made {
        stream,
        lines,
        summary,
        complaints,
    }
}

/// The messages of a history, in the order sent.
fn messages(mut history: &[u8]) -> Vec<Vec<u8>> {
    let mut messages = Vec::new();
    while let Some(call) = decode(&mut history) {
        if let Call::TakeMessage { message, .. } = call {
            messages.push(message);
        }
    }
    messages
}

/// The messages behind their headers, keep-alives between them; then a header
/// whose flag makes its length too long, the message that it would have
/// without the flag, and one more.
fn framed(maker: &mut Maker, planned: &[Vec<u8>]) -> Vec<u8> {
    let mut stream = Vec::new();
    let mut lots = Rng::new(0x4B45_4550);
    for message in planned {
        if lots.below(4) == 0 {
            for _ in 0..1 + lots.below(3) {
                stream.extend(KEEP_ALIVE);
                maker.tally.count("keep-alive");
            }
        }
        put_message(&mut stream, message);
    }
    let behind = stream.len();
    put_message(&mut stream, &planned[0]);
    stream[behind + 1] = 1;
    put_message(&mut stream, &planned[1]);
    stream
}

fn put_message(stream: &mut Vec<u8>, message: &[u8]) {
    let mut room = vec![0; HEADER + message.len()];
    write(message, &mut room).expect("a message that the writer takes");
    stream.extend(room);
}

/// The lines for a stream, and what is wrong with it.
fn replayed(stream: &[u8], planned: &[Vec<u8>]) -> (String, Vec<String>) {
    let mut reader = Reader::default();
    let (handed, stopped) = reader.feed(stream);
    let mut complaints = Vec::new();
    if handed != planned || stopped != Some(Stop::TooLong) {
        complaints.push("other messages are handed out, or another stop".to_string());
    }
    let mut state = State::new();
    for call in calls_before() {
        state.make(&call);
    }
    let mut lines = String::new();
    for message in handed {
        lines += &taken(&mut state, message);
    }
    let (mut words, mut buffer) = ([0; STREAM_WORDS], [0; LONGEST_READ]);
    pack(&reader, &mut words, &mut buffer);
    lines += &format!(
        "reader {} {} {}\n",
        stopped.map_or(0, |stop| stop as u8),
        digest(words.into_iter()),
        state.digest()
    );
    (lines, complaints)
}

/// The line of a message that is taken.
fn taken(state: &mut State, message: Vec<u8>) -> String {
    let length = message.len();
    let answer = state.make(&Call::TakeMessage {
        connection: CONNECTION,
        message,
    });
    let mut room = vec![0; HEADER + ROOM_BYTES];
    let written = match answer.number {
        0 => write(&answer.reply, &mut room).expect("a reply that the writer takes"),
        _ => 0,
    };
    let frame = room[..written].iter().map(|&byte| u64::from(byte));
    let (number, value) = (answer.number, answer.value);
    format!("message {length} {number} {value} {}\n", digest(frame))
}

/// What the stream must reach, with the least count.
fn required() -> Vec<(String, usize)> {
    let mut all = vec![
        ("keep-alive".to_string(), 20),
        ("number 1".to_string(), 5),
        ("dropped: Short".to_string(), 3),
        ("dropped: Protocol".to_string(), 2),
        ("dropped: Flags".to_string(), 1),
        ("chain refused behind a command that stands".to_string(), 3),
    ];
    all.extend(SERVED.map(|command| (format!("{} alone done", name(command)), 1)));
    all.extend(Why::ALL.map(|why| (format!("not a chain: {why:?}"), 1)));
    all.extend(WireRefusal::ALL.map(|r| (refusal_name(r.class_and_code()), 2)));
    all.extend(in_both_forms(150, 1));
    all
}

#[cfg(test)]
mod tests {
    use super::*;

    #[test]
    fn same_on_every_run() {
        let one = made();
        assert!(one == made());
        assert_eq!(one.complaints, Vec::<String>::new());
    }

    /// "however the stream is cut"
    #[test]
    fn same_in_pieces() {
        let stream = made().stream;
        let whole = Reader::default().feed(&stream);
        for size in [1, 2, 3, 61, 4096] {
            let mut reader = Reader::default();
            let (mut handed, mut stopped) = (Vec::new(), None);
            for piece in stream.chunks(size) {
                let (more, stop) = reader.feed(piece);
                handed.extend(more);
                stopped = stop;
            }
            assert!((handed, stopped) == whole);
        }
    }
}
