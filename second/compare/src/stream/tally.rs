//! Counts what the streams met, and says what was not met often enough.

use super::plan::{Kind, Stream, BAD};
use crate::counts::Counts;
use second::status::Status;
use second::stream_words::{StepWords, StreamWords, IN_BUFFER, IN_PIECE, NO_STATE};

/// What must be met, besides the classes of bad headers.
const MET: [&str; 51] = [
    "read: 0",
    "read: 1",
    "read: 2",
    "read: 3",
    "read: 4",
    "read: 5",
    "read: 1 again",
    "read: 2 again",
    "read: 3 again",
    "read: 4 again",
    "empty piece: 0",
    "empty piece: a stopped reader's number",
    "empty piece: 5",
    "more wanted, nothing begun",
    "more wanted, header begun",
    "more wanted, message begun",
    "message in the piece",
    "message in the piece, begun before",
    "message in the piece behind a keep-alive",
    "message in the buffer",
    "message of length 0",
    "message of length 0, begun before",
    "message of 8,191 in the piece",
    "message of 8,191 in the buffer",
    "message of 8,192 in the piece",
    "message of 8,192 in the buffer",
    "two messages and a bad header in one piece",
    "cut between",
    "cut in a keep-alive",
    "cut in a message's header",
    "cut behind a message's header",
    "cut in a message",
    "cut in a bad header",
    "stream in pieces of one byte",
    "damaged, but a state",
    "damaged in a stream, which then goes on",
    "reset: nothing begun",
    "reset: begun",
    "reset: stopped",
    "reset: no state",
    "write: 0",
    "write: 0, room exact",
    "write: 0, above 8,192",
    "write: 1",
    "write: 1, too little room as well",
    "write: 2",
    "write: 2, one byte missing",
    "read back",
    "history: message done",
    "history: message refused on the wire",
    "history: message dropped",
];

#[derive(Default)]
pub struct StreamTally {
    pub counts: Counts,
}

impl StreamTally {
    /// A step of a reader that was in state `before` and is in `after`.
    pub fn step(
        &mut self,
        before: &StreamWords,
        after: &StreamWords,
        piece: &[u8],
        number: u8,
        step: StepWords,
    ) {
        let again = before[0] != 0 && number != NO_STATE;
        self.counts.met(match (number, again) {
            (0, _) => "read: 0",
            (1, false) => "read: 1",
            (2, false) => "read: 2",
            (3, false) => "read: 3",
            (4, false) => "read: 4",
            (1, true) => "read: 1 again",
            (2, true) => "read: 2 again",
            (3, true) => "read: 3 again",
            (4, true) => "read: 4 again",
            _ => "read: 5",
        });
        if piece.is_empty() {
            self.counts.met(match number {
                0 => "empty piece: 0",
                NO_STATE => "empty piece: 5",
                _ => "empty piece: a stopped reader's number",
            });
        }
        if number == 0 {
            self.done(before, after, step);
        }
    }

    fn done(&mut self, before: &StreamWords, after: &StreamWords, step: StepWords) {
        let [_, event, at, length] = step;
        let begun = *before != [0; 7];
        let counts = &mut self.counts;
        if event == IN_PIECE {
            counts.met("message in the piece");
            counts.met_if(begun, "message in the piece, begun before");
            counts.met_if(at >= 8, "message in the piece behind a keep-alive");
            counts.met_if(length == 0, "message of length 0");
            counts.met_if(length == 0 && begun, "message of length 0, begun before");
            counts.met_if(length == 8191, "message of 8,191 in the piece");
            counts.met_if(length == 8192, "message of 8,192 in the piece");
        } else if event == IN_BUFFER {
            counts.met("message in the buffer");
            counts.met_if(length == 8191, "message of 8,191 in the buffer");
            counts.met_if(length == 8192, "message of 8,192 in the buffer");
        } else {
            counts.met(match (after[1], after[5]) {
                (0, 0) => "more wanted, nothing begun",
                (_, 0) => "more wanted, header begun",
                _ => "more wanted, message begun",
            });
        }
    }

    /// A stream cut into pieces of these lengths.
    pub fn stream(&mut self, stream: &Stream, pieces: &[usize]) {
        let long = stream.bytes.len() > 1;
        let single = long && pieces.iter().all(|&length| length == 1);
        self.counts.met_if(single, "stream in pieces of one byte");
        for part in &stream.parts {
            if let Kind::Bad(class) = part.kind {
                self.counts.met(BAD[class].0);
            }
        }
        let mut place = 0;
        for length in pieces {
            place += length;
            if place > 0 && place < stream.bytes.len() {
                self.cut(stream, place);
            }
        }
    }

    fn cut(&mut self, stream: &Stream, place: usize) {
        let Some(part) = stream.cut_part(place) else {
            return self.counts.met("cut between");
        };
        match (part.kind, place - part.start) {
            (Kind::Message, 1..=3) => self.counts.met("cut in a message's header"),
            (Kind::Message, 4) => self.counts.met("cut behind a message's header"),
            (Kind::Message, _) => self.counts.met("cut in a message"),
            (Kind::KeepAlive, _) => self.counts.met("cut in a keep-alive"),
            (Kind::Bad(_), _) => self.counts.met("cut in a bad header"),
            (Kind::HeaderBegun | Kind::Behind, _) => {}
        }
    }

    /// A message written, or not, to a room.
    pub fn write(&mut self, length: usize, room: usize, number: u8) {
        let counts = &mut self.counts;
        match number {
            0 => {
                counts.met("write: 0");
                counts.met_if(room == length + 4, "write: 0, room exact");
                counts.met_if(length > 8192, "write: 0, above 8,192");
            }
            1 => {
                counts.met("write: 1");
                counts.met_if(room < length + 4, "write: 1, too little room as well");
            }
            _ => {
                counts.met("write: 2");
                counts.met_if(room == length + 3, "write: 2, one byte missing");
            }
        }
    }

    /// A message of the history and its reply.
    pub fn taken(&mut self, number: u8, reply: &[u8]) {
        self.counts.met(match number {
            0 if Status::of(reply).value == 0 => "history: message done",
            0 => "history: message refused on the wire",
            _ => "history: message dropped",
        });
    }

    /// Prints the counts. False if something was met too seldom.
    pub fn print(&self) -> bool {
        let required = MET.into_iter().chain(BAD.map(|(name, _)| name));
        self.counts.print("streams", required)
    }
}
