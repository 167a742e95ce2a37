//! A long history that comes in a stream: each message handed out is taken,
//! and its reply written back. However the stream is cut, the numbers, the
//! replies, the tables and the files are those of the messages taken one by
//! one ("Demands 2 and 3 speak of the messages handed out").

use super::plan::{framed, Stream, LONGEST};
use super::sides::LARGEST;
use super::{expect, Streams};
use crate::call::Trial;
use crate::Run;
use second::call::Call;
use second::message::ROOM_BYTES;
use second::words::{unpack, HolderWords, Words};

/// Messages in the history.
const MESSAGES: usize = 4000;
/// The connection whose stream it is.
const CONNECTION: u32 = 77;

/// The history.
#[derive(Default)]
struct History {
    stream: Stream,
    /// The host's calls before the first message and behind each.
    calls: Vec<Vec<Trial>>,
}

/// What a message gave: the number, the reply, and the words for the holder of
/// a lock if they were written.
type Taken = (u8, Vec<u8>, Option<HolderWords>);

/// What a history gave.
#[derive(Debug, PartialEq, Eq)]
struct Given {
    taken: Vec<Taken>,
    /// The replies in a stream.
    replies: Vec<u8>,
    words: Words,
    memory: Vec<u8>,
}

/// The tables and files that it starts from.
struct Start {
    words: Words,
    memory: Vec<u8>,
}

impl Streams {
    pub fn history(&mut self, run: &mut Run) -> Result<(), String> {
        run.begin_history()?;
        let start = Start {
            words: run.sides.words,
            memory: run.sides.memory.clone(),
        };
        let (history, planned) = self.plan_history(run)?;
        let length = history.stream.bytes.len();
        let largest = pieces(length, || LARGEST);
        let coarse = pieces(length, || 1 + self.planner.rng.below(6000));
        let fine = pieces(length, || 1 + self.planner.rng.below(40));
        for cuts in [largest, coarse, fine] {
            let given = self.replay(run, &start, &history, &cuts)?;
            expect(&given.taken, &planned.taken, "numbers, replies and holders")?;
            expect(&given.replies, &planned.replies, "replies written")?;
            expect(&given.words, &planned.words, "tables")?;
            expect(&given.memory, &planned.memory, "files")?;
            self.replies_read(&given)?;
        }
        Ok(())
    }

    /// The replies as the terminal reads them, in pieces. One above 8,192 bytes
    /// stops it.
    fn replies_read(&mut self, given: &Given) -> Result<(), String> {
        let done = given.taken.iter().filter(|(number, ..)| *number == 0);
        let replies: Vec<_> = done.map(|(_, reply, _)| reply.clone()).collect();
        let short = replies.iter().take_while(|reply| reply.len() <= LONGEST);
        let planned: Vec<_> = short.cloned().collect();
        let stopped = planned.len() < replies.len();
        self.reset()?;
        let (mut read, mut number) = (Vec::new(), 0);
        let mut rest = &given.replies[..];
        while !rest.is_empty() && number == 0 {
            let length = (1 + self.rng().below(5000)).min(rest.len());
            let more = self.feed(&rest[..length])?;
            rest = &rest[length..];
            read.extend(more.0);
            number = more.1;
        }
        expect(
            &number,
            &if stopped { 4 } else { 0 },
            "number for the replies",
        )?;
        expect(&read, &planned, "replies read")
    }

    /// Plans the history while its messages are taken one by one.
    fn plan_history(&mut self, run: &mut Run) -> Result<(History, Given), String> {
        let mut history = History::default();
        let (mut taken, mut replies, mut calls) = (Vec::new(), Vec::new(), Vec::new());
        while taken.len() < MESSAGES {
            let tables = unpack(&run.sides.words).ok_or("the tables are not sound")?;
            let trial = on_connection(run.planner.next(&tables));
            match trial.call() {
                Some(Call::TakeMessage { message, .. }) if message.len() > LONGEST => {}
                Some(Call::TakeMessage { message, .. }) => {
                    if self.rng().below(5) == 0 {
                        history.stream.keep_alive();
                    }
                    history.stream.message(message);
                    history.calls.push(std::mem::take(&mut calls));
                    let given = take(run, &trial)?;
                    if given.0 == 0 {
                        replies.extend(framed(&given.1));
                    }
                    taken.push(given);
                }
                _ => {
                    run.make(&trial)?;
                    calls.push(trial);
                }
            }
        }
        history.calls.push(calls);
        let (words, memory) = (run.sides.words, run.sides.memory.clone());
        let given = Given {
            taken,
            replies,
            words,
            memory,
        };
        Ok((history, given))
    }

    /// The history from its start, its stream in pieces of these lengths.
    fn replay(
        &mut self,
        run: &mut Run,
        start: &Start,
        history: &History,
        pieces: &[usize],
    ) -> Result<Given, String> {
        run.sides.restore(&start.words, &start.memory);
        self.reset()?;
        let (mut taken, mut replies) = (Vec::new(), Vec::new());
        make_all(run, &history.calls[0])?;
        let mut rest = &history.stream.bytes[..];
        for &length in pieces {
            let (piece, behind) = rest.split_at(length);
            rest = behind;
            let (messages, number) = self.feed(piece)?;
            expect(&number, &0, "number of a piece of the history")?;
            for message in messages {
                let given = take(run, &message_trial(message))?;
                self.tally.taken(given.0, &given.1);
                if given.0 == 0 {
                    replies.extend(self.written_reply(&given.1)?);
                }
                taken.push(given);
                make_all(run, &history.calls[taken.len()])?;
            }
        }
        Ok(Given {
            taken,
            replies,
            words: run.sides.words,
            memory: run.sides.memory.clone(),
        })
    }

    /// A reply behind its header, by both writers.
    fn written_reply(&mut self, reply: &[u8]) -> Result<Vec<u8>, String> {
        let mut room = vec![self.rng().byte(); ROOM_BYTES + 4];
        let (number, written) = self.write_into(reply, &mut room)?;
        expect(&number, &0, "number of a reply written")?;
        room.truncate(written);
        Ok(room)
    }
}

/// Lengths of pieces, in all this length.
fn pieces(length: usize, mut next: impl FnMut() -> usize) -> Vec<usize> {
    let mut pieces = Vec::new();
    let mut left = length;
    while left > 0 {
        let piece = next().min(left);
        pieces.push(piece);
        left -= piece;
    }
    pieces
}

fn message_trial(message: Vec<u8>) -> Trial {
    Trial::Call {
        call: Call::TakeMessage {
            connection: CONNECTION,
            message,
        },
        memory: None,
        room: ROOM_BYTES,
    }
}

/// The call with whole memory and room, and sessions and messages on the
/// history's connection.
fn on_connection(trial: Trial) -> Trial {
    match trial {
        Trial::Call {
            call: Call::TakeMessage { message, .. },
            ..
        } => message_trial(message),
        Trial::Call {
            call: Call::AddSession { .. },
            ..
        } => Trial::plain(Call::AddSession {
            connection: CONNECTION,
        }),
        Trial::Call { call, .. } => Trial::plain(call),
        Trial::Empty => trial,
    }
}

fn make_all(run: &mut Run, trials: &[Trial]) -> Result<(), String> {
    trials
        .iter()
        .try_for_each(|trial| run.make(trial).map(|_| ()))
}

/// Takes a message on both sides.
fn take(run: &mut Run, trial: &Trial) -> Result<Taken, String> {
    let given = run.make(trial)?;
    let length = match given.number {
        0 => given.value,
        _ => 0,
    };
    let reply = run.sides.room[..length].to_vec();
    Ok((given.number, reply, given.holder))
}
