//! The stream: the library's reader and writer beside the second program's,
//! step by step, and both beside what a stream was made of.

mod damage;
mod history;
mod plan;
mod sides;
mod tally;
mod writing;

use crate::Run;
use linked::guarded::Side;
use plan::{Stream, StreamPlanner};
use second::rng::Rng;
use second::stream_words::{IN_BUFFER, IN_PIECE, WANTED};
use sides::{Readers, Setting};
use tally::StreamTally;

/// Streams that are cut at every place.
const SHORT: usize = 400;
/// Streams that are cut at random places, a few times each.
const CUT: usize = 3000;

/// The comparison of streams.
struct Streams {
    planner: StreamPlanner,
    readers: Readers,
    tally: StreamTally,
}

/// Compares the programs over streams. The error is a report.
pub fn compare(run: &mut Run, seed: u64) -> Result<StreamTally, String> {
    let mut rng = Rng::new(seed ^ 0x5354_5245_414D);
    let mut streams = Streams {
        readers: Readers::new(run.show, &mut rng),
        planner: StreamPlanner::new(rng),
        tally: StreamTally::default(),
    };
    streams.cut_everywhere()?;
    streams.cut_anywhere()?;
    streams.damaged()?;
    streams.written()?;
    streams.history(run)?;
    Ok(streams.tally)
}

impl Streams {
    fn rng(&mut self) -> &mut Rng {
        &mut self.planner.rng
    }

    fn cut_everywhere(&mut self) -> Result<(), String> {
        for _ in 0..SHORT {
            let stream = self.planner.short_stream();
            let length = stream.bytes.len();
            for cut in 0..=length {
                self.play(&stream, &[cut, length - cut])?;
            }
            self.play(&stream, &vec![1; length])?;
        }
        Ok(())
    }

    fn cut_anywhere(&mut self) -> Result<(), String> {
        for _ in 0..CUT {
            let stream = self.planner.any_stream();
            self.play(&stream, &[stream.bytes.len()])?;
            for _ in 0..2 {
                let pieces = self.planner.cuts(stream.bytes.len());
                self.play(&stream, &pieces)?;
            }
        }
        Ok(())
    }

    /// Reads a stream in pieces of these lengths. What comes out, and what is
    /// left, must be what the stream was made of.
    fn play(&mut self, stream: &Stream, pieces: &[usize]) -> Result<(), String> {
        self.tally.stream(stream, pieces);
        self.reset()?;
        if self.rng().below(16) == 0 {
            self.readers.litter(&mut self.planner.rng);
        }
        let (messages, number) = self.feed_all(&stream.bytes, pieces)?;
        expect(&messages, &stream.messages, "messages handed out")?;
        expect(&number, &stream.number, "number")?;
        expect(&self.readers.words, &stream.left, "state left")?;
        let begun = &self.readers.buffer[..stream.begun.len()];
        expect(&begun, &&stream.begun[..], "bytes of the message begun")
    }

    /// Hands in the bytes in pieces of these lengths, and an empty piece to a
    /// reader that is stopped then: the messages handed out, and the number.
    fn feed_all(&mut self, bytes: &[u8], pieces: &[usize]) -> Result<(Vec<Vec<u8>>, u8), String> {
        let (mut messages, mut number) = (Vec::new(), 0);
        let mut rest = bytes;
        for &length in pieces {
            let (piece, behind) = rest.split_at(length);
            rest = behind;
            if self.rng().below(64) == 0 {
                self.interrupted(piece)?;
            }
            let (more, given) = self.feed(piece)?;
            if number != 0 {
                expect(
                    &(&more[..], given),
                    &(&[][..], number),
                    "a piece when stopped",
                )?;
            }
            number = given;
            messages.extend(more);
        }
        if number != 0 {
            let given = self.feed(&[])?;
            expect(&given, &(Vec::new(), number), "an empty piece when stopped")?;
        }
        Ok((messages, number))
    }

    /// Hands in a piece, and what is left of it, until all is read: the
    /// messages handed out, and the number.
    fn feed(&mut self, piece: &[u8]) -> Result<(Vec<Vec<u8>>, u8), String> {
        let mut messages = Vec::new();
        let mut rest = piece;
        loop {
            let (number, step) = self.step(rest)?;
            if number != 0 {
                if messages.len() >= 2 {
                    let what = "two messages and a bad header in one piece";
                    self.tally.counts.met(what);
                }
                return Ok((messages, number));
            }
            let [taken, event, at, length] = step.map(|word| word as usize);
            match event as u64 {
                WANTED if taken == rest.len() => return Ok((messages, 0)),
                IN_PIECE => messages.push(rest[at..at + length].to_vec()),
                IN_BUFFER => messages.push(self.readers.buffer[..length].to_vec()),
                _ => return Err(format!("step {step:?} for {} bytes", rest.len())),
            }
            rest = &rest[taken..];
            // A host may ask again with nothing left, or not.
            if rest.is_empty() && self.rng().below(2) == 0 {
                return Ok((messages, 0));
            }
        }
    }

    fn step(&mut self, piece: &[u8]) -> Result<(u8, [u64; 4]), String> {
        let setting = Setting::any(&mut self.planner.rng);
        let before = self.readers.words;
        let (number, step) = self.readers.read(piece, setting)?;
        let after = &self.readers.words;
        self.tally.step(&before, after, piece, number, step);
        Ok((number, step))
    }

    fn reset(&mut self) -> Result<(), String> {
        let side = self.rng().pick(&[Side::Start, Side::End]);
        let words = &self.readers.words;
        let state = second::stream_words::unpack(words, &self.readers.buffer);
        self.tally.counts.met(match state {
            None => "reset: no state",
            Some(_) if words[0] != 0 => "reset: stopped",
            Some(_) if *words == [0; 7] => "reset: nothing begun",
            Some(_) => "reset: begun",
        });
        self.readers.reset(side)?;
        expect(&self.readers.words, &[0; 7], "state after a reset")
    }
}

/// Both programs gave this, and it is not what was planned.
fn expect<T: PartialEq + std::fmt::Debug>(
    given: &T,
    planned: &T,
    what: &str,
) -> Result<(), String> {
    if given == planned {
        return Ok(());
    }
    let text = |of: &T| format!("{of:?}").chars().take(2000).collect::<String>();
    let (given, planned) = (text(given), text(planned));
    Err(format!(
        "both programs: {what}\n  given:   {given}\n  planned: {planned}"
    ))
}
