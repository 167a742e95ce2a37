//! Makes a history of calls and the lines expected for it.
//!
//! `make_history HISTORY LINES` writes two files, the same on every run. The
//! history is binary and little-endian, call after call, a kind byte first:
//! 1 add a session (connection u32); 2 add a tree (uid u16, right u8); 3 add
//! an open (uid u16, tid u16, process u32, file u8, access u8); 4 load a file
//! (file u8, length u16, the bytes); 5 drop a connection (connection u32); 6
//! take a message (connection u32, length u16, the bytes); 7 set the catalogue
//! (its 225 words, a byte each); 8 ask whether the file of an open is unchanged
//! (fid u16); 9 end a session (uid u16); 10 end a tree (tid u16); 11 end an open
//! (fid u16). It starts from empty tables, file memory of zeros and a reply room
//! of 12,292 zeros that is carried from call to call.
//!
//! The lines are this package's own answers, `NUMBER VALUE REPLYHEX DIGEST`
//! for each call, and the holder of a lock behind it; see [`calls::State::line`]. The program ends with a failure
//! and writes nothing if something that the history must reach was not
//! reached, or if the history read back gives other lines.
#![forbid(unsafe_code)]

#[path = "make_history/calls.rs"]
mod calls;
#[path = "make_history/changes.rs"]
mod changes;
#[path = "make_history/core_commands.rs"]
mod core_commands;
#[path = "make_history/day.rs"]
mod day;
#[path = "make_history/ends.rs"]
mod ends;
#[path = "make_history/holders.rs"]
mod holders;
#[path = "make_history/maker.rs"]
mod maker;
#[path = "make_history/opening.rs"]
mod opening;
#[path = "make_history/plan.rs"]
mod plan;
#[path = "make_history/processes.rs"]
mod processes;
#[path = "make_history/tally.rs"]
mod tally;

use calls::{decode, State};
use maker::Maker;
use std::process::ExitCode;

/// Fewest calls, and most bytes of the two files.
const LEAST_CALLS: usize = 600;
const MOST_HISTORY: usize = 262_144;
const MOST_LINES: usize = 600_000;

fn main() -> ExitCode {
    let mut arguments = std::env::args_os().skip(1);
    let (Some(history), Some(lines), None) = (arguments.next(), arguments.next(), arguments.next())
    else {
        eprintln!("usage: make_history HISTORY LINES");
        return ExitCode::from(2);
    };
    let made = made();
    let complaints = complaints(&made);
    eprint!("{}", made.tally.summary());
    eprintln!(
        "{} calls, history {} bytes, lines {} bytes",
        made.calls,
        made.history.len(),
        made.lines.len()
    );
    if !complaints.is_empty() {
        eprintln!("make_history: failed\n{}", complaints.join("\n"));
        return ExitCode::FAILURE;
    }
    let written =
        std::fs::write(history, &made.history).and_then(|()| std::fs::write(lines, &made.lines));
    if let Err(error) = written {
        eprintln!("make_history: {error}");
        return ExitCode::FAILURE;
    }
    eprintln!("make_history: all reached");
    ExitCode::SUCCESS
}

/// The whole history.
fn made() -> Maker {
    let mut maker = Maker::new();
    plan::before_the_day(&mut maker);
    day::day(&mut maker);
    plan::after_the_day(&mut maker);
    holders::holders(&mut maker);
    processes::processes(&mut maker);
    core_commands::core_commands(&mut maker);
    opening::opening(&mut maker);
    changes::changes(&mut maker);
    ends::ends(&mut maker);
    maker
}

/// What is wrong with a history; nothing, if it is to be used.
fn complaints(made: &Maker) -> Vec<String> {
    let mut complaints = made.complaints.clone();
    complaints.extend(made.tally.missing(tally::required()));
    let mut require = |holds: bool, text: &str| {
        if !holds {
            complaints.push(text.to_string());
        }
    };
    require(made.calls >= LEAST_CALLS, "too few calls");
    require(made.history.len() <= MOST_HISTORY, "history too long");
    require(made.lines.len() <= MOST_LINES, "lines too long");
    let replayed = replay(&made.history);
    require(
        replayed.as_ref() == Some(&made.lines),
        "the history read back gives other lines",
    );
    complaints
}

/// The lines for a history read from its bytes; none if it is cut off or has
/// an unknown kind.
fn replay(mut history: &[u8]) -> Option<String> {
    let mut state = State::new();
    let mut lines = String::new();
    while !history.is_empty() {
        let call = decode(&mut history)?;
        let answer = state.make(&call);
        lines += &state.line(&answer);
    }
    Some(lines)
}

#[cfg(test)]
mod tests {
    use super::*;

    #[test]
    fn same_on_every_run() {
        let (one, other) = (made(), made());
        assert!(one.history == other.history && one.lines == other.lines);
        assert_eq!(complaints(&one), Vec::<String>::new());
    }
}
