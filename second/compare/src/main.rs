//! Compares the gateway library with the second program, call by call over
//! long histories, and then over streams.
//!
//! `compare_gateway [CALLS [SEED [SHOW]]]` makes that many calls on both, and
//! behind them those of the streams. It ends with status 1 at the first
//! difference, or if some answer was met too seldom. SHOW is the number of a
//! call to print before it is made.

mod call;
mod catalogues;
mod changes;
mod core_commands;
mod counts;
mod crash;
mod damage;
mod ends;
mod holders;
mod opening;
mod places;
mod plan;
mod processes;
mod report;
mod sides;
mod statuses;
mod stream;
mod tally;

use call::Trial;
use linked::guarded::Side;
use plan::Planner;
use second::rng::Rng;
use second::tables::Tables;
use second::words::unpack;
use sides::{Given, Sides};
use std::process::ExitCode;
use tally::Tally;

const CALLS: usize = 400_000;
const SEED: u64 = 0x4757_3031;

/// A run of the comparison.
struct Run {
    planner: Planner,
    sides: Sides,
    tally: Tally,
    /// The call to print.
    show: Option<usize>,
}

impl Run {
    /// A call on both sides, counted.
    fn make(&mut self, trial: &Trial) -> Result<Given, String> {
        let call = crash::begin_call();
        if self.show == Some(call) {
            println!("call {call}:");
            println!("{}", report::described(trial, &self.sides.words));
        }
        let side = self.planner.rng.pick(&[Side::Start, Side::End]);
        let shift = self.planner.rng.below(4096);
        let before = self.sides.words;
        let given = self.sides.make(trial, side, shift)?;
        let Sides { room, words, .. } = &self.sides;
        self.tally.count(trial, given, room, &before, words);
        Ok(given)
    }

    /// Empties the tables, from whatever they hold. Once in three the files then
    /// have been changed before.
    fn begin_history(&mut self) -> Result<(), String> {
        self.tally.begin_history();
        let words = &mut self.sides.words;
        words.fill_with(|| self.planner.rng.number());
        self.make(&Trial::Empty)?;
        if self.planner.rng.below(2) == 0 {
            damage::litter(&mut self.sides.words, &mut self.planner.rng);
        }
        if self.planner.rng.below(3) == 0 {
            damage::renumber_all(&mut self.sides.words, &mut self.planner.rng);
        }
        Ok(())
    }

    /// The next call of a history, once in a while on damaged tables.
    fn step(&mut self) -> Result<(), String> {
        let tables = unpack(&self.sides.words).filter(Tables::sound);
        let Some(tables) = tables else {
            return Err("the tables are not sound between calls".to_string());
        };
        if self.planner.rng.below(20) == 0 {
            return self.step_on_damaged(&tables);
        }
        let trial = self.planner.next(&tables);
        self.make(&trial)?;
        self.tally.count_tables(&self.sides.words);
        Ok(())
    }

    /// A call on damaged tables. Of the damage only what leaves them sound
    /// stays.
    fn step_on_damaged(&mut self, tables: &Tables) -> Result<(), String> {
        let trial = match self.planner.rng.below(3) {
            0 => self.planner.any(tables),
            _ => self.planner.next(tables),
        };
        let before = self.sides.words;
        for _ in 0..1 + self.planner.rng.below(2) {
            damage::damage(&mut self.sides.words, &mut self.planner.rng);
        }
        self.make(&trial)?;
        self.tally.damaged += 1;
        if unpack(&self.sides.words).is_some_and(|tables| tables.sound()) {
            self.tally.damaged_but_sound += 1;
        } else {
            self.sides.words = before;
        }
        Ok(())
    }

    fn history(&mut self, calls: usize) -> Result<(), String> {
        self.begin_history()?;
        let length = 100 + self.planner.rng.below(4000);
        let end = calls.min(self.tally.calls + length);
        while self.tally.calls < end {
            self.step()?;
        }
        Ok(())
    }
}

fn argument<T: std::str::FromStr>(place: usize) -> Option<T> {
    let text = std::env::args().nth(place)?;
    match text.parse() {
        Ok(value) => Some(value),
        Err(_) => {
            eprintln!("usage: compare_gateway [CALLS [SEED [SHOW]]]");
            std::process::exit(2);
        }
    }
}

/// Says what differs in the call made last.
fn differs(report: &str, seed: u64) -> ExitCode {
    let call = crash::call();
    println!("DIFFERENCE at call {call}, seed {seed}");
    println!("{report}");
    println!("compare_gateway: {call} calls the same, then a difference");
    ExitCode::FAILURE
}

fn main() -> ExitCode {
    let calls = argument(1).unwrap_or(CALLS);
    let seed = argument(2).unwrap_or(SEED);
    let mut rng = Rng::new(seed);
    let mut run = Run {
        sides: Sides::new(&mut rng),
        planner: Planner::new(rng),
        tally: Tally::default(),
        show: argument(3),
    };
    crash::watch();
    while run.tally.calls < calls {
        if let Err(report) = run.history(calls) {
            return differs(&report, seed);
        }
    }
    let good = run.tally.print();
    println!("compare_gateway: {} calls, no difference", run.tally.calls);
    let stream_tally = match stream::compare(&mut run, seed) {
        Ok(tally) => tally,
        Err(report) => return differs(&report, seed),
    };
    let streams_good = stream_tally.print();
    println!("compare_gateway: streams, no difference");
    if good && streams_good {
        ExitCode::SUCCESS
    } else {
        ExitCode::FAILURE
    }
}
