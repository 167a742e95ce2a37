//! Counts what was met, and says what was not met often enough.

use crate::call::Trial;
use crate::changes::Changes;
use crate::core_commands::CoreCommands;
use crate::counts::{enough, LEAST};
use crate::ends::Ends;
use crate::holders::Holders;
use crate::opening::Opening;
use crate::places;
use crate::processes::Processes;
use crate::sides::Given;
use crate::statuses::{possible, refusal, Statuses};
use second::call::Call;
use second::grammar::{is_andx, SERVED};
use second::refusals::WireRefusal;
use second::status::{Status, StatusForm};
use second::tables::Tables;
use second::words::{unpack, Words};
use std::collections::BTreeMap;

/// Fewest times for a refusal of a given command.
const LEAST_OF_COMMAND: usize = 20;

#[derive(Default)]
pub struct Tally {
    pub calls: usize,
    histories: usize,
    pub damaged: usize,
    pub damaged_but_sound: usize,
    numbers: BTreeMap<(&'static str, u8), usize>,
    /// Refused for an argument wider than its field.
    wide: BTreeMap<&'static str, usize>,
    /// By command; the header's for 2/22 (as 0) and 2/1.
    refused: BTreeMap<(WireRefusal, u8), usize>,
    refused_later: BTreeMap<WireRefusal, usize>,
    done: BTreeMap<u8, usize>,
    successions: BTreeMap<(u8, u8), usize>,
    lengths: BTreeMap<&'static str, usize>,
    longest: usize,
    statuses: Statuses,
    /// Most sessions, trees, opens, locks and names at a time.
    most: [u64; 5],
    holders: Holders,
    processes: Processes,
    core: CoreCommands,
    opening: Opening,
    changes: Changes,
    ends: Ends,
}

/// The tables before and after a call that was done.
pub struct Around {
    pub before: Tables,
    pub after: Tables,
}

impl Around {
    fn new(before: &Words, after: &Words) -> Option<Around> {
        Some(Around {
            before: unpack(before)?,
            after: unpack(after)?,
        })
    }
}

/// Every call's numbers, from "What a call returns".
const NUMBERS: [(&str, &[u8]); 11] = [
    ("add_session", &[0, 4, 5]),
    ("add_tree", &[0, 4, 5, 6, 7]),
    ("add_open", &[0, 4, 5, 6, 7, 8]),
    ("load_file", &[0, 2, 4, 7, 9]),
    ("drop_connection", &[0, 4]),
    ("end_session", &[0, 4, 6]),
    ("end_tree", &[0, 4, 6]),
    ("end_open", &[0, 4, 6]),
    ("set_catalogue", &[0, 4, 7]),
    ("unchanged", &[0, 4, 6]),
    ("take_message", &[0, 1, 2, 4]),
];

/// A call's arguments that can be wider than their fields: what it is, its
/// value, the field's largest value, and the refusal above that.
fn arguments(call: &Call) -> Vec<(&'static str, u32, u32, u8)> {
    const NUMBER: u32 = u16::MAX as u32;
    const SMALL: u32 = u8::MAX as u32;
    match *call {
        Call::AddTree { uid, right } => vec![
            ("a tree's UID", uid, NUMBER, 6),
            ("a tree's right", right, SMALL, 7),
        ],
        Call::AddOpen {
            uid,
            tid,
            file,
            access,
            ..
        } => vec![
            ("an open's UID", uid, NUMBER, 6),
            ("an open's TID", tid, NUMBER, 6),
            ("an open's file", file, SMALL, 7),
            ("an open's access", access, SMALL, 7),
        ],
        Call::LoadFile { file, .. } => vec![("a load's file", file, SMALL, 7)],
        Call::EndSession { uid } => vec![("an ended session's UID", uid, NUMBER, 6)],
        Call::EndTree { tid } => vec![("an ended tree's TID", tid, NUMBER, 6)],
        Call::EndOpen { fid } => vec![("an ended open's FID", fid, NUMBER, 6)],
        Call::Unchanged { fid } => vec![("a question's FID", fid, NUMBER, 6)],
        _ => Vec::new(),
    }
}

/// Each that [`arguments`] names.
const WIDE: [&str; 11] = [
    "a tree's UID",
    "a tree's right",
    "an open's UID",
    "an open's TID",
    "an open's file",
    "an open's access",
    "a load's file",
    "an ended session's UID",
    "an ended tree's TID",
    "an ended open's FID",
    "a question's FID",
];

fn length_class(blocks: usize) -> &'static str {
    match blocks {
        1 => "  1",
        2 => "  2",
        3 => "  3",
        4 => "  4",
        5..=9 => "  5 to 9",
        10..=99 => " 10 to 99",
        100..=199 => "100 to 199",
        _ => "200 and more",
    }
}

/// The commands that a reply has blocks of, by its links.
pub fn commands(message: &[u8], reply: &[u8]) -> Vec<u8> {
    let mut commands = vec![message[4]];
    let (mut command, mut offset) = (message[4], 32);
    while is_andx(command) && reply[offset] >= 2 && reply[offset + 1] != 0xFF {
        command = reply[offset + 1];
        commands.push(command);
        offset = usize::from(reply[offset + 3]) + 256 * usize::from(reply[offset + 4]);
    }
    commands
}

impl Tally {
    pub fn begin_history(&mut self) {
        self.histories += 1;
        self.core.begin_history();
        self.opening.begin_history();
        self.changes.begin_history();
    }

    /// Counts a call, these being the reply room after it, and the words before
    /// and after it.
    pub fn count(
        &mut self,
        trial: &Trial,
        given: Given,
        room: &[u8],
        before: &Words,
        after: &Words,
    ) {
        self.calls += 1;
        *self
            .numbers
            .entry((trial.name(), given.number))
            .or_default() += 1;
        for (name, value, largest, refusal) in trial.call().map(arguments).unwrap_or_default() {
            if value > largest && given.number == refusal {
                *self.wide.entry(name).or_default() += 1;
            }
        }
        let reply = match (trial.call(), given.number) {
            (Some(Call::TakeMessage { .. }), 0) => &room[..given.value],
            _ => &[],
        };
        if let Some(call) = trial.call() {
            let around = match given.number {
                0 => Around::new(before, after),
                _ => None,
            };
            if let Some(around) = &around {
                self.processes.count(call, reply, around);
                self.core.count(call, reply, &around.before);
            }
            let around = around.as_ref();
            self.opening.count(call, given, reply, before, around);
            self.changes
                .count(call, given, reply, (before, after), around);
            self.ends.count(call, given.number, before, around);
        }
        if let Some(Call::TakeMessage { message, .. }) = trial.call() {
            self.holders.count(message, given, reply, after);
            if given.number == 0 {
                self.count_reply(message, reply);
            }
        }
    }

    pub fn count_tables(&mut self, words: &[u64]) {
        let counts = [
            places::SESSIONS,
            places::TREES,
            places::OPENS,
            places::LOCKS,
            places::NAMES,
        ];
        for (most, place) in self.most.iter_mut().zip(counts) {
            *most = words[place].max(*most);
        }
    }

    fn count_reply(&mut self, message: &[u8], reply: &[u8]) {
        let commands = commands(message, reply);
        for pair in commands.windows(2) {
            self.succession(pair[0], pair[1]);
        }
        let last = commands[commands.len() - 1];
        self.statuses.count(message, reply, last);
        let mut done = &commands[..];
        if let Some(refusal) = refusal(Status::of(reply), last) {
            let of = match refusal {
                WireRefusal::NotServed => 0,
                _ => last,
            };
            *self.refused.entry((refusal, of)).or_default() += 1;
            if commands.len() > 1 {
                *self.refused_later.entry(refusal).or_default() += 1;
            }
            done = &commands[..commands.len() - 1];
        }
        for &command in done {
            *self.done.entry(command).or_default() += 1;
        }
        *self
            .lengths
            .entry(length_class(commands.len()))
            .or_default() += 1;
        self.longest = self.longest.max(commands.len());
    }

    fn succession(&mut self, first: u8, next: u8) {
        *self.successions.entry((first, next)).or_default() += 1;
    }

    /// Prints the counts. False if something was met too seldom.
    pub fn print(&self) -> bool {
        println!("calls: {} in {} histories", self.calls, self.histories);
        println!(
            "tables damaged before a call: {}, sound all the same: {}",
            self.damaged, self.damaged_but_sound
        );
        println!("most sessions, trees, opens, locks, names: {:?}", self.most);
        let full = self.most == [16, 32, 64, 128, 16];
        if !full {
            println!("FAILED: some table was never full");
        }
        let parts = [
            full,
            self.print_numbers(),
            self.print_wide(),
            self.print_refused(),
            self.print_done(),
            self.print_chains(),
            self.statuses.print(),
            self.holders.print(),
            self.processes.print(),
            self.core.print(),
            self.opening.print(),
            self.changes.print(),
            self.ends.print(),
        ];
        parts.into_iter().all(|good| good)
    }

    fn print_numbers(&self) -> bool {
        let mut good = true;
        println!("numbers returned:");
        for (name, numbers) in NUMBERS {
            let counts: Vec<String> = self
                .numbers
                .iter()
                .filter(|((of, _), _)| *of == name)
                .map(|((_, number), count)| format!("{number}: {count}"))
                .collect();
            println!("  {name}: {}", counts.join(", "));
            for &number in numbers {
                let count = self.numbers.get(&(name, number)).copied().unwrap_or(0);
                good &= enough(count, LEAST, &format!("{name} giving {number}"));
            }
        }
        good
    }

    fn print_wide(&self) -> bool {
        let mut good = true;
        println!("refused with an argument wider than its field:");
        for name in WIDE {
            let count = self.wide.get(name).copied().unwrap_or(0);
            println!("  {name}: {count}");
            good &= enough(count, LEAST, &format!("{name} wider than its field"));
        }
        good
    }

    fn print_refused(&self) -> bool {
        let mut good = true;
        println!("refused on the wire (all; behind others in a chain; by command):");
        for refusal in WireRefusal::ALL {
            let of: Vec<(u8, usize)> = self
                .refused
                .iter()
                .filter(|((of, _), _)| *of == refusal)
                .map(|((_, command), count)| (*command, *count))
                .collect();
            let all: usize = of.iter().map(|(_, count)| count).sum();
            let later = self.refused_later.get(&refusal).copied().unwrap_or(0);
            let by: Vec<String> = of.iter().map(|(c, n)| format!("{c:02X}: {n}")).collect();
            let [smb, nt] = StatusForm::BOTH.map(|form| refusal.status(form));
            let name = format!("{smb}, {nt}");
            println!("  {name}: {all}; {later}; {}", by.join(", "));
            good &= enough(all, LEAST, &name);
            for command in SERVED {
                if possible(refusal, command) {
                    let count = self.refused.get(&(refusal, command)).copied().unwrap_or(0);
                    let what = format!("{name} for {command:02X}");
                    good &= enough(count, LEAST_OF_COMMAND, &what);
                }
            }
        }
        good
    }

    fn print_done(&self) -> bool {
        let mut good = true;
        println!("commands done:");
        for command in SERVED {
            let count = self.done.get(&command).copied().unwrap_or(0);
            println!("  {command:02X}: {count}");
            good &= enough(count, LEAST, &format!("{command:02X} done"));
        }
        good
    }

    fn print_chains(&self) -> bool {
        let mut good = true;
        println!("blocks in a reply:");
        for (class, count) in &self.lengths {
            println!("  {class}: {count}");
        }
        println!("  most: {}", self.longest);
        for blocks in [1, 2, 3, 4, 5, 10, 100, 200] {
            let class = length_class(blocks);
            let count = self.lengths.get(class).copied().unwrap_or(0);
            good &= enough(count, LEAST, &format!("replies of {} blocks", class.trim()));
        }
        println!("successions in replies:");
        for (first, next) in [
            (0x24, 0x2E),
            (0x24, 0x2F),
            (0x24, 0x0A),
            (0x24, 0x0B),
            (0x2E, 0x04),
            (0x2F, 0x2F),
            (0x2F, 0x2E),
            (0x2F, 0x04),
            (0x2D, 0x2E),
        ] {
            let count = self.successions.get(&(first, next)).copied().unwrap_or(0);
            println!("  {first:02X} {next:02X}: {count}");
            good &= enough(count, LEAST, &format!("succession {first:02X} {next:02X}"));
        }
        good
    }
}
