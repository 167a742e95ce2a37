//! Counts what came of processes above 65,535, and of twins: two processes that
//! differ in the upper half only (document 02, request 4). Their locks as
//! holders are counted with the holders.

use crate::core_commands::between;
use crate::counts::Counts;
use crate::tally::{commands, Around};
use second::call::Call;
use second::grammar::{blocks, READ, WRITE};
use second::header::header_numbers;
use second::processes::{above_65_535, twins};
use second::request::{OwnedRange, Request, TYPE_LARGE};
use second::status::class_and_code;
use second::tables::{Lock, Open, Range, Tables};

/// What is to be met.
const MET: [&str; 12] = [
    "open added for a process above 65,535",
    "open added beside a twin's of the same UID",
    "PROCESS_EXIT takes opens, a twin's stays",
    "PROCESS_EXIT takes opens, a twin's stays with its lock",
    "PROCESS_EXIT takes nothing, a twin's open stays",
    "PROCESS_EXIT of a process above 65,535 takes opens",
    "READ done over an own exclusive lock of a process above 65,535",
    "WRITE done over an own exclusive lock of a process above 65,535",
    "core READ done over an own exclusive lock of a process above 65,535",
    "core WRITE done over an own exclusive lock of a process above 65,535",
    "size set over an own exclusive lock of a process above 65,535",
    "LOCK: lock taken with PIDHigh not 0",
];
/// Of UNLOCK as of each form of ranges.
const RELEASES: [&str; 3] = ["10 bytes", "20 bytes", "UNLOCK"];
/// Of ranges of 10 bytes and of 20.
const TAKEN: &str = "lock taken with PIDHigh not 0";
const MET_BY_RELEASE: [&str; 3] = [
    "unlock done with PIDHigh not 0",
    "unlock done, a twin's lock alike standing before it",
    "unlock refused 1/158, a twin holding such a lock",
];

#[derive(Default)]
pub struct Processes {
    counts: Counts,
}

impl Processes {
    /// Counts a call that was done.
    pub fn count(&mut self, call: &Call, reply: &[u8], around: &Around) {
        let Around { before, after } = around;
        match *call {
            Call::AddOpen { uid, process, .. } => {
                let mut opens = before.opens.in_use().iter();
                let beside = opens.any(|o| u32::from(o.uid) == uid && twins(o.process, process));
                let what = "open added for a process above 65,535";
                self.counts.met_if(above_65_535(process), what);
                let what = "open added beside a twin's of the same UID";
                self.counts.met_if(beside, what);
            }
            Call::TakeMessage { ref message, .. } if blocks(message).all(|block| block.is_ok()) => {
                self.count_first(message, reply, before, after)
            }
            _ => {}
        }
    }

    /// What became of the first command of a sentence, which found the tables
    /// as they were before.
    fn count_first(&mut self, message: &[u8], reply: &[u8], before: &Tables, after: &Tables) {
        let Some(block) = blocks(message).flatten().next() else {
            return;
        };
        let (uid, _, process) = header_numbers(message);
        let done = class_and_code(reply) == (0, 0) || commands(message, reply).len() > 1;
        let held = before.locks.in_use();
        let request = Request::read(message, &block);
        let covered = covered(block.command, &request, before);
        if let Some((what, fid, range)) = covered.filter(|_| done) {
            self.count_over(held, (fid, process), range, what);
        }
        match request {
            Request::ProcessExit if done => {
                self.count_exit(uid, process, before.opens.count, after);
            }
            Request::Locking {
                fid,
                kind,
                unlocks,
                locks,
            } if done || class_and_code(reply) == (1, 158) => {
                let form = match kind & TYPE_LARGE {
                    0 => "10 bytes",
                    _ => "20 bytes",
                };
                let taken = done && !locks.is_empty() && above_65_535(process);
                self.counts.met_if(taken, &format!("{form}: {TAKEN}"));
                self.count_unlocks(fid, unlocks.iter(), form, held, done);
            }
            Request::Lock { .. } if done => {
                let what = format!("LOCK: {TAKEN}");
                self.counts.met_if(above_65_535(process), &what);
            }
            Request::Unlock { fid, range } if done || class_and_code(reply) == (1, 158) => {
                let unlock = OwnedRange { process, range };
                self.count_unlocks(fid, std::iter::once(unlock), "UNLOCK", held, done);
            }
            _ => {}
        }
    }

    /// A read or a write of an owner that was done.
    fn count_over(&mut self, held: &[Lock], owner: (u16, u32), range: Range, what: &str) {
        let what = format!("{what} over an own exclusive lock of a process above 65,535");
        let own = |lock: &Lock| (lock.fid, lock.process) == owner && !lock.shared;
        let over = held
            .iter()
            .any(|lock| own(lock) && lock.range.overlaps(range));
        self.counts.met_if(over && above_65_535(owner.1), &what);
    }

    /// So many opens there were before.
    fn count_exit(&mut self, uid: u16, process: u32, before: usize, after: &Tables) {
        let takes = after.opens.count < before;
        let is_twins = |open: &&Open| open.uid == uid && twins(open.process, process);
        let left: Vec<u16> = after
            .opens
            .in_use()
            .iter()
            .filter(is_twins)
            .map(|open| open.fid)
            .collect();
        let mut locks = after.locks.in_use().iter();
        let locked = locks.any(|lock| left.contains(&lock.fid) && twins(lock.process, process));
        let what = match takes {
            true => "PROCESS_EXIT takes opens, a twin's stays",
            false => "PROCESS_EXIT takes nothing, a twin's open stays",
        };
        self.counts.met_if(!left.is_empty(), what);
        let what = "PROCESS_EXIT takes opens, a twin's stays with its lock";
        self.counts.met_if(takes && locked, what);
        let what = "PROCESS_EXIT of a process above 65,535 takes opens";
        self.counts.met_if(takes && above_65_535(process), what);
    }

    /// The unlocks in turn, up to the first that finds no lock.
    fn count_unlocks(
        &mut self,
        fid: u16,
        unlocks: impl Iterator<Item = OwnedRange>,
        form: &str,
        held: &[Lock],
        done: bool,
    ) {
        let mut list = held.to_vec();
        for unlock in unlocks {
            let alike = |lock: &Lock| lock.fid == fid && lock.range == unlock.range;
            let equal = |lock: &Lock| alike(lock) && lock.process == unlock.process;
            let is_twins = |lock: &Lock| alike(lock) && twins(lock.process, unlock.process);
            let Some(place) = list.iter().position(equal) else {
                let what = format!("{form}: unlock refused 1/158, a twin holding such a lock");
                return self.counts.met_if(list.iter().any(is_twins), &what);
            };
            let behind = list[..place].iter().any(is_twins);
            list.remove(place);
            let what = format!("{form}: unlock done with PIDHigh not 0");
            let above = above_65_535(unlock.process);
            self.counts.met_if(done && above, &what);
            let what = format!("{form}: unlock done, a twin's lock alike standing before it");
            self.counts.met_if(done && behind, &what);
        }
    }

    /// Prints the counts. False if something was met too seldom.
    pub fn print(&self) -> bool {
        let title = "processes above 65,535, and twins, which differ in the upper half only";
        self.counts.print(title, required())
    }
}

/// All that must be met.
fn required() -> Vec<String> {
    let mut all: Vec<String> = MET.map(str::to_string).into();
    all.extend(["10 bytes", "20 bytes"].map(|form| format!("{form}: {TAKEN}")));
    for form in RELEASES {
        all.extend(MET_BY_RELEASE.map(|what| format!("{form}: {what}")));
    }
    all
}

/// What a read or a write is called here, its FID, and the bytes that it covers.
fn covered<'n>(command: u8, request: &Request, before: &Tables) -> Option<(&'n str, u16, Range)> {
    match *request {
        Request::Read { fid, range } if command == READ => Some(("core READ done", fid, range)),
        Request::Read { fid, range } => Some(("READ done", fid, range)),
        Request::Write { fid, offset, data } => {
            let length = data.len() as u64;
            let what = match command {
                WRITE => "core WRITE done",
                _ => "WRITE done",
            };
            Some((what, fid, Range { offset, length }))
        }
        Request::Resize { fid, size } => Some(("size set", fid, between(before, fid, size))),
        _ => None,
    }
}
