//! Counts what became of the words for the holder of a lock: with each answer,
//! and with 1/33 who held it. The list as it then stood is written out here, and
//! what the words say must be in it at that place.

use crate::core_commands::between;
use crate::counts::Counts;
use crate::sides::Given;
use crate::tally::commands;
use second::grammar::{blocks, LOCKING_ANDX, LOCK_BYTE_RANGE, READ, READ_ANDX, WRITE};
use second::header::header_numbers;
use second::processes::{above_65_535, twins};
use second::refusals::WireRefusal;
use second::request::{OwnedRange, Request, TYPE_SHARED};
use second::status::class_and_code;
use second::tables::{Lock, Range, Tables};
use second::words::{unpack, HolderWords, Words};

/// Where the command that a lock barred stood.
const PLACES: [&str; 4] = ["alone", "before others", "second", "third or later"];

/// The commands that a lock can bar, each with where it can stand.
const BARRED: [(&str, &[&str]); 7] = [
    ("LOCKING", &["alone", "before others"]),
    ("READ", &PLACES),
    ("WRITE", &PLACES),
    ("core READ", &["alone", "second"]),
    ("core WRITE", &["alone", "second"]),
    ("count 0", &["alone", "second"]),
    ("LOCK", &["alone"]),
];
const READS: [&str; 2] = ["READ", "core READ"];
const WRITES: [&str; 3] = ["WRITE", "core WRITE", "count 0"];

/// What is to be met of the holders of reads.
const MET_BY_READS: [&str; 3] = [
    "a lock held through another FID",
    "a lock held through the same FID by another process",
    "a lock held through the same FID by a twin",
];
/// Of writes and sizes.
const MET_BY_WRITES: [&str; 4] = [
    "the writer's own shared lock",
    "another's shared lock",
    "another's exclusive lock",
    "an exclusive lock held through the same FID by a twin",
];
/// Of core commands behind a LOCKING.
const GRANTED: &str = "a lock granted by the LOCKING before it";
/// Of locks, and of a chain.
const MET: [&str; 16] = [
    "LOCK: the asker's own exclusive lock",
    "LOCK: the asker's own shared lock",
    "LOCK: another's exclusive lock",
    "LOCK: another's shared lock",
    "LOCKING: the asker's own lock",
    "LOCKING: for a shared lock",
    "LOCKING: moved by unlocks of the same request",
    "LOCKING: in a request whose unlocks are all behind it",
    "LOCKING: an own earlier range",
    "LOCKING: an own earlier range behind unlocks",
    "LOCKING: an own earlier range of another process than the header's",
    "LOCKING: an own earlier range of a process above 65,535",
    "LOCKING: a lock held, in the way of a range behind the first",
    "LOCKING: while a later range meets an earlier lock",
    "LOCKING: at a place above 127",
    "a lock granted by an earlier command of the chain",
];
/// Of each command.
const MET_BY_EACH: [&str; 3] = [
    "while another lock behind it is in the way too",
    "behind a lock of another file that overlaps",
    "behind a lock of length 0 inside the range",
];
const ABOVE: &str = "a lock of a process above 65,535";

#[derive(Default)]
pub struct Holders {
    /// What was written with each answer.
    answers: Counts,
    counts: Counts,
    /// What should not be.
    wrong: Vec<String>,
}

impl Holders {
    /// Counts a message, these being the words after it.
    pub fn count(&mut self, message: &[u8], given: Given, reply: &[u8], words: &Words) {
        let answer = match (given.number, class_and_code(reply)) {
            (0, (0, 0)) => "done".to_string(),
            (0, (class, code)) => format!("{class}/{code}"),
            (number, _) => format!("number {number}"),
        };
        let written = match given.holder {
            None => "not written",
            Some([0, 0, 0, 0, 0, 0]) => "nobody",
            Some([1, ..]) => "a holder",
            Some(_) => "no such words",
        };
        self.answers.met(format!("{answer}: {written}"));
        if let (0, (1, 33), Some(holder)) = (given.number, class_and_code(reply), given.holder) {
            let begun = commands(message, reply).len();
            match Conflict::new(message, begun, holder, words) {
                Ok(conflict) => conflict.count(self),
                Err(what) => self.wrong.push(what),
            }
        }
    }

    /// Prints the counts. False if something was met too seldom, or was wrong.
    pub fn print(&self) -> bool {
        let title = "words for the holder of a lock, by answer";
        let mut good = self.answers.print_all(title, &answers());
        good &= self.counts.print("holders", holders());
        for what in self.wrong.iter().take(5) {
            println!("FAILED: {what}");
        }
        good && self.wrong.is_empty()
    }
}

/// Every answer with what it must leave in the words, "Only 1/33 has a holder".
fn answers() -> Vec<String> {
    let mut all = vec!["done: nobody".to_string()];
    all.extend([1, 2, 4].map(|number| format!("number {number}: not written")));
    for refusal in WireRefusal::ALL {
        let (class, code) = refusal.class_and_code();
        let written = match refusal {
            WireRefusal::LockNotGranted | WireRefusal::FileLockConflict => "a holder",
            _ => "nobody",
        };
        all.push(format!("{class}/{code}: {written}"));
    }
    all
}

fn holders() -> Vec<String> {
    let mut all = Vec::new();
    for (command, places) in BARRED {
        all.extend(places.iter().map(|place| format!("{command} {place}")));
        all.extend(MET_BY_EACH.map(|what| format!("{command}: {what}")));
        all.push(format!("{command}: {ABOVE}"));
    }
    for command in READS {
        all.extend(MET_BY_READS.map(|what| format!("{command}: {what}")));
    }
    for command in WRITES {
        all.extend(MET_BY_WRITES.map(|what| format!("{command}: {what}")));
    }
    for command in ["core READ", "core WRITE", "count 0"] {
        all.push(format!("{command}: {GRANTED}"));
    }
    all.extend(MET.map(str::to_string));
    all
}

/// The name of a command that a lock can bar.
fn name(command: u8, request: &Request) -> &'static str {
    match (command, request) {
        (LOCKING_ANDX, _) => "LOCKING",
        (LOCK_BYTE_RANGE, _) => "LOCK",
        (READ_ANDX, _) => "READ",
        (READ, _) => "core READ",
        (WRITE, Request::Resize { .. }) => "count 0",
        (WRITE, _) => "core WRITE",
        _ => "WRITE",
    }
}

/// A lock conflict: what the papers let be known of it.
struct Conflict<'m> {
    requests: Vec<Request<'m>>,
    /// The place in the chain of the one refused.
    refused: usize,
    /// Its name.
    command: &'static str,
    /// The header's process.
    process: u32,
    /// As the call left them, so as the refused command found them.
    tables: Tables,
    /// The list as it then stood, each lock with its place in the table; behind
    /// them the ranges of the request.
    list: Vec<(Option<usize>, Lock)>,
    /// The holder's place in it.
    place: usize,
}

impl<'m> Conflict<'m> {
    /// The error says what the words have that the list has not.
    fn new(
        message: &'m [u8],
        begun: usize,
        holder: HolderWords,
        words: &Words,
    ) -> Result<Conflict<'m>, String> {
        let read: Vec<_> = blocks(message).flatten().collect();
        let requests = read.iter().map(|block| Request::read(message, block));
        let mut requests: Vec<_> = requests.collect();
        let tables = unpack(words).ok_or("a holder in tables that are not sound")?;
        if let [Request::Open(_), read, ..] = &mut requests[..] {
            let opened = tables.opens.in_use().last().map(|open| open.fid);
            *read = read.behind_open(opened);
        }
        let list = list(&tables, &requests[begun - 1]);
        let place = holder[3] as usize;
        let named = list.get(place).map(|(_, lock)| {
            let (fid, process) = (lock.fid.into(), lock.process.into());
            [
                1,
                fid,
                process,
                holder[3],
                lock.range.offset,
                lock.range.length,
            ]
        });
        if named != Some(holder) {
            return Err(format!("holder {holder:?}, at its place {named:?}"));
        }
        Ok(Conflict {
            command: name(read[begun - 1].command, &requests[begun - 1]),
            requests,
            refused: begun - 1,
            process: header_numbers(message).2,
            tables,
            list,
            place,
        })
    }

    fn request(&self) -> &Request<'m> {
        &self.requests[self.refused]
    }

    fn holder(&self) -> &Lock {
        &self.list[self.place].1
    }

    fn file(&self, fid: u16) -> Option<u8> {
        self.tables.open_of(fid).map(|open| open.file)
    }

    fn count(&self, holders: &mut Holders) {
        let command = self.command;
        let place = match (self.refused, self.requests.len()) {
            (0, 1) => PLACES[0],
            (0, _) => PLACES[1],
            (1, _) => PLACES[2],
            _ => PLACES[3],
        };
        holders.counts.met(format!("{command} {place}"));
        holders.counts.met_if(
            above_65_535(self.holder().process),
            &format!("{command}: {ABOVE}"),
        );
        match *self.request() {
            Request::Locking { fid, kind, .. } => {
                self.count_locking(holders, fid, kind & TYPE_SHARED != 0)
            }
            Request::Lock { fid, range } => {
                self.count_around(&mut holders.counts, fid, range, |_| true);
                self.count_lock(&mut holders.counts, fid);
            }
            Request::Read { fid, range } => {
                let own = |lock: &Lock| self.owns(fid, lock);
                self.count_around(&mut holders.counts, fid, range, |l| !l.shared && !own(l));
                self.count_read(&mut holders.counts, fid);
            }
            Request::Write { fid, offset, data } => {
                let length = data.len() as u64;
                self.count_write(&mut holders.counts, fid, Range { offset, length });
            }
            Request::Resize { fid, size } => {
                self.count_write(&mut holders.counts, fid, between(&self.tables, fid, size));
            }
            _ => holders
                .wrong
                .push(format!("{:?} has a holder", self.request())),
        }
        let granted = match self.requests[0] {
            Request::Locking { locks, .. } if self.refused > 0 => locks.len(),
            _ => 0,
        };
        let earlier = self.place >= self.tables.locks.count - granted;
        let what = "a lock granted by an earlier command of the chain";
        holders.counts.met_if(self.refused > 0 && earlier, what);
        let what = format!("{command}: {GRANTED}");
        holders.counts.met_if(self.refused == 1 && earlier, &what);
    }

    /// Whether the sender holds the lock through the FID.
    fn owns(&self, fid: u16, lock: &Lock) -> bool {
        (lock.fid, lock.process) == (fid, self.process)
    }

    fn count_lock(&self, counts: &mut Counts, fid: u16) {
        let whose = match self.owns(fid, self.holder()) {
            true => "the asker's own",
            false => "another's",
        };
        let kind = match self.holder().shared {
            true => "shared",
            false => "exclusive",
        };
        counts.met(format!("LOCK: {whose} {kind} lock"));
    }

    fn count_read(&self, counts: &mut Counts, fid: u16) {
        let [elsewhere, same, twin] = MET_BY_READS;
        let what = if self.holder().fid == fid {
            same
        } else {
            elsewhere
        };
        counts.met(format!("{}: {what}", self.command));
        counts.met_if(self.is_twins(fid), &format!("{}: {twin}", self.command));
    }

    /// Whether the holder's process differs in the upper half only.
    fn is_twins(&self, fid: u16) -> bool {
        self.holder().fid == fid && twins(self.holder().process, self.process)
    }

    /// A write, or a size set, that covers the range.
    fn count_write(&self, counts: &mut Counts, fid: u16, range: Range) {
        let own = |lock: &Lock| self.owns(fid, lock);
        self.count_around(counts, fid, range, |l| l.shared || !own(l));
        let [own_shared, shared, exclusive, twin] = MET_BY_WRITES;
        let what = match (own(self.holder()), self.holder().shared) {
            (true, _) => own_shared,
            (false, true) => shared,
            (false, false) => exclusive,
        };
        counts.met(format!("{}: {what}", self.command));
        let twins = self.is_twins(fid) && !self.holder().shared;
        counts.met_if(twins, &format!("{}: {twin}", self.command));
    }

    /// Counts the others in the way, and those that are not, around the holder.
    /// The test does not look at file and range.
    fn count_around(
        &self,
        counts: &mut Counts,
        fid: u16,
        range: Range,
        in_the_way: impl Fn(&Lock) -> bool,
    ) {
        let (before, behind) = self.list.split_at(self.place);
        let same = |lock: &Lock| self.file(lock.fid) == self.file(fid);
        let meets = |lock: &Lock| lock.range.overlaps(range) && in_the_way(lock);
        // Only locks held: of the request's own some come later.
        let mut behind = behind[1..].iter().filter(|(held, _)| held.is_some());
        let found = [
            behind.any(|(_, lock)| same(lock) && meets(lock)),
            before.iter().any(|(_, lock)| !same(lock) && meets(lock)),
            before.iter().any(|(_, lock)| {
                let inside = range.start() < lock.range.start() && lock.range.end() < range.end();
                same(lock) && inside && lock.range.length == 0
            }),
        ];
        for (what, found) in MET_BY_EACH.into_iter().zip(found) {
            counts.met_if(found, &format!("{}: {what}", self.command));
        }
    }

    fn count_locking(&self, holders: &mut Holders, fid: u16, shared: bool) {
        let Request::Locking { unlocks, locks, .. } = *self.request() else {
            return;
        };
        let asked: Vec<OwnedRange> = locks.iter().collect();
        let kept = self.list.len() - asked.len();
        let own = self.place.checked_sub(kept);
        // The first range that meets it, behind itself if it is one of them.
        let from = own.map_or(0, |own| own + 1);
        let barred = |asked: &OwnedRange| asked.range.overlaps(self.holder().range);
        let Some(at) = asked[from..].iter().position(barred) else {
            return holders
                .wrong
                .push("a holder that bars no range".to_string());
        };
        let counts = &mut holders.counts;
        let at = from + at;
        let range = asked[at].range;
        self.count_around(counts, fid, range, |l| !(l.shared && shared));
        counts.met_if(shared, "LOCKING: for a shared lock");
        match (own, self.list[self.place].0) {
            (None, Some(in_table)) => {
                let owner = (fid, asked[at].process);
                let own = (self.holder().fid, self.holder().process) == owner;
                counts.met_if(own, "LOCKING: the asker's own lock");
                self.count_moved(counts, in_table, !unlocks.is_empty());
                let later = "LOCKING: a lock held, in the way of a range behind the first";
                counts.met_if(at > 0, later);
            }
            _ => self.count_own(counts, !unlocks.is_empty()),
        }
        let earlier = &self.list[..self.place.min(kept)];
        let crossed = asked[at + 1..].iter().any(|asked| {
            let meets = |lock: &Lock| lock.range.overlaps(asked.range) && !(lock.shared && shared);
            let same = |lock: &Lock| self.file(lock.fid) == self.file(fid);
            earlier.iter().any(|(_, lock)| same(lock) && meets(lock))
        });
        counts.met_if(
            crossed,
            "LOCKING: while a later range meets an earlier lock",
        );
        counts.met_if(self.place > 127, "LOCKING: at a place above 127");
    }

    fn count_moved(&self, counts: &mut Counts, in_table: usize, unlocks: bool) {
        let moved = in_table != self.place;
        counts.met_if(moved, "LOCKING: moved by unlocks of the same request");
        let behind = "LOCKING: in a request whose unlocks are all behind it";
        counts.met_if(unlocks && !moved, behind);
    }

    fn count_own(&self, counts: &mut Counts, unlocks: bool) {
        counts.met("LOCKING: an own earlier range");
        counts.met_if(unlocks, "LOCKING: an own earlier range behind unlocks");
        let other = self.holder().process != self.process;
        let what = "LOCKING: an own earlier range of another process than the header's";
        counts.met_if(other, what);
        let what = "LOCKING: an own earlier range of a process above 65,535";
        counts.met_if(above_65_535(self.holder().process), what);
    }
}

/// The list as a request finds it: without what it releases, its own ranges at
/// the end.
fn list(tables: &Tables, request: &Request) -> Vec<(Option<usize>, Lock)> {
    let held = tables.locks.in_use().iter().enumerate();
    let mut list: Vec<_> = held.map(|(place, &lock)| (Some(place), lock)).collect();
    if let Request::Locking {
        fid,
        kind,
        unlocks,
        locks,
    } = *request
    {
        for unlock in unlocks.iter() {
            let alike = |(_, lock): &(Option<usize>, Lock)| {
                lock.fid == fid && lock.process == unlock.process && lock.range == unlock.range
            };
            if let Some(place) = list.iter().position(alike) {
                list.remove(place);
            }
        }
        list.extend(locks.iter().map(|asked| {
            let lock = Lock {
                fid,
                process: asked.process,
                range: asked.range,
                shared: kind & TYPE_SHARED != 0,
            };
            (None, lock)
        }));
    }
    list
}
