//! Counts what a history reaches, and tells what it must reach.

mod change_tally;
mod core_tally;
mod end_tally;
mod open_tally;
pub mod status_tally;

use crate::calls::Answer;
use second::call::Call;
use second::grammar::{
    blocks, is_andx, Block, Why, CLOSE, LOCKING_ANDX, LOCK_BYTE_RANGE, LOGOFF_ANDX, OPEN_ANDX,
    PROCESS_EXIT, READ, READ_ANDX, SERVED, TREE_DISCONNECT, UNLOCK_BYTE_RANGE, WRITE, WRITE_ANDX,
};
use second::header::header_numbers;
use second::listing::{self, Dropped};
use second::messages::SUCCESSIONS;
use second::processes::{above_65_535, twins};
use second::refusals::WireRefusal;
use second::request::{Ranges, Request, TYPE_LARGE};
use second::status::{class_and_code, Status};
use second::tables::{Lock, Range, Tables, FILE_BYTES, LOCKS, OPENS, SESSIONS, TREES};
use std::collections::{BTreeMap, BTreeSet};

/// The numbers that these calls can return, on sound tables.
const NUMBERS: [u8; 7] = [0, 1, 5, 6, 7, 8, 9];

/// Single things to be reached, with the least count.
const SINGLE: [(&str, usize); 44] = [
    ("add a session: 5", 3),
    ("add a tree: 5", 3),
    ("add a tree: 6", 3),
    ("add a tree: 7", 3),
    ("add an open: 5", 3),
    ("add an open: 6", 3),
    ("add an open: 7", 3),
    ("add an open: 8", 3),
    ("load a file: 0", 10),
    ("load a file: 7", 3),
    ("load a file: 9", 3),
    ("drop a known connection: 0", 3),
    ("drop an unknown connection: 0", 3),
    ("UID used again", 5),
    ("TID used again", 5),
    ("FID used again", 20),
    ("16 sessions held", 1),
    ("32 trees held", 1),
    ("64 opens held", 1),
    ("128 locks held", 5),
    ("read of 0 bytes", 3),
    ("read of fewer bytes than asked", 5),
    ("read of 4096 bytes", 1),
    ("write of 0 bytes", 5),
    ("write over a gap", 3),
    ("write that ends at 4096", 3),
    ("lock of length 0", 5),
    ("lock that ends at 2^64", 3),
    ("locks removed with an open", 5),
    ("open of a process above 65,535", 10),
    ("PROCESS_EXIT takes opens, a twin's stays", 5),
    ("PROCESS_EXIT takes nothing, a twin's open stays", 5),
    ("READ: holder a twin's lock of the same FID", 5),
    ("WRITE: holder a twin's lock of the same FID", 5),
    ("chain refused behind a command that stands", 10),
    ("done: nobody holds", 300),
    ("number 1: holder not written", 10),
    ("holder moved by unlocks", 5),
    ("holder not moved by the unlocks behind it", 2),
    ("holder an own earlier range", 5),
    ("holder an own earlier range, behind unlocks", 2),
    ("holder at a place above 127", 2),
    ("holder is WRITE's own owner", 5),
    ("holder is LOCKING's own owner", 5),
];
/// The two forms of ranges.
const FORMS: [&str; 2] = ["range of 10 bytes", "range of 20 bytes"];
/// The commands that a lock can bar.
const BARRED: [u8; 6] = [
    LOCKING_ANDX,
    READ_ANDX,
    WRITE_ANDX,
    READ,
    WRITE,
    LOCK_BYTE_RANGE,
];

#[derive(Default)]
pub struct Tally {
    counts: BTreeMap<String, usize>,
    /// The numbers given out so far, by kind of number.
    given: BTreeSet<(&'static str, usize)>,
}

impl Tally {
    pub fn count(&mut self, thing: impl Into<String>) {
        *self.counts.entry(thing.into()).or_default() += 1;
    }

    fn count_if(&mut self, holds: bool, thing: &str) {
        if holds {
            self.count(thing);
        }
    }

    /// Counts what a call reached.
    pub fn note(
        &mut self,
        call: &Call,
        answer: &Answer,
        before: &Tables,
        after: &Tables,
        unchanged: bool,
    ) {
        self.count(format!("number {}", answer.number));
        self.note_full(after);
        match call {
            Call::AddSession { .. } => self.note_add("a session", "UID", answer),
            Call::AddTree { right, .. } => {
                self.note_add("a tree", "TID", answer);
                self.count_if(answer.number == 0, &format!("tree of right {right}"));
            }
            Call::AddOpen {
                access, process, ..
            } => {
                self.note_add("an open", "FID", answer);
                self.count_if(answer.number == 0, &format!("open of access {access}"));
                let above = answer.number == 0 && above_65_535(*process);
                self.count_if(above, "open of a process above 65,535");
            }
            Call::LoadFile { contents, .. } => self.note_load(contents.is_empty(), answer),
            Call::DropConnection { connection } => {
                let mut sessions = before.sessions.in_use().iter();
                let known = sessions.any(|session| session.connection == *connection);
                let which = if known { "a known" } else { "an unknown" };
                self.count(format!("drop {which} connection: {}", answer.number));
            }
            Call::EndSession { uid } => self.note_end_of_session(*uid, answer, (before, after)),
            Call::EndTree { tid } => self.note_end_of_tree(*tid, answer, (before, after)),
            Call::EndOpen { fid } => self.note_end_of_open(*fid, answer, (before, after)),
            Call::SetCatalogue { catalogue } => self.note_catalogue(catalogue[0], answer.number),
            Call::Unchanged { fid } => self.note_question(*fid, answer, before),
            Call::TakeMessage { message, .. } => {
                self.note_message(message, answer, before, after, unchanged)
            }
        }
    }

    fn note_full(&mut self, after: &Tables) {
        self.count_if(after.sessions.count == SESSIONS, "16 sessions held");
        self.count_if(after.trees.count == TREES, "32 trees held");
        self.count_if(after.opens.count == OPENS, "64 opens held");
        self.count_if(after.locks.count == LOCKS, "128 locks held");
    }

    fn note_add(&mut self, what: &str, number: &'static str, answer: &Answer) {
        self.count(format!("add {what}: {}", answer.number));
        if answer.number == 0 && !self.given.insert((number, answer.value)) {
            self.count(format!("{number} used again"));
        }
    }

    fn note_message(
        &mut self,
        message: &[u8],
        answer: &Answer,
        before: &Tables,
        after: &Tables,
        unchanged: bool,
    ) {
        self.note_holder(message, answer, after);
        self.note_status(message, &answer.reply);
        match listing::answer(message) {
            listing::Answer::Dropped(reason) => self.count(format!("dropped: {reason:?}")),
            listing::Answer::NotAChain(reason) => {
                self.count(format!("not a chain: {:?}", reason.why));
                self.count(refusal_name(class_and_code(&answer.reply)));
            }
            listing::Answer::Chain(blocks) => {
                self.note_chain(message, &blocks, &answer.reply, !unchanged);
                self.note_first(message, &blocks[0], &answer.reply, before);
                self.note_hanging(before, after);
                self.note_process(message, &blocks[0], answer, before, after);
                self.note_core(message, &blocks, &answer.reply, before);
                self.note_opening(message, &blocks, &answer.reply, before);
                self.note_changes(message, &blocks, &answer.reply, (before, after));
            }
        }
    }

    /// What stands in the words for the holder, with each answer.
    fn note_holder(&mut self, message: &[u8], answer: &Answer, after: &Tables) {
        let what = match (answer.number, class_and_code(&answer.reply)) {
            (0, (0, 0)) => "done".to_string(),
            (0, status) => refusal_name(status),
            (number, _) => format!("number {number}"),
        };
        match answer.holder {
            None => self.count(format!("{what}: holder not written")),
            Some([0, 0, 0, 0, 0, 0]) => self.count(format!("{what}: nobody holds")),
            Some([_, fid, process, place, offset, length]) => {
                self.count(format!("{what}: a holder"));
                let lock = Lock {
                    fid: fid as u16,
                    process: process as u32,
                    range: Range { offset, length },
                    shared: false,
                };
                self.note_held(message, &answer.reply, place as usize, lock, after);
            }
        }
    }

    /// Who holds the lock. The tables are as the refused command found them.
    fn note_held(
        &mut self,
        message: &[u8],
        reply: &[u8],
        place: usize,
        lock: Lock,
        after: &Tables,
    ) {
        let blocks: Vec<Block> = blocks(message).flatten().collect();
        let block = blocks[reply_blocks(reply).len() - 1];
        let command = name(block.command);
        let among = match blocks.len() {
            1 => "alone",
            _ => "in a chain",
        };
        self.count(format!("holder for {command} {among}"));
        let what = format!("holder for {command} of a process above 65,535");
        self.count_if(above_65_535(lock.process), &what);
        let owner = match Request::read(message, &block) {
            Request::Locking {
                fid,
                unlocks,
                locks,
                ..
            } => {
                let held = self.note_place(place, lock, unlocks.len(), after);
                let mut asked = locks.iter().filter(|_| held);
                let barred = asked.find(|asked| asked.range.overlaps(lock.range));
                barred.map(|asked| (fid, asked.process))
            }
            Request::Read { fid, .. }
            | Request::Write { fid, .. }
            | Request::Resize { fid, .. }
            | Request::Lock { fid, .. } => {
                let process = header_numbers(message).2;
                let twin = lock.fid == fid && twins(lock.process, process);
                let what = format!("{command}: holder a twin's lock of the same FID");
                self.count_if(twin, &what);
                Some((fid, process))
            }
            _ => None,
        };
        let own = owner == Some((lock.fid, lock.process));
        self.count_if(own, &format!("holder is {command}'s own owner"));
    }

    /// Where a lock that bars a LOCKING stands, so many locks being released:
    /// behind those kept are the request's own. False of one of these.
    fn note_place(&mut self, place: usize, lock: Lock, released: usize, after: &Tables) -> bool {
        self.count_if(place > 127, "holder at a place above 127");
        let table = after.locks.in_use();
        let held = place < table.len() - released;
        let moved = held && !alike(&table[place], &lock);
        self.count_if(!held, "holder an own earlier range");
        self.count_if(moved, "holder moved by unlocks");
        if released > 0 {
            self.count_if(!held, "holder an own earlier range, behind unlocks");
            self.count_if(held && !moved, "holder not moved by the unlocks behind it");
        }
        held
    }

    /// The commands and successions, done or refused.
    fn note_chain(&mut self, message: &[u8], blocks: &[Block], reply: &[u8], changed: bool) {
        let status = class_and_code(reply);
        let places = reply_blocks(reply);
        let last = places.len() - 1;
        for (index, (block, &place)) in blocks.iter().zip(&places).enumerate() {
            let name = name(block.command);
            if status != (0, 0) && index == last {
                self.count(refusal_name(status));
                self.count(format!("{name} {}", refusal_name(status)));
                self.count(format!("{name} Status {}", Status::of(reply)));
                self.count_if(
                    index > 0 && changed,
                    "chain refused behind a command that stands",
                );
            } else {
                self.note_done(message, block, &reply[place..]);
            }
            if index > 0 {
                let before = self::name(blocks[index - 1].command);
                let end = if status == (0, 0) { "done" } else { "refused" };
                self.count(format!("{before} then {name}, chain {end}"));
            }
        }
        self.count_if(
            blocks.len() == 1 && status == (0, 0),
            &format!("{} alone done", name(blocks[0].command)),
        );
    }

    /// The forms of a command done, and what its reply block says.
    fn note_done(&mut self, message: &[u8], block: &Block, reply: &[u8]) {
        let words = message[block.offset];
        self.count(format!("{} of {words} words done", name(block.command)));
        match Request::read(message, block) {
            Request::Locking {
                kind,
                locks,
                unlocks,
                ..
            } => {
                let ends = |end: u128| locks.iter().any(|asked| asked.range.end() == end);
                self.count_if(ends(1 << 64), "lock that ends at 2^64");
                let empty = locks.iter().any(|asked| asked.range.length == 0);
                self.count_if(empty, "lock of length 0");
                self.count_if(
                    !locks.is_empty(),
                    &format!("locks of type {kind:#04X} done"),
                );
                self.count_if(
                    !unlocks.is_empty(),
                    &format!("unlocks of type {kind:#04X} done"),
                );
            }
            Request::Read { range, .. } => {
                let (form, place) = match block.command {
                    READ => ("core read", 1),
                    _ => ("read", 11),
                };
                let length = u16_at(reply, place);
                self.count_if(length == 0, &format!("{form} of 0 bytes"));
                let fewer = u64::from(length) < range.length;
                self.count_if(fewer, &format!("{form} of fewer bytes than asked"));
                let whole = length == FILE_BYTES as u16;
                self.count_if(whole, &format!("{form} of 4096 bytes"));
            }
            Request::Write { offset, data, .. } => {
                self.count_if(data.is_empty(), "write of 0 bytes");
                let end = offset.checked_add(data.len() as u64);
                let ends = !data.is_empty() && end == Some(FILE_BYTES as u64);
                self.count_if(ends, "write that ends at 4096");
            }
            _ => {}
        }
    }

    /// A first write that begins past the size.
    fn note_first(&mut self, message: &[u8], block: &Block, reply: &[u8], before: &Tables) {
        let (uid, tid, _) = header_numbers(message);
        let Request::Write { fid, offset, data } = Request::read(message, block) else {
            return;
        };
        let Some(open) = before.open(fid, uid, tid) else {
            return;
        };
        let past = offset > before.files[usize::from(open.file)].size;
        // WordCount of a write that was done.
        let done = reply[32] == if block.command == WRITE { 1 } else { 6 };
        let gap = done && past && !data.is_empty();
        self.count_if(gap, "write over a gap");
    }

    /// What a removal took with it.
    fn note_hanging(&mut self, before: &Tables, after: &Tables) {
        let fewer = after.opens.count < before.opens.count;
        let unlocked = after.locks.count < before.locks.count;
        self.count_if(fewer && unlocked, "locks removed with an open");
    }

    /// What came of processes above 65,535 and of twins, which differ in the
    /// upper half only.
    fn note_process(
        &mut self,
        message: &[u8],
        block: &Block,
        answer: &Answer,
        before: &Tables,
        after: &Tables,
    ) {
        let (uid, _, process) = header_numbers(message);
        let done = class_and_code(&answer.reply) == (0, 0) || reply_blocks(&answer.reply).len() > 1;
        match Request::read(message, block) {
            Request::ProcessExit => {
                let takes = match after.opens.count < before.opens.count {
                    true => "takes opens, a twin's stays",
                    false => "takes nothing, a twin's open stays",
                };
                let mut left = after.opens.in_use().iter();
                let twin = left.any(|open| open.uid == uid && twins(open.process, process));
                self.count_if(done && twin, &format!("PROCESS_EXIT {takes}"));
            }
            Request::Locking {
                fid,
                kind,
                unlocks,
                locks,
            } => {
                let form = FORMS[usize::from(kind & TYPE_LARGE != 0)];
                let above = done && above_65_535(process);
                let what = format!("{form} locked with PIDHigh not 0");
                self.count_if(above && !locks.is_empty(), &what);
                let what = format!("{form} unlocked with PIDHigh not 0");
                self.count_if(above && !unlocks.is_empty(), &what);
                if class_and_code(&answer.reply) == WireRefusal::NotLocked.class_and_code() {
                    self.note_not_locked(fid, unlocks, form, before);
                }
            }
            _ => {}
        }
    }

    /// Whether a release found nothing for the upper half alone.
    fn note_not_locked(&mut self, fid: u16, unlocks: Ranges, form: &str, before: &Tables) {
        let mut list = before.locks.in_use().to_vec();
        for unlock in unlocks.iter() {
            let alike = |lock: &Lock| lock.fid == fid && lock.range == unlock.range;
            let equal = |lock: &Lock| alike(lock) && lock.process == unlock.process;
            let Some(place) = list.iter().position(equal) else {
                let is_twins = |lock: &Lock| alike(lock) && twins(lock.process, unlock.process);
                let what = format!("{form} refused 1/158, a twin holding such a lock");
                return self.count_if(list.iter().any(is_twins), &what);
            };
            list.remove(place);
        }
    }

    /// What was not reached often enough.
    pub fn missing(&self, required: Vec<(String, usize)>) -> Vec<String> {
        let count = |thing: &String| self.counts.get(thing).copied().unwrap_or(0);
        required
            .into_iter()
            .filter(|(thing, least)| count(thing) < *least)
            .map(|(thing, least)| format!("{thing}: {} times, not {least}", count(&thing)))
            .collect()
    }

    pub fn summary(&self) -> String {
        let line = |(thing, count)| format!("{thing}: {count}\n");
        self.counts.iter().map(line).collect()
    }
}

/// Everything that a history must reach, with the least count.
pub fn required() -> Vec<(String, usize)> {
    let mut all: Vec<_> = SINGLE
        .map(|(thing, least)| (thing.to_string(), least))
        .into();
    all.extend(NUMBERS.map(|number| (format!("number {number}"), 3)));
    all.extend(Dropped::ALL.map(|reason| (format!("dropped: {reason:?}"), 2)));
    all.extend(Why::ALL.map(|why| (format!("not a chain: {why:?}"), 2)));
    all.extend(WireRefusal::ALL.map(|r| (refusal_name(r.class_and_code()), 5)));
    all.extend([0, 1].map(|right| (format!("tree of right {right}"), 3)));
    all.extend([0, 1, 2].map(|access| (format!("open of access {access}"), 5)));
    all.extend(SERVED.map(|command| (format!("{} alone done", name(command)), 5)));
    for (command, words) in [(READ_ANDX, [10, 12]), (WRITE_ANDX, [12, 14])] {
        all.extend(words.map(|words| (format!("{} of {words} words done", name(command)), 10)));
    }
    for kind in [0x00, 0x01, 0x10, 0x11] {
        all.push((format!("locks of type {kind:#04X} done"), 5));
        all.push((format!("unlocks of type {kind:#04X} done"), 2));
    }
    for (before, behind) in SUCCESSIONS.map(|(one, next)| (name(one), name(next))) {
        all.push((format!("{before} then {behind}, chain done"), 5));
        all.push((format!("{before} then {behind}, chain refused"), 2));
    }
    for (refusal, command) in refusals_by_command() {
        let refusal = refusal_name(refusal.class_and_code());
        all.push((format!("{} {refusal}", name(command)), 2));
    }
    all.extend(holders());
    all.extend(processes());
    all.extend(core_tally::required());
    all.extend(open_tally::required());
    all.extend(change_tally::required());
    all.extend(end_tally::required());
    all.extend(status_tally::required());
    all
}

/// "Only 1/33 has a holder", whichever command is barred.
fn holders() -> Vec<(String, usize)> {
    let mut all: Vec<_> = WireRefusal::ALL
        .map(|refusal| {
            let holder = match refusal {
                WireRefusal::LockNotGranted | WireRefusal::FileLockConflict => "a holder",
                _ => "nobody holds",
            };
            let refused = refusal_name(refusal.class_and_code());
            (format!("{refused}: {holder}"), 5)
        })
        .into();
    for command in BARRED {
        let name = name(command);
        all.push((format!("holder for {name} alone"), 5));
        // LOCK stands alone.
        if command != LOCK_BYTE_RANGE {
            all.push((format!("holder for {name} in a chain"), 2));
        }
    }
    all
}

/// Processes above 65,535, as holders and in both forms of ranges.
fn processes() -> Vec<(String, usize)> {
    let holder = |command| format!("holder for {command} of a process above 65,535");
    let mut all: Vec<_> = BARRED.map(name).map(|command| (holder(command), 5)).into();
    for form in FORMS {
        all.push((format!("{form} locked with PIDHigh not 0"), 5));
        all.push((format!("{form} unlocked with PIDHigh not 0"), 2));
        let refused = format!("{form} refused 1/158, a twin holding such a lock");
        all.push((refused, 2));
    }
    all
}

/// Each refusal with the commands that can get it.
fn refusals_by_command() -> Vec<(WireRefusal, u8)> {
    use WireRefusal::*;
    let (locking, read, write) = (LOCKING_ANDX, READ_ANDX, WRITE_ANDX);
    let (lock, unlock) = (LOCK_BYTE_RANGE, UNLOCK_BYTE_RANGE);
    let with_open = [locking, read, write, READ, WRITE, lock, unlock, CLOSE];
    let commands: [(WireRefusal, &[u8]); 16] = [
        (NoSession, &SERVED),
        (NoTree, &with_open),
        (NoTree, &[TREE_DISCONNECT, OPEN_ANDX]),
        (NoOpen, &with_open),
        (Access, &[read, write, READ, WRITE, OPEN_ANDX]),
        (NotSupported, &[locking, OPEN_ANDX]),
        (AccessCode, &[OPEN_ANDX]),
        (NoName, &[OPEN_ANDX]),
        (Sharing, &[OPEN_ANDX]),
        (NoFid, &[OPEN_ANDX]),
        (NotLocked, &[locking, unlock]),
        (RangePasses, &[locking]),
        (LockNotGranted, &[locking, lock]),
        (FileLockConflict, &[read, write, READ, WRITE]),
        (NoLockRecord, &[locking, lock]),
        (FileFull, &[write, WRITE]),
    ];
    commands
        .into_iter()
        .flat_map(|(refusal, of)| of.iter().map(move |&command| (refusal, command)))
        .collect()
}

pub fn refusal_name((class, code): (u8, u16)) -> String {
    format!("refused {class}/{code}")
}

pub fn name(command: u8) -> &'static str {
    match command {
        CLOSE => "CLOSE",
        PROCESS_EXIT => "PROCESS_EXIT",
        LOCKING_ANDX => "LOCKING",
        OPEN_ANDX => "OPEN",
        READ_ANDX => "READ",
        WRITE_ANDX => "WRITE",
        READ => "core READ",
        WRITE => "core WRITE",
        LOCK_BYTE_RANGE => "LOCK",
        UNLOCK_BYTE_RANGE => "UNLOCK",
        TREE_DISCONNECT => "TREE_DISCONNECT",
        LOGOFF_ANDX => "LOGOFF",
        _ => "not served",
    }
}

/// The same but for its sharing, which the words for a holder don't say.
fn alike(one: &Lock, other: &Lock) -> bool {
    let shared = other.shared;
    Lock { shared, ..*one } == *other
}

/// The places of a reply's blocks.
pub fn reply_blocks(reply: &[u8]) -> Vec<usize> {
    let mut places = vec![32];
    let (mut command, mut place) = (reply[4], 32);
    while is_andx(command) && reply[place] > 0 && reply[place + 1] != 0xFF {
        command = reply[place + 1];
        place = usize::from(u16_at(reply, place + 3));
        places.push(place);
    }
    places
}

fn u16_at(bytes: &[u8], place: usize) -> u16 {
    u16::from_le_bytes([bytes[place], bytes[place + 1]])
}
