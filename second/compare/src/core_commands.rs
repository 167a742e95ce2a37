//! Counts what became of the core commands (document 02, request 3): each alone
//! and behind a LOCKING, the reads, the sizes set, the data blocks that are none,
//! and the successions that are not in the grammar.

use crate::counts::Counts;
use crate::tally::commands;
use second::call::Call;
use second::grammar::{
    blocks, Block, Why, CORE, DATA_BLOCK_HEAD, DATA_MARK, LOCKING_ANDX, LOCK_BYTE_RANGE, READ,
    READ_ANDX, UNLOCK_BYTE_RANGE, WRITE, WRITE_ANDX,
};
use second::header::header_numbers;
use second::listing::dropped;
use second::refusals::WireRefusal::{self, *};
use second::request::Request;
use second::status::class_and_code;
use second::tables::{Lock, Range, Tables, FILES, FILE_BYTES};
use std::cmp::Ordering;

const AMONG: [&str; 2] = ["alone", "behind LOCKING"];

/// What each command can be refused for; "2/65535 and 1/87 can't arise for LOCK".
const ALONE: [(u8, &[WireRefusal]); 4] = [
    (READ, &[NoSession, NoTree, NoOpen, Access, FileLockConflict]),
    (
        WRITE,
        &[
            NoSession,
            NoTree,
            NoOpen,
            Access,
            FileLockConflict,
            FileFull,
        ],
    ),
    (
        LOCK_BYTE_RANGE,
        &[NoSession, NoTree, NoOpen, LockNotGranted, NoLockRecord],
    ),
    (UNLOCK_BYTE_RANGE, &[NoSession, NoTree, NoOpen, NotLocked]),
];
/// Behind a LOCKING that was done there are a session and a tree.
const BEHIND: [(u8, &[WireRefusal]); 2] = [
    (READ, &[NoOpen, Access, FileLockConflict]),
    (WRITE, &[NoOpen, Access, FileLockConflict, FileFull]),
];

const READS: [&str; 5] = [
    "no byte asked for",
    "no byte, past the end",
    "fewer bytes than asked for",
    "all bytes asked for",
    "4,096 bytes",
];
const SIZES: [&str; 9] = [
    "raised",
    "lowered",
    "kept",
    "raised, refused 1/33",
    "lowered, refused 1/33",
    "past 4,096, refused 1/33",
    "past 4,096, refused 3/39",
    "refused 1/5",
    "refused 1/6",
];
const LOCKS_BETWEEN: [&str; 7] = [
    "size raised over an own exclusive lock",
    "size lowered over an own exclusive lock",
    "size refused for an own shared lock",
    "size kept inside a lock that would bar it",
    "size raised up to a lock that would bar it",
    "size lowered down to a lock that would bar it",
    "size changed over a lock of length 0",
];
/// What a lowering left past the size must not show again.
const LEFT: [&str; 5] = [
    "count 0 grows over what a lowering left",
    "core WRITE leaves a gap over what a lowering left",
    "WRITE_ANDX leaves a gap over what a lowering left",
    "READ of what was made 0",
    "READ_ANDX of what was made 0",
];
const DATA_BLOCKS: [&str; 9] = [
    "another mark",
    "the count alone differs",
    "the block's length alone differs",
    "ByteCount alone differs",
    "all three differ",
    "ByteCount 0",
    "ByteCount 1",
    "ByteCount 2",
    "ByteCount is count + 3 in 16 bits",
];

#[derive(Default)]
pub struct CoreCommands {
    counts: Counts,
    /// Of each file, the size before it was lowered, up to which bytes are left.
    left: [u64; FILES],
    /// Of each file, bytes left by a lowering that were made 0 and not written.
    made_zero: [Option<Range>; FILES],
}

impl CoreCommands {
    pub fn begin_history(&mut self) {
        self.left = [0; FILES];
        self.made_zero = [None; FILES];
    }

    /// Counts a call that was done, these being the tables before it.
    pub fn count(&mut self, call: &Call, reply: &[u8], before: &Tables) {
        match call {
            Call::LoadFile { file, .. } => {
                self.left[*file as usize] = 0;
                self.made_zero[*file as usize] = None;
            }
            Call::TakeMessage { message, .. } => self.count_message(message, reply, before),
            _ => {}
        }
    }

    fn count_message(&mut self, message: &[u8], reply: &[u8], before: &Tables) {
        if dropped(message).is_some() {
            return;
        }
        match blocks(message).collect::<Result<Vec<Block>, _>>() {
            Ok(read) => self.count_sentence(message, &read, reply, before),
            Err(reason) => self.count_malformed(message, reason.why, reason.command),
        }
    }

    /// The last command of a sentence that is one block, or two of which the
    /// first is LOCKING: it finds the sizes as they were before.
    fn count_sentence(&mut self, message: &[u8], read: &[Block], reply: &[u8], before: &Tables) {
        let last = &read[read.len() - 1];
        let simple = read.len() == 1 || read.len() == 2 && read[0].command == LOCKING_ANDX;
        let begun = commands(message, reply).len() == read.len();
        let among = AMONG[usize::from(read.len() > 1)];
        if CORE.contains(&last.command) && !begun {
            let what = format!("{} behind a LOCKING refused", name(last.command));
            self.counts.met(what);
        }
        if !simple || !begun {
            return self.forget(message, read, before);
        }
        let told = Told::new(message, last, reply, before);
        if CORE.contains(&last.command) {
            let (command, answer) = (name(last.command), told.answer());
            self.counts.met(format!("{command} {among}: {answer}"));
            self.count_read(&told, reply, among);
            self.count_size(&told, among);
        }
        self.follow(&told);
    }

    /// Chains of writes: what was made 0 may be written again.
    fn forget(&mut self, message: &[u8], read: &[Block], before: &Tables) {
        for block in read {
            if let Request::Write { fid, .. } = Request::read(message, block) {
                if let Some(file) = file_of(before, fid) {
                    self.made_zero[file] = None;
                }
            }
        }
    }

    fn count_read(&mut self, told: &Told, reply: &[u8], among: &str) {
        let Request::Read { range, .. } = told.request else {
            return;
        };
        if !told.done {
            return;
        }
        let place = if among == AMONG[0] { 32 } else { 39 };
        let count = u64::from(u16::from_le_bytes([reply[place + 1], reply[place + 2]]));
        let what = match (count, range.length) {
            (_, 0) => READS[0],
            (0, _) => READS[1],
            (count, asked) if count < asked => READS[2],
            _ => READS[3],
        };
        self.counts.met(format!("READ {among}: {what}"));
        let whole = count == FILE_BYTES as u64;
        let what = format!("READ {among}: {}", READS[4]);
        self.counts.met_if(whole, &what);
    }

    fn count_size(&mut self, told: &Told, among: &str) {
        let Request::Resize { fid, size } = told.request else {
            return;
        };
        let refused = match told.done {
            true => String::new(),
            false => format!("refused {}", told.answer()),
        };
        let Some(old) = told.size else {
            return self.counts.met(format!("size {among}: {refused}"));
        };
        let change = match size.cmp(&old) {
            _ if size > FILE_BYTES as u64 => "past 4,096",
            Ordering::Greater => "raised",
            Ordering::Less => "lowered",
            Ordering::Equal => "kept",
        };
        self.counts.met(match refused.as_str() {
            "" => format!("size {among}: {change}"),
            "refused 1/33" | "refused 3/39" => format!("size {among}: {change}, {refused}"),
            _ => format!("size {among}: {refused}"),
        });
        self.count_locks_between(told, fid, size, change);
    }

    /// The locks of the same file at and between the two sizes.
    fn count_locks_between(&mut self, told: &Told, fid: u16, size: u64, change: &str) {
        let Some(file) = told.file else {
            return;
        };
        let held: Vec<Lock> = told
            .before
            .locks_of(file as u8)
            .map(|(_, lock)| *lock)
            .collect();
        let range = between(told.before, fid, size);
        let own = |lock: &Lock| (lock.fid, lock.process) == (fid, told.process);
        let over = |lock: &Lock| own(lock) && lock.range.overlaps(range);
        let exclusive = held.iter().any(|lock| over(lock) && !lock.shared);
        let shared = held.iter().any(|lock| over(lock) && lock.shared);
        let what = format!("size {change} over an own exclusive lock");
        self.counts.met_if(told.done && exclusive, &what);
        let barred = told.status == FileLockConflict.class_and_code();
        let what = "size refused for an own shared lock";
        self.counts.met_if(barred && shared, what);
        if told.done {
            let bars = |lock: &Lock| lock.shared || !own(lock);
            let barring = held.iter().filter(|lock| bars(lock)).map(|l| l.range);
            self.count_beside(barring, size, change);
            let empty = held.iter().any(|lock| strictly_inside(lock.range, range));
            let what = "size changed over a lock of length 0";
            self.counts.met_if(empty, what);
        }
    }

    /// A size that was set right at one of these ranges, which would bar it.
    fn count_beside(&mut self, mut barring: impl Iterator<Item = Range>, size: u64, change: &str) {
        let (byte, what) = match change {
            "kept" => (Some(size), "size kept inside a lock that would bar it"),
            "raised" => (Some(size), "size raised up to a lock that would bar it"),
            _ => {
                let what = "size lowered down to a lock that would bar it";
                (size.checked_sub(1), what)
            }
        };
        let length = 1;
        let at = byte.map(|offset| Range { offset, length });
        let beside = at.is_some_and(|byte| barring.any(|range| range.overlaps(byte)));
        self.counts.met_if(beside, what);
    }

    /// Follows what lowerings leave past the sizes.
    fn follow(&mut self, told: &Told) {
        let (Some(file), Some(old), true) = (told.file, told.size, told.done) else {
            return;
        };
        let (to, what) = match told.request {
            Request::Resize { size, .. } if size < old => {
                self.left[file] = self.left[file].max(old);
                self.made_zero[file] = None;
                return;
            }
            Request::Resize { size, .. } => (size, LEFT[0]),
            Request::Write { offset, .. } if told.command == WRITE => (offset, LEFT[1]),
            Request::Write { offset, .. } => (offset, LEFT[2]),
            Request::Read { range, .. } => {
                let what = if told.command == READ {
                    LEFT[3]
                } else {
                    LEFT[4]
                };
                let shown = self.made_zero[file].is_some_and(|zero| zero.overlaps(range));
                return self.counts.met_if(shown, what);
            }
            _ => return,
        };
        let end = to.min(self.left[file]);
        if old < end {
            self.counts.met(what);
            let (offset, length) = (old, end - old);
            self.made_zero[file] = Some(Range { offset, length });
        } else if matches!(told.request, Request::Write { .. }) {
            self.made_zero[file] = None;
        }
    }

    /// A reading that ended at a command: a WRITE's data block, or a core command
    /// where none may follow.
    fn count_malformed(&mut self, message: &[u8], why: Why, command: u8) {
        let read: Vec<Block> = blocks(message).flatten().collect();
        let place = match read.last() {
            None => 32,
            Some(block) => number(message, block.offset + 3),
        };
        let among = AMONG[usize::from(!read.is_empty())];
        match why {
            Why::Follower if CORE.contains(&message[place + 1]) => {
                let next = name(message[place + 1]);
                let what = format!("{next} after {}: no sentence", name(command));
                self.counts.met(what);
            }
            Why::ByteCount | Why::DataMark | Why::DataLength if command == WRITE => {
                for what in wrong_parts(message, place) {
                    self.counts.met(format!("data block {among}: {what}"));
                }
            }
            _ => {}
        }
    }

    /// Prints the counts. False if something was met too seldom.
    pub fn print(&self) -> bool {
        self.counts.print("core commands", required())
    }
}

/// Whether a range without bytes lies inside another.
fn strictly_inside(empty: Range, range: Range) -> bool {
    empty.length == 0 && range.start() < empty.start() && empty.start() < range.end()
}

/// What is wrong with the data block of a WRITE at a place.
fn wrong_parts(message: &[u8], place: usize) -> Vec<&'static str> {
    let (count, bytes) = (number(message, place + 3), number(message, place + 11));
    if bytes < DATA_BLOCK_HEAD {
        let mut wrong = vec![DATA_BLOCKS[5 + bytes]];
        if (count + DATA_BLOCK_HEAD) & 0xFFFF == bytes {
            wrong.push(DATA_BLOCKS[8]);
        }
        return wrong;
    }
    let (data, length) = (bytes - DATA_BLOCK_HEAD, number(message, place + 14));
    let lengths = match (count == length, count == data, length == data) {
        (true, true, _) => None,
        (true, false, _) => Some(DATA_BLOCKS[3]),
        (false, true, _) => Some(DATA_BLOCKS[2]),
        (false, false, true) => Some(DATA_BLOCKS[1]),
        (false, false, false) => Some(DATA_BLOCKS[4]),
    };
    let marked = message[place + 13] == DATA_MARK;
    match lengths {
        Some(lengths) if marked => vec![lengths],
        None if !marked => vec![DATA_BLOCKS[0]],
        _ => Vec::new(),
    }
}

fn number(message: &[u8], place: usize) -> usize {
    usize::from(message[place]) + 256 * usize::from(message[place + 1])
}

/// A command that was begun: what it found, and its answer.
struct Told<'m> {
    command: u8,
    request: Request<'m>,
    process: u32,
    status: (u8, u16),
    done: bool,
    before: &'m Tables,
    /// The file of the open that it names, and its size.
    file: Option<usize>,
    size: Option<u64>,
}

impl<'m> Told<'m> {
    fn new(message: &'m [u8], block: &Block, reply: &[u8], before: &'m Tables) -> Told<'m> {
        let request = Request::read(message, block);
        let (uid, tid, process) = header_numbers(message);
        let fid = match request {
            Request::Read { fid, .. }
            | Request::Write { fid, .. }
            | Request::Resize { fid, .. }
            | Request::Lock { fid, .. }
            | Request::Unlock { fid, .. } => Some(fid),
            _ => None,
        };
        let open = fid.and_then(|fid| before.open(fid, uid, tid));
        let file = open.map(|open| usize::from(open.file));
        Told {
            command: block.command,
            request,
            process,
            status: class_and_code(reply),
            done: class_and_code(reply) == (0, 0),
            before,
            file,
            size: file.map(|file| before.files[file].size),
        }
    }

    fn answer(&self) -> String {
        match self.status {
            (0, 0) => "done".to_string(),
            (class, code) => format!("{class}/{code}"),
        }
    }
}

fn file_of(tables: &Tables, fid: u16) -> Option<usize> {
    let open = tables.open_of(fid);
    open.map(|open| usize::from(open.file))
}

/// What a size set through a FID covers for locks: "from the smaller to the
/// larger of old size and offset".
pub fn between(tables: &Tables, fid: u16, size: u64) -> Range {
    let old = file_of(tables, fid).map_or(size, |file| tables.files[file].size);
    Range {
        offset: old.min(size),
        length: old.abs_diff(size),
    }
}

fn name(command: u8) -> &'static str {
    match command {
        READ => "READ",
        WRITE => "WRITE",
        LOCK_BYTE_RANGE => "LOCK",
        UNLOCK_BYTE_RANGE => "UNLOCK",
        LOCKING_ANDX => "LOCKING",
        READ_ANDX => "READ_ANDX",
        WRITE_ANDX => "WRITE_ANDX",
        _ => "another",
    }
}

/// All that is to be met.
fn required() -> Vec<String> {
    let mut all = Vec::new();
    for (of, among) in [(&ALONE[..], AMONG[0]), (&BEHIND[..], AMONG[1])] {
        for (command, refusals) in of {
            let command = name(*command);
            all.push(format!("{command} {among}: done"));
            for (class, code) in refusals.iter().map(|refusal| refusal.class_and_code()) {
                all.push(format!("{command} {among}: {class}/{code}"));
            }
        }
        all.extend(READS.map(|what| format!("READ {among}: {what}")));
        all.extend(SIZES.map(|what| format!("size {among}: {what}")));
        all.extend(DATA_BLOCKS.map(|what| format!("data block {among}: {what}")));
    }
    all.extend([READ, WRITE].map(|command| format!("{} behind a LOCKING refused", name(command))));
    all.extend(LOCKS_BETWEEN.map(str::to_string));
    all.extend(LEFT.map(str::to_string));
    for (first, next) in NO_SUCCESSIONS {
        all.push(format!("{} after {}: no sentence", name(next), name(first)));
    }
    all
}

/// "READ and WRITE follow LOCKING_ANDX directly and nothing else; LOCK and UNLOCK
/// never follow."
const NO_SUCCESSIONS: [(u8, u8); 10] = [
    (LOCKING_ANDX, LOCK_BYTE_RANGE),
    (LOCKING_ANDX, UNLOCK_BYTE_RANGE),
    (READ_ANDX, READ),
    (READ_ANDX, WRITE),
    (READ_ANDX, LOCK_BYTE_RANGE),
    (READ_ANDX, UNLOCK_BYTE_RANGE),
    (WRITE_ANDX, READ),
    (WRITE_ANDX, WRITE),
    (WRITE_ANDX, LOCK_BYTE_RANGE),
    (WRITE_ANDX, UNLOCK_BYTE_RANGE),
];
