//! What each request does, from "Locks, reads and writes" of document 01,
//! with the refusals in the order of "Refusals on the wire". A command that
//! is refused has changed nothing. The core commands have "the rules of their
//! AndX counterparts" (document 02, request 3); OPEN_ANDX is request 6's. Reads and
//! writes do to change numbers what request 8 says.

use crate::holder::{unless_held, Holder, Refused};
use crate::host::file_bytes_mut;
use crate::refusals::WireRefusal;
use crate::request::{OwnedRange, Ranges, Request, ToOpen, TYPE_LARGE, TYPE_SHARED};
use crate::tables::{
    exceeds, Lock, Open, Range, Tables, Tree, ACCESS_READ, ACCESS_WRITE, DENY_BOTH, DENY_NONE,
    FILE_BYTES, LARGEST_ACCESS, LOCKS,
};
use std::iter::{empty, once};

/// Who asks: the connection, and the header's numbers.
#[derive(Clone, Copy, Debug, PartialEq, Eq)]
pub struct Asker {
    pub connection: u32,
    pub uid: u16,
    pub tid: u16,
    /// PIDHigh × 65,536 + PIDLow.
    pub process: u32,
}

/// What a command that was done has for its reply block.
#[derive(Clone, Debug, PartialEq, Eq)]
pub enum Done {
    /// CLOSE, TREE_DISCONNECT, PROCESS_EXIT, LOCK, UNLOCK: 0 words.
    Plain,
    /// LOCKING and LOGOFF: AndX only.
    Linked,
    /// READ: where the data stand in the file memory.
    Read(std::ops::Range<usize>),
    /// WRITE: how many bytes were written.
    Written(u16),
    /// OPEN_ANDX: the FID, and what else was asked for.
    Opened { fid: u16, told: Option<Told> },
}

/// What is told of a file that was opened: its size and the access code asked.
#[derive(Clone, Copy, Debug, PartialEq, Eq)]
pub struct Told {
    pub size: u32,
    pub access: u8,
}

impl Done {
    /// The FID of a file that was opened.
    pub fn opened(&self) -> Option<u16> {
        match *self {
            Done::Opened { fid, .. } => Some(fid),
            _ => None,
        }
    }
}

/// Carries out one command.
pub fn carry_out(
    tables: &mut Tables,
    memory: &mut [u8],
    asker: &Asker,
    request: &Request,
) -> Result<Done, Refused> {
    find_session(tables, asker)?;
    match *request {
        // "LOGOFF and PROCESS_EXIT stop after 2/91, TREE_DISCONNECT after
        // 2/5, CLOSE after 1/6."
        Request::Logoff => Ok(logoff(tables, asker)),
        Request::ProcessExit => Ok(process_exit(tables, asker)),
        Request::TreeDisconnect => Ok(tree_disconnect(tables, asker)?),
        Request::Close { fid } => Ok(close(tables, asker, fid)?),
        Request::Locking {
            fid,
            kind,
            unlocks,
            locks,
        } => locking(tables, asker, fid, kind, unlocks, locks),
        Request::Lock { fid, range } => lock(tables, asker, fid, range),
        Request::Unlock { fid, range } => unlock(tables, asker, fid, range),
        Request::Read { fid, range } => read(tables, asker, fid, range),
        Request::Write { fid, offset, data } => write(tables, memory, asker, fid, offset, data),
        Request::Resize { fid, size } => resize(tables, memory, asker, fid, size),
        Request::Open(ref asked) => Ok(open(tables, asker, asked)?),
    }
}

/// "2/91 no session of that UID on this connection"
fn find_session(tables: &Tables, asker: &Asker) -> Result<(), WireRefusal> {
    match tables.session(asker.uid) {
        Some(session) if session.connection == asker.connection => Ok(()),
        _ => Err(WireRefusal::NoSession),
    }
}

/// "2/5 no tree of that TID and UID"
fn find_tree(tables: &Tables, asker: &Asker) -> Result<Tree, WireRefusal> {
    let tree = tables.tree(asker.tid, asker.uid);
    tree.copied().ok_or(WireRefusal::NoTree)
}

/// 2/5, then "1/6 no open of that FID, UID and TID".
fn find_open(tables: &Tables, asker: &Asker, fid: u16) -> Result<Open, WireRefusal> {
    find_tree(tables, asker)?;
    let open = tables.open(fid, asker.uid, asker.tid);
    open.copied().ok_or(WireRefusal::NoOpen)
}

fn logoff(tables: &mut Tables, asker: &Asker) -> Done {
    tables.remove_session(asker.uid);
    Done::Linked
}

/// "the opens of that UID and process", in every tree; the process in all its
/// 32 bits.
fn process_exit(tables: &mut Tables, asker: &Asker) -> Done {
    tables.remove_opens(|open| open.uid == asker.uid && open.process == asker.process);
    Done::Plain
}

fn tree_disconnect(tables: &mut Tables, asker: &Asker) -> Result<Done, WireRefusal> {
    find_tree(tables, asker)?;
    tables.remove_tree(asker.tid);
    Ok(Done::Plain)
}

fn close(tables: &mut Tables, asker: &Asker, fid: u16) -> Result<Done, WireRefusal> {
    find_open(tables, asker, fid)?;
    tables.remove_open(fid);
    Ok(Done::Plain)
}

/// "OpenMode must be 1 (open what exists)".
const OPEN_EXISTING: u16 = 1;
/// "with the block's Flags bit 0 [...] set the size, the access and OpenResults 1"
const FLAGS_TELL: u16 = 0x0001;

/// "Refusals, after 2/5: 2/65535 OpenMode, 1/12 access or sharing code, 1/2 name,
/// 1/5 tree right, 1/32 sharing, 1/4 all 64 FIDs in use".
fn open(tables: &mut Tables, asker: &Asker, asked: &ToOpen) -> Result<Done, WireRefusal> {
    let tree = find_tree(tables, asker)?;
    let existing = asked.open_mode == OPEN_EXISTING;
    refuse_unless(existing, WireRefusal::NotSupported)?;
    let (access, sharing) = codes(asked.access_mode)?;
    let file = tables.catalogue.file(asked.name);
    let file = file.ok_or(WireRefusal::NoName)?;
    refuse_unless(!exceeds(access, tree.right), WireRefusal::Access)?;
    let open = Open {
        uid: asker.uid,
        tid: asker.tid,
        process: asker.process,
        file,
        access,
        sharing,
        ..Open::default()
    };
    refuse_unless(tables.may_share(&open), WireRefusal::Sharing)?;
    refuse_unless(!tables.opens.is_full(), WireRefusal::NoFid)?;
    // A size is at most 4,096.
    let size = tables.files[usize::from(file)].size as u32;
    Ok(Done::Opened {
        fid: tables.add_open(open),
        told: (asked.flags & FLAGS_TELL != 0).then_some(Told { size, access }),
    })
}

/// "Access is bits 0 to 2 of AccessMode, sharing bits 4 to 6; bit 3 and bits from 7
/// up are ignored."
fn codes(access_mode: u16) -> Result<(u8, u8), WireRefusal> {
    let code = |from: u16| (access_mode >> from & 7) as u8;
    let (access, sharing) = (code(0), code(4));
    let known = access <= LARGEST_ACCESS && (DENY_BOTH..=DENY_NONE).contains(&sharing);
    refuse_unless(known, WireRefusal::AccessCode)?;
    Ok((access, sharing))
}

fn refuse_unless(holds: bool, refusal: WireRefusal) -> Result<(), WireRefusal> {
    match holds {
        true => Ok(()),
        false => Err(refusal),
    }
}

/// The places of the lock table that a request releases: bit n for place n.
#[derive(Clone, Copy, Default)]
struct Released(u128);

impl Released {
    fn contains(self, place: usize) -> bool {
        self.0 >> place & 1 != 0
    }

    fn count(self) -> usize {
        self.0.count_ones() as usize
    }

    /// The place in the list of what is left.
    fn left(self, place: usize) -> usize {
        let before = Released(self.0 & ((1 << place) - 1));
        place - before.count()
    }
}

fn locking(
    tables: &mut Tables,
    asker: &Asker,
    fid: u16,
    kind: u8,
    unlocks: Ranges,
    locks: Ranges,
) -> Result<Done, Refused> {
    let open = find_open(tables, asker, fid)?;
    if kind & !(TYPE_SHARED | TYPE_LARGE) != 0 {
        return Err(WireRefusal::NotSupported.into());
    }
    let shared = kind & TYPE_SHARED != 0;
    let as_lock = |asked: OwnedRange| Lock {
        fid,
        process: asked.process,
        range: asked.range,
        shared,
    };
    change_locks(tables, &open, unlocks.iter(), locks.iter().map(as_lock))?;
    Ok(Done::Linked)
}

/// LOCK_BYTE_RANGE: a LOCKING of this one lock.
fn lock(tables: &mut Tables, asker: &Asker, fid: u16, range: Range) -> Result<Done, Refused> {
    let open = find_open(tables, asker, fid)?;
    let asked = Lock {
        fid,
        process: asker.process,
        range,
        shared: false,
    };
    change_locks(tables, &open, empty(), once(asked))?;
    Ok(Done::Plain)
}

/// UNLOCK_BYTE_RANGE: a LOCKING of this one unlock. "UNLOCK of what isn't locked
/// is 1/158, though 000 and 004 say no error."
fn unlock(tables: &mut Tables, asker: &Asker, fid: u16, range: Range) -> Result<Done, Refused> {
    let open = find_open(tables, asker, fid)?;
    let process = asker.process;
    let released = OwnedRange { process, range };
    change_locks(tables, &open, once(released), empty())?;
    Ok(Done::Plain)
}

/// Judges all ranges of a request against the table as it is, then alters it.
fn change_locks(
    tables: &mut Tables,
    open: &Open,
    unlocks: impl Iterator<Item = OwnedRange>,
    asked: impl Iterator<Item = Lock> + Clone,
) -> Result<(), Refused> {
    let released = release(tables, open.fid, unlocks)?;
    if asked.clone().any(|lock| lock.range.passes()) {
        return Err(WireRefusal::RangePasses.into());
    }
    let held = first_conflict(tables, open.file, released, asked.clone());
    unless_held(held, WireRefusal::LockNotGranted)?;
    // "1/8 exactly if over 128 would then be held"
    if tables.locks.count - released.count() + asked.clone().count() > LOCKS {
        return Err(WireRefusal::NoLockRecord.into());
    }
    replace_locks(tables, released, asked);
    Ok(())
}

/// "Unlocks go first, in order: each removes the earliest listed lock with
/// equal FID, process, offset and length."
fn release(
    tables: &Tables,
    fid: u16,
    unlocks: impl Iterator<Item = OwnedRange>,
) -> Result<Released, WireRefusal> {
    let mut released = Released::default();
    for unlock in unlocks {
        let matching = |(place, lock): (usize, &Lock)| {
            lock.fid == fid
                && lock.process == unlock.process
                && lock.range == unlock.range
                && !released.contains(place)
        };
        let place = tables.locks.in_use().iter().enumerate().position(matching);
        released.0 |= 1 << place.ok_or(WireRefusal::NotLocked)?;
    }
    Ok(released)
}

/// "Then locks in order, each against the list as it stands, the asker's own
/// locks included": the first lock in the way of the first that has one.
fn first_conflict(
    tables: &Tables,
    file: u8,
    released: Released,
    asked: impl Iterator<Item = Lock> + Clone,
) -> Option<Holder> {
    let held = tables.locks_of(file);
    let held = held.filter(|&(place, _)| !released.contains(place));
    let kept = tables.locks.count - released.count();
    for (earlier, lock) in asked.clone().enumerate() {
        if let Some((place, &lock)) = held.clone().find(|(_, held)| lock.conflicts(held)) {
            let place = released.left(place);
            return Some(Holder { place, lock });
        }
        if let Some((place, lock)) = conflict_within(asked.clone().take(earlier), &lock) {
            let place = kept + place;
            return Some(Holder { place, lock });
        }
    }
    None
}

/// The first of the request's own earlier ranges in the way of a lock. All of
/// them are shared, or none is.
fn conflict_within(earlier: impl Iterator<Item = Lock>, lock: &Lock) -> Option<(usize, Lock)> {
    if lock.shared {
        return None;
    }
    earlier
        .enumerate()
        .find(|(_, earlier)| earlier.conflicts(lock))
}

/// The list without the locks released, then those granted. Places given up
/// and not taken again become zero.
fn replace_locks(tables: &mut Tables, released: Released, granted: impl Iterator<Item = Lock>) {
    if released.count() > 0 {
        let mut place = 0;
        tables.locks.retain(|_| {
            place += 1;
            !released.contains(place - 1)
        });
    }
    for lock in granted {
        tables.locks.push(lock);
    }
}

/// The first lock of a file that is in the way. A read or a write finds the
/// list as the table has it.
fn first_lock_of(tables: &Tables, file: u8, in_the_way: impl Fn(&Lock) -> bool) -> Option<Holder> {
    let mut locks = tables.locks_of(file);
    let found = locks.find(|(_, lock)| in_the_way(lock));
    found.map(|(place, &lock)| Holder { place, lock })
}

/// "A read is refused 1/33 exactly if an exclusive lock of another owner
/// overlaps offset and max. It yields the file's bytes in the range below its
/// size." Once granted it remembers, "also one that yields or asks no byte".
fn read(tables: &mut Tables, asker: &Asker, fid: u16, range: Range) -> Result<Done, Refused> {
    let open = find_open(tables, asker, fid)?;
    if open.access == ACCESS_WRITE {
        return Err(WireRefusal::Access.into());
    }
    let held = first_lock_of(tables, open.file, |lock| {
        !lock.shared && !owns(asker, fid, lock) && lock.range.overlaps(range)
    });
    unless_held(held, WireRefusal::FileLockConflict)?;
    tables.remember(fid);
    let size = u128::from(tables.files[usize::from(open.file)].size);
    // Both are at most the size, 4,096.
    let start = range.start().min(size) as usize;
    let end = range.end().min(size) as usize;
    let file = usize::from(open.file) * FILE_BYTES;
    Ok(Done::Read(file + start..file + end))
}

/// What each write is refused for before its end is looked at, this being the
/// range that it covers. "A write is refused 1/33 exactly if any lock overlaps it
/// save the writer's own exclusive ones."
fn may_write(tables: &Tables, asker: &Asker, open: &Open, range: Range) -> Result<(), Refused> {
    if open.access == ACCESS_READ {
        return Err(WireRefusal::Access.into());
    }
    let held = first_lock_of(tables, open.file, |lock| {
        (lock.shared || !owns(asker, open.fid, lock)) && lock.range.overlaps(range)
    });
    unless_held(held, WireRefusal::FileLockConflict)
}

fn write(
    tables: &mut Tables,
    memory: &mut [u8],
    asker: &Asker,
    fid: u16,
    offset: u64,
    data: &[u8],
) -> Result<Done, Refused> {
    let open = find_open(tables, asker, fid)?;
    let range = Range {
        offset,
        length: data.len() as u64,
    };
    may_write(tables, asker, &open, range)?;
    // "Length 0 writes nothing, changes no size and is done at any offset."
    if !data.is_empty() {
        if range.end() > FILE_BYTES as u128 {
            return Err(WireRefusal::FileFull.into());
        }
        put_data(tables, memory, open.file, offset as usize, data);
    }
    // DataLength has 16 bits.
    Ok(Done::Written(data.len() as u16))
}

/// "A core WRITE of count 0 sets the file's size to the offset (past 4,096 is
/// 3/39) [...]; for locks it covers the bytes between the old and the new size."
/// These are looked at first, in the order of the refusals.
fn resize(
    tables: &mut Tables,
    memory: &mut [u8],
    asker: &Asker,
    fid: u16,
    size: u64,
) -> Result<Done, Refused> {
    let open = find_open(tables, asker, fid)?;
    let old = tables.files[usize::from(open.file)].size;
    let between = Range {
        offset: old.min(size),
        length: old.abs_diff(size),
    };
    may_write(tables, asker, &open, between)?;
    if size > FILE_BYTES as u64 {
        return Err(WireRefusal::FileFull.into());
    }
    // "with zeros where it grows and no byte changed where it shrinks"
    zeros_from_size(tables, memory, open.file, size as usize);
    // "count 0 only if the size changes"
    let file = &mut tables.files[usize::from(open.file)];
    if size != old {
        file.size = size;
        file.change();
    }
    Ok(Done::Written(0))
}

/// "Bytes between the old size and the write become 0, and a size below the
/// write's end becomes that end." A write of at least one byte raises the change
/// number "also where the bytes are equal".
fn put_data(tables: &mut Tables, memory: &mut [u8], file: u8, start: usize, data: &[u8]) {
    zeros_from_size(tables, memory, file, start);
    let end = start + data.len();
    file_bytes_mut(memory, file)[start..end].copy_from_slice(data);
    let record = &mut tables.files[usize::from(file)];
    record.size = record.size.max(end as u64);
    record.change();
}

/// Puts zeros from the file's size to a place behind it.
fn zeros_from_size(tables: &Tables, memory: &mut [u8], file: u8, to: usize) {
    let size = tables.files[usize::from(file)].size as usize;
    if size < to {
        file_bytes_mut(memory, file)[size..to].fill(0);
    }
}

/// "An owner is a FID with a process. Locks: process from the range; reads
/// and writes: from the header."
fn owns(asker: &Asker, fid: u16, lock: &Lock) -> bool {
    lock.fid == fid && lock.process == asker.process
}
