//! The state, from "Tables and room" of document 01: the tables, soundness,
//! finding and removing records. Opens have a sharing code, and beside the tables
//! stands the catalogue (document 02, request 6). Files have a change number, and
//! opens remember it (request 8).

use crate::catalogue::Catalogue;

pub const SESSIONS: usize = 16;
pub const TREES: usize = 32;
pub const OPENS: usize = 64;
pub const LOCKS: usize = 128;
pub const FILES: usize = 16;
/// "4,096 bytes each"
pub const FILE_BYTES: usize = 4096;
/// "file memory of 65,536 bytes"
pub const MEMORY_BYTES: usize = FILES * FILE_BYTES;

/// Right 0 is read, 1 read/write.
pub const READ_ONLY: u8 = 0;
pub const LARGEST_RIGHT: u8 = 1;
/// Access 0 is read, 1 write, 2 both.
pub const ACCESS_READ: u8 = 0;
pub const ACCESS_WRITE: u8 = 1;
pub const LARGEST_ACCESS: u8 = 2;
/// "sharing codes 1 to 4: deny both, deny write, deny read, deny none"
pub const DENY_BOTH: u8 = 1;
pub const DENY_WRITE: u8 = 2;
pub const DENY_READ: u8 = 3;
pub const DENY_NONE: u8 = 4;
/// "Files: 16, numbered from 0"
pub const LARGEST_FILE: u8 = 15;
/// "a 32-bit change number"
pub const LARGEST_CHANGE: u64 = u32::MAX as u64;

#[derive(Clone, Copy, Debug, Default, PartialEq, Eq)]
pub struct Session {
    pub uid: u16,
    pub connection: u32,
}

#[derive(Clone, Copy, Debug, Default, PartialEq, Eq)]
pub struct Tree {
    pub tid: u16,
    pub uid: u16,
    pub right: u8,
}

#[derive(Clone, Copy, Debug, Default, PartialEq, Eq)]
pub struct Open {
    pub fid: u16,
    pub uid: u16,
    pub tid: u16,
    pub process: u32,
    pub file: u8,
    pub access: u8,
    pub sharing: u8,
    /// Whether a read was granted to it.
    pub read: bool,
    /// "the number at its last granted read"; 0 from the start.
    pub seen: u64,
}

#[derive(Clone, Copy, Debug, Default, PartialEq, Eq)]
pub struct Lock {
    pub fid: u16,
    pub process: u32,
    pub range: Range,
    pub shared: bool,
}

#[derive(Clone, Copy, Debug, Default, PartialEq, Eq)]
pub struct File {
    pub size: u64,
    /// The change number. "Numbers start at 0."
    pub changes: u64,
}

impl File {
    /// Raises the change number by one; "at its largest it stays".
    pub fn change(&mut self) {
        self.changes = LARGEST_CHANGE.min(self.changes + 1);
    }
}

/// "A range is the bytes from offset to offset + length, the end left out,
/// in whole numbers."
#[derive(Clone, Copy, Debug, Default, PartialEq, Eq)]
pub struct Range {
    pub offset: u64,
    pub length: u64,
}

impl Range {
    pub fn start(self) -> u128 {
        u128::from(self.offset)
    }

    pub fn end(self) -> u128 {
        u128::from(self.offset) + u128::from(self.length)
    }

    /// "passes 2^64"
    pub fn passes(self) -> bool {
        self.end() > 1 << 64
    }

    /// Some byte is in both. "Length 0 covers no byte and overlaps nothing."
    /// Two that have bytes overlap if the later start is less than the
    /// earlier range's length away from its start; no end is computed.
    pub fn overlaps(self, other: Range) -> bool {
        let (earlier, later) = if self.offset <= other.offset {
            (self.length, other.length)
        } else {
            (other.length, self.length)
        };
        self.offset.abs_diff(other.offset) < earlier && later > 0
    }
}

impl Open {
    /// "An open fails if it asks what another open of the file denies or denies
    /// what one has": whether one of these two would.
    pub fn bars(&self, other: &Open) -> bool {
        denied(self.access, other.sharing) || denied(other.access, self.sharing)
    }
}

/// Whether the sharing code denies something of the access: "Access 0 asks and
/// has reading, 1 writing, 2 both."
pub fn denied(access: u8, sharing: u8) -> bool {
    let reading = access != ACCESS_WRITE && matches!(sharing, DENY_BOTH | DENY_READ);
    let writing = access != ACCESS_READ && matches!(sharing, DENY_BOTH | DENY_WRITE);
    reading || writing
}

impl Lock {
    /// "two locks of one file that overlap are both shared": two that don't
    /// agree with this, if they are of one file.
    pub fn conflicts(&self, other: &Lock) -> bool {
        !(self.shared && other.shared) && self.range.overlaps(other.range)
    }
}

/// A table: the records in use stand first, in order of their making. What
/// the records behind them hold is of no matter, but it is kept.
#[derive(Clone, Debug)]
pub struct Table<T, const N: usize> {
    pub records: [T; N],
    /// Above `N` only in tables that are not sound.
    pub count: usize,
    /// The most records that were in use: those behind are as they were.
    pub most: usize,
}

/// Equal tables hold equal records, whatever was in use before.
impl<T: PartialEq, const N: usize> PartialEq for Table<T, N> {
    fn eq(&self, other: &Self) -> bool {
        self.records == other.records && self.count == other.count
    }
}

impl<T: Eq, const N: usize> Eq for Table<T, N> {}

impl<T: Copy + Default, const N: usize> Table<T, N> {
    pub fn empty() -> Self {
        Table {
            records: [T::default(); N],
            count: 0,
            most: 0,
        }
    }

    pub fn in_use(&self) -> &[T] {
        &self.records[..self.count.min(N)]
    }

    pub fn in_use_mut(&mut self) -> &mut [T] {
        &mut self.records[..self.count.min(N)]
    }

    pub fn is_full(&self) -> bool {
        self.count >= N
    }

    /// Puts a record behind those in use. The table is not full.
    pub fn push(&mut self, record: T) {
        self.records[self.count] = record;
        self.count += 1;
        self.most = self.most.max(self.count);
    }

    /// Keeps the records in use that pass the test, in their order. Places
    /// given up become zero.
    pub fn retain(&mut self, mut keep: impl FnMut(&T) -> bool) {
        let mut kept = 0;
        for place in 0..self.count {
            let record = self.records[place];
            if keep(&record) {
                self.records[kept] = record;
                kept += 1;
            }
        }
        self.records[kept..self.count].fill(T::default());
        self.count = kept;
    }
}

/// Which numbers from 1 to 64 are in use: bit n - 1 for number n.
#[derive(Clone, Copy, Default)]
struct Numbers(u64);

impl Numbers {
    /// None if a number is not in 1 to `limit` or not distinct.
    fn distinct(numbers: impl Iterator<Item = u16>, limit: usize) -> Option<Numbers> {
        let mut used = Numbers::default();
        for number in numbers {
            if number == 0 || usize::from(number) > limit || used.contains(number) {
                return None;
            }
            used.0 |= 1 << (number - 1);
        }
        Some(used)
    }

    fn contains(self, number: u16) -> bool {
        (1..=64).contains(&number) && self.0 >> (number - 1) & 1 != 0
    }
}

/// "the smallest number from 1 not in use"
pub fn smallest_free(numbers: impl Iterator<Item = u16>) -> u16 {
    let used = numbers.fold(0u64, |used, number| used | 1 << (number - 1));
    used.trailing_ones() as u16 + 1
}

/// The whole state but for the files' bytes.
#[derive(Clone, Debug, PartialEq, Eq)]
pub struct Tables {
    pub sessions: Table<Session, SESSIONS>,
    pub trees: Table<Tree, TREES>,
    pub opens: Table<Open, OPENS>,
    /// "kept in order of grant"
    pub locks: Table<Lock, LOCKS>,
    pub files: [File; FILES],
    pub catalogue: Catalogue,
}

impl Tables {
    pub fn empty() -> Tables {
        Tables {
            sessions: Table::empty(),
            trees: Table::empty(),
            opens: Table::empty(),
            locks: Table::empty(),
            files: [File::default(); FILES],
            catalogue: Table::empty(),
        }
    }

    pub fn session(&self, uid: u16) -> Option<&Session> {
        self.sessions.in_use().iter().find(|s| s.uid == uid)
    }

    /// The tree of that TID and UID.
    pub fn tree(&self, tid: u16, uid: u16) -> Option<&Tree> {
        let mut trees = self.trees.in_use().iter();
        trees.find(|t| t.tid == tid && t.uid == uid)
    }

    /// Whether some session has a tree of that TID.
    pub fn has_tree(&self, tid: u16) -> bool {
        self.trees.in_use().iter().any(|t| t.tid == tid)
    }

    /// The open of that FID, whosever it is.
    pub fn open_of(&self, fid: u16) -> Option<&Open> {
        self.opens.in_use().iter().find(|o| o.fid == fid)
    }

    /// The open of that FID, UID and TID.
    pub fn open(&self, fid: u16, uid: u16, tid: u16) -> Option<&Open> {
        let mut opens = self.opens.in_use().iter();
        opens.find(|o| o.fid == fid && o.uid == uid && o.tid == tid)
    }

    /// A read was granted to the open of that FID: it "remembers the number".
    pub fn remember(&mut self, fid: u16) {
        let Tables { opens, files, .. } = self;
        let open = opens.in_use_mut().iter_mut().find(|o| o.fid == fid);
        if let Some(open) = open {
            open.read = true;
            open.seen = files[usize::from(open.file)].changes;
        }
    }

    /// "'unchanged' exactly if the open has read, the numbers are equal and below
    /// the largest"
    pub fn unchanged(&self, open: &Open) -> bool {
        let changes = self.files[usize::from(open.file)].changes;
        open.read && open.seen == changes && changes < LARGEST_CHANGE
    }

    /// Whether an open may stand beside those of its file: "Sharing is tested
    /// against every open of the file, of whatever session, process, tree or name,
    /// the asker's own and the host's included".
    pub fn may_share(&self, open: &Open) -> bool {
        let mut others = self.opens.in_use().iter();
        !others.any(|other| other.file == open.file && open.bars(other))
    }

    /// The smallest FID not in use.
    pub fn next_fid(&self) -> u16 {
        smallest_free(self.opens.in_use().iter().map(|o| o.fid))
    }

    /// Puts an open, whose FID is not looked at, behind those in use with the next
    /// FID, and gives that. The table is not full.
    pub fn add_open(&mut self, open: Open) -> u16 {
        let fid = self.next_fid();
        self.opens.push(Open { fid, ..open });
        fid
    }

    /// The locks of a file, through whatever FID, with their places.
    pub fn locks_of(&self, file: u8) -> impl Iterator<Item = (usize, &Lock)> + Clone {
        // The FIDs of the file: bit n - 1 for FID n.
        let fids = self
            .opens
            .in_use()
            .iter()
            .filter(|open| open.file == file)
            .fold(0u64, |fids, open| fids | 1 << (open.fid - 1));
        let locks = self.locks.in_use().iter().enumerate();
        locks.filter(move |(_, lock)| fids >> (lock.fid - 1) & 1 != 0)
    }
}

/// Soundness: "Tables are sound if ...". It "gains sharing codes and the
/// catalogue's rules" (document 02, request 6) and the rules of change numbers
/// (request 8).
impl Tables {
    pub fn sound(&self) -> bool {
        self.limits_sound()
            && self.sessions_sound()
            && self.trees_sound()
            && self.opens_sound()
            && self.locks_sound()
            && self.catalogue.sound()
    }

    /// "counts and file sizes are within these limits", and change numbers have 32
    /// bits.
    fn limits_sound(&self) -> bool {
        self.sessions.count <= SESSIONS
            && self.trees.count <= TREES
            && self.opens.count <= OPENS
            && self.locks.count <= LOCKS
            && self
                .files
                .iter()
                .all(|f| f.size <= FILE_BYTES as u64 && f.changes <= LARGEST_CHANGE)
    }

    fn sessions_sound(&self) -> bool {
        let uids = self.sessions.in_use().iter().map(|s| s.uid);
        Numbers::distinct(uids, SESSIONS).is_some()
    }

    fn trees_sound(&self) -> bool {
        let trees = self.trees.in_use();
        Numbers::distinct(trees.iter().map(|t| t.tid), TREES).is_some()
            && trees
                .iter()
                .all(|t| t.right <= LARGEST_RIGHT && self.session(t.uid).is_some())
    }

    fn opens_sound(&self) -> bool {
        let opens = self.opens.in_use();
        Numbers::distinct(opens.iter().map(|o| o.fid), OPENS).is_some()
            && opens.iter().all(|open| self.open_sound(open))
    }

    /// "(an open's tree has the open's UID)"; "no open exceeds its tree's
    /// right". The session is there as the tree has one. "An open's remembered
    /// number doesn't exceed its file's", whether it has read or not.
    fn open_sound(&self, open: &Open) -> bool {
        let file = self.files.get(usize::from(open.file));
        file.is_some_and(|file| open.seen <= file.changes)
            && open.access <= LARGEST_ACCESS
            && (DENY_BOTH..=DENY_NONE).contains(&open.sharing)
            && self
                .tree(open.tid, open.uid)
                .is_some_and(|tree| !exceeds(open.access, tree.right))
    }

    /// "no lock passes 2^64; and two locks of one file that overlap are both
    /// shared"
    fn locks_sound(&self) -> bool {
        let mut files = [None; OPENS + 1];
        for open in self.opens.in_use() {
            files[usize::from(open.fid)] = Some(open.file);
        }
        let file_of = |lock: &Lock| files.get(usize::from(lock.fid)).copied().flatten();
        let locks = self.locks.in_use();
        locks
            .iter()
            .all(|lock| file_of(lock).is_some() && !lock.range.passes())
            && locks.iter().enumerate().all(|(place, lock)| {
                locks[..place]
                    .iter()
                    .all(|other| !lock.conflicts(other) || file_of(lock) != file_of(other))
            })
    }
}

/// Whether an open of that access exceeds a tree's right: a tree of right
/// read allows access read only.
pub fn exceeds(access: u8, right: u8) -> bool {
    right == READ_ONLY && access != ACCESS_READ
}

/// Removal, "each with what hangs on them".
impl Tables {
    pub fn remove_sessions(&mut self, gone: impl Fn(&Session) -> bool) {
        self.sessions.retain(|session| !gone(session));
        self.sweep();
    }

    pub fn remove_opens(&mut self, gone: impl Fn(&Open) -> bool) {
        self.opens.retain(|open| !gone(open));
        self.sweep();
    }

    /// "LOGOFF the session and its trees"
    pub fn remove_session(&mut self, uid: u16) {
        self.remove_sessions(|session| session.uid == uid);
    }

    /// "TREE_DISCONNECT removes the tree and its opens"
    pub fn remove_tree(&mut self, tid: u16) {
        self.trees.retain(|tree| tree.tid != tid);
        self.sweep();
    }

    /// "CLOSE removes the open and its locks."
    pub fn remove_open(&mut self, fid: u16) {
        self.remove_opens(|open| open.fid == fid);
    }

    /// Removes what hangs on records that are gone.
    fn sweep(&mut self) {
        let Tables {
            sessions,
            trees,
            opens,
            locks,
            ..
        } = self;
        trees.retain(|tree| sessions.in_use().iter().any(|s| s.uid == tree.uid));
        opens.retain(|open| trees.in_use().iter().any(|t| t.tid == open.tid));
        locks.retain(|lock| opens.in_use().iter().any(|o| o.fid == lock.fid));
    }
}

#[cfg(test)]
mod tests {
    use super::*;

    /// By the ends, in whole numbers.
    fn by_ends(one: Range, other: Range) -> bool {
        one.start().max(other.start()) < one.end().min(other.end())
    }

    #[test]
    fn overlap_is_a_byte_in_both() {
        let edges = [0, 1, 2, 5, 1 << 32, 1 << 63, u64::MAX - 1, u64::MAX];
        let ranges = || {
            edges.into_iter().flat_map(move |offset| {
                edges
                    .into_iter()
                    .map(move |length| Range { offset, length })
            })
        };
        for one in ranges() {
            for other in ranges() {
                assert_eq!(
                    one.overlaps(other),
                    by_ends(one, other),
                    "{one:?} {other:?}"
                );
            }
        }
        // Equal starts, and every small pair against the bytes themselves.
        for numbers in 0..10_000u64 {
            let digit = |place: u32| numbers / 10u64.pow(place) % 10;
            let (one, other) = ((digit(0), digit(1)), (digit(2), digit(3)));
            let range = |(offset, length)| Range { offset, length };
            let covers = |(offset, length), byte| offset <= byte && byte < offset + length;
            let both = (0..20).any(|byte| covers(one, byte) && covers(other, byte));
            assert_eq!(range(one).overlaps(range(other)), both);
        }
    }

    #[test]
    fn removal_keeps_order_and_what_lies_behind() {
        let mut table = Table {
            records: [1, 2, 3, 4, 5, 6],
            count: 4,
            most: 4,
        };
        table.retain(|number| number % 2 == 0);
        assert_eq!((table.records, table.count), ([2, 4, 0, 0, 5, 6], 2));
        table.push(9);
        assert_eq!((table.records, table.count), ([2, 4, 9, 0, 5, 6], 3));
    }

    #[test]
    fn smallest_free_number() {
        assert_eq!(smallest_free([].into_iter()), 1);
        assert_eq!(smallest_free([2, 1, 5].into_iter()), 3);
        assert_eq!(smallest_free(2..=64), 1);
        assert_eq!(smallest_free(1..=63), 64);
    }
}
