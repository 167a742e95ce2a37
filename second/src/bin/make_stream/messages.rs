//! The messages of one terminal, each made for the tables that the ones before
//! it leave.

use crate::day::chain;
use crate::maker::{lengthened, read, write, Maker, User};
use second::builder::{core_read, core_write, lock_range, locking, open, unlock_range, Ask, Asked};
use second::listing::{self, Answer};
use second::messages::{all, worked};
use second::refusals::WireRefusal::{self, *};
use second::request::JUST_OPENED;
use second::tables::{LOCKS, OPENS};
use std::collections::BTreeMap;

pub const CONNECTION: u32 = 5;
/// The names in the catalogue, with their files.
pub const NAMES: [(&[u8], u8); 3] = [(b"REVOKED.TXT", 0), (b"notes", 1), (b"Empty", 2)];

/// Messages drawn by lot.
const DRAWN: usize = 130;
/// Most bytes of a message taken from the lister's.
const SHORT: usize = 130;

const TERMINAL: User = User {
    connection: CONNECTION,
    uid: 1,
    tid: 1,
    pid: 7,
};
/// The terminal's other process.
const OTHER: User = User { pid: 8, ..TERMINAL };
/// Opens of file 0 by each, and of file 1 for reading.
const FID: u16 = 1;
const BEHIND: u16 = 2;
const READ_ONLY: u16 = 3;

struct Sent<'a> {
    maker: &'a mut Maker,
}

/// Sends all messages, in order: the maker's history has them.
pub fn send_all(maker: &mut Maker) {
    let mut sent = Sent { maker };
    sent.any(worked());
    sent.refusals();
    sent.drawn();
    sent.malformed();
    sent.sizes();
    sent.locks_full();
    sent.core_commands();
    sent.opening();
    sent.opens_full();
    sent.leaving();
}

impl Sent<'_> {
    /// A message whose answer is not foretold.
    fn any(&mut self, message: Vec<u8>) {
        self.maker.take(CONNECTION, message);
    }

    fn refused(&mut self, user: User, asks: &[Ask], refusal: WireRefusal) {
        self.maker.refused(user, asks, refusal);
    }

    fn done(&mut self, user: User, asks: &[Ask]) {
        self.maker.done(user, asks);
    }

    fn dropped(&mut self, message: Vec<u8>) {
        self.maker.dropped(CONNECTION, message);
    }

    /// Each refusal of a chain but a full lock table's, first in it or second.
    fn refusals(&mut self) {
        let stands = write(FID, 20, b"stands");
        let held: Asked = (8, 200, 10);
        self.done(OTHER, &[locking(BEHIND, 0, &[], &[held])]);
        let passes = [(7, u64::MAX, 2)];
        let refused = [
            (User { uid: 9, ..TERMINAL }, read(FID, 0, 9), NoSession),
            (User { tid: 9, ..TERMINAL }, read(FID, 0, 9), NoTree),
            (TERMINAL, read(9, 0, 9), NoOpen),
            (TERMINAL, write(READ_ONLY, 0, b"x"), Access),
            (TERMINAL, locking(FID, 2, &[], &[]), NotSupported),
            (TERMINAL, locking(FID, 0, &[held], &[]), NotLocked),
            (TERMINAL, locking(FID, 0x10, &[], &passes), RangePasses),
            (TERMINAL, read(FID, 195, 9), FileLockConflict),
            (TERMINAL, write(FID, 4096, b"x"), FileFull),
        ];
        for (user, ask, refusal) in refused {
            self.refused(user, std::slice::from_ref(&ask), refusal);
            if !matches!(ask, Ask::Locking { .. }) {
                self.refused(user, &[stands.clone(), ask], refusal);
            }
        }
        for kind in [0x02, 0x80] {
            let ask = locking(FID, kind, &[], &[(7, 0, 1)]);
            self.refused(TERMINAL, &[ask], NotSupported);
        }
        let near = locking(FID, 0, &[(7, 0, 1)], &[]);
        self.refused(TERMINAL, &[near], NotLocked);
        let far = locking(FID, 0x11, &[], &[(7, 2, u64::MAX)]);
        self.refused(TERMINAL, &[far], RangePasses);
        self.done(OTHER, &[locking(BEHIND, 0, &[held], &[])]);
    }

    /// Chains drawn by lot that remove nothing, a few of them damaged.
    fn drawn(&mut self) {
        let before = self.maker.calls;
        while self.maker.calls < before + DRAWN {
            let tables = self.maker.tables();
            let rng = &mut self.maker.rng;
            let open = rng.pick(tables.opens.in_use());
            let user = if open.fid == BEHIND { OTHER } else { TERMINAL };
            let asks = chain(rng, &tables, open, user.pid as u16);
            if asks.iter().any(removes) {
                continue;
            }
            let mut message = self.maker.message(user, &asks);
            if self.maker.rng.below(20) == 0 {
                let place = 32 + self.maker.rng.below(message.len() - 32);
                message[place] = self.maker.rng.byte();
            }
            self.any(message);
        }
    }

    /// Short ones of the lister's messages that are no chain, some for each
    /// reason.
    fn malformed(&mut self) {
        let mut seen: BTreeMap<String, usize> = BTreeMap::new();
        for made in all() {
            let reason = match listing::answer(&made.bytes) {
                Answer::Chain(_) => continue,
                Answer::NotAChain(reason) => format!("{:?}", reason.why),
                Answer::Dropped(reason) => format!("{reason:?}"),
            };
            let count = seen.entry(reason).or_default();
            if made.bytes.len() <= SHORT {
                *count += 1;
                if *count % 6 == 1 && *count < 40 {
                    self.any(made.bytes);
                }
            }
        }
    }

    /// No byte, too few, the fewest, the most; the longest reads and writes.
    fn sizes(&mut self) {
        let page = self.maker.rng.bytes(4096);
        self.release();
        self.dropped(Vec::new());
        self.dropped(vec![0xFF]);
        self.dropped(vec![0xFF; 34]);
        self.dropped(Vec::new());
        let ask = lengthened(&write(FID, 0, &page));
        self.done(TERMINAL, &[ask]);
        self.done(TERMINAL, &[read(FID, 0, 4096)]);
        let twice = [write(FID, 1, &page[..9]), read(FID, 0, 4096)];
        self.done(TERMINAL, &twice);
        let mut message = self
            .maker
            .message(TERMINAL, &[write(FID, 2, &page[..4094])]);
        message.resize(8192, 0x5A);
        self.maker.take_for(CONNECTION, message, None);
        self.dropped(vec![0x5A; 8192]);
    }

    /// The locks of each open are released.
    fn release(&mut self) {
        for (user, fid) in [(TERMINAL, FID), (OTHER, BEHIND), (TERMINAL, READ_ONLY)] {
            let tables = self.maker.tables();
            let locks = tables.locks.in_use().iter().filter(|lock| lock.fid == fid);
            let held: Vec<Asked> = locks
                .map(|lock| (lock.process as u16, lock.range.offset, lock.range.length))
                .collect();
            self.done(user, &[locking(fid, 0x10, &held, &[])]);
        }
    }

    /// Every lock record in use, and none free for one more.
    fn locks_full(&mut self) {
        let ranges: Vec<Asked> = (0..LOCKS as u64).map(|n| (7, 600 + 2 * n, 2)).collect();
        self.done(TERMINAL, &[locking(FID, 0, &[], &ranges)]);
        let one = locking(BEHIND, 1, &[], &[(8, 0, 1)]);
        self.refused(OTHER, std::slice::from_ref(&one), NoLockRecord);
        self.refused(OTHER, &[one.clone(), read(BEHIND, 0, 9)], NoLockRecord);
        self.done(TERMINAL, &[locking(FID, 0, &ranges, &[])]);
        self.done(OTHER, &[one]);
    }

    /// The core commands (document 02, request 3), alone and behind LOCKING, done
    /// and refused.
    fn core_commands(&mut self) {
        let held: Asked = (7, 100, 10);
        for ask in [
            lock_range(FID, 100, 10),
            core_write(FID, 100, b"core bytes"),
            core_read(FID, 90, 30),
            core_write(FID, 105, b""),
            core_read(FID, 90, 30),
            core_write(FID, 110, b""),
            core_read(FID, 90, 30),
        ] {
            self.done(TERMINAL, &[ask]);
        }
        self.done(TERMINAL, &[locking(FID, 0, &[], &[]), core_read(FID, 0, 9)]);
        let refused = [
            (core_read(BEHIND, 109, 1), FileLockConflict),
            (core_write(BEHIND, 109, b"x"), FileLockConflict),
            (core_write(BEHIND, 105, b""), FileLockConflict),
            (core_write(BEHIND, 4096, b"x"), FileFull),
            (core_write(BEHIND, 4097, b""), FileFull),
            (core_read(9, 0, 9), NoOpen),
        ];
        for (ask, refusal) in refused {
            self.refused(OTHER, std::slice::from_ref(&ask), refusal);
            self.refused(OTHER, &[locking(BEHIND, 0, &[], &[]), ask], refusal);
        }
        for (ask, refusal) in [
            (lock_range(BEHIND, 109, 1), LockNotGranted),
            (unlock_range(BEHIND, 100, 10), NotLocked),
            (core_write(READ_ONLY, 0, b""), Access),
        ] {
            self.refused(OTHER, &[ask], refusal);
        }
        let asks = [locking(FID, 0, &[held], &[]), core_write(FID, 50, b"w")];
        self.done(TERMINAL, &asks);
        self.done(OTHER, &[lock_range(BEHIND, 109, 1)]);
        self.done(OTHER, &[unlock_range(BEHIND, 109, 1)]);
    }

    /// Opening by name (document 02, request 6), alone and before a READ, done and
    /// refused.
    fn opening(&mut self) {
        let just = read(JUST_OPENED, 0, 30);
        let told = Ask::Open {
            flags: 1,
            access_mode: 0x42,
            open_mode: 1,
            name: b"revoked.txt".to_vec(),
        };
        self.done(TERMINAL, &[told.clone()]);
        self.done(TERMINAL, &[told, just.clone()]);
        self.done(
            TERMINAL,
            &[open(0, 4, b"NOTES"), just.clone(), Ask::Close { fid: 6 }],
        );
        self.done(TERMINAL, &[open(0, 4, b"Notes"), read(FID, 5, 9)]);
        // The host has opened file 1 for reading, file 0 for both.
        let refused = [
            (open(0, 5, b"notes"), AccessCode),
            (open(0, 4, b"note"), NoName),
            (open(1, 3, b"notes"), Sharing),
            (open(0, 2, b"revoked.TXT"), Sharing),
        ];
        for (ask, refusal) in refused {
            self.refused(TERMINAL, std::slice::from_ref(&ask), refusal);
            self.refused(TERMINAL, &[ask, just.clone()], refusal);
        }
        let mode = Ask::Open {
            flags: 0,
            access_mode: 0x40,
            open_mode: 2,
            name: b"notes".to_vec(),
        };
        self.refused(TERMINAL, &[mode], NotSupported);
        let asks = [open(1, 4, b"notes"), just.clone()];
        self.refused(TERMINAL, &asks, Access);
        self.refused(TERMINAL, &[just], NoOpen);
        self.done(OTHER, &[open(2, 1, b"empty")]);
        self.refused(TERMINAL, &[open(0, 4, b"EMPTY")], Sharing);
    }

    /// Every FID in use, and none for one more.
    fn opens_full(&mut self) {
        while self.maker.tables().opens.count < OPENS {
            self.done(OTHER, &[open(0, 4, b"notes")]);
        }
        self.refused(TERMINAL, &[open(0, 4, b"notes")], NoFid);
        let asks = [open(0, 4, b"notes"), read(JUST_OPENED, 0, 9)];
        self.refused(TERMINAL, &asks, NoFid);
    }

    /// The opens, the tree and the session go, and what is asked of them then.
    fn leaving(&mut self) {
        self.done(
            TERMINAL,
            &[write(FID, 10, b"last"), Ask::Close { fid: FID }],
        );
        self.refused(TERMINAL, &[read(FID, 0, 4)], NoOpen);
        self.done(TERMINAL, &[read(READ_ONLY, 0, 40)]);
        self.done(TERMINAL, &[Ask::Close { fid: READ_ONLY }]);
        self.done(OTHER, &[Ask::ProcessExit]);
        self.refused(OTHER, &[read(BEHIND, 0, 4)], NoOpen);
        self.done(TERMINAL, &[Ask::TreeDisconnect]);
        self.refused(TERMINAL, &[read(FID, 0, 4)], NoTree);
        self.done(TERMINAL, &[Ask::Logoff]);
        self.refused(TERMINAL, &[Ask::Logoff], NoSession);
    }
}

/// Whether it closes an open or more.
fn removes(ask: &Ask) -> bool {
    matches!(
        ask,
        Ask::Close { .. } | Ask::Logoff | Ask::TreeDisconnect | Ask::ProcessExit
    )
}
