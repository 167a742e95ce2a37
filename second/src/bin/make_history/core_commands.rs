//! The core commands (document 02, request 3): alone and behind LOCKING, done
//! and refused for each reason. Each answer and holder is foretold.

use crate::maker::{lengthened, read, write, Held, Maker, User};
use second::builder::{
    core_read, core_write, lock_range, locking, message, unlock_range, Ask, Asked, Header,
};
use second::grammar::{LOCKING_ANDX, READ_ANDX, WRITE, WRITE_ANDX};
use second::refusals::WireRefusal::*;
use second::tables::{FILE_BYTES, LOCKS};
use std::slice::from_ref;

const OLDEST: u32 = 900;
const DESK: u32 = 901;
/// The file that the bench and the desk have open, and its size at first.
const FILE: u8 = 10;
const SIZE: u32 = 60;
/// The bench's process, its lower half, and one with the same lower half.
const BENCHS: u32 = 65_543;
const HALF: u16 = 7;
const TWIN: u32 = 7;
const DESKS: u32 = 42;

/// The oldest bench and the desk, with an open each of one file.
struct Bench {
    user: User,
    fid: u16,
    twin: User,
    desk: User,
    behind: u16,
}

pub fn core_commands(maker: &mut Maker) {
    maker.load(FILE, SIZE as usize);
    let user = maker.user(OLDEST, 1, BENCHS);
    let desk = maker.user(DESK, 1, DESKS);
    let bench = Bench {
        user,
        fid: maker.open(user, FILE, 2),
        twin: User { pid: TWIN, ..user },
        desk,
        behind: maker.open(desk, FILE, 2),
    };
    bench.reads(maker);
    bench.writes(maker);
    bench.sizes(maker);
    bench.locks(maker);
    bench.bars(maker);
    bench.barred_sizes(maker);
    bench.chains(maker);
    bench.chains_refused(maker);
    bench.headers(maker);
    bench.access(maker);
    bench.followers(maker);
    bench.data_blocks(maker);
    bench.shapes(maker);
    bench.locks_full(maker);
    maker.drop_connection(OLDEST);
    maker.drop_connection(DESK);
}

/// Four commands, and count 0, that an open can be asked for.
fn five(fid: u16) -> [Ask; 5] {
    [
        core_read(fid, 0, 1),
        core_write(fid, 0, b"w"),
        core_write(fid, 5, b""),
        lock_range(fid, 0, 1),
        unlock_range(fid, 0, 1),
    ]
}

/// A lock in the way of a command that goes by the header's process.
type By = Held<u32>;

impl Bench {
    /// A READ that must yield the bytes.
    fn yields(&self, maker: &mut Maker, offset: u32, count: u16, data: &[u8]) {
        let answer = maker.done(self.user, &[core_read(self.fid, offset, count)]);
        // Behind WordCount, five words, ByteCount and the data block's head.
        if answer.reply.get(48..) != Some(data) {
            let reply = answer.reply;
            maker.complaints.push(format!("not {data:?}: {reply:?}"));
        }
    }

    fn done(&self, maker: &mut Maker, ask: Ask) {
        maker.done(self.user, &[ask]);
    }

    /// Inside the size, over its end, past it, of no byte, of all.
    fn reads(&self, maker: &mut Maker) {
        for (offset, count) in [(0, 10), (SIZE - 3, 3), (SIZE - 3, 4), (SIZE - 1, 0xFFFF)] {
            self.done(maker, core_read(self.fid, offset, count));
        }
        for (offset, count) in [
            (SIZE, 1),
            (SIZE + 1, 9),
            (5000, 9),
            (u32::MAX, 0xFFFF),
            (3, 0),
        ] {
            self.yields(maker, offset, count, &[]);
        }
        let whole = maker.open(self.user, 5, 2);
        self.done(maker, core_write(whole, FILE_BYTES as u32, b""));
        self.done(maker, core_read(whole, 0, FILE_BYTES as u16));
        self.done(maker, Ask::Close { fid: whole });
    }

    /// Inside, over the end, over a gap, up to 4,096 and past it.
    fn writes(&self, maker: &mut Maker) {
        let fid = self.fid;
        self.done(maker, core_write(fid, 0, b"first"));
        self.done(maker, core_write(fid, SIZE - 2, b"over"));
        self.done(maker, core_write(fid, SIZE + 6, b"gap"));
        self.yields(maker, SIZE - 3, 20, &over_and_gap(maker));
        self.done(maker, core_write(fid, 4090, b"to end"));
        for (offset, data) in [(4091, &b"to end"[..]), (4096, b"x"), (u32::MAX, b"xx")] {
            maker.refused(self.user, &[core_write(fid, offset, data)], FileFull);
        }
        self.done(maker, core_write(fid, SIZE, b""));
    }

    /// "sets the file's size to the offset (past 4,096 is 3/39), with zeros where
    /// it grows and no byte changed where it shrinks"
    fn sizes(&self, maker: &mut Maker) {
        let (user, fid) = (self.user, self.fid);
        let set = |size| core_write(fid, size, b"");
        self.done(maker, core_write(fid, 0, b"abcdefghij"));
        for size in [10, 10, 4, 4, 0, 0] {
            self.done(maker, set(size));
        }
        self.yields(maker, 0, 20, b"");
        self.done(maker, set(3));
        self.yields(maker, 0, 20, &[0; 3]);
        // Old bytes stay past the size and never show again: raised by each.
        for grown in [set(8), core_write(fid, 7, b"8"), write(fid, 7, b"8")] {
            self.done(maker, core_write(fid, 0, b"ABCDEFGHIJ"));
            self.done(maker, set(2));
            self.done(maker, grown.clone());
            let last = if grown == set(8) { 0 } else { b'8' };
            let data = [b'A', b'B', 0, 0, 0, 0, 0, last];
            self.yields(maker, 0, 20, &data);
        }
        // WRITE_ANDX of length 0 changes no size.
        self.done(maker, write(fid, 3, b""));
        for size in [FILE_BYTES as u32, 9, 4095, 4096, 4096, 9, 10] {
            self.done(maker, set(size));
        }
        for size in [4097, 4098, 5000, 0x1_0000, u32::MAX] {
            maker.refused(user, &[set(size)], FileFull);
        }
        self.done(maker, set(SIZE));
        let left = [b'A', b'B', 0, 0, 0, 0, 0, b'8', 0, 0, 0, 0];
        self.yields(maker, 0, 12, &left);
    }

    /// Granted and released by the header's process, in all its bits.
    fn locks(&self, maker: &mut Maker) {
        let Bench { user, twin, .. } = *self;
        let (fid, behind) = (self.fid, self.behind);
        let first: By = (fid, BENCHS, 0, 10, 10);
        self.done(maker, lock_range(fid, 10, 10));
        for (user, ask) in [
            (user, lock_range(fid, 10, 10)),
            (twin, lock_range(fid, 19, 1)),
            (twin, lock_range(fid, 0, u32::MAX)),
            (self.desk, lock_range(behind, 0, 11)),
            (self.desk, locking(behind, 1, &[], &[(HALF, 15, 1)])),
        ] {
            maker.held(user, &[ask], first);
        }
        for near in [(10, 9), (10, 11), (9, 10), (11, 10), (10, 0)] {
            maker.refused(user, &[unlock_range(fid, near.0, near.1)], NotLocked);
        }
        maker.refused(twin, &[unlock_range(fid, 10, 10)], NotLocked);
        maker.refused(self.desk, &[unlock_range(behind, 10, 10)], NotLocked);
        // Beside it, of length 0, and at the end of 32 bits.
        for (offset, length) in [(20, 5), (15, 0), (u32::MAX, u32::MAX), (0, 10)] {
            maker.done(self.desk, &[lock_range(behind, offset, length)]);
        }
        let far = locking(fid, 0x10, &[], &[(HALF, 1 << 32, 1)]);
        let held: By = (behind, DESKS, 3, u32::MAX.into(), u32::MAX.into());
        maker.held(user, &[far], held);
        for (offset, length) in [(u32::MAX, u32::MAX), (15, 0), (20, 5), (0, 10)] {
            maker.done(self.desk, &[unlock_range(behind, offset, length)]);
        }
        // Each form releases the other's, and a shared one.
        self.done(maker, locking(fid, 0x10, &[(HALF, 10, 10)], &[]));
        for kind in [0x00, 0x01, 0x10, 0x11] {
            self.done(maker, locking(fid, kind, &[], &[(HALF, 30, 5)]));
            self.done(maker, unlock_range(fid, 30, 5));
        }
        maker.refused(user, &[unlock_range(fid, 30, 5)], NotLocked);
    }

    /// Which locks bar a READ and a WRITE.
    fn bars(&self, maker: &mut Maker) {
        let Bench {
            user, twin, desk, ..
        } = *self;
        let (fid, behind) = (self.fid, self.behind);
        let own: By = (fid, BENCHS, 0, 10, 10);
        let shared: By = (fid, BENCHS, 1, 20, 10);
        self.done(maker, lock_range(fid, 10, 10));
        self.done(maker, locking(fid, 1, &[], &[(HALF, 20, 10)]));
        for (user, fid) in [(twin, fid), (desk, behind)] {
            maker.held(user, &[core_read(fid, 19, 1)], own);
            maker.held(user, &[core_read(fid, 0, 60)], own);
            maker.held(user, &[core_read(fid, 10, 0xFFFF)], own);
            maker.held(user, &[core_write(fid, 5, b"123456")], own);
            maker.held(user, &[core_write(fid, 29, b"x")], shared);
            maker.done(user, &[core_read(fid, 20, 10)]);
            maker.done(user, &[core_read(fid, 15, 0)]);
            maker.done(user, &[core_write(fid, 30, b"free")]);
        }
        self.done(maker, core_read(fid, 5, 30));
        self.done(maker, core_write(fid, 10, b"0123456789"));
        maker.held(user, &[core_write(fid, 19, b"xx")], shared);
        // 1/33 before 3/39.
        maker.done(desk, &[lock_range(behind, 4090, 10)]);
        let far: By = (behind, DESKS, 2, 4090, 10);
        maker.held(user, &[core_write(fid, 4095, b"xx")], far);
        maker.refused(desk, &[core_write(behind, 4095, b"xx")], FileFull);
    }

    /// "for locks it covers from the smaller to the larger of old size and
    /// offset, under the write rule". Held are the bench's exclusive lock of 10
    /// to 20, its shared one of 20 to 30, and the desk's of 4,090 to 4,100.
    fn barred_sizes(&self, maker: &mut Maker) {
        let Bench {
            user, twin, desk, ..
        } = *self;
        let (fid, behind) = (self.fid, self.behind);
        let exclusive: By = (fid, BENCHS, 0, 10, 10);
        let shared: By = (fid, BENCHS, 1, 20, 10);
        let far: By = (behind, DESKS, 2, 4090, 10);
        let set = |size| core_write(fid, size, b"");
        // Its own shared lock bars it, its own exclusive one doesn't.
        for size in [29, 20, 15, 0] {
            maker.held(user, &[set(size)], shared);
        }
        maker.held(twin, &[set(0)], exclusive);
        maker.held(desk, &[core_write(behind, 29, b"")], shared);
        maker.done(user, &[set(30)]);
        self.done(maker, unlock_range(fid, 20, 10));
        for size in [15, 30, 10, 20] {
            maker.done(user, &[set(size)]);
        }
        for size in [19, 10, 5] {
            maker.held(twin, &[set(size)], exclusive);
            maker.held(desk, &[core_write(behind, size, b"")], exclusive);
        }
        maker.done(twin, &[set(20)]);
        maker.done(user, &[set(5)]);
        // Growing over locks behind the size; 1/33 also where it is past 4,096.
        for size in [11, 20, 60, 5000] {
            maker.held(desk, &[core_write(behind, size, b"")], exclusive);
        }
        let far = (far.0, far.1, 1, far.3, far.4);
        for size in [4091, 4096, 4097, u32::MAX] {
            maker.held(user, &[set(size)], far);
        }
        maker.done(user, &[set(4090)]);
        maker.done(user, &[set(SIZE)]);
        maker.done(desk, &[unlock_range(behind, 4090, 10)]);
        self.done(maker, unlock_range(fid, 10, 10));
        self.yields(maker, 3, 5, &[0; 5]);
    }

    /// LOCKING with READ, WRITE or count 0 behind it, in both forms.
    fn chains(&self, maker: &mut Maker) {
        let (user, fid) = (self.user, self.fid);
        let range: Asked = (HALF, 10, 10);
        for kind in [0x00, 0x10] {
            let lock = locking(fid, kind, &[], &[range]);
            let unlock = locking(fid, kind, &[range], &[]);
            let behind = [
                core_read(fid, 10, 10),
                core_write(fid, 12, b"chain"),
                core_write(fid, 15, b""),
                core_read(fid, SIZE, 5),
                core_write(fid, SIZE, b""),
                core_read(fid, 15, 3),
            ];
            for ask in behind {
                maker.done(user, &[lock.clone(), ask.clone()]);
                maker.done(user, &[unlock.clone(), ask]);
            }
        }
    }

    /// Each reason for the second command; the LOCKING before it stands.
    fn chains_refused(&self, maker: &mut Maker) {
        let (user, fid) = (self.user, self.fid);
        let range: Asked = (HALF, 100, 10);
        let lock = locking(fid, 0, &[], &[range]);
        let unlock = locking(fid, 0, &[range], &[]);
        maker.done(self.desk, &[lock_range(self.behind, 40, 10)]);
        let held: By = (self.behind, DESKS, 0, 40, 10);
        for ask in [
            core_read(fid, 30, 11),
            core_write(fid, 49, b"x"),
            core_write(fid, 45, b""),
            core_write(fid, 0, b""),
        ] {
            maker.held(user, &[lock.clone(), ask.clone()], held);
            maker.held(user, &[unlock.clone(), ask], held);
        }
        for (ask, refusal) in [
            (core_read(0, 0, 1), NoOpen),
            (core_write(0, 0, b"x"), NoOpen),
            (core_write(0, 0, b""), NoOpen),
            (core_write(fid, 4096, b"x"), FileFull),
            (core_write(fid, 4097, b""), FileFull),
        ] {
            maker.refused(user, &[lock.clone(), ask.clone()], refusal);
            maker.refused(user, &[unlock.clone(), ask], refusal);
        }
        // Its own lock, granted before it, is the holder; the first refused.
        let own = locking(fid, 1, &[], &[range]);
        let granted: By = (fid, BENCHS, 1, 100, 10);
        maker.held(user, &[own.clone(), core_write(fid, 105, b"x")], granted);
        maker.held(user, &[own.clone(), core_write(fid, 105, b"")], granted);
        maker.done(
            user,
            &[locking(fid, 0, &[range; 2], &[]), core_read(fid, 0, 9)],
        );
        for ask in [core_read(fid, 0, 9), core_write(fid, 0, b"x")] {
            maker.refused(user, &[unlock.clone(), ask.clone()], NotLocked);
            let barred = lengthened(&locking(fid, 0, &[], &[(HALF, 49, 1)]));
            maker.held(user, &[barred, ask], held);
        }
        maker.done(self.desk, &[unlock_range(self.behind, 40, 10)]);
    }

    /// 2/91, 2/5 and 1/6 for each.
    fn headers(&self, maker: &mut Maker) {
        let user = self.user;
        for (ask, elsewhere) in five(self.fid).into_iter().zip(five(self.behind)) {
            maker.refused(User { uid: 0, ..user }, from_ref(&ask), NoSession);
            let connection = DESK;
            maker.refused(User { connection, ..user }, from_ref(&ask), NoSession);
            let tid = self.desk.tid;
            maker.refused(User { tid, ..user }, from_ref(&ask), NoTree);
            maker.refused(User { tid: 0, ..user }, &[ask], NoTree);
            maker.refused(user, &[elsewhere], NoOpen);
        }
        for ask in five(0xFFFF) {
            maker.refused(user, &[ask], NoOpen);
        }
    }

    /// "1/5 is a read on access 1 or a write on access 0; locks need no access."
    fn access(&self, maker: &mut Maker) {
        let user = self.user;
        let read_only = maker.open(user, FILE, 0);
        let write_only = maker.open(user, FILE, 1);
        let lock = |fid| locking(fid, 0, &[], &[]);
        for (offset, data) in [
            (0, &b"x"[..]),
            (4096, b"x"),
            (5, b""),
            (SIZE, b""),
            (5000, b""),
        ] {
            let ask = core_write(read_only, offset, data);
            maker.refused(user, from_ref(&ask), Access);
            maker.refused(user, &[lock(read_only), ask], Access);
        }
        for count in [0, 9] {
            let ask = core_read(write_only, 0, count);
            maker.refused(user, from_ref(&ask), Access);
            maker.refused(user, &[lock(write_only), ask], Access);
        }
        self.done(maker, core_read(read_only, 0, 9));
        self.done(maker, core_write(write_only, SIZE, b""));
        for fid in [read_only, write_only] {
            self.done(maker, lock_range(fid, 200, 5));
            self.done(maker, unlock_range(fid, 200, 5));
            self.done(maker, Ask::Close { fid });
        }
    }

    /// "READ and WRITE follow LOCKING_ANDX directly and nothing else; LOCK and
    /// UNLOCK never follow."
    fn followers(&self, maker: &mut Maker) {
        let (user, fid) = (self.user, self.fid);
        let firsts = [
            locking(fid, 0, &[], &[(HALF, 0, 1)]),
            read(fid, 0, 4),
            write(fid, 0, b"never"),
        ];
        for first in firsts {
            for next in five(fid) {
                let follows = [0x0A, 0x0B].contains(&next.command());
                if first.command() == LOCKING_ANDX && follows {
                    continue;
                }
                let message = maker.message(user, &[first.clone(), next]);
                maker.take_for(OLDEST, message, Some(NotASentence));
            }
        }
        // What a core command's words would name as AndX is not looked at.
        for command in [LOCKING_ANDX, READ_ANDX, WRITE_ANDX] {
            let named = u16::from(command);
            maker.refused(user, &[core_read(named, 32, 9)], NoOpen);
            maker.refused(user, &[lock_range(named, 32, 9)], NoOpen);
        }
    }

    /// A WRITE of two bytes in plain form, for damage at known places: count at
    /// 35, ByteCount at 43, mark at 45, length at 46; behind a LOCKING without
    /// ranges 19 further on.
    fn damaged(&self, maker: &mut Maker, second: bool, places: &[(usize, u8)]) {
        let header = Header {
            tid: self.user.tid,
            pid: self.user.pid,
            uid: self.user.uid,
        };
        let mut asks = vec![core_write(self.fid, 3, b"ab")];
        if second {
            asks.insert(0, locking(self.fid, 0, &[], &[]));
        }
        let mut message = message(header, &asks, &mut || 0, &mut || 0);
        message.extend([0x5A; 6]);
        for &(place, byte) in places {
            message[place + 19 * usize::from(second)] = byte;
        }
        maker.take_for(OLDEST, message, Some(NotASentence));
    }

    /// "a data block not marked 0x01 or whose lengths disagree is 2/1"
    fn data_blocks(&self, maker: &mut Maker) {
        for second in [false, true] {
            for mark in [0, 2, 5, 0xFF] {
                self.damaged(maker, second, &[(45, mark)]);
            }
            for (place, number) in [
                (35, 1),
                (35, 3),
                (36, 1),
                (43, 4),
                (43, 6),
                (43, 0),
                (43, 1),
                (43, 2),
                (44, 1),
                (46, 1),
                (46, 3),
                (47, 1),
            ] {
                self.damaged(maker, second, &[(place, number)]);
            }
            // Two of the three agree, as if the third were not looked at.
            self.damaged(maker, second, &[(35, 1), (46, 1)]);
            self.damaged(maker, second, &[(35, 1), (43, 4)]);
            self.damaged(maker, second, &[(46, 1), (43, 4)]);
            // Count + 3 in 16 bits is the ByteCount.
            let wrapped = [(35, 0xFE), (36, 0xFF), (46, 0xFE), (47, 0xFF), (43, 1)];
            self.damaged(maker, second, &wrapped);
        }
        self.yields(maker, 3, 2, &[0, 0]);
    }

    /// WordCount, ByteCount and blocks cut.
    fn shapes(&self, maker: &mut Maker) {
        for ask in five(self.fid) {
            let message = maker.message(self.user, from_ref(&ask));
            let refused = Some(NotASentence);
            for words in [4, 6] {
                let mut message = message.clone();
                message[32] = words;
                message.extend([0; 4]);
                maker.take_for(OLDEST, message, refused);
            }
            for length in [40, 44, message.len() - 1] {
                maker.take_for(OLDEST, message[..length].to_vec(), refused);
            }
            if ask.command() != WRITE {
                let mut message = message.clone();
                message[43] = 3;
                message.extend([1, 0, 0]);
                maker.take_for(OLDEST, message, refused);
            }
        }
    }

    /// 1/8, and the conflict before it.
    fn locks_full(&self, maker: &mut Maker) {
        let (user, fid) = (self.user, self.fid);
        let ranges: Vec<Asked> = (0..LOCKS as u64).map(|n| (HALF, 600 + 2 * n, 2)).collect();
        self.done(maker, locking(fid, 0, &[], &ranges));
        maker.refused(user, &[lock_range(fid, 0, 1)], NoLockRecord);
        maker.refused(user, &[lock_range(fid, 0, 0)], NoLockRecord);
        maker.refused(self.desk, &[lock_range(self.behind, 9, 9)], NoLockRecord);
        let last: By = (fid, BENCHS, 127, 854, 2);
        maker.held(self.desk, &[lock_range(self.behind, 855, 50)], last);
        self.done(maker, unlock_range(fid, 602, 2));
        self.done(maker, lock_range(fid, 0, 1));
        maker.refused(user, &[lock_range(fid, 1, 1)], NoLockRecord);
        let asks = [locking(fid, 0, &[], &[(HALF, 1, 1)]), core_read(fid, 0, 9)];
        maker.refused(user, &asks, NoLockRecord);
    }
}

/// What `writes` leaves from three bytes before the first size on: a byte that
/// was loaded, "over", a gap of zeros, "gap".
fn over_and_gap(maker: &Maker) -> Vec<u8> {
    let start = usize::from(FILE) * FILE_BYTES + SIZE as usize - 3;
    let loaded = maker.memory()[start];
    [&[loaded], &b"over"[..], &[0; 4], b"gap"].concat()
}
