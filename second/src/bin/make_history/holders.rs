//! Who holds the lock (document 02, request 2), each holder foretold: FID,
//! process, place, offset and length.

use crate::maker::{lengthened, read, write, Held, Maker, User};
use second::builder::{locking, Ask, Asked};
use second::refusals::WireRefusal::*;
use second::tables::LOCKS;

const LINE: u32 = 700;
const DESK: u32 = 701;
/// The processes of the two users, and one more of the first.
const ONE: u16 = 41;
const OTHER: u16 = 42;
const CHILD: u16 = 77;

/// Two users with an open each of one file, and one open of another file.
struct Plant {
    one: User,
    fid: u16,
    other: User,
    behind: u16,
    elsewhere: u16,
    /// The type bit of the form that is asked for.
    form: u8,
}

pub fn holders(maker: &mut Maker) {
    for form in [0x00, 0x10] {
        let one = maker.user(LINE, 1, ONE.into());
        let other = maker.user(DESK, 1, OTHER.into());
        let plant = Plant {
            one,
            elsewhere: maker.open(one, 1, 2),
            fid: maker.open(one, 3, 2),
            other,
            behind: maker.open(other, 3, 2),
            form,
        };
        plant.hold(maker);
        plant.reads(maker);
        plant.writes(maker);
        plant.locks(maker);
        plant.unlocks(maker);
        plant.own_ranges(maker);
        plant.chains(maker);
        plant.far_and_full(maker);
        maker.drop_connection(LINE);
        maker.drop_connection(DESK);
    }
}

impl Plant {
    /// The list: places 0 to 5.
    fn hold(&self, maker: &mut Maker) {
        let Plant { one, other, .. } = *self;
        let held = [
            (one, self.elsewhere, 0, (ONE, 100, 100)),
            (one, self.fid, 0, (ONE, 0, 10)),
            (other, self.behind, 1, (OTHER, 20, 10)),
            (one, self.fid, 1, (ONE, 20, 20)),
            (one, self.fid, 0, (CHILD, 50, 10)),
            (other, self.behind, 0, (OTHER, 100, 10)),
        ];
        for (user, fid, kind, range) in held {
            maker.done(user, &[locking(fid, self.form | kind, &[], &[range])]);
        }
        if maker.tables().locks.count != held.len() {
            maker.complaints.push("other locks are held".to_string());
        }
    }

    /// The place 1 of the list: the exclusive lock of the one.
    fn first(&self) -> Held<u16> {
        (self.fid, ONE, 1, 0, 10)
    }

    /// The exclusive lock of the other, at its place or where unlocks put it.
    fn last(&self, place: u64) -> Held<u16> {
        (self.behind, OTHER, place, 100, 10)
    }

    fn either_form(&self, ask: Ask) -> Ask {
        match self.form {
            0 => ask,
            _ => lengthened(&ask),
        }
    }

    /// A message of one request that is refused for the lock.
    fn held(&self, maker: &mut Maker, user: User, ask: Ask, holder: Held<u16>) {
        maker.held(user, &[self.either_form(ask)], holder);
    }

    /// A request of the one for exclusive locks, refused for the lock.
    fn barred(&self, maker: &mut Maker, unlocks: &[Asked], locks: &[Asked], holder: Held<u16>) {
        let ask = locking(self.fid, self.form, unlocks, locks);
        self.held(maker, self.one, ask, holder);
    }

    /// Shared locks, own ones and those of another file are passed over.
    fn reads(&self, maker: &mut Maker) {
        let Plant { one, other, .. } = *self;
        let (fid, behind) = (self.fid, self.behind);
        let child = User {
            pid: CHILD.into(),
            ..one
        };
        let childs = (fid, CHILD, 4, 50, 10);
        self.held(maker, other, read(behind, 5, 1), self.first());
        self.held(maker, other, read(behind, 0, 200), self.first());
        self.held(maker, one, read(fid, 0, 200), childs);
        self.held(maker, one, read(fid, 59, 1), childs);
        self.held(maker, one, read(fid, 100, 4), self.last(5));
        self.held(maker, child, read(fid, 0, 60), self.first());
        maker.done(one, &[read(fid, 0, 50)]);
    }

    /// Own exclusive locks are passed over, own shared ones aren't.
    fn writes(&self, maker: &mut Maker) {
        let Plant { one, other, .. } = *self;
        let (fid, behind) = (self.fid, self.behind);
        let shared = (behind, OTHER, 2, 20, 10);
        self.held(maker, one, write(fid, 25, b"x"), shared);
        self.held(maker, one, write(fid, 35, b"x"), (fid, ONE, 3, 20, 20));
        self.held(maker, one, write(fid, 5, &[b'x'; 60]), shared);
        self.held(maker, other, write(behind, 25, b"x"), shared);
        self.held(maker, other, write(behind, 9, b"x"), self.first());
        self.held(maker, one, write(fid, 100, b"x"), self.last(5));
        maker.done(one, &[write(fid, 0, b"0123456789")]);
    }

    /// Ranges in order, each against the list from its start.
    fn locks(&self, maker: &mut Maker) {
        let (fid, behind) = (self.fid, self.behind);
        let ask = locking(behind, self.form, &[], &[(OTHER, 109, 1)]);
        self.held(maker, self.other, ask, self.last(5));
        for (range, holder) in [
            ((ONE, 0, 5), self.first()),
            ((OTHER, 15, 40), (fid, CHILD, 4, 50, 10)),
        ] {
            let ask = locking(fid, self.form | 1, &[], &[range]);
            self.held(maker, self.one, ask, holder);
        }
        self.barred(maker, &[], &[(ONE, 39, 1)], (fid, ONE, 3, 20, 20));
        self.barred(maker, &[], &[(ONE, 20, 20)], (behind, OTHER, 2, 20, 10));
        // The second range, and the first though later ones meet earlier locks.
        self.barred(maker, &[], &[(ONE, 70, 5), (ONE, 104, 1)], self.last(5));
        let ranges = [(ONE, 70, 0), (ONE, 104, 1), (ONE, 55, 1), (ONE, 0, 1)];
        self.barred(maker, &[], &ranges, self.last(5));
    }

    /// What a request releases is gone from the list, and only for it.
    fn unlocks(&self, maker: &mut Maker) {
        let (mine, childs) = ((ONE, 0, 10), (CHILD, 50, 10));
        self.barred(maker, &[mine], &[(ONE, 104, 1)], self.last(4));
        self.barred(maker, &[childs, mine], &[(ONE, 104, 1)], self.last(3));
        self.barred(maker, &[mine, childs], &[(ONE, 50, 60)], self.last(3));
        let shared = |place| (self.behind, OTHER, place, 20, 10);
        self.barred(maker, &[childs], &[(ONE, 25, 1)], shared(2));
        self.barred(maker, &[mine], &[(ONE, 0, 60)], shared(1));
        self.barred(maker, &[], &[(ONE, 104, 1)], self.last(5));
    }

    /// "A lock granted earlier in the same request may be the answer, though it
    /// is undone."
    fn own_ranges(&self, maker: &mut Maker) {
        let (fid, behind) = (self.fid, self.behind);
        let ranges = [(9, 300, 10), (8, 309, 1)];
        self.barred(maker, &[], &ranges, (fid, 9, 6, 300, 10));
        let ranges = [(9, 0, 10), (8, 300, 5), (7, 310, 0), (ONE, 304, 9)];
        let holder = (fid, 8, 6, 300, 5);
        self.barred(maker, &[(ONE, 0, 10)], &ranges, holder);
        let ranges = [(OTHER, 410, 5), (OTHER, 400, 5), (3, 400, 20)];
        let ask = locking(behind, self.form, &[], &ranges);
        self.held(maker, self.other, ask, (behind, OTHER, 6, 410, 5));
        maker.done(
            self.one,
            &[locking(fid, self.form | 1, &[(ONE, 0, 10)], &[])],
        );
        maker.done(self.one, &[locking(fid, self.form, &[], &[(ONE, 0, 10)])]);
    }

    /// The refused command's holder, of the list that the commands before it
    /// left. Now place 5 has what place 1 had.
    fn chains(&self, maker: &mut Maker) {
        let Plant { one, other, .. } = *self;
        let (fid, behind, form) = (self.fid, self.behind, self.form);
        let good = |place| write(behind, place, b"good");
        let lock = locking(fid, form | 1, &[], &[(ONE, 600, 5)]);
        let granted = (fid, ONE, 6, 600, 5);
        maker.held(one, &[lock, write(fid, 604, b"x")], granted);
        let first = (fid, ONE, 5, 0, 10);
        maker.held(other, &[good(700), read(behind, 0, 20)], first);
        let asks = [good(700), good(704), write(behind, 603, b"x")];
        maker.held(other, &asks, granted);
        let asks = [good(700), good(704), read(behind, 55, 1)];
        maker.held(other, &asks, (fid, CHILD, 3, 50, 10));
        let lock = locking(fid, form, &[(ONE, 600, 5)], &[(5, 610, 5)]);
        let asks = [lock, write(fid, 0, b"0123456789"), read(fid, 605, 10)];
        let granted = (fid, 5u16, 6, 610, 5);
        maker.held(one, &asks, granted);
        let lock = locking(behind, form, &[], &[(OTHER, 614, 1)]);
        maker.held(other, &[lock, read(behind, 700, 1)], granted);
        maker.held(
            other,
            &[read(behind, 610, 1), Ask::Close { fid: behind }],
            granted,
        );
        maker.done(other, &[good(700), read(behind, 700, 4)]);
    }

    /// Offsets at the ends of 32 and 64 bits, locks of length 0, and the places
    /// from 127 on. Seven locks are held.
    fn far_and_full(&self, maker: &mut Maker) {
        let Plant { one, other, .. } = *self;
        let (fid, behind) = (self.fid, self.behind);
        let wide = [(OTHER, u64::MAX, 1), (OTHER, 1 << 40, 1 << 41)];
        maker.done(other, &[locking(behind, 0x10, &[], &wide)]);
        maker.done(one, &[locking(fid, 0x10, &[], &[(ONE, 1 << 39, 0)])]);
        let top = (behind, OTHER, 7, u64::MAX, 1);
        let asked = [(ONE, 1 << 63, 1 << 63)];
        maker.held(one, &[locking(fid, 0x10, &[], &asked)], top);
        let asked = [(ONE, 1 << 38, 1 << 40)];
        let middle = (behind, OTHER, 8, 1 << 40, 1 << 41);
        maker.held(one, &[locking(fid, 0x11, &[], &asked)], middle);
        maker.held(one, &[read(fid, u64::MAX, 1)], top);
        let held = maker.tables().locks.count;
        let ranges: Vec<Asked> = (held..LOCKS).map(|n| (ONE, 1000 + n as u64, 1)).collect();
        maker.done(one, &[locking(fid, self.form, &[], &ranges)]);
        let full = (fid, ONE, 127, 1127, 1);
        self.held(maker, other, read(behind, 1127, 9), full);
        self.barred(
            maker,
            &ranges[..100],
            &[(ONE, 1127, 1)],
            (fid, ONE, 27, 1127, 1),
        );
        let own = [(8, 900, 2), (9, 902, 2), (ONE, 903, 1)];
        self.barred(maker, &[], &own, (fid, 9, 129, 902, 2));
        maker.refused(
            one,
            &[locking(fid, self.form, &[], &own[..2])],
            NoLockRecord,
        );
    }
}
