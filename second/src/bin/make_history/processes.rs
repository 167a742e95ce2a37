//! Processes above 65,535, and such as differ in the upper half only (document
//! 02, request 4). Each answer and holder is foretold.

use crate::maker::{lengthened, open_call, read, write, Held, Maker, User};
use second::builder::{locking, Ask, Asked};
use second::refusals::WireRefusal::*;

const BENCH: u32 = 800;
const DESK: u32 = 801;
/// The bench's two processes. Both have this lower half.
const HIGH: u32 = 65_537;
const LOW: u32 = 1;
const HALF: u16 = 1;
/// A process of the desk, with the same lower half again.
const DESKS: u32 = 0x0009_0001;

/// The bench, its two processes with an open each of one file, and the desk with
/// an open of the same file.
struct Bench {
    high: User,
    fid: u16,
    low: User,
    behind: u16,
    desk: User,
    desks: u16,
    /// The type bit of the form that is asked for.
    form: u8,
}

pub fn processes(maker: &mut Maker) {
    for form in [0x00, 0x10] {
        let high = maker.user(BENCH, 1, HIGH);
        let low = User { pid: LOW, ..high };
        let desk = maker.user(DESK, 1, DESKS);
        let bench = Bench {
            high,
            fid: maker.open(high, 3, 2),
            low,
            behind: maker.open(low, 3, 2),
            desk,
            desks: maker.open(desk, 3, 2),
            form,
        };
        bench.hold(maker);
        bench.owners(maker);
        bench.unlocks(maker);
        bench.holders(maker);
        bench.headers(maker);
        bench.exits(maker);
        maker.drop_connection(BENCH);
        maker.drop_connection(DESK);
    }
    all_32_bits(maker);
}

impl Bench {
    fn locking(&self, fid: u16, kind: u8, unlocks: &[Asked], locks: &[Asked]) -> Ask {
        locking(fid, self.form | kind, unlocks, locks)
    }

    fn either_form(&self, ask: Ask) -> Ask {
        match self.form {
            0 => ask,
            _ => lengthened(&ask),
        }
    }

    /// A message of one request that is refused for the lock.
    fn held(&self, maker: &mut Maker, user: User, ask: Ask, holder: Held<u32>) {
        maker.held(user, &[self.either_form(ask)], holder);
    }

    /// The list: places 0 to 2. A range's lower half may be another than the
    /// header's, its upper half is the header's.
    fn hold(&self, maker: &mut Maker) {
        let Bench { high, low, .. } = *self;
        let held = [
            (high, self.fid, (HALF, 10, 10), HIGH),
            (low, self.behind, (HALF, 30, 10), LOW),
            (high, self.fid, (9, 50, 10), 65_545),
        ];
        for (user, fid, range, _) in held {
            maker.done(user, &[self.locking(fid, 0, &[], &[range])]);
        }
        let tables = maker.tables();
        let locks = tables.locks.in_use().iter().map(|lock| lock.process);
        if !locks.eq(held.map(|(.., process)| process)) {
            maker.complaints.push("locks of other processes".into());
        }
    }

    /// The place 0 of the list.
    fn first(&self) -> Held<u32> {
        (self.fid, HIGH, 0, 10, 10)
    }

    /// A read and a write through the same FID, by the owner and by others.
    fn owners(&self, maker: &mut Maker) {
        let Bench { high, low, .. } = *self;
        let (fid, behind) = (self.fid, self.behind);
        maker.done(high, &[self.either_form(read(fid, 5, 20))]);
        maker.done(high, &[self.either_form(write(fid, 10, b"its own"))]);
        for pid in [LOW, DESKS, 0x0001_0100] {
            let other = User { pid, ..low };
            self.held(maker, other, read(fid, 19, 1), self.first());
            self.held(maker, other, write(fid, 10, b"x"), self.first());
        }
        self.held(maker, high, read(behind, 30, 1), (behind, LOW, 1, 30, 10));
        self.held(
            maker,
            high,
            write(behind, 39, b"x"),
            (behind, LOW, 1, 30, 10),
        );
        maker.done(low, &[read(behind, 30, 10)]);
        // The halves changed about: a lock of process 65,545, not of 589,825.
        let owner = User {
            pid: 65_545,
            ..high
        };
        maker.done(owner, &[read(fid, 50, 10)]);
        let swapped = User { pid: DESKS, ..high };
        self.held(maker, swapped, read(fid, 50, 1), (fid, 65_545, 2, 50, 10));
    }

    /// A release finds a lock of all 32 bits, also behind one that differs in the
    /// upper half only.
    fn unlocks(&self, maker: &mut Maker) {
        let Bench { high, low, .. } = *self;
        let fid = self.fid;
        let release = |range| [self.locking(fid, 0, &[range], &[])];
        maker.refused(low, &release((HALF, 10, 10)), NotLocked);
        maker.refused(low, &release((9, 50, 10)), NotLocked);
        let zero = User {
            pid: 0x0009_0000,
            ..high
        };
        maker.refused(zero, &release((1, 50, 10)), NotLocked);
        let alike = (HALF, 100, 5);
        for user in [low, high, low] {
            maker.done(user, &[self.locking(fid, 1, &[], &[alike])]);
        }
        maker.done(high, &release(alike));
        self.held(maker, high, write(fid, 100, b"x"), (fid, LOW, 3, 100, 5));
        maker.refused(high, &release(alike), NotLocked);
        let twice = [self.locking(fid, 0, &[alike; 2], &[])];
        maker.refused(high, &twice, NotLocked);
        maker.done(low, &twice);
        maker.done(high, &[write(fid, 100, b"released")]);
    }

    /// The holder's process for a lock, a lock that is undone, and in chains.
    fn holders(&self, maker: &mut Maker) {
        let Bench { high, desk, .. } = *self;
        let (fid, desks) = (self.fid, self.desks);
        for kind in [0, 1] {
            let ask = self.locking(desks, kind, &[], &[(HALF, 15, 1)]);
            self.held(maker, desk, ask, self.first());
        }
        let ask = self.locking(fid, 0, &[], &[(HALF, 19, 1)]);
        self.held(maker, high, ask, self.first());
        let ask = self.locking(fid, 0, &[], &[(5, 300, 5), (6, 304, 1)]);
        self.held(maker, high, ask, (fid, 65_541, 3, 300, 5));
        let released = [(HALF, 10, 10), (9, 50, 10)];
        let ask = self.locking(fid, 0, &released, &[(HALF, 10, 9), (HALF, 18, 1)]);
        self.held(maker, high, ask, (fid, HIGH, 1, 10, 9));
        let good = write(desks, 200, b"good");
        maker.held(desk, &[good.clone(), read(desks, 19, 1)], self.first());
        let lock = self.locking(desks, 1, &[], &[(7, 210, 5)]);
        let granted: Held<u32> = (desks, 0x0009_0007, 3, 210, 5);
        maker.held(desk, &[lock, write(desks, 214, b"x")], granted);
        maker.done(desk, &[self.locking(desks, 0, &[(7, 210, 5)], &[]), good]);
    }

    /// Each kind of refusal copies PIDHigh.
    fn headers(&self, maker: &mut Maker) {
        let top = User {
            pid: 0xFEDC_BA98,
            ..self.high
        };
        let ask = read(self.fid, 0, 5);
        let message = maker.message(top, std::slice::from_ref(&ask));
        for (place, byte) in [(4, 0x2D), (32, 11)] {
            let mut message = message.clone();
            message[place] = byte;
            maker.take_for(BENCH, message, Some(NotASentence));
        }
        let nobody = User { uid: 0, ..top };
        maker.refused(nobody, std::slice::from_ref(&ask), NoSession);
        let nowhere = User { tid: 0, ..top };
        maker.refused(nowhere, std::slice::from_ref(&ask), NoTree);
        maker.refused(top, &[read(self.desks, 0, 5)], NoOpen);
        maker.done(top, &[ask]);
    }

    /// "A bench that numbers its processes beyond 65,535 lost its opens when
    /// another process on it ended."
    fn exits(&self, maker: &mut Maker) {
        let Bench {
            high, low, desk, ..
        } = *self;
        let (fid, behind) = (self.fid, self.behind);
        maker.done(low, &[Ask::ProcessExit]);
        maker.refused(low, &[read(behind, 0, 5)], NoOpen);
        maker.done(high, &[read(fid, 10, 10)]);
        let wanted = self.locking(self.desks, 0, &[], &[(HALF, 10, 30)]);
        self.held(maker, desk, wanted.clone(), self.first());
        for pid in [LOW, 0, 0x0001_0000, DESKS, 0xFFFF_0001] {
            maker.done(User { pid, ..high }, &[Ask::ProcessExit]);
        }
        self.held(maker, desk, wanted.clone(), self.first());
        // The other way round.
        let again = maker.open(low, 3, 2);
        maker.done(low, &[self.locking(again, 0, &[], &[(HALF, 70, 10)])]);
        maker.done(high, &[Ask::ProcessExit]);
        maker.refused(high, &[read(fid, 0, 5)], NoOpen);
        maker.done(low, &[read(again, 70, 10)]);
        maker.done(desk, &[wanted]);
        let barred = self.locking(self.desks, 0, &[], &[(HALF, 79, 1)]);
        self.held(maker, desk, barred, (again, LOW, 0, 70, 10));
    }
}

/// Opens of the host's for processes that differ in a bit or have each other's
/// halves: an exit takes the one that it names.
fn all_32_bits(maker: &mut Maker) {
    let user = maker.user(BENCH, 0, 0);
    let mut left = vec![
        0x0001_0002,
        0x0002_0001,
        0x8001_0002,
        0x0001_8002,
        0x0001_0000,
        0,
        u32::MAX,
        0x0000_FFFF,
        0xFFFF_0000,
    ];
    for &process in &left {
        maker.host(open_call(user, process, 3, 0), 0);
    }
    while let Some(pid) = left.pop() {
        maker.done(User { pid, ..user }, &[Ask::ProcessExit]);
        let tables = maker.tables();
        let opens = tables.opens.in_use().iter().map(|open| open.process);
        if !opens.eq(left.iter().copied()) {
            maker
                .complaints
                .push(format!("an exit of {pid} took others"));
        }
    }
    maker.drop_connection(BENCH);
}
