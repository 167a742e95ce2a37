//! The host ends sessions, trees and opens: what goes with each and what stands, then
//! the same numbers once more. Each answer is foretold, and so are the records left.

use crate::maker::{open_call, read, write, Maker, User};
use second::builder::{locking, Ask};
use second::call::Call;
use second::refusals::WireRefusal::*;
use std::collections::{BTreeMap, BTreeSet};

const TERMINAL: u32 = 930;
const DESK: u32 = 931;
/// Two files.
const LIST: u8 = 9;
const OTHER: u8 = 10;
/// Calls of the day.
const TURNS: usize = 120;

/// Numbers that no record has when there is none: past every table and at the largest.
const NOBODYS: [u16; 10] = [0, 1, 16, 17, 32, 33, 64, 65, 257, u16::MAX];

/// What a call ends.
#[derive(Clone, Copy, Debug, PartialEq, Eq)]
enum End {
    Session,
    Tree,
    Open,
}

const ENDS: [End; 3] = [End::Session, End::Tree, End::Open];

impl End {
    fn call(self, number: u16) -> Call {
        let number = number.into();
        match self {
            End::Session => Call::EndSession { uid: number },
            End::Tree => Call::EndTree { tid: number },
            End::Open => Call::EndOpen { fid: number },
        }
    }
}

/// A terminal with two trees, its other session on the same connection, and the desk.
/// Opens of each, in turns: the first tree's and the desk's have two.
struct Plant {
    terminal: User,
    aside: User,
    again: User,
    desk: User,
    first: u16,
    desks: u16,
    asides: u16,
    desks_other: u16,
    other: u16,
    agains: u16,
}

pub fn ends(maker: &mut Maker) {
    maker.load(LIST, 100);
    maker.load(OTHER, 20);
    for end in ENDS {
        for number in NOBODYS {
            maker.host(end.call(number), 6);
        }
    }
    opens(maker);
    trees(maker);
    sessions(maker);
    from_the_leaves(maker);
    numbers_again(maker);
    other_kinds(maker);
    full(maker);
    Model::default().day(maker);
    for connection in [TERMINAL, DESK] {
        maker.drop_connection(connection);
    }
}

/// Ends what stands, and then the same number again.
fn ended(maker: &mut Maker, end: End, number: u16) {
    maker.host(end.call(number), 0);
    maker.host(end.call(number), 6);
}

/// These records stand, in this order: UIDs, TIDs, FIDs, and the FIDs of the locks.
fn stand(maker: &mut Maker, wanted: [&[u16]; 4]) {
    let tables = maker.tables();
    let found: [Vec<u16>; 4] = [
        tables.sessions.in_use().iter().map(|s| s.uid).collect(),
        tables.trees.in_use().iter().map(|t| t.tid).collect(),
        tables.opens.in_use().iter().map(|o| o.fid).collect(),
        tables.locks.in_use().iter().map(|l| l.fid).collect(),
    ];
    if found.each_ref().map(Vec::as_slice) != wanted {
        let calls = maker.calls;
        maker
            .complaints
            .push(format!("{found:?} stand, not {wanted:?}: call {calls}"));
    }
}

impl Plant {
    /// UIDs 1 to 3, TIDs 1 to 4, FIDs 1 to 6, on empty tables.
    fn new(maker: &mut Maker) -> Plant {
        let terminal = maker.user(TERMINAL, 1, 7);
        let desk = maker.user(DESK, 1, 65_543);
        let again = maker.user(TERMINAL, 1, 7);
        let aside = User {
            tid: maker.tree(terminal.uid, 0),
            ..terminal
        };
        let plant = Plant {
            first: maker.open(terminal, LIST, 2),
            desks: maker.open(desk, LIST, 2),
            asides: maker.open(aside, LIST, 0),
            desks_other: maker.open(desk, OTHER, 2),
            other: maker.open(terminal, OTHER, 1),
            agains: maker.open(again, LIST, 2),
            terminal,
            aside,
            again,
            desk,
        };
        plant.hold(maker);
        stand(
            maker,
            [
                &[1, 2, 3],
                &[1, 2, 3, 4],
                &[1, 2, 3, 4, 5, 6],
                &[1, 2, 3, 5, 6, 6, 5, 3, 2, 1],
            ],
        );
        plant
    }

    /// Two locks of each open but the desk's of the other file.
    fn hold(&self, maker: &mut Maker) {
        let held = [
            (self.terminal, self.first),
            (self.desk, self.desks),
            (self.aside, self.asides),
            (self.terminal, self.other),
            (self.again, self.agains),
        ];
        let both = held.into_iter().chain(held.into_iter().rev());
        for ((user, fid), offset) in both.zip((500..).step_by(10)) {
            maker.done(user, &[lock(fid, offset)]);
        }
    }

    /// Drops what is left of it, so that the tables are empty.
    fn drop_rest(&self, maker: &mut Maker) {
        for connection in [TERMINAL, DESK] {
            maker.drop_connection(connection);
        }
        stand(maker, [&[]; 4]);
    }
}

/// An exclusive lock of five bytes.
fn lock(fid: u16, offset: u64) -> Ask {
    locking(fid, 0, &[], &[(7, offset, 5)])
}

/// A new tree of the user's session, to read only, with so many opens.
fn tree_with(maker: &mut Maker, user: User, opens: usize) -> u16 {
    let tid = maker.tree(user.uid, 0);
    for _ in 0..opens {
        maker.open(User { tid, ..user }, LIST, 0);
    }
    tid
}

/// "CLOSE removes the open and its locks", and here whosever it is.
fn opens(maker: &mut Maker) {
    let plant = Plant::new(maker);
    let (uids, tids) = ([1, 2, 3], [1, 2, 3, 4]);
    maker.done(plant.desk, &[read(plant.desks, 0, 9)]);
    maker.asked(plant.desks, true);
    // From the middle, without a lock, the last and the first.
    ended(maker, End::Open, plant.asides);
    let left = [1, 2, 5, 6, 6, 5, 2, 1];
    stand(maker, [&uids, &tids, &[1, 2, 4, 5, 6], &left]);
    maker.unknown(plant.asides);
    maker.refused(plant.aside, &[read(plant.asides, 0, 9)], NoOpen);
    ended(maker, End::Open, plant.desks_other);
    stand(maker, [&uids, &tids, &[1, 2, 5, 6], &left]);
    // A lock is in the way as long as its open stands.
    let bytes = [write(plant.first, 540, b"x")];
    let holder = (plant.agains, plant.again.pid, 3, 540, 5);
    maker.held(plant.terminal, &bytes, holder);
    ended(maker, End::Open, plant.agains);
    let left = [1, 2, 5, 5, 2, 1];
    stand(maker, [&uids, &tids, &[1, 2, 5], &left]);
    // An end changes no file.
    maker.asked(plant.desks, true);
    maker.done(plant.terminal, &bytes);
    maker.asked(plant.desks, false);
    ended(maker, End::Open, plant.first);
    stand(maker, [&uids, &tids, &[2, 5], &[2, 5, 5, 2]]);
    // A file that has no open can be loaded.
    let load = |size: usize| Call::LoadFile {
        file: OTHER.into(),
        contents: vec![b'e'; size],
    };
    maker.host(load(30), 9);
    ended(maker, End::Open, plant.other);
    maker.host(load(30), 0);
    maker.done(plant.desk, &[read(plant.desks, 0, 9)]);
    ended(maker, End::Open, plant.desks);
    stand(maker, [&uids, &tids, &[], &[]]);
    plant.drop_rest(maker);
}

/// "TREE_DISCONNECT removes the tree and its opens", and here whosever it is.
fn trees(maker: &mut Maker) {
    let plant = Plant::new(maker);
    let uids = [1, 2, 3];
    ended(maker, End::Tree, plant.terminal.tid);
    let left = [2, 3, 6, 6, 3, 2];
    stand(maker, [&uids, &[2, 3, 4], &[2, 3, 4, 6], &left]);
    for fid in [plant.first, plant.other] {
        maker.host(End::Open.call(fid), 6);
    }
    // The session stands, and so does its other tree.
    maker.refused(plant.terminal, &[read(plant.first, 0, 9)], NoTree);
    maker.done(plant.aside, &[read(plant.asides, 0, 9)]);
    for opens in [0, 1, 2] {
        let tid = tree_with(maker, plant.desk, opens);
        ended(maker, End::Tree, tid);
    }
    ended(maker, End::Tree, plant.aside.tid);
    stand(maker, [&uids, &[2, 3], &[2, 4, 6], &[2, 6, 6, 2]]);
    maker.refused(plant.aside, &[Ask::TreeDisconnect], NoTree);
    maker.done(plant.desk, &[write(plant.desks_other, 0, b"desk")]);
    ended(maker, End::Tree, plant.desk.tid);
    stand(maker, [&uids, &[3], &[6], &[6, 6]]);
    ended(maker, End::Tree, plant.again.tid);
    stand(maker, [&uids, &[], &[], &[]]);
    maker.done(plant.terminal, &[Ask::Logoff]);
    plant.drop_rest(maker);
}

/// "LOGOFF the session and its trees".
fn sessions(maker: &mut Maker) {
    let plant = Plant::new(maker);
    ended(maker, End::Session, plant.terminal.uid);
    stand(maker, [&[2, 3], &[2, 3], &[2, 4, 6], &[2, 6, 6, 2]]);
    for tid in [plant.terminal.tid, plant.aside.tid] {
        maker.host(End::Tree.call(tid), 6);
    }
    for fid in [plant.first, plant.asides, plant.other] {
        maker.host(End::Open.call(fid), 6);
        maker.unknown(fid);
    }
    maker.refused(plant.terminal, &[Ask::Logoff], NoSession);
    // The other session of the connection stands.
    maker.done(plant.again, &[read(plant.agains, 0, 9)]);
    for opens in [&[][..], &[0], &[0, 0], &[2], &[0, 1]] {
        let uid = maker.session(DESK);
        for &opens in opens {
            tree_with(maker, User { uid, ..plant.desk }, opens);
        }
        ended(maker, End::Session, uid);
    }
    ended(maker, End::Session, plant.desk.uid);
    stand(maker, [&[3], &[3], &[6], &[6, 6]]);
    maker.refused(plant.desk, &[read(plant.desks, 0, 9)], NoSession);
    ended(maker, End::Session, plant.again.uid);
    plant.drop_rest(maker);
}

/// What hangs on a record goes first, so that each goes alone.
fn from_the_leaves(maker: &mut Maker) {
    let plant = Plant::new(maker);
    for fid in [4, 1, 6, 2, 5, 3] {
        ended(maker, End::Open, fid);
    }
    for tid in [3, 1, 4, 2] {
        ended(maker, End::Tree, tid);
    }
    for uid in [2, 3, 1] {
        ended(maker, End::Session, uid);
    }
    plant.drop_rest(maker);
}

/// "freed numbers and records are used again"
fn numbers_again(maker: &mut Maker) {
    let plant = Plant::new(maker);
    maker.done(plant.terminal, &[read(plant.first, 0, 9)]);
    maker.asked(plant.first, true);
    maker.host(End::Open.call(plant.first), 0);
    // A new open with the FID, of another session, has not read.
    let fid = maker.open(plant.desk, LIST, 0);
    maker.asked(fid, false);
    stand(
        maker,
        [
            &[1, 2, 3],
            &[1, 2, 3, 4],
            &[2, 3, 4, 5, 6, 1],
            &[2, 3, 5, 6, 6, 5, 3, 2],
        ],
    );
    maker.refused(plant.terminal, &[read(fid, 0, 9)], NoOpen);
    maker.done(plant.desk, &[read(fid, 0, 9)]);
    maker.host(End::Tree.call(plant.desk.tid), 0);
    // The TID is another session's now, and nothing hangs on it.
    let tid = maker.tree(plant.again.uid, 1);
    maker.refused(plant.desk, &[Ask::TreeDisconnect], NoTree);
    ended(maker, End::Tree, tid);
    maker.host(End::Session.call(plant.terminal.uid), 0);
    let uid = maker.session(DESK);
    maker.refused(plant.terminal, &[Ask::Logoff], NoSession);
    stand(maker, [&[2, 3, 1], &[3], &[6], &[6, 6]]);
    ended(maker, End::Session, uid);
    plant.drop_rest(maker);
}

/// A number is of one kind only: UIDs 1 to 3, TIDs 1 to 4 and FIDs 1 to 6 stand, and
/// connections, processes and files are none of these.
fn other_kinds(maker: &mut Maker) {
    let plant = Plant::new(maker);
    for (end, numbers) in [
        (End::Session, [4, 5, 6]),
        (End::Tree, [5, 6, 7]),
        (End::Open, [7, LIST.into(), TERMINAL as u16]),
    ] {
        for number in numbers {
            maker.host(end.call(number), 6);
        }
    }
    ended(maker, End::Tree, 4);
    maker.host(End::Open.call(4), 0);
    maker.host(End::Session.call(4), 6);
    plant.drop_rest(maker);
}

/// Full tables: those in the middle go, and there is room again.
fn full(maker: &mut Maker) {
    let users: Vec<User> = (0..16).map(|_| maker.user(TERMINAL, 1, 7)).collect();
    let users: Vec<User> = users
        .into_iter()
        .flat_map(|user| {
            let tid = maker.tree(user.uid, 1);
            [user, User { tid, ..user }]
        })
        .collect();
    for &user in users.iter().chain(&users) {
        maker.open(user, OTHER, 2);
    }
    let opens = maker.tables().opens;
    for (place, open) in opens.in_use().iter().enumerate() {
        let offset = 10_000 + 2 * place as u64;
        let user = User {
            uid: open.uid,
            tid: open.tid,
            ..users[0]
        };
        let ranges = [(7, offset, 1), (8, offset + 1, 1)];
        maker.done(user, &[locking(open.fid, 0, &[], &ranges)]);
    }
    let refused = [
        Call::AddSession {
            connection: TERMINAL,
        },
        Call::AddTree { uid: 1, right: 1 },
        open_call(users[0], 7, LIST, 2),
    ];
    let [session, tree, open] = refused.clone();
    for call in refused {
        maker.host(call, 5);
    }
    maker.host(End::Open.call(33), 0);
    maker.host(open, 0);
    maker.host(End::Tree.call(20), 0);
    maker.host(tree, 0);
    maker.host(End::Session.call(9), 0);
    maker.host(session, 0);
    // The last of each, and one more.
    for (end, number) in [(End::Open, 64), (End::Tree, 32), (End::Session, 16)] {
        maker.host(end.call(number), 0);
        maker.host(end.call(number + 1), 6);
    }
    maker.drop_connection(TERMINAL);
}

/// The records that stand, by number with what each hangs on.
#[derive(Default)]
struct Model {
    sessions: BTreeSet<u16>,
    /// TID and UID.
    trees: BTreeMap<u16, u16>,
    /// FID and TID.
    opens: BTreeMap<u16, u16>,
}

impl Model {
    /// Calls in any order.
    fn day(&mut self, maker: &mut Maker) {
        for turn in 0..TURNS {
            match maker.rng.below(12) {
                0 | 1 => self.add_session(maker),
                2 | 3 => self.add_tree(maker),
                4..=6 => self.add_open(maker),
                7 => self.lock(maker, turn as u64),
                kind => self.end(maker, ENDS[kind % 3]),
            }
            self.compare(maker);
        }
    }

    fn add_session(&mut self, maker: &mut Maker) {
        if self.sessions.len() < 6 {
            let connection = maker.rng.pick(&[TERMINAL, DESK]);
            self.sessions.insert(maker.session(connection));
        }
    }

    fn add_tree(&mut self, maker: &mut Maker) {
        let uids: Vec<u16> = self.sessions.iter().copied().collect();
        if !uids.is_empty() && self.trees.len() < 10 {
            let uid = maker.rng.pick(&uids);
            self.trees.insert(maker.tree(uid, 1), uid);
        }
    }

    fn add_open(&mut self, maker: &mut Maker) {
        let trees: Vec<(u16, u16)> = self.trees.iter().map(|(&tid, &uid)| (tid, uid)).collect();
        if !trees.is_empty() {
            let (tid, uid) = maker.rng.pick(&trees);
            let user = self.user(maker, uid, tid);
            let file = maker.rng.pick(&[LIST, OTHER]);
            self.opens.insert(maker.open(user, file, 2), tid);
        }
    }

    /// Who sends messages of a session.
    fn user(&self, maker: &Maker, uid: u16, tid: u16) -> User {
        let tables = maker.tables();
        let session = tables.session(uid);
        User {
            connection: session.map_or(0, |session| session.connection),
            uid,
            tid,
            pid: 7,
        }
    }

    /// A lock through some open, where nobody else locks.
    fn lock(&self, maker: &mut Maker, turn: u64) {
        let opens: Vec<(u16, u16)> = self.opens.iter().map(|(&fid, &tid)| (fid, tid)).collect();
        if !opens.is_empty() {
            let (fid, tid) = maker.rng.pick(&opens);
            let user = self.user(maker, self.trees[&tid], tid);
            maker.done(user, &[lock(fid, 20_000 + 10 * turn)]);
        }
    }

    /// Of any number about those in use, done exactly if it is one.
    fn end(&mut self, maker: &mut Maker, end: End) {
        let number = maker.rng.below(9) as u16;
        let known = match end {
            End::Session => self.sessions.remove(&number),
            End::Tree => self.trees.remove(&number).is_some(),
            End::Open => self.opens.remove(&number).is_some(),
        };
        self.trees.retain(|_, uid| self.sessions.contains(uid));
        self.opens.retain(|_, tid| self.trees.contains_key(tid));
        maker.host(end.call(number), if known { 0 } else { 6 });
    }

    /// The tables have these numbers and no others.
    fn compare(&self, maker: &mut Maker) {
        let tables = maker.tables();
        let uids = tables.sessions.in_use().iter().map(|s| s.uid);
        let trees = tables.trees.in_use().iter().map(|t| (t.tid, t.uid));
        let opens = tables.opens.in_use().iter().map(|o| (o.fid, o.tid));
        let same = uids.collect::<BTreeSet<_>>() == self.sessions
            && trees.collect::<BTreeMap<_, _>>() == self.trees
            && opens.collect::<BTreeMap<_, _>>() == self.opens;
        if !same {
            let calls = maker.calls;
            maker
                .complaints
                .push(format!("other records than foretold: call {calls}"));
        }
    }
}
