//! Change numbers (document 02, request 8): what raises them, what remembers them,
//! and the question whether a file is unchanged, asked behind each. Each answer is
//! foretold.

use crate::maker::{lengthened, open_call, read, words_of, write, Maker, User};
use second::builder::{core_read, core_write, locking, open, Ask};
use second::call::Call;
use second::refusals::WireRefusal::*;
use second::request::JUST_OPENED;
use second::tables::{Open, ACCESS_READ, ACCESS_WRITE};
use std::collections::BTreeSet;

const TERMINAL: u32 = 920;
const DESK: u32 = 921;
/// The revocation list, and another file.
const LIST: u8 = 9;
const OTHER: u8 = 10;
/// A file that no call has changed.
const UNTOUCHED: u8 = 13;
const NAMES: [(&[u8], u8); 2] = [(b"list", LIST), (b"other", OTHER)];
/// Commands of the day.
const TURNS: usize = 50;

/// A terminal and the desk, with their opens of the list: the terminal's and the
/// desk's for both, one to read and one to write. Then the terminal's of the other
/// file.
struct Scene {
    terminal: User,
    desk: User,
    own: u16,
    desks: u16,
    reads: u16,
    writes: u16,
    other: u16,
}

pub fn changes(maker: &mut Maker) {
    maker.set_catalogue(&words_of(&NAMES), 0);
    maker.load(LIST, 100);
    maker.load(OTHER, 20);
    let terminal = maker.user(TERMINAL, 1, 65_536 + 7);
    let desk = maker.user(DESK, 1, 7);
    let scene = Scene {
        own: maker.open(terminal, LIST, 2),
        desks: maker.open(desk, LIST, 2),
        reads: maker.open(terminal, LIST, 0),
        writes: maker.open(terminal, LIST, 1),
        other: maker.open(terminal, OTHER, 2),
        terminal,
        desk,
    };
    scene.answers(maker, [false; 5]);
    never_changed(maker, terminal);
    scene.reads(maker);
    scene.refused_reads(maker);
    scene.writes(maker);
    scene.sizes(maker);
    scene.chains(maker);
    scene.behind_open(maker);
    scene.fids_again(maker);
    scene.loads(maker);
    scene.a_day(maker);
    maker.drop_connection(TERMINAL);
    maker.unknown(scene.own);
    maker.drop_connection(DESK);
    maker.unknown(scene.desks);
    maker.set_catalogue(&words_of(&[]), 0);
}

/// "Numbers start at 0": of an open that has not read they are equal too.
fn never_changed(maker: &mut Maker, user: User) {
    let fid = maker.open(user, UNTOUCHED, 2);
    maker.asked(fid, false);
    maker.done(user, &[read(fid, 0, 10)]);
    maker.asked(fid, true);
    maker.done(user, &[write(fid, 0, b""), Ask::Close { fid }]);
    if maker.tables().files[usize::from(UNTOUCHED)].changes != 0 {
        let complaint = "a file was changed that should not be";
        maker.complaints.push(complaint.to_string());
    }
}

impl Scene {
    /// The answers for the five opens.
    fn answers(&self, maker: &mut Maker, unchanged: [bool; 5]) {
        let fids = [self.own, self.desks, self.reads, self.writes, self.other];
        for (fid, unchanged) in fids.into_iter().zip(unchanged) {
            maker.asked(fid, unchanged);
        }
    }

    /// The terminal and the desk read the list.
    fn read_by_both(&self, maker: &mut Maker) {
        maker.done(self.terminal, &[read(self.own, 0, 9)]);
        maker.done(self.desk, &[core_read(self.desks, 0, 9)]);
        maker.asked(self.own, true);
        maker.asked(self.desks, true);
    }

    /// "Any granted READ_ANDX or core READ remembers, also one that yields or asks no
    /// byte".
    fn reads(&self, maker: &mut Maker) {
        let whole = read(self.reads, 0, 200);
        for ask in [
            whole.clone(),
            lengthened(&whole),
            read(self.reads, 50, 0),
            read(self.reads, 5000, 10),
            read(self.reads, 1 << 40, 10),
            core_read(self.reads, 0, 200),
            core_read(self.reads, 50, 0),
            core_read(self.reads, 5000, 0),
            core_read(self.reads, 5000, 10),
        ] {
            maker.done(self.desk, &[write(self.desks, 3, b"new")]);
            maker.asked(self.reads, false);
            maker.done(self.terminal, &[ask]);
            self.answers(maker, [false, false, true, false, false]);
        }
    }

    /// "a refused one doesn't"
    fn refused_reads(&self, maker: &mut Maker) {
        let Scene { terminal, desk, .. } = *self;
        self.read_by_both(maker);
        maker.done(desk, &[write(self.desks, 3, b"newer")]);
        maker.done(desk, &[locking(self.desks, 0, &[], &[(7, 10, 10)])]);
        for fid in [self.own, self.reads] {
            maker.refused(terminal, &[read(fid, 15, 1)], FileLockConflict);
            maker.asked(fid, false);
            maker.refused(terminal, &[core_read(fid, 15, 1)], FileLockConflict);
            maker.asked(fid, false);
        }
        maker.refused(terminal, &[read(self.writes, 0, 1)], Access);
        maker.refused(terminal, &[core_read(self.writes, 0, 1)], Access);
        maker.refused(terminal, &[read(self.desks, 0, 1)], NoOpen);
        self.answers(maker, [false; 5]);
        maker.done(terminal, &[read(self.own, 0, 5)]);
        maker.refused(terminal, &[read(self.own, 0, 50)], FileLockConflict);
        maker.asked(self.own, true);
        maker.done(desk, &[locking(self.desks, 0, &[(7, 10, 10)], &[])]);
    }

    /// "A write of at least one byte raises it also where the bytes are equal;
    /// WRITE_ANDX of length 0 never".
    fn writes(&self, maker: &mut Maker) {
        let Scene { terminal, desk, .. } = *self;
        let again = write(self.own, 30, b"equal");
        for (user, ask) in [
            (terminal, again.clone()),
            (terminal, again.clone()),
            (terminal, lengthened(&again)),
            (desk, write(self.desks, 0, b"d")),
            (terminal, write(self.writes, 4095, b"w")),
            (terminal, core_write(self.own, 30, b"equal")),
            (desk, core_write(self.desks, 200, b"d")),
        ] {
            self.read_by_both(maker);
            maker.done(user, &[ask]);
            self.answers(maker, [false; 5]);
        }
        self.read_by_both(maker);
        maker.done(terminal, &[locking(self.own, 1, &[], &[(1, 60, 5)])]);
        for (ask, refusal) in [
            (write(self.own, 50, b""), None),
            (write(self.writes, 5000, b""), None),
            (write(self.reads, 0, b"r"), Some(Access)),
            (core_write(self.reads, 0, b"r"), Some(Access)),
            (write(self.own, 62, b"r"), Some(FileLockConflict)),
            (core_write(self.writes, 62, b"r"), Some(FileLockConflict)),
            (write(self.own, 4095, b"rr"), Some(FileFull)),
            (core_write(self.own, 4096, b"r"), Some(FileFull)),
        ] {
            match refusal {
                None => maker.done(terminal, &[ask]),
                Some(refusal) => maker.refused(terminal, &[ask], refusal),
            };
            maker.asked(self.own, true);
            maker.asked(self.desks, true);
        }
        maker.done(terminal, &[locking(self.own, 1, &[(1, 60, 5)], &[])]);
    }

    /// "count 0 only if the size changes"
    fn sizes(&self, maker: &mut Maker) {
        let Scene { terminal, desk, .. } = *self;
        let size = |fid, size| core_write(fid, size, b"");
        maker.done(desk, &[size(self.desks, 100)]);
        for (before, after) in [(100, 101), (101, 40), (40, 0), (0, 4096), (4096, 100)] {
            self.read_by_both(maker);
            maker.done(terminal, &[size(self.writes, before)]);
            maker.asked(self.own, true);
            maker.done(desk, &[size(self.desks, after)]);
            self.answers(maker, [false; 5]);
        }
        self.read_by_both(maker);
        maker.done(desk, &[locking(self.desks, 0, &[], &[(9, 90, 1)])]);
        maker.refused(terminal, &[size(self.own, 50)], FileLockConflict);
        maker.refused(terminal, &[size(self.own, 4097)], FileFull);
        maker.refused(terminal, &[size(self.reads, 0)], Access);
        maker.asked(self.own, true);
        maker.asked(self.desks, true);
        maker.done(desk, &[locking(self.desks, 0, &[(9, 90, 1)], &[])]);
    }

    /// "In WRITE, READ of one chain the READ remembers the number after the WRITE."
    fn chains(&self, maker: &mut Maker) {
        let Scene { terminal, desk, .. } = *self;
        let bytes = |fid| write(fid, 7, b"chain");
        let all = |fid| read(fid, 0, 100);
        self.read_by_both(maker);
        maker.done(terminal, &[bytes(self.own), all(self.own)]);
        self.answers(maker, [true, false, false, false, false]);
        let writes = [bytes(self.own), bytes(self.writes), write(self.own, 1, b"")];
        let asks = [&writes[..], &[bytes(self.own), all(self.reads)]].concat();
        maker.done(terminal, &asks);
        self.answers(maker, [false, false, true, false, false]);
        maker.refused(terminal, &[bytes(self.own), all(self.writes)], Access);
        self.answers(maker, [false; 5]);
        maker.done(terminal, &[all(self.reads)]);
        maker.refused(terminal, &[bytes(self.reads), all(self.own)], Access);
        self.answers(maker, [false, false, true, false, false]);
        // Behind locks.
        let lock = |fid, place| locking(fid, 0, &[], &[(1, place, 1)]);
        maker.done(terminal, &[lock(self.own, 5000), all(self.own)]);
        maker.done(desk, &[lock(self.desks, 5001), core_read(self.desks, 0, 9)]);
        self.answers(maker, [true, true, true, false, false]);
        let size = core_write(self.desks, 90, b"");
        maker.done(desk, &[lock(self.desks, 5002), size]);
        self.answers(maker, [false; 5]);
        maker.done(desk, &[lock(self.desks, 5003), all(self.desks)]);
        let bytes = core_write(self.desks, 0, b"x");
        maker.done(desk, &[lock(self.desks, 5004), bytes]);
        self.answers(maker, [false; 5]);
        // The other file.
        let asks = [write(self.own, 0, b"one"), read(self.other, 0, 5)];
        maker.done(terminal, &asks);
        self.answers(maker, [false, false, false, false, true]);
    }

    /// "A new open has not read"; "FID 0xFFFF means the file just opened".
    fn behind_open(&self, maker: &mut Maker) {
        let user = self.terminal;
        let named = |access| open(access, 4, b"LIST");
        let just = read(JUST_OPENED, 0, 10);
        let fid = |answer: &[u8]| u16::from_le_bytes([answer[37], answer[38]]);
        let alone = fid(&maker.done(user, &[named(0)]).reply);
        maker.asked(alone, false);
        let has_read = fid(&maker.done(user, &[named(2), just.clone()]).reply);
        maker.asked(has_read, true);
        maker.asked(alone, false);
        let not_read = fid(&maker.done(user, &[named(0), read(self.own, 0, 10)]).reply);
        maker.asked(not_read, false);
        maker.asked(self.own, true);
        let refused = fid(&maker.refused(user, &[named(1), just], Access).reply);
        maker.asked(refused, false);
        maker.done(self.desk, &[write(self.desks, 0, b"x")]);
        maker.asked(has_read, false);
        for fid in [alone, has_read, not_read, refused] {
            maker.done(user, &[Ask::Close { fid }]);
            maker.unknown(fid);
        }
    }

    /// "A new open has not read, whoever had its FID before."
    fn fids_again(&self, maker: &mut Maker) {
        let user = self.terminal;
        for turn in 0..4 {
            let fid = maker.open(user, LIST, 2);
            maker.done(user, &[read(fid, 0, 10)]);
            maker.asked(fid, true);
            match turn % 2 {
                0 => maker.done(user, &[Ask::Close { fid }]),
                _ => maker.done(user, &[read(fid, 0, 10), Ask::Close { fid }]),
            };
            maker.unknown(fid);
            let again = match turn / 2 {
                0 => maker.open(user, LIST, 2),
                _ => {
                    let reply = maker.done(user, &[open(0, 4, b"list")]).reply;
                    u16::from_le_bytes([reply[37], reply[38]])
                }
            };
            maker.asked(again, false);
            maker.done(user, &[Ask::Close { fid: again }]);
        }
        for fid in [0, 65, 256, JUST_OPENED] {
            maker.unknown(fid);
        }
    }

    /// A day that begins with a change of each file.
    fn a_day(&self, maker: &mut Maker) {
        let user = self.terminal;
        let other = maker.open(user, OTHER, 2);
        for fid in [self.own, other] {
            maker.done(user, &[write(fid, 0, b"morning")]);
        }
        Day::default().pass(maker, &[user, self.desk]);
    }

    /// "each load", "an empty one too", of a file that has no open.
    fn loads(&self, maker: &mut Maker) {
        let user = self.terminal;
        maker.done(user, &[read(self.other, 0, 5)]);
        let load = |size: usize| Call::LoadFile {
            file: OTHER.into(),
            contents: vec![b'l'; size],
        };
        maker.host(load(3), 9);
        maker.asked(self.other, true);
        maker.done(user, &[Ask::Close { fid: self.other }]);
        for size in [3, 3, 0, 0, 20] {
            maker.host(load(size), 0);
            maker.unknown(self.other);
        }
        maker.host(load(4097), 7);
        let fid = maker.host(open_call(user, user.pid, OTHER, 2), 0);
        maker.asked(fid, false);
        maker.done(user, &[core_read(fid, 0, 5)]);
        maker.asked(fid, true);
    }
}

/// The opens whose files are unchanged, kept without any number: from a read of the
/// open to the next change of its file.
#[derive(Default)]
struct Day {
    fresh: BTreeSet<u16>,
}

impl Day {
    /// Commands in any order, and behind each the question for its open and another.
    fn pass(&mut self, maker: &mut Maker, users: &[User]) {
        for _ in 0..TURNS {
            let user = maker.rng.pick(users);
            let opens = maker.tables().opens.in_use().to_vec();
            let own = opens.iter().filter(|open| open.uid == user.uid);
            let own: Vec<Open> = own.copied().collect();
            let open = maker.rng.pick(&own);
            match maker.rng.below(12) {
                10 if own.len() < 5 => self.open(maker, user, open.file),
                11 if own.len() > 3 => self.close(maker, user, open.fid),
                turn => self.transfer(maker, user, open, turn),
            }
            let any = maker.rng.pick(&opens).fid;
            self.ask(maker, open.fid);
            self.ask(maker, any);
        }
    }

    fn ask(&self, maker: &mut Maker, fid: u16) {
        let tables = maker.tables();
        match tables.open_of(fid).is_some() {
            true => maker.asked(fid, self.fresh.contains(&fid)),
            false => maker.unknown(fid),
        }
    }

    fn open(&mut self, maker: &mut Maker, user: User, file: u8) {
        let access = maker.rng.pick(&[0, 1, 2]);
        let fid = maker.open(user, file, access);
        self.ask(maker, fid);
    }

    fn close(&mut self, maker: &mut Maker, user: User, fid: u16) {
        maker.done(user, &[Ask::Close { fid }]);
        self.fresh.remove(&fid);
    }

    /// A read or a write, granted or refused by its open's access.
    fn transfer(&mut self, maker: &mut Maker, user: User, open: Open, turn: usize) {
        let tables = maker.tables();
        let (fid, size) = (open.fid, tables.files[usize::from(open.file)].size as u32);
        let place = maker.rng.below(120) as u32;
        let (ask, changes) = match turn {
            0 | 1 => (read(fid, place.into(), 8), false),
            2 => (read(fid, 0, 0), false),
            3 | 4 => (core_read(fid, place, 8), false),
            5 => (write(fid, place.into(), b"day"), true),
            6 => (core_write(fid, place, b"day"), true),
            7 => (write(fid, place.into(), b""), false),
            8 => (core_write(fid, size, b""), false),
            _ => (core_write(fid, place, b""), place != size),
        };
        let reads = turn < 5;
        let barred = if reads { ACCESS_WRITE } else { ACCESS_READ };
        if open.access == barred {
            maker.refused(user, &[ask], Access);
            return;
        }
        maker.done(user, &[ask]);
        if reads {
            self.fresh.insert(fid);
        } else if changes {
            for other in tables.opens.in_use() {
                if other.file == open.file {
                    self.fresh.remove(&other.fid);
                }
            }
        }
    }
}
