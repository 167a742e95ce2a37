//! The planned parts of the history, each with the answers that document 01
//! foretells: its cases, every refusal, every edge.

use crate::day::CONNECTIONS;
use crate::maker::{lengthened, open_call, read, write, Maker, User};
use second::builder::{locking, Ask, Asked};
use second::call::Call;
use second::grammar::{CLOSE, CORE, LOCKING_ANDX, OPEN_ANDX, PROCESS_EXIT, READ_ANDX, WRITE_ANDX};
use second::messages::{worked, SUCCESSIONS};
use second::refusals::WireRefusal::{self, *};
use second::tables::{LOCKS, OPENS, SESSIONS, TREES};
use std::slice::from_ref;

/// Connections of the planned parts.
const OFFICE: u32 = 500;
const STORE: u32 = 501;
/// Connections that have no session.
const UNKNOWN: u32 = 999;

pub fn before_the_day(maker: &mut Maker) {
    worked_case(maker);
    morning(maker);
    lock_cases(maker);
    reads_and_writes(maker);
    chains(maker);
    chains_refused(maker);
    refusals(maker);
    orders(maker);
    malformed(maker);
    dropped(maker);
    lock_table_full(maker);
    hanging(maker);
}

pub fn after_the_day(maker: &mut Maker) {
    evening(maker);
    lock_table_full(maker);
    tables_full(maker);
    host_orders(maker);
    night(maker);
}

/// Cases 13, 2 and 3: the message of "A listing, whole".
fn worked_case(maker: &mut Maker) {
    maker.load(0, 120);
    let user = maker.user(9, 1, 7);
    maker.open(user, 0, 2);
    let answer = maker.take_for(9, worked(), None);
    // Case 13: reply 76 bytes, data offset 66.
    if answer.value != 76 || answer.reply[52..54] != [66, 0] {
        maker.complaints.push(format!("case 13: {answer:?}"));
    }
    maker.done(user, &[locking(1, 0, &[(7, 100, 10)], &[])]);
    let mut message = worked();
    message[35] = 60;
    maker.take_for(9, message.clone(), Some(NotASentence));
    message[35] = 62;
    message.insert(61, 0xAA);
    maker.take_for(9, message, None);
}

/// Files, sessions, trees and opens for the day.
fn morning(maker: &mut Maker) {
    let sizes = [200, 1, 0, 240, 4095, 4096, 17, 64];
    for (file, size) in (1..).zip(sizes) {
        maker.load(file, size);
    }
    for (connection, pid) in CONNECTIONS.into_iter().zip([7, 8, 300, 8, 0xFFFF]) {
        let user = maker.user(connection, 1, pid);
        let reader = User {
            tid: maker.tree(user.uid, 0),
            ..user
        };
        maker.open(user, 0, 2);
        maker.open(user, 1, 1);
        maker.open(reader, 2, 0);
    }
}

/// Two users with an open each of file 3, on two connections.
fn pair(maker: &mut Maker) -> (User, u16, User, u16) {
    let one = maker.user(OFFICE, 1, 41);
    let other = maker.user(STORE, 1, 42);
    let fids = (maker.open(one, 3, 2), maker.open(other, 3, 2));
    (one, fids.0, other, fids.1)
}

fn drop_pair(maker: &mut Maker) {
    maker.drop_connection(OFFICE);
    maker.drop_connection(STORE);
}

/// Cases 4 to 10, through the owner's open and through another's.
fn lock_cases(maker: &mut Maker) {
    for (exclusive, shared) in [(0x00, 0x01), (0x10, 0x11)] {
        let (one, fid, other, behind) = pair(maker);
        maker.done(one, &[locking(fid, exclusive, &[], &[(41, 0, 10)])]);
        maker.done(other, &[locking(behind, exclusive, &[], &[(42, 10, 10)])]);
        maker.refused(
            other,
            &[locking(behind, exclusive, &[], &[(42, 9, 1)])],
            LockNotGranted,
        );
        maker.refused(
            other,
            &[locking(behind, shared, &[], &[(42, 0, 1)])],
            LockNotGranted,
        );
        maker.refused(
            one,
            &[locking(fid, exclusive, &[], &[(41, 0, 10)])],
            LockNotGranted,
        );
        maker.done(other, &[locking(behind, exclusive, &[], &[(42, 5, 0)])]);
        maker.done(
            one,
            &[locking(fid, shared, &[], &[(41, 30, 10), (41, 35, 10)])],
        );
        maker.done(other, &[locking(behind, shared, &[], &[(42, 30, 20)])]);
        maker.refused(
            other,
            &[locking(behind, exclusive, &[], &[(42, 49, 1)])],
            LockNotGranted,
        );
        // The first alike goes first; a release keeps nothing of itself when
        // a lock behind it is refused.
        let again = [(41, 30, 10)];
        maker.done(one, &[locking(fid, shared, &again, &again)]);
        maker.refused(
            one,
            &[locking(fid, exclusive, &again, &[(41, 12, 1)])],
            LockNotGranted,
        );
        maker.done(one, &[locking(fid, exclusive, &again, &[])]);
        maker.refused(
            one,
            &[locking(fid, exclusive, &[], &[(41, 60, 2), (41, 61, 1)])],
            LockNotGranted,
        );
        maker.done(
            one,
            &[locking(fid, shared, &[], &[(41, 60, 2), (41, 61, 1)])],
        );
        drop_pair(maker);
    }
    far_ranges(maker);
}

/// Cases 9 and 10, and other ranges at the ends of 32 and 64 bits.
fn far_ranges(maker: &mut Maker) {
    let (one, fid, other, behind) = pair(maker);
    let top = u64::MAX;
    maker.done(one, &[locking(fid, 0x10, &[], &[(41, top, 1)])]);
    maker.refused(
        other,
        &[locking(behind, 0x10, &[], &[(42, top, 1)])],
        LockNotGranted,
    );
    maker.refused(
        other,
        &[locking(behind, 0x11, &[], &[(42, top - 9, 10)])],
        LockNotGranted,
    );
    maker.refused(
        other,
        &[locking(behind, 0x10, &[], &[(42, 1, top)])],
        LockNotGranted,
    );
    for (offset, length) in [(top, 2), (2, top), (top, top), (1 << 63, (1 << 63) + 1)] {
        let asked = [(41, offset, length)];
        maker.refused(one, &[locking(fid, 0x10, &[], &asked)], RangePasses);
    }
    let behind_good = [(42, 0, 1), (42, 2, top)];
    maker.refused(
        other,
        &[locking(behind, 0x11, &[], &behind_good)],
        RangePasses,
    );
    maker.done(one, &[locking(fid, 0x10, &[(41, top, 1)], &[(41, top, 0)])]);
    maker.done(one, &[locking(fid, 0x11, &[], &[(41, 1, top)])]);
    maker.done(
        other,
        &[locking(behind, 0x11, &[], &[(42, 1 << 63, 1 << 63)])],
    );
    // Reads at the far end find the shared locks no bar and no bytes.
    maker.done(other, &[read(behind, top, 200)]);
    maker.refused(one, &[write(fid, top, b"x")], FileLockConflict);
    maker.done(one, &[write(fid, top, b"")]);
    maker.done(one, &[locking(fid, 0x10, &[(41, 1, top)], &[])]);
    maker.done(
        one,
        &[locking(fid, 0x00, &[], &[(41, 0xFFFF_FFFF, 0xFFFF_FFFF)])],
    );
    maker.refused(other, &[write(behind, 1 << 32, b"y")], FileLockConflict);
    maker.refused(other, &[read(behind, 1 << 32, 1)], FileLockConflict);
    maker.refused(one, &[write(fid, 1 << 32, b"y")], FileFull);
    drop_pair(maker);
}

/// Sizes, gaps, 4,095 and 4,096, and locks as bars.
fn reads_and_writes(maker: &mut Maker) {
    let user = maker.user(OFFICE, 1, 41);
    let empty = maker.open(user, 9, 2);
    let whole = maker.open(user, 6, 2);
    maker.done(user, &[read(empty, 0, 50)]);
    maker.done(user, &[write(empty, 5, b"after a gap")]);
    maker.done(user, &[read(empty, 0, 50)]);
    maker.done(user, &[read(empty, 15, 1)]);
    maker.done(user, &[read(empty, 16, 1)]);
    maker.done(user, &[write(empty, 0, b"short")]);
    maker.done(user, &[write(empty, 100, b"")]);
    maker.done(user, &[write(empty, 5000, b"")]);
    maker.done(user, &[write(empty, 60, b"2nd gap")]);
    maker.done(user, &[lengthened(&read(empty, 0, 200))]);
    maker.done(user, &[write(empty, 4095, b"z")]);
    maker.refused(user, &[write(empty, 4096, b"z")], FileFull);
    maker.refused(user, &[write(empty, 4095, b"zz")], FileFull);
    maker.refused(user, &[lengthened(&write(empty, 1 << 40, b"z"))], FileFull);
    maker.refused(user, &[write(empty, u64::MAX, b"z")], FileFull);
    maker.done(user, &[write(empty, 4090, b"to end")]);
    maker.done(user, &[write(empty, 4096, b"")]);
    maker.done(user, &[read(empty, 4080, 200)]);
    maker.done(user, &[read(empty, 4096, 200)]);
    maker.done(user, &[read(whole, 0, 4096)]);
    maker.done(user, &[read(whole, 4000, 0xFFFF)]);
    maker.done(user, &[read(whole, 12, 0)]);
    let page = maker.rng.bytes(4096);
    maker.done(user, &[lengthened(&write(whole, 0, &page))]);
    maker.refused(user, &[write(whole, 1, &page)], FileFull);
    // A message of the most bytes, the last of them free.
    let mut message = maker.message(user, &[write(whole, 2, &page[..4094])]);
    message.resize(8192, 0x5A);
    maker.take_for(OFFICE, message.clone(), None);
    message.push(0);
    maker.dropped(OFFICE, message);
    maker.done(user, &[read(whole, 4000, 96)]);
    maker.drop_connection(OFFICE);
    bars(maker);
}

/// Which locks bar which reads and writes.
fn bars(maker: &mut Maker) {
    let (one, fid, other, behind) = pair(maker);
    let child = User { pid: 77, ..one };
    maker.done(one, &[locking(fid, 0, &[], &[(41, 10, 10), (77, 20, 10)])]);
    maker.done(one, &[locking(fid, 1, &[], &[(41, 40, 10)])]);
    maker.done(one, &[read(fid, 10, 10)]);
    maker.refused(one, &[read(fid, 10, 11)], FileLockConflict);
    maker.done(child, &[read(fid, 20, 10)]);
    maker.refused(child, &[read(fid, 19, 2)], FileLockConflict);
    maker.refused(other, &[read(behind, 0, 11)], FileLockConflict);
    maker.done(other, &[read(behind, 0, 10)]);
    maker.done(other, &[read(behind, 15, 0)]);
    maker.done(other, &[read(behind, 40, 10)]);
    maker.done(one, &[write(fid, 10, b"0123456789")]);
    maker.refused(one, &[write(fid, 40, b"!")], FileLockConflict);
    maker.refused(other, &[write(behind, 49, b"!")], FileLockConflict);
    maker.refused(other, &[write(behind, 19, b"!")], FileLockConflict);
    maker.done(other, &[write(behind, 15, b"")]);
    maker.done(other, &[write(behind, 50, b"free")]);
    drop_pair(maker);
}

/// Every chain of LOCKING, READ, WRITE and CLOSE of up to so many blocks. Those
/// of core commands are in `core_commands.rs`.
fn commands(most: usize) -> Vec<Vec<u8>> {
    let mut all: Vec<Vec<u8>> = [LOCKING_ANDX, READ_ANDX, WRITE_ANDX]
        .map(|c| vec![c])
        .into();
    let mut place = 0;
    while place < all.len() {
        let chain = all[place].clone();
        let followers = SUCCESSIONS
            .iter()
            .filter(|(one, next)| chain.last() == Some(one) && !CORE.contains(next));
        for &(_, next) in followers.filter(|_| chain.len() < most) {
            all.push([chain.as_slice(), &[next]].concat());
        }
        place += 1;
    }
    all
}

fn ask_for(maker: &mut Maker, command: u8, fid: u16, place: u64) -> Ask {
    match command {
        LOCKING_ANDX => locking(fid, (place % 2) as u8, &[], &[(41, 300 + place, 9)]),
        READ_ANDX => read(fid, place, 24),
        WRITE_ANDX => {
            let data = maker.rng.bytes(1 + place as usize % 7);
            write(fid, place, &data)
        }
        _ => Ask::Close { fid },
    }
}

/// Every chain done, each on an open of its own.
fn chains(maker: &mut Maker) {
    let user = maker.user(OFFICE, 1, 41);
    let short = commands(4).into_iter().map(|chain| (chain, false));
    let long = commands(3).into_iter().map(|chain| (chain, true));
    for (place, (chain, lengthen)) in (0..).zip(short.chain(long)) {
        let fid = maker.open(user, 3, 2);
        let mut asks = Vec::new();
        for (index, &command) in (0..).zip(&chain) {
            let ask = ask_for(maker, command, fid, 3 * place + 5 * index);
            asks.push(if lengthen { lengthened(&ask) } else { ask });
        }
        maker.done(user, &asks);
        if !chain.contains(&CLOSE) {
            maker.done(user, &[Ask::Close { fid }]);
        }
    }
    maker.drop_connection(OFFICE);
}

/// Each succession refused at its second command and at its first.
fn chains_refused(maker: &mut Maker) {
    let (one, fid, other, behind) = pair(maker);
    let write_only = maker.open(one, 3, 1);
    maker.done(other, &[locking(behind, 0, &[], &[(42, 500, 10)])]);
    let barred = read(fid, 505, 3);
    let past = write(fid, 4094, b"abc");
    let good = write(fid, 20, b"stands");
    let elsewhere = Ask::Close { fid: behind };
    let lock = |place| locking(fid, 1, &[], &[(41, place, 3)]);
    maker.refused(one, &[lock(600), barred.clone()], FileLockConflict);
    maker.refused(one, &[lock(610), past.clone()], FileFull);
    maker.refused(one, &[read(fid, 0, 20), elsewhere.clone()], NoOpen);
    maker.refused(one, &[good.clone(), past.clone()], FileFull);
    let only = |offset| write(write_only, offset, b"one-way");
    maker.refused(one, &[only(40), read(write_only, 40, 7)], Access);
    maker.refused(one, &[write(fid, 50, b"kept"), elsewhere.clone()], NoOpen);
    maker.refused(
        one,
        &[locking(fid, 0, &[], &[(41, 509, 1)]), good.clone()],
        LockNotGranted,
    );
    maker.refused(
        one,
        &[locking(fid, 0, &[(41, 600, 4)], &[]), read(fid, 0, 9)],
        NotLocked,
    );
    maker.refused(one, &[barred, Ask::Close { fid }], FileLockConflict);
    maker.refused(one, &[past.clone(), Ask::Close { fid }], FileFull);
    maker.refused(one, &[past.clone(), read(fid, 0, 9)], FileFull);
    // The third refused, the first two standing.
    let first = write(fid, 70, b"first");
    maker.refused(one, &[lock(620), first.clone(), past], FileFull);
    maker.refused(one, &[first, good.clone(), elsewhere.clone()], NoOpen);
    maker.refused(
        one,
        &[lock(630), good.clone(), read(fid, 495, 6)],
        FileLockConflict,
    );
    maker.refused(one, &[good, read(fid, 0, 30), elsewhere], NoOpen);
    maker.done(one, &[read(fid, 15, 60), Ask::Close { fid }]);
    maker.done(other, &[locking(behind, 0, &[], &[(42, 600, 40)])]);
    drop_pair(maker);
}

/// All seven requests, of an open.
fn seven(fid: u16) -> [Ask; 7] {
    [
        Ask::Close { fid },
        Ask::TreeDisconnect,
        Ask::Logoff,
        Ask::ProcessExit,
        locking(fid, 0, &[], &[(41, 0, 1)]),
        read(fid, 0, 1),
        write(fid, 0, b"w"),
    ]
}

/// Each refusal that a single request can get.
fn refusals(maker: &mut Maker) {
    let (one, fid, other, behind) = pair(maker);
    refusals_by_header(maker, one, fid, other, behind);
    let reader = User {
        tid: maker.tree(one.uid, 0),
        ..one
    };
    let read_only = maker.open(reader, 3, 0);
    let write_only = maker.open(one, 3, 1);
    for max in [0, 1, 200] {
        maker.refused(one, &[read(write_only, 0, max)], Access);
    }
    for data in ["", "w", "www"] {
        maker.refused(reader, &[write(read_only, 0, data.as_bytes())], Access);
    }
    // An open of the same session in another tree.
    maker.refused(one, &[read(read_only, 0, 1)], NoOpen);
    maker.done(reader, &[locking(read_only, 0, &[], &[(41, 80, 4)])]);
    maker.done(one, &[locking(write_only, 1, &[], &[(41, 90, 4)])]);
    for kind in [0x02, 0x04, 0x08, 0x13, 0x20, 0x40, 0x80, 0xFF] {
        maker.refused(one, &[locking(fid, kind, &[], &[(41, 0, 1)])], NotSupported);
    }
    maker.refused(one, &[locking(fid, 0x02, &[], &[])], NotSupported);
    maker.done(one, &[locking(fid, 0, &[], &[])]);
    releases_refused(maker, one, fid);
    drop_pair(maker);
}

/// 2/91, 2/5 and 1/6, for each command that can have them.
fn refusals_by_header(maker: &mut Maker, one: User, fid: u16, other: User, behind: u16) {
    for ask in seven(fid) {
        maker.refused(User { uid: 0, ..one }, from_ref(&ask), NoSession);
        let elsewhere = User {
            connection: STORE,
            ..one
        };
        maker.refused(elsewhere, &[ask], NoSession);
    }
    for ask in seven(fid) {
        if matches!(ask, Ask::Logoff | Ask::ProcessExit) {
            continue;
        }
        maker.refused(User { tid: 0, ..one }, from_ref(&ask), NoTree);
        let tid = other.tid;
        maker.refused(User { tid, ..one }, &[ask], NoTree);
    }
    for ask in seven(behind).into_iter().chain(seven(0xFFFF)) {
        if ask.fid().is_some() {
            maker.refused(one, &[ask], NoOpen);
        }
    }
}

/// 1/158: nearly the lock held, and more releases than locks.
fn releases_refused(maker: &mut Maker, one: User, fid: u16) {
    let held: Asked = (41, 10, 5);
    maker.done(one, &[locking(fid, 0, &[], &[held])]);
    for near in [(42, 10, 5), (41, 11, 5), (41, 10, 4), (41, 12, 2)] {
        maker.refused(one, &[locking(fid, 0, &[near], &[])], NotLocked);
    }
    maker.refused(one, &[locking(fid, 0x10, &[held, held], &[])], NotLocked);
    maker.refused(one, &[locking(fid, 0, &[held; 150], &[])], NotLocked);
    maker.refused(
        one,
        &[locking(fid, 0x10, &[(41, 10, 5 + (1 << 32))], &[])],
        NotLocked,
    );
    maker.done(one, &[locking(fid, 0x10, &[held], &[])]);
    maker.refused(one, &[locking(fid, 0, &[held], &[])], NotLocked);
}

/// Requests with two reasons: the earlier one is given.
fn orders(maker: &mut Maker) {
    let (one, fid, other, behind) = pair(maker);
    let nobody = User {
        uid: 77,
        tid: 77,
        ..one
    };
    let write_only = maker.open(one, 3, 1);
    maker.done(other, &[locking(behind, 0, &[], &[(42, 4080, 100)])]);
    maker.done(one, &[locking(fid, 0, &[], &[(41, 0, 4)])]);
    let bad = [(41, 9, 9)];
    let passing = [(41, 4080, 1), (41, u64::MAX, 2)];
    let cases: [(User, Ask, WireRefusal); 9] = [
        (nobody, read(0, 0, 1), NoSession),
        (User { tid: 77, ..one }, write(0, 0, b"w"), NoTree),
        (one, locking(0, 0x02, &bad, &passing), NoOpen),
        (one, read(write_only, 4080, 1), Access),
        (one, locking(fid, 0x12, &bad, &passing), NotSupported),
        (one, locking(fid, 0x10, &bad, &passing), NotLocked),
        (one, locking(fid, 0x10, &[], &passing), RangePasses),
        (
            one,
            locking(fid, 0x10, &[(41, 0, 4)], &passing),
            RangePasses,
        ),
        (one, write(fid, 4090, b"past the end"), FileLockConflict),
    ];
    for (user, ask, refusal) in cases {
        maker.refused(user, &[ask], refusal);
    }
    // The lock is still held: what was refused released nothing.
    maker.done(one, &[locking(fid, 0, &[(41, 0, 4)], &[])]);
    drop_pair(maker);
}

/// A message with some bytes put in place of its own.
fn changed(message: &[u8], places: &[(usize, u8)]) -> Vec<u8> {
    let mut message = message.to_vec();
    for &(place, byte) in places {
        message[place] = byte;
    }
    message
}

/// 2/22 and 2/1.
fn malformed(maker: &mut Maker) {
    let user = maker.user(OFFICE, 1, 41);
    let fid = maker.open(user, 3, 2);
    let write = maker.message(user, &[write(fid, 0, b"never")]);
    for command in [0x00, OPEN_ANDX, 0x72, 0x73, 0x75, 0xA2, 0xFF] {
        // No OPEN_ANDX has the words of a WRITE.
        let refusal = match command {
            OPEN_ANDX => NotASentence,
            _ => NotServed,
        };
        maker.take_for(OFFICE, changed(&write, &[(4, command)]), Some(refusal));
    }
    maker.take_for(
        OFFICE,
        changed(&write, &[(4, 0x25), (32, 99)]),
        Some(NotServed),
    );
    for ask in seven(fid) {
        let message = maker.message(user, &[ask]);
        let words = message[32] + 1;
        maker.take_for(
            OFFICE,
            changed(&message, &[(32, words)]),
            Some(NotASentence),
        );
    }
    let lock = maker.message(user, &[locking(fid, 0, &[], &[(41, 0, 1)])]);
    let read = maker.message(user, &[read(fid, 0, 8)]);
    for message in not_sentences(&lock, &read, &write) {
        maker.take_for(OFFICE, message, Some(NotASentence));
    }
    // 2/1 before 2/91, and before the first write is carried out.
    maker.take_for(
        STORE,
        changed(&read, &[(28, 77), (32, 11)]),
        Some(NotASentence),
    );
    let ask = Ask::Close { fid };
    let mut message = maker.message(user, &[self::write(fid, 0, b"never"), ask]);
    message.pop();
    maker.take_for(OFFICE, message, Some(NotASentence));
    maker.done(user, &[self::read(fid, 0, 8)]);
    maker.drop_connection(OFFICE);
}

/// Messages that are not sentences, from three of a single block. The words
/// begin at 33.
fn not_sentences(lock: &[u8], read: &[u8], write: &[u8]) -> Vec<Vec<u8>> {
    let end = |message: &[u8]| message.len() as u8;
    // AndXCommand and AndXOffset.
    let next = |message: &[u8], command: u8, offset: u8| {
        changed(message, &[(33, command), (35, offset), (36, 0)])
    };
    let mut read_with_byte = changed(read, &[(53, 1)]);
    read_with_byte.push(0);
    vec![
        // Words, ByteCount, bytes outside.
        lock[..40].to_vec(),
        read[..52].to_vec(),
        lock[..49].to_vec(),
        write[..58].to_vec(),
        lock[..lock.len() - 1].to_vec(),
        write[..write.len() - 1].to_vec(),
        // ByteCount not the table's.
        changed(lock, &[(45, 1)]),
        changed(lock, &[(39, 0x10)]),
        changed(lock, &[(47, 0)]),
        read_with_byte,
        // Data before or past the byte area.
        changed(write, &[(55, write[55] - 1)]),
        changed(write, &[(55, 0), (53, 0)]),
        changed(write, &[(53, write[53] + 1)]),
        changed(write, &[(55, write[55] + 6), (53, 0)]),
        // Followers, and offsets before the block's end or outside.
        next(lock, CLOSE, end(lock)),
        next(lock, LOCKING_ANDX, end(lock)),
        next(read, READ_ANDX, end(read)),
        next(write, LOCKING_ANDX, end(write)),
        next(read, CLOSE, end(read) - 1),
        next(lock, READ_ANDX, 32),
        next(write, WRITE_ANDX, 0),
        next(lock, READ_ANDX, end(lock)),
        changed(write, &[(33, READ_ANDX), (35, 0xFF), (36, 0xFF)]),
    ]
}

/// Row 1, and the shortest message that it does not drop.
fn dropped(maker: &mut Maker) {
    let user = maker.user(OFFICE, 1, 41);
    let message = maker.message(user, &[Ask::ProcessExit]);
    maker.take_for(OFFICE, message.clone(), None);
    maker.dropped(OFFICE, Vec::new());
    maker.dropped(OFFICE, message[..34].to_vec());
    maker.dropped(UNKNOWN, message[..4].to_vec());
    for place in 0..4 {
        maker.dropped(OFFICE, changed(&message, &[(place, 0xFE)]));
    }
    maker.dropped(OFFICE, changed(&message, &[(9, 0x80)]));
    maker.dropped(OFFICE, changed(&message, &[(9, 0xFF), (4, 0)]));
    maker.dropped(OFFICE, vec![0; 8193]);
    maker.drop_connection(OFFICE);
}

/// 1/8: case 14 and what is near it.
fn lock_table_full(maker: &mut Maker) {
    let (one, fid, other, behind) = pair(maker);
    let free = LOCKS - maker.tables().locks.count;
    let ranges: Vec<Asked> = (0..=free as u64).map(|n| (41, 600 + 2 * n, 2)).collect();
    maker.refused(one, &[locking(fid, 0, &[], &ranges)], NoLockRecord);
    maker.done(one, &[locking(fid, 0, &[], &ranges[..free])]);
    for kind in [0x00, 0x01, 0x10, 0x11] {
        maker.refused(one, &[locking(fid, kind, &[], &[(41, 0, 1)])], NoLockRecord);
    }
    maker.refused(
        other,
        &[locking(behind, 0, &[], &[(42, 0, 0)])],
        NoLockRecord,
    );
    let two = [(41, 0, 1), (41, 1, 1)];
    maker.refused(one, &[locking(fid, 0, &ranges[..1], &two)], NoLockRecord);
    maker.refused(
        one,
        &[locking(fid, 0, &[], &[(41, 0, 1), (41, 601, 1)])],
        LockNotGranted,
    );
    maker.refused(
        one,
        &[locking(fid, 1, &[], &[(41, 0, 1)]), read(fid, 0, 9)],
        NoLockRecord,
    );
    maker.done(one, &[locking(fid, 0, &[], &[])]);
    maker.done(one, &[locking(fid, 0, &ranges[..1], &two[..1])]);
    maker.done(
        one,
        &[locking(fid, 0x10, &ranges[1..2], &[]), read(fid, 0, 9)],
    );
    maker.done(other, &[locking(behind, 0, &[], &[(42, 602, 2)])]);
    maker.refused(one, &[locking(fid, 0, &[], &ranges[free..])], NoLockRecord);
    maker.done(one, &[Ask::Close { fid }]);
    maker.done(
        other,
        &[locking(behind, 0, &[], &[(42, 0, 1), (42, 700, 900)])],
    );
    drop_pair(maker);
}

/// What goes with an open, a tree, a process, a session, a connection: a
/// lock of the other's is granted only then.
fn hanging(maker: &mut Maker) {
    let removals = [
        (Ask::TreeDisconnect, 41),
        (Ask::ProcessExit, 41),
        (Ask::Logoff, 43),
        (Ask::ProcessExit, 42),
    ];
    for (removal, pid) in removals {
        let (one, fid, other, behind) = pair(maker);
        let second = maker.open(one, 3, 2);
        let high = maker.host(open_call(one, 41 + 65_536, 1, 0), 0);
        let third = User {
            tid: maker.tree(one.uid, 0),
            ..one
        };
        let elsewhere = maker.open(third, 3, 0);
        maker.done(one, &[locking(fid, 0, &[], &[(41, 800, 5)])]);
        maker.done(one, &[locking(second, 1, &[], &[(9, 805, 5)])]);
        maker.done(third, &[locking(elsewhere, 0x11, &[], &[(41, 805, 9)])]);
        let wanted = locking(behind, 0, &[], &[(42, 800, 10)]);
        maker.refused(other, from_ref(&wanted), LockNotGranted);
        maker.done(User { pid, ..one }, &[removal]);
        maker.send(other, &[wanted]);
        maker.send(one, &[read(high, 0, 3)]);
        maker.send(
            third,
            &[read(elsewhere, 0, 3), Ask::Close { fid: elsewhere }],
        );
        drop_pair(maker);
    }
}

/// The day's sessions end.
fn evening(maker: &mut Maker) {
    let tables = maker.tables();
    let busy = tables.opens.in_use().iter().map(|open| open.file).take(3);
    for file in busy {
        let (file, contents) = (file.into(), vec![1, 2, 3]);
        maker.host(Call::LoadFile { file, contents }, 9);
    }
    for session in tables.sessions.in_use().iter().take(2) {
        let user = User {
            connection: session.connection,
            uid: session.uid,
            tid: 0,
            pid: 7,
        };
        maker.done(user, &[Ask::ProcessExit]);
        maker.done(user, &[Ask::Logoff]);
        maker.refused(user, &[Ask::Logoff], NoSession);
    }
    for connection in CONNECTIONS {
        maker.drop_connection(connection);
        maker.drop_connection(connection);
    }
    for file in 0..4 {
        maker.load(file, 150 - 40 * usize::from(file));
    }
}

/// Sixteen sessions, 32 trees, 64 opens, and one more of each.
fn tables_full(maker: &mut Maker) {
    for place in 0..SESSIONS as u32 {
        maker.session(600 + place % 3);
    }
    for right in (0..TREES as u16).map(|place| (place % 4 != 0) as u8) {
        let trees = maker.tables().trees.count as u16;
        maker.tree(1 + trees % SESSIONS as u16, right);
    }
    for place in 0..OPENS {
        let tree = maker.tables().trees.records[place % TREES];
        let user = User {
            connection: 0,
            uid: tree.uid,
            tid: tree.tid,
            pid: place as u32 % 5,
        };
        let access = tree.right * (place % 3) as u8;
        maker.open(user, (place % 16) as u8, access);
    }
    for connection in [600, 0, 7] {
        maker.host(Call::AddSession { connection }, 5);
    }
    for (uid, right) in [(1, 0), (16, 1), (2, 1)] {
        maker.host(Call::AddTree { uid, right }, 5);
    }
}

/// Host's calls with several reasons, on full tables: 7, 6, 8, 5 in turn.
fn host_orders(maker: &mut Maker) {
    let tree = |uid, right| Call::AddTree { uid, right };
    let open = |uid, tid, file, access| Call::AddOpen {
        uid,
        tid,
        process: 7,
        file,
        access,
    };
    let calls = [
        (tree(99, 2), 7),
        (tree(1, 0xFF), 7),
        (tree(0, 2), 7),
        (tree(0, 1), 6),
        (tree(17, 0), 6),
        (tree(0xFFFF, 0), 6),
        (open(99, 99, 16, 3), 7),
        (open(1, 1, 15, 3), 7),
        (open(1, 1, 16, 0), 7),
        (open(1, 99, 0, 1), 6),
        (open(99, 1, 0, 1), 6),
        (open(2, 1, 0, 1), 6),
        // Tree 1 is of right 0, tree 2 of right 1.
        (open(1, 1, 0, 1), 8),
        (open(1, 1, 0, 2), 8),
        (open(1, 1, 15, 1), 8),
        (open(1, 1, 0, 0), 5),
        (open(2, 2, 0, 2), 5),
        (open(2, 2, 15, 1), 5),
    ];
    for (call, number) in calls {
        maker.host(call, number);
    }
    for (file, size, number) in [
        (16, 1, 7),
        (255, 4097, 7),
        (3, 4097, 7),
        (3, 0, 9),
        (0, 5, 9),
    ] {
        let contents = vec![0x77; size];
        maker.host(Call::LoadFile { file, contents }, number);
    }
}

/// Numbers given up in the full tables are used again; then all is dropped.
fn night(maker: &mut Maker) {
    for (uid, connection) in [(5, 601), (11, 601), (3, 602)] {
        let tid = uid;
        let user = User {
            connection,
            uid,
            tid,
            pid: 1,
        };
        maker.done(user, &[Ask::TreeDisconnect]);
        let tid = maker.tree(uid, 1);
        let user = User { tid, ..user };
        let fid = maker.open(user, 8, 2);
        let asks = [write(fid, 0, b"night shift"), read(fid, 0, 11)];
        maker.done(user, &asks);
        maker.done(user, &[Ask::ProcessExit]);
        maker.refused(user, &asks, NoOpen);
        maker.done(user, &[Ask::Logoff]);
        maker.session(connection);
        maker.refused(user, &asks, NoTree);
    }
    for connection in [601, UNKNOWN, 600, 602, UNKNOWN] {
        maker.drop_connection(connection);
    }
    maker.load(5, 4096);
    maker.load(5, 3);
    let message = vec![0xFF, 0x53, 0x4D, 0x42, PROCESS_EXIT];
    let message = [message, vec![0; 30]].concat();
    maker.take_for(UNKNOWN, message, Some(NoSession));
    let user = maker.user(UNKNOWN, 0, 7);
    let fid = maker.open(user, 5, 0);
    maker.done(user, &[read(fid, 0, 200), Ask::Close { fid }]);
    maker.drop_connection(UNKNOWN);
}
