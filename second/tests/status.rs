//! Status in both forms (document 02, request 7). The bytes of each refusal are
//! spelled from the papers, little-endian.

mod common;

use common::{catalogue, hex, lock, read, status, unlock, write, World};
use second::builder::{core_read, core_write, lock_range, locking, open, set_status_form, Ask};
use second::host;
use second::refusals::WireRefusal::{self, *};
use second::status::{Status, StatusForm};

/// SMBSTATUS, "class, 0, code", and NTSTATUS, as they stand in the header from 5.
const LIST: [(WireRefusal, &str, &str); 17] = [
    (NotServed, "02 00 1600", "0200 1600"),
    (NotASentence, "02 00 0100", "0200 0100"),
    (NoSession, "02 00 5B00", "0200 5B00"),
    (NoTree, "02 00 0500", "0200 0500"),
    (NoOpen, "01 00 0600", "0800 00C0"),
    (Access, "01 00 0500", "2200 00C0"),
    (NotSupported, "02 00 FFFF", "BB00 00C0"),
    (NotLocked, "01 00 9E00", "7E00 00C0"),
    (RangePasses, "01 00 5700", "0D00 00C0"),
    (LockNotGranted, "01 00 2100", "5500 00C0"),
    (FileLockConflict, "01 00 2100", "5400 00C0"),
    (NoLockRecord, "01 00 0800", "0502 00C0"),
    (FileFull, "03 00 2700", "7F00 00C0"),
    (AccessCode, "01 00 0C00", "0100 0C00"),
    (NoName, "01 00 0200", "0F00 00C0"),
    (Sharing, "01 00 2000", "4300 00C0"),
    (NoFid, "01 00 0400", "1F01 00C0"),
];

/// The refusal's four bytes in a form.
fn bytes(refusal: WireRefusal, form: StatusForm) -> Vec<u8> {
    let row = LIST.iter().find(|row| row.0 == refusal).unwrap();
    hex([row.1, row.2][form as usize])
}

/// FID 1 of file 0 to read and write, FID 2 to read; process 8 has locked bytes 50
/// to 59 through FID 1. Catalogue: LIST, file 0.
fn world(form: StatusForm) -> World {
    let mut world = World::with_size(100);
    world.form = form;
    assert_eq!(host::add_open(&mut world.tables, 1, 1, 7, 1, 0), Ok(2));
    host::set_catalogue(&mut world.tables, &catalogue(&[(b"LIST", 0)])).unwrap();
    assert_eq!(world.status(lock(1, &[(8, 50, 10)])), (0, 0));
    world
}

/// The world with all its lock records in use.
fn full_of_locks(form: StatusForm) -> World {
    let mut world = world(form);
    let ranges: Vec<_> = (0..127).map(|n| (7, 5000 + n, 1)).collect();
    assert_eq!(world.status(lock(1, &ranges)), (0, 0));
    world
}

/// The world with all its FIDs in use.
fn full_of_opens(form: StatusForm) -> World {
    let mut world = world(form);
    while host::add_open(&mut world.tables, 1, 1, 7, 0, 0).is_ok() {}
    world
}

fn mode_0() -> Ask {
    Ask::Open {
        flags: 0,
        access_mode: 0x40,
        open_mode: 0,
        name: b"LIST".to_vec(),
    }
}

/// Requests with their refusals, in each world.
fn refused() -> Vec<(fn(StatusForm) -> World, Ask, WireRefusal)> {
    let common: [(Ask, WireRefusal); 20] = [
        (Ask::Close { fid: 9 }, NoOpen),
        (write(2, 0, b"x"), Access),
        (core_write(2, 0, b""), Access),
        (locking(1, 0x02, &[], &[]), NotSupported),
        (mode_0(), NotSupported),
        (unlock(1, &[(7, 50, 10)]), NotLocked),
        (lock(1, &[(7, u64::MAX, 2)]), RangePasses),
        (lock(1, &[(7, 59, 1)]), LockNotGranted),
        (lock(1, &[(7, 0, 2), (7, 1, 1)]), LockNotGranted),
        (lock_range(1, 59, 1), LockNotGranted),
        (read(1, 59, 1), FileLockConflict),
        (core_read(1, 59, 1), FileLockConflict),
        (write(1, 59, b"x"), FileLockConflict),
        (core_write(1, 59, b"x"), FileLockConflict),
        (core_write(1, 59, b""), FileLockConflict),
        (write(1, 4096, b"x"), FileFull),
        (core_write(1, 4097, b""), FileFull),
        (open(3, 4, b"LIST"), AccessCode),
        (open(0, 4, b"NONE"), NoName),
        (open(0, 1, b"LIST"), Sharing),
    ];
    let mut all: Vec<(fn(StatusForm) -> World, Ask, WireRefusal)> = Vec::new();
    all.extend(common.map(|(ask, refusal)| (world as fn(StatusForm) -> World, ask, refusal)));
    all.push((full_of_locks, lock(1, &[(7, 0, 1)]), NoLockRecord));
    all.push((full_of_locks, lock_range(1, 0, 1), NoLockRecord));
    all.push((full_of_opens, open(0, 4, b"LIST"), NoFid));
    all
}

/// The reply to a refusal: Flags2, Status and an empty block; its Flags2 otherwise
/// 0, for the request's is.
fn expect_refused(reply: &[u8], refusal: WireRefusal, form: StatusForm) {
    assert_eq!(reply[5..9], bytes(refusal, form), "{refusal:?} {form:?}");
    let flags2 = hex(["0000", "0040"][form as usize]);
    assert_eq!((&reply[10..12], &reply[32..]), (&flags2[..], &[0; 3][..]));
    assert_eq!(status(reply), refusal.class_and_code());
}

#[test]
fn each_refusal_in_both_forms() {
    for form in StatusForm::BOTH {
        for (world, ask, refusal) in refused() {
            let reply = world(form).ask(&[ask]);
            expect_refused(&reply, refusal, form);
        }
    }
}

/// 2/22, 2/1, 2/91 and 2/5 are the header's or the whole message's.
#[test]
fn refusals_of_a_message_in_both_forms() {
    for form in StatusForm::BOTH {
        let mut world = world(form);
        let message = world.message(&[read(1, 0, 1)]);
        for (place, byte, refusal) in [
            (4, 0x72, NotServed),
            (32, 9, NotASentence),
            (28, 9, NoSession),
            (24, 9, NoTree),
        ] {
            let mut other = message.clone();
            other[place] = byte;
            let reply = world.take(&other).unwrap();
            expect_refused(&reply, refusal, form);
        }
    }
}

/// "A reader of either form must find the same refusal, the two lock codes being
/// one in the old form".
#[test]
fn the_list_is_read_alike() {
    assert_eq!(LIST.map(|row| row.0), WireRefusal::ALL);
    for (refusal, ..) in LIST {
        for form in StatusForm::BOTH {
            let value = u32::from_le_bytes(bytes(refusal, form).try_into().unwrap());
            let read = Status { form, value };
            assert_eq!(refusal.status(form), read);
            let code = refusal.class_and_code();
            assert_eq!(read.class_and_code(), Some(code));
            let found: Vec<_> = read.refusals().collect();
            match (form, code) {
                (StatusForm::Smb, (1, 33)) => assert_eq!(found, [LockNotGranted, FileLockConflict]),
                _ => assert_eq!(found, [refusal]),
            }
        }
    }
}

#[test]
fn no_status_of_the_list() {
    let read = |form, value| Status { form, value }.class_and_code();
    for form in StatusForm::BOTH {
        assert_eq!(read(form, 0), Some((0, 0)));
    }
    // The other form's, and nearly one of the list.
    for value in [0xC000_0055, 0x0021_0101, 0x0022_0001, 1] {
        assert_eq!(read(StatusForm::Smb, value), None, "{value:08X}");
    }
    for value in [0x0021_0001, 0xC000_0056, 0x0000_0055, 0xFFFF_0002, 1] {
        assert_eq!(read(StatusForm::Nt, value), None, "{value:08X}");
    }
}

/// "Reply Flags2 = request's & 0x4001", whatever the answer.
#[test]
fn flags2_of_replies() {
    for (flags2, kept) in [
        (0x0000, 0x0000),
        (0x0001, 0x0001),
        (0x4000, 0x4000),
        (0x4001, 0x4001),
        (0xFFFF, 0x4001),
        (0xBFFE, 0x0000),
        (0xBFFF, 0x0001),
        (0xFFFE, 0x4000),
        (0x0040, 0x0000),
        (0x0100, 0x0000),
        (0x8000, 0x0000),
        (0x2000, 0x0000),
        (0xC843, 0x4001),
    ] {
        for ask in [read(1, 0, 1), read(1, 50, 1), Ask::Logoff] {
            let mut world = world(StatusForm::Smb);
            let mut message = world.message(&[ask]);
            message[10..12].copy_from_slice(&u16::to_le_bytes(flags2));
            let reply = world.take(&message).unwrap();
            assert_eq!(reply[10..12], u16::to_le_bytes(kept), "{flags2:04X}");
        }
    }
}

/// The bit and Status apart, the two replies have the same bytes; what is done and
/// who holds the lock are the same too.
#[test]
fn the_form_changes_nothing_else() {
    for (world, ask, _) in refused() {
        let (mut old, mut new) = (world(StatusForm::Smb), world(StatusForm::Nt));
        for ask in [ask, read(1, 0, 9), Ask::Close { fid: 1 }] {
            let (old_reply, new_reply) = (old.ask(&[ask.clone()]), new.ask(&[ask]));
            assert_eq!(status(&old_reply), status(&new_reply));
            let mut without = new_reply;
            without[5..9].copy_from_slice(&old_reply[5..9]);
            without[11] &= !0x40;
            assert_eq!(without, old_reply);
            assert_eq!((&old.tables, old.holder), (&new.tables, new.holder));
            assert!(old.memory == new.memory);
        }
    }
}

/// A reply's Flags2, Status and blocks.
fn expect_chain(world: &mut World, asks: &[Ask], start: &str, blocks: &str) {
    let reply = world.ask(asks);
    assert_eq!(reply[4..12], hex(start));
    assert_eq!(reply[32..], hex(blocks));
}

/// "By the command refused", not by the chain's first.
#[test]
fn chains() {
    let nt = || world(StatusForm::Nt);
    let locked = || lock(1, &[(7, 0, 5)]);
    let (at_2e, at_2f) = ("02 2E002700 0000 00 0000", "02 2F002700 0000 00 0000");
    let conflict = "24 540000C0 80 0040";
    let asks = [locked(), read(1, 55, 9)];
    expect_chain(&mut nt(), &asks, conflict, at_2e);
    let asks = [locked(), write(1, 55, b"x"), read(1, 0, 1)];
    expect_chain(&mut nt(), &asks, conflict, at_2f);
    let asks = [locked(), core_read(1, 55, 9)];
    let at_0a = "02 0A002700 0000 00 0000";
    expect_chain(&mut nt(), &asks, conflict, at_0a);
    let asks = [locked(), core_write(1, 55, b"")];
    let at_0b = "02 0B002700 0000 00 0000";
    expect_chain(&mut nt(), &asks, conflict, at_0b);
    // Two of its own ranges, so that the LOCKING is refused and no READ begun.
    let twice = lock(1, &[(7, 0, 5), (7, 4, 1)]);
    let asks = [twice, read(1, 55, 9)];
    expect_chain(&mut nt(), &asks, "24 550000C0 80 0040", "00 0000");
    // "also with Status 0"
    let asks = [locked(), write(1, 0, b"x")];
    let done = "02 2F002700 0000 06 FF000000 0100 FFFF 00000000 0000";
    expect_chain(&mut nt(), &asks, "24 00000000 80 0040", done);
    // In the old form the two are one.
    let asks = [locked(), read(1, 55, 9)];
    let mut old = world(StatusForm::Smb);
    expect_chain(&mut old, &asks, "24 01002100 80 0000", at_2e);
}

/// The commands before the one refused stand, in this form too; the holder is
/// that of the one refused.
#[test]
fn a_chain_stands_in_part() {
    let mut world = world(StatusForm::Nt);
    let asks = [write(1, 0, b"a"), write(1, 59, b"b"), Ask::Close { fid: 1 }];
    let blocks = "06 2F002F00 0100 FFFF 00000000 0000 00 0000";
    expect_chain(&mut world, &asks, "2F 540000C0 80 0040", blocks);
    assert_eq!((world.memory[0], world.tables.opens.count), (b'a', 2));
    let (fid, process, ..) = common::held(world.holder.unwrap());
    assert_eq!((fid, process), (1, 8));
}

#[test]
fn set_status_form_changes_the_bit_alone() {
    for flags2 in [0u16, 0x4000, 0xFFFF, 0xBFFF, 0x0040] {
        let mut message = vec![0xA5; 40];
        message[10..12].copy_from_slice(&flags2.to_le_bytes());
        for (form, bit) in [(StatusForm::Smb, 0), (StatusForm::Nt, 0x4000)] {
            let mut wanted = message.clone();
            wanted[10..12].copy_from_slice(&(flags2 & 0xBFFF | bit).to_le_bytes());
            let mut given = message.clone();
            set_status_form(&mut given, form);
            assert_eq!(given, wanted);
            assert_eq!(StatusForm::of(&given), form);
        }
    }
    // Too short for a Flags2.
    let mut short = [0; 11];
    set_status_form(&mut short, StatusForm::Nt);
    assert_eq!(short, [0; 11]);
}
