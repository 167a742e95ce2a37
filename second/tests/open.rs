//! OPEN_ANDX (document 02, request 6). Requests and replies were worked out by hand
//! from source document 001 and the readings of 02.

mod common;

use common::{catalogue, held, hex, lock, read, status, write, World, CONNECTION};
use second::builder::{core_read, open, Ask, Header};
use second::grammar::{read_chain, NotAChain, Why};
use second::host::{add_open, add_session, add_tree, drop_connection, set_catalogue};
use second::listing::listing;
use second::message::ROOM_BYTES;
use second::rng::Rng;
use second::tables::{Open, DENY_BOTH, DENY_NONE, DENY_READ, DENY_WRITE};
use second::words;

const DONE: (u8, u16) = (0, 0);
const NO_OPEN: (u8, u16) = (1, 6);
const ACCESS: (u8, u16) = (1, 5);
const MODE: (u8, u16) = (2, 65535);
const CODE: (u8, u16) = (1, 12);
const NAME: (u8, u16) = (1, 2);
const SHARING: (u8, u16) = (1, 32);
const NO_FID: (u8, u16) = (1, 4);
/// "FID 0xFFFF means the file just opened".
const JUST_OPENED: u16 = 0xFFFF;

/// The world of `common`, with TID 2, of right read. Names: LIST is file 0, of
/// which the host has opened FID 1, the others have no open.
fn world() -> World {
    let mut world = World::with_size(120);
    add_tree(&mut world.tables, 1, 0).unwrap();
    let names = catalogue(&[
        (b"LIST", 0),
        (b"Other.txt", 1),
        (b"ALIAS", 1),
        (b"LAST", 15),
    ]);
    set_catalogue(&mut world.tables, &names).unwrap();
    world
}

/// The same where nothing is open.
fn closed() -> World {
    let mut world = world();
    assert_eq!(world.status(Ask::Close { fid: 1 }), DONE);
    world
}

fn with_flags(mut ask: Ask, new: u16) -> Ask {
    if let Ask::Open { flags, .. } = &mut ask {
        *flags = new;
    }
    ask
}

fn with_mode(mut ask: Ask, new: u16) -> Ask {
    if let Ask::Open { open_mode, .. } = &mut ask {
        *open_mode = new;
    }
    ask
}

fn with_access_mode(mut ask: Ask, new: u16) -> Ask {
    if let Ask::Open { access_mode, .. } = &mut ask {
        *access_mode = new;
    }
    ask
}

/// The FID in a reply whose first block is of an OPEN_ANDX that was done.
fn fid(reply: &[u8]) -> u16 {
    assert_eq!(reply[32], 15);
    u16::from_le_bytes([reply[37], reply[38]])
}

fn message(rest: &str) -> Vec<u8> {
    let mut bytes = hex("FF534D42 2D");
    bytes.resize(24, 0);
    bytes.extend(hex("0100 0700 0100 0000"));
    bytes.extend(hex(rest));
    bytes
}

/// An OPEN_ANDX of "List" for reading and writing that denies nothing. Each field
/// that is not looked at is filled.
const LIST: &str = "0F FFAAAAAA FEFF 4200 1111 2222 33333333 0100 44444444 55555555 66666666 \
    0500 4C69737400";

#[test]
fn by_hand() {
    let mut world = world();
    let bytes = message(LIST);
    assert_eq!(listing(&bytes), "1 2D 32 38\nend\n");
    let reply = world.take(&bytes).unwrap();
    assert_eq!((reply[4], status(&reply)), (0x2D, DONE));
    let expected = format!("0F FF000000 0200 {} 0000", "00".repeat(24));
    assert_eq!(reply[32..], hex(&expected));
    let expected = Open {
        fid: 2,
        uid: 1,
        tid: 1,
        process: 7,
        file: 0,
        access: 2,
        sharing: 4,
        read: false,
        seen: 0,
    };
    assert_eq!(world.tables.opens.in_use()[1..], [expected]);
    // Flags bit 0 set: the size, the access and OpenResults 1.
    let mut bytes = message(LIST);
    bytes[37] = 0x01;
    let reply = world.take(&bytes).unwrap();
    let words = "0300 0000 00000000 78000000 0200 0000 0000 0100 000000000000";
    assert_eq!(reply[32..], hex(&format!("0F FF000000 {words} 0000")));
}

#[test]
fn a_read_behind_it() {
    let mut world = world();
    let read = "0A FF000000 FFFF 02000000 0300 0000 00000000 0000 0000";
    let linked = LIST.replacen("FFAAAAAA", "2EAA4700", 1);
    // A free byte between the blocks.
    let bytes = message(&format!("{linked} 77 {read}"));
    assert_eq!(listing(&bytes), "1 2D 32 38\n2 2E 71 23\nend\n");
    let reply = world.take(&bytes).unwrap();
    let mut expected = hex(&format!("0F 2E004100 0200 {} 0000", "00".repeat(24)));
    let data = "0300 5C00 00000000000000000000 0300 030405";
    expected.extend(hex(&format!("0C FF000000 FFFF 0000 0000 {data}")));
    assert_eq!((status(&reply), &reply[32..]), (DONE, &expected[..]));
}

/// "with the block's Flags bit 0": the other bits, and the header's Flags, are no
/// matter.
#[test]
fn flags() {
    for flags in [0, 1, 2, 3, 0x100, 0x101, 0xFFFE, 0xFFFF] {
        for (access, size) in [(0, 0), (1, 120), (2, 4096)] {
            let mut world = closed();
            world.tables.files[0].size = size;
            let ask = with_flags(open(access, 1, b"LIST"), flags);
            let mut message = world.message(&[ask]);
            (message[9], message[10]) = (0x7F, 0xFF);
            let reply = world.take(&message).unwrap();
            assert_eq!(fid(&reply), 1);
            let mut expected = [0; 24];
            if flags & 1 == 1 {
                expected[6..8].copy_from_slice(&(size as u16).to_le_bytes());
                (expected[10], expected[16]) = (access, 1);
            }
            assert_eq!(reply[39..63], expected);
            assert_eq!(reply[63..], [0, 0]);
        }
    }
}

fn refuses(rest: &str, why: Why) {
    let mut world = world();
    let before = world.tables.clone();
    let bytes = message(rest);
    let reply = world.take(&bytes).unwrap();
    assert_eq!((status(&reply), &reply[32..]), ((2, 1), &[0; 3][..]));
    assert_eq!(world.tables, before);
    assert_eq!(read_chain(&bytes), Err(NotAChain { why, command: 0x2D }));
}

/// "a name of any length, even none, without zero bytes, then one zero byte; else
/// 2/1"
#[test]
fn not_a_sentence() {
    let words = &LIST[..LIST.find("0500").unwrap()];
    for (bytes, why) in [
        ("0000", Why::NameEnd),
        ("0000 00", Why::NameEnd),
        ("0100 41", Why::NameEnd),
        ("0400 4C697374", Why::NameEnd),
        ("0400 4C697374 00", Why::NameEnd),
        ("0500 4C69737401", Why::NameEnd),
        ("0200 0000", Why::NameZero),
        ("0600 4C6973740000", Why::NameZero),
        ("0500 4C69007400", Why::NameZero),
        ("0500 0069737400", Why::NameZero),
        ("0500 4C697374", Why::BytesOutside),
        ("05", Why::ByteCountOutside),
    ] {
        refuses(&format!("{words} {bytes}"), why);
    }
    refuses(&LIST.replacen("0F", "0E", 1), Why::WordCount);
    refuses(&LIST.replacen("0F", "10", 1), Why::WordCount);
    refuses(&LIST[..40], Why::WordsOutside);
}

/// Names that are sentences: 1/2 unless the catalogue has them.
#[test]
fn names() {
    let mut world = closed();
    let longest = vec![b'A'; 8192 - 32 - 34];
    let names: [&[u8]; 14] = [
        b"",
        b"LISTS",
        b"LIS",
        b" LIST",
        b"LIST ",
        b"\\LIST",
        b"\x04LIST",
        b"LIST.txt",
        b"TWELVE.BYTES",
        b"THIRTEEN.BYTE",
        b"\xCC\xC9\xD3\xD4",
        b"L\x09ST",
        &[0xFF; 300],
        &longest,
    ];
    for name in names {
        assert_eq!(world.status(open(0, 4, name)), NAME, "{name:?}");
    }
    for (place, name) in (1..).zip([b"LIST", b"list", b"LisT", b"lISt"]) {
        assert_eq!(fid(&world.ask(&[open(0, 4, name)])), place);
    }
    let wide = fid(&world.ask(&[open(0, 4, b"oTHER.tXT")]));
    assert_eq!(world.tables.open(wide, 1, 1).map(|o| o.file), Some(1));
    // An empty catalogue has no name.
    set_catalogue(&mut world.tables, &catalogue(&[])).unwrap();
    assert_eq!(world.status(open(0, 4, b"LIST")), NAME);
}

/// "Access is bits 0 to 2 of AccessMode, sharing bits 4 to 6; bit 3 and bits from 7
/// up are ignored."
#[test]
fn codes() {
    for low in 0..128 {
        for others in [0, 0x08, 0x80, 0x100, 0x4000, 0x8000, 0xFF88] {
            let mut world = closed();
            let mode = (low & !0x08) | others;
            let ask = with_access_mode(open(0, 4, b"LIST"), mode);
            let (access, sharing) = (mode & 7, mode >> 4 & 7);
            let known = access < 3 && (1..=4).contains(&sharing);
            assert_eq!(world.status(ask), if known { DONE } else { CODE });
            let given = world.tables.opens.in_use().first();
            let codes = given.map(|open| (open.access.into(), open.sharing.into()));
            assert_eq!(codes, known.then_some((access, sharing)));
        }
    }
}

/// "OpenMode is the whole word."
#[test]
fn open_modes() {
    for mode in [0, 2, 3, 0x10, 0x11, 0x12, 0x0101, 0x8001, 0xFFFF] {
        let ask = with_mode(open(0, 4, b"LIST"), mode);
        assert_eq!(world().status(ask), MODE, "{mode}");
    }
    assert_eq!(world().status(with_mode(open(0, 4, b"LIST"), 1)), DONE);
}

/// What can be wrong with an OPEN_ANDX, in the order of the refusals.
const FAULTS: [(u8, u16); 8] = [(2, 91), (2, 5), MODE, CODE, NAME, ACCESS, SHARING, NO_FID];

/// A world and an OPEN_ANDX with the faults whose bits are set.
fn faulty(faults: u32) -> (World, Ask) {
    let has = |fault: usize| faults >> fault & 1 != 0;
    let mut world = world();
    let name: &[u8] = if has(4) { b"NONE" } else { b"list" };
    let sharing = if has(3) { 0 } else { DENY_NONE };
    let ask = open(1, sharing, name);
    if has(7) {
        for _ in 0..63 {
            add_open(&mut world.tables, 1, 1, 7, 9, 0).unwrap();
        }
    }
    if has(6) {
        world.tables.opens.records[0].sharing = DENY_WRITE;
    }
    if has(5) {
        world.header.tid = 2;
    }
    if has(1) {
        world.header.tid = 3;
    }
    if has(0) {
        world.header.uid = 2;
    }
    (world, with_mode(ask, if has(2) { 2 } else { 1 }))
}

/// "Order: 2/91, 2/5, 2/65535, 1/12, 1/2, 1/5, 1/32, 1/4": every set of faults gives
/// the first of them, and changes nothing.
#[test]
fn refusals_in_their_order() {
    for faults in 0..1 << FAULTS.len() {
        let (mut world, ask) = faulty(faults);
        let first = FAULTS.get(faults.trailing_zeros() as usize);
        assert_eq!(world.status(ask), *first.unwrap_or(&DONE), "{faults:08b}");
        assert_eq!(world.holder, None);
    }
}

/// A session of that UID on another connection is none.
#[test]
fn another_connection() {
    let mut world = world();
    world.connection += 1;
    assert_eq!(world.status(open(0, 4, b"LIST")), (2, 91));
}

/// "1/5 (tree right 0 and access not 0)"
#[test]
fn tree_rights() {
    for (tid, access, expected) in [
        (1, 0, DONE),
        (1, 1, DONE),
        (1, 2, DONE),
        (2, 0, DONE),
        (2, 1, ACCESS),
        (2, 2, ACCESS),
    ] {
        let mut world = closed();
        world.header.tid = tid;
        assert_eq!(world.status(open(access, 1, b"LIST")), expected);
    }
}

/// What an access has, and what a sharing code denies.
const HAS: [&str; 3] = ["r", "w", "rw"];
const DENIES: [&str; 4] = ["rw", "w", "r", ""];

/// "An open fails if it asks what another open of the file denies or denies what
/// one has".
fn fails(asked: (u8, u8), other: (u8, u8)) -> bool {
    let has = |open: (u8, u8)| HAS[usize::from(open.0)];
    let denies = |open: (u8, u8)| DENIES[usize::from(open.1 - 1)];
    let meet = |one: &str, other: &str| one.chars().any(|c| other.contains(c));
    meet(has(asked), denies(other)) || meet(denies(asked), has(other))
}

fn codes_to_ask() -> impl Iterator<Item = (u8, u8)> {
    (0..3).flat_map(|access| (1..=4).map(move |sharing| (access, sharing)))
}

#[test]
fn sharing_codes_are_these() {
    assert_eq!((DENY_BOTH, DENY_WRITE, DENY_READ, DENY_NONE), (1, 2, 3, 4));
    let failing = codes_to_ask().filter(|&asked| fails(asked, (0, 4))).count();
    // Those that deny reading: codes 1 and 3 with each access.
    assert_eq!(failing, 6);
    assert!(fails((0, 4), (1, 3)) && !fails((0, 4), (1, 2)));
}

/// Every pair of access and sharing against every other: of another session, or of
/// the asker's own process; by another name of the file, or through another file.
#[test]
fn the_sharing_matrix() {
    for other in codes_to_ask() {
        for asked in codes_to_ask() {
            let mut world = closed();
            add_session(&mut world.tables, 77).unwrap();
            add_tree(&mut world.tables, 2, 1).unwrap();
            let own = world.header;
            assert_eq!(world.status(open(other.0, other.1, b"alias")), DONE);
            let expected = if fails(asked, other) { SHARING } else { DONE };
            let mut before = world.tables.clone();
            assert_eq!(world.status(open(asked.0, asked.1, b"OTHER.TXT")), expected);
            std::mem::swap(&mut world.tables, &mut before);
            (world.connection, world.header) = (
                77,
                Header {
                    tid: 3,
                    pid: 9,
                    uid: 2,
                },
            );
            assert_eq!(world.status(open(asked.0, asked.1, b"OTHER.TXT")), expected);
            assert_eq!(world.status(open(asked.0, asked.1, b"LAST")), DONE);
            // Gone, it denies nothing.
            (world.connection, world.header) = (CONNECTION, own);
            world.tables = before;
            assert_eq!(world.status(Ask::ProcessExit), DONE);
            assert_eq!(world.status(open(asked.0, asked.1, b"ALIAS")), DONE);
        }
    }
}

/// "a host's open denies nothing but has its access"
#[test]
fn hosts_opens() {
    for access in 0..3 {
        for asked in codes_to_ask() {
            let mut world = closed();
            add_open(&mut world.tables, 1, 1, 500, 0, access.into()).unwrap();
            let fails = fails(asked, (access, DENY_NONE));
            let expected = if fails { SHARING } else { DONE };
            assert_eq!(world.status(open(asked.0, asked.1, b"LIST")), expected);
        }
    }
    // "opens by the host [...] are not tested"
    let mut world = closed();
    assert_eq!(world.status(open(2, DENY_BOTH, b"LIST")), DONE);
    assert_eq!(add_open(&mut world.tables, 1, 1, 7, 0, 2), Ok(2));
    assert!(world.tables.sound());
    assert_eq!(world.status(open(0, DENY_NONE, b"LIST")), SHARING);
    assert_eq!(world.status(Ask::Close { fid: 1 }), DONE);
    assert_eq!(world.status(open(0, DENY_NONE, b"LIST")), DONE);
}

/// One open in the way is enough, wherever it stands.
#[test]
fn every_open_is_tested() {
    for place in 0..5 {
        let mut world = closed();
        for _ in 0..5 {
            add_open(&mut world.tables, 1, 1, 7, 0, 0).unwrap();
        }
        assert_eq!(world.status(open(0, DENY_WRITE, b"LIST")), DONE);
        assert_eq!(world.status(Ask::Close { fid: 6 }), DONE);
        world.tables.opens.records[place].sharing = DENY_READ;
        assert_eq!(world.status(open(0, DENY_WRITE, b"LIST")), SHARING);
        world.tables.opens.records[place].sharing = DENY_NONE;
        world.tables.opens.records[place].access = 1;
        assert_eq!(world.status(open(0, DENY_WRITE, b"LIST")), SHARING);
        world.tables.opens.records[place].file = 1;
        assert_eq!(world.status(open(0, DENY_WRITE, b"LIST")), DONE);
    }
}

/// "FID [...] the smallest number from 1 not in use"; the record is behind those in
/// use.
#[test]
fn fids_are_used_again() {
    let mut world = closed();
    world.header.pid = 0xFFFF_0009;
    for number in 1..=64 {
        assert_eq!(fid(&world.ask(&[open(0, 4, b"LIST")])), number);
    }
    assert_eq!(world.status(open(0, 4, b"LIST")), NO_FID);
    assert_eq!(world.status(Ask::Close { fid: 40 }), DONE);
    assert_eq!(world.status(Ask::Close { fid: 3 }), DONE);
    for number in [3, 40] {
        let reply = world.ask(&[open(1, 4, b"LAST"), read(JUST_OPENED, 0, 1)]);
        assert_eq!((fid(&reply), status(&reply)), (number, ACCESS));
        let last = world.tables.opens.in_use().last();
        let expected = (number, 0xFFFF_0009, 15);
        assert_eq!(last.map(|o| (o.fid, o.process, o.file)), Some(expected));
    }
    assert_eq!(world.status(open(0, 4, b"LIST")), NO_FID);
    assert_eq!(world.status(open(0, 1, b"LIST")), SHARING);
}

/// An open by name is read, written, locked and removed as any other.
#[test]
fn opens_by_name_are_opens() {
    let removals: [(Ask, usize); 4] = [
        (Ask::Close { fid: 2 }, 1),
        (Ask::TreeDisconnect, 0),
        (Ask::Logoff, 0),
        (Ask::ProcessExit, 0),
    ];
    for (removal, left) in removals {
        let mut world = world();
        assert_eq!(fid(&world.ask(&[open(2, 4, b"LIST")])), 2);
        assert_eq!(world.status(write(2, 0, b"name")), DONE);
        assert_eq!(world.status(lock(2, &[(7, 0, 4)])), DONE);
        assert_eq!(world.status(read(1, 0, 4)), (1, 33));
        let by = world.holder.map(held);
        assert_eq!(by, Some((2, 7, 0, 0, 4)));
        assert_eq!(world.status(removal), DONE);
        assert_eq!(world.tables.opens.count, left);
        assert_eq!(world.tables.locks.count, 0);
    }
    let mut world = world();
    world.ask(&[open(2, 4, b"LIST")]);
    drop_connection(&mut world.tables, CONNECTION).unwrap();
    assert_eq!(world.tables.opens.count, 0);
    assert_eq!(world.tables.catalogue.count, 4);
}

/// PROCESS_EXIT of the header's process that opened it, in all 32 bits.
#[test]
fn the_process_is_the_headers() {
    let mut world = closed();
    world.header.pid = 0x1_0007;
    world.ask(&[open(0, 1, b"LIST")]);
    world.header.pid = 7;
    assert_eq!(world.status(Ask::ProcessExit), DONE);
    assert_eq!(world.status(open(0, 4, b"LIST")), SHARING);
    world.header.pid = 0x1_0007;
    assert_eq!(world.status(Ask::ProcessExit), DONE);
    assert_eq!(world.status(open(0, 4, b"LIST")), DONE);
}

/// "FID 0xFFFF counts only in the READ_ANDX directly after OPEN_ANDX; anywhere else
/// it is an unknown FID, also in the CLOSE after that READ."
#[test]
fn the_file_just_opened() {
    let mut world = world();
    let named = open(0, 4, b"other.txt");
    world.memory[4096..4100].copy_from_slice(b"data");
    world.tables.files[1].size = 4;
    for long in [false, true] {
        let read = Ask::Read {
            fid: JUST_OPENED,
            offset: 1,
            max: 9,
            long,
        };
        let reply = world.ask(&[named.clone(), read]);
        assert_eq!((status(&reply), &reply[92..]), (DONE, &b"ata"[..]));
    }
    // Another FID means that FID.
    let reply = world.ask(&[named.clone(), read(1, 0, 3)]);
    assert_eq!((status(&reply), &reply[92..]), (DONE, &[1, 2, 3][..]));
    let reply = world.ask(&[named.clone(), read(5, 0, 4)]);
    assert_eq!((fid(&reply), &reply[92..]), (5, &b"data"[..]));
    let reply = world.ask(&[named, read(9, 0, 4)]);
    assert_eq!((fid(&reply), status(&reply)), (6, NO_OPEN));
    assert_eq!(world.tables.opens.count, 6);
}

#[test]
fn nowhere_else() {
    let mut world = world();
    let just = read(JUST_OPENED, 0, 4);
    assert_eq!(world.status(just.clone()), NO_OPEN);
    assert_eq!(world.status(open(0, 4, b"LIST")), DONE);
    // Nothing is remembered from message to message.
    assert_eq!(world.status(just.clone()), NO_OPEN);
    for ask in [
        write(JUST_OPENED, 0, b"x"),
        lock(JUST_OPENED, &[]),
        core_read(JUST_OPENED, 0, 4),
        Ask::Close { fid: JUST_OPENED },
    ] {
        assert_eq!(world.status(ask), NO_OPEN);
    }
    for before in [lock(1, &[]), write(1, 0, b"x")] {
        let reply = world.ask(&[before, just.clone()]);
        assert_eq!(status(&reply), NO_OPEN);
    }
    // In the CLOSE behind the READ: refused, and both before it stand.
    let close = Ask::Close { fid: JUST_OPENED };
    let reply = world.ask(&[open(0, 4, b"LIST"), just.clone(), close]);
    assert_eq!((fid(&reply), status(&reply)), (3, NO_OPEN));
    assert_eq!(world.tables.opens.count, 3);
    // The FID returned closes it, where the client knows which it will be.
    let close = Ask::Close { fid: 4 };
    let reply = world.ask(&[open(0, 4, b"LIST"), just, close]);
    assert_eq!((fid(&reply), status(&reply)), (4, DONE));
    assert_eq!(world.tables.opens.count, 3);
}

/// "A READ refused leaves the open standing"; an open refused, and the READ isn't
/// begun.
#[test]
fn refused_in_the_chain() {
    let mut world = world();
    let just = read(JUST_OPENED, 0, 4);
    let reply = world.ask(&[open(1, 4, b"LIST"), just.clone()]);
    assert_eq!((fid(&reply), status(&reply)), (2, ACCESS));
    assert_eq!(reply[65..], [0, 0, 0]);
    assert_eq!(reply[33..37], hex("2E00 4100"));
    assert_eq!(world.status(write(2, 0, b"x")), DONE);
    assert_eq!(world.status(lock(2, &[(7, 3, 1)])), DONE);
    let reply = world.ask(&[open(0, 4, b"LIST"), just.clone()]);
    assert_eq!((fid(&reply), status(&reply)), (3, (1, 33)));
    assert_eq!(world.holder.map(held), Some((2, 7, 0, 3, 1)));
    assert_eq!(world.tables.opens.count, 3);
    let reply = world.ask(&[open(0, 1, b"LIST"), just]);
    assert_eq!((status(&reply), &reply[32..]), (SHARING, &[0; 3][..]));
    assert_eq!((reply[4], world.holder), (0x2D, None));
}

/// "READ_ANDX may follow": nothing else, and OPEN_ANDX follows nothing.
#[test]
fn followers() {
    let mut world = world();
    let named = || open(0, 4, b"LIST");
    let follower = |message: &[u8], command| {
        let why = Why::Follower;
        assert_eq!(read_chain(message), Err(NotAChain { why, command }));
    };
    for next in [
        named(),
        lock(1, &[]),
        write(1, 0, b"x"),
        core_read(1, 0, 1),
        Ask::Close { fid: 1 },
        Ask::Logoff,
        Ask::TreeDisconnect,
        Ask::ProcessExit,
    ] {
        let message = world.message(&[named(), next]);
        follower(&message, 0x2D);
        assert_eq!(status(&world.take(&message).unwrap()), (2, 1));
    }
    for before in [lock(1, &[]), write(1, 0, b"x"), read(1, 0, 1), Ask::Logoff] {
        let command = before.command();
        follower(&world.message(&[before, named()]), command);
    }
    let message = world.message(&[named(), read(1, 0, 1), write(1, 0, b"x")]);
    follower(&message, 0x2E);
    assert_eq!(world.tables.opens.count, 1);
}

/// Over the words everything is as over the own tables.
#[test]
fn words_and_own_tables_agree() {
    let mut rng = Rng::new(6);
    let mut world = world();
    let (mut all, mut memory) = ([0; words::WORDS], world.memory.clone());
    words::pack(&world.tables, &mut all);
    let (mut done, mut refused) = (0, 0);
    for turn in 0..2000 {
        let name: &[u8] = rng.pick(&[b"LIST", b"other.TXT", b"Alias", b"none"]);
        let ask = with_flags(
            open(rng.below(3) as u8, rng.pick(&[1, 2, 3, 4, 4, 4]), name),
            turn,
        );
        let fid = rng.below(9) as u16;
        let asks = match rng.below(4) {
            0 => vec![Ask::Close { fid }],
            1 => vec![ask],
            _ => vec![ask, read(rng.pick(&[JUST_OPENED, fid]), 0, 20)],
        };
        let message = world.message(&asks);
        let reply = world.take(&message).unwrap();
        let (mut room, mut holder) = (vec![0xA5; ROOM_BYTES], [9; 6]);
        let (memory, room) = (&mut memory, &mut room);
        let length =
            words::take_message(&mut all, CONNECTION, &message, memory, room, &mut holder).unwrap();
        assert_eq!(reply, room[..length]);
        assert_eq!(holder, [0; 6]);
        assert_eq!(words::unpack(&all).unwrap(), world.tables);
        done += usize::from(status(&reply) == DONE);
        refused += usize::from(status(&reply) == SHARING);
    }
    assert!(done > 300 && refused > 300, "{done} {refused}");
}
