//! The host ends a session, a tree or an open: what LOGOFF, TREE_DISCONNECT and
//! CLOSE do, "each with what hangs on them", by the record's number alone.

mod common;

use common::{catalogue, lock, read, status, write, World, CONNECTION};
use second::builder::{Ask, Header};
use second::call::Call;
use second::host::{self, add_open, add_session, add_tree, end_open, end_session, end_tree};
use second::message::ROOM_BYTES;
use second::refusals::{CallRefusal, Outcome};
use second::rng::Rng;
use second::tables::{Lock, Range, Tables, LOCKS, MEMORY_BYTES, OPENS, SESSIONS, TREES};
use second::words::{self, pack, unpack, Words, HOLDER_WORDS, WORDS};

const OTHER: u32 = CONNECTION + 1;

/// The calls, by what they end.
type End = fn(&mut Tables, u32) -> Outcome<()>;
const ENDS: [End; 3] = [end_session, end_tree, end_open];
type EndWords = fn(&mut Words, u32) -> Outcome<()>;
const ENDS_IN_WORDS: [EndWords; 3] = [words::end_session, words::end_tree, words::end_open];

/// Sessions 1 and 3 on connection 9, 2 on another. Trees 1 and 3 of UID 1, 2 of
/// UID 2, 4 of UID 3. FIDs 1 and 5 of TID 1, 2 and 4 of TID 2, 3 of TID 3, 6 of TID 4.
/// Two locks of each but FID 4, in turns.
fn plant() -> World {
    let mut world = World::with_size(100);
    let tables = &mut world.tables;
    assert_eq!(add_session(tables, OTHER), Ok(2));
    assert_eq!(add_session(tables, CONNECTION), Ok(3));
    for (uid, tid) in [(2, 2), (1, 3), (3, 4)] {
        assert_eq!(add_tree(tables, uid, 1), Ok(tid));
    }
    for (uid, tid, fid) in [(2, 2, 2), (1, 3, 3), (2, 2, 4), (1, 1, 5), (3, 4, 6)] {
        assert_eq!(add_open(tables, uid, tid, 7, 0, 2), Ok(fid));
    }
    for (place, fid) in [1, 2, 3, 5, 6, 6, 5, 3, 2, 1].into_iter().enumerate() {
        tables.locks.push(lock_at(fid, place as u64));
    }
    for (place, file) in tables.files.iter_mut().enumerate() {
        file.changes = 10 * place as u64;
    }
    tables.files[9].size = 4096;
    tables.opens.records[1].read = true;
    tables.catalogue = catalogue(&[(b"LIST", 0), (b"other", 3)]);
    assert!(tables.sound());
    world
}

/// A lock of one byte.
fn lock_at(fid: u16, offset: u64) -> Lock {
    Lock {
        fid,
        process: 7,
        range: Range { offset, length: 1 },
        shared: false,
    }
}

/// UIDs, TIDs, FIDs, and the FIDs of the locks.
fn numbers(tables: &Tables) -> [Vec<u16>; 4] {
    [
        tables.sessions.in_use().iter().map(|s| s.uid).collect(),
        tables.trees.in_use().iter().map(|t| t.tid).collect(),
        tables.opens.in_use().iter().map(|o| o.fid).collect(),
        tables.locks.in_use().iter().map(|l| l.fid).collect(),
    ]
}

/// The words without the records that these tests name: those that stay move up in
/// their order, the places given up are 0, and all else is as it was.
fn without(
    words: &Words,
    sessions: impl Fn(u64) -> bool,
    trees: impl Fn(u64, u64) -> bool,
    opens: impl Fn(u64, u64, u64) -> bool,
    locks: impl Fn(u64) -> bool,
) -> Words {
    let mut after = *words;
    take_out(&mut after, 0, 2, |record| sessions(record[0]));
    take_out(&mut after, 33, 3, |record| trees(record[0], record[1]));
    take_out(&mut after, 130, 9, |record| {
        opens(record[0], record[1], record[2])
    });
    take_out(&mut after, 707, 5, |record| locks(record[0]));
    after
}

/// The same of one table: its count's place, and how many words a record has.
fn take_out(words: &mut Words, count: usize, fields: usize, gone: impl Fn(&[u64]) -> bool) {
    let used = words[count] as usize;
    let records = count + 1..count + 1 + used * fields;
    let old = words[records.clone()].to_vec();
    let stay = old.chunks_exact(fields).filter(|record| !gone(record));
    let stay: Vec<u64> = stay.flatten().copied().collect();
    words[count] = (stay.len() / fields) as u64;
    words[records.clone()].fill(0);
    words[records.start..records.start + stay.len()].copy_from_slice(&stay);
}

/// What each call must leave of the words, by the number that it ends.
fn left_by(words: &Words, kind: usize, number: u64) -> Words {
    let tables = unpack(words).unwrap();
    let opens = |gone: &dyn Fn(u64, u64) -> bool| -> Vec<u64> {
        let opens = tables.opens.in_use().iter();
        let gone = opens.filter(|o| gone(o.uid.into(), o.tid.into()));
        gone.map(|o| o.fid.into()).collect()
    };
    match kind {
        0 => {
            let fids = opens(&|uid, _| uid == number);
            without(
                words,
                |uid| uid == number,
                |_, uid| uid == number,
                |_, uid, _| uid == number,
                |fid| fids.contains(&fid),
            )
        }
        1 => {
            let fids = opens(&|_, tid| tid == number);
            without(
                words,
                |_| false,
                |tid, _| tid == number,
                |_, _, tid| tid == number,
                |fid| fids.contains(&fid),
            )
        }
        _ => without(
            words,
            |_| false,
            |_, _| false,
            |fid, _, _| fid == number,
            |fid| fid == number,
        ),
    }
}

/// Tables in words, with something in every record that is not in use.
fn in_words(tables: &Tables) -> Words {
    let mut words = [0xABCD_EF01_2345_6789; WORDS];
    pack(tables, &mut words);
    words
}

/// A session goes with its trees, their opens and the locks on these; the records
/// behind move up, "in their order".
#[test]
fn a_session_goes_with_all_that_hangs_on_it() {
    let mut world = plant();
    assert_eq!(end_session(&mut world.tables, 1), Ok(()));
    assert_eq!(
        numbers(&world.tables),
        [vec![2, 3], vec![2, 4], vec![2, 4, 6], vec![2, 6, 6, 2]]
    );
    let mut world = plant();
    assert_eq!(end_session(&mut world.tables, 2), Ok(()));
    assert_eq!(
        numbers(&world.tables),
        [
            vec![1, 3],
            vec![1, 3, 4],
            vec![1, 3, 5, 6],
            vec![1, 3, 5, 6, 6, 5, 3, 1]
        ]
    );
}

#[test]
fn a_tree_goes_with_its_opens_and_their_locks() {
    let mut world = plant();
    assert_eq!(end_tree(&mut world.tables, 1), Ok(()));
    assert_eq!(
        numbers(&world.tables),
        [
            vec![1, 2, 3],
            vec![2, 3, 4],
            vec![2, 3, 4, 6],
            vec![2, 3, 6, 6, 3, 2]
        ]
    );
}

#[test]
fn an_open_goes_with_its_locks() {
    let mut world = plant();
    assert_eq!(end_open(&mut world.tables, 3), Ok(()));
    assert_eq!(
        numbers(&world.tables),
        [
            vec![1, 2, 3],
            vec![1, 2, 3, 4],
            vec![1, 2, 4, 5, 6],
            vec![1, 2, 5, 6, 6, 5, 2, 1]
        ]
    );
}

/// One on which nothing hangs goes alone.
#[test]
fn what_nothing_hangs_on_goes_alone() {
    let mut world = plant();
    let tables = &mut world.tables;
    let before = tables.clone();
    assert_eq!(end_open(tables, 4), Ok(()));
    assert_eq!(numbers(tables)[2], [1, 2, 3, 5, 6]);
    assert!(tables.locks == before.locks && tables.trees == before.trees);
    let before = tables.clone();
    assert_eq!(add_tree(tables, 2, 0), Ok(5));
    assert_eq!(end_tree(tables, 5), Ok(()));
    assert_eq!(*tables, before);
    assert_eq!(add_session(tables, 77), Ok(4));
    assert_eq!(end_session(tables, 4), Ok(()));
    assert_eq!(*tables, before);
}

/// In words: each record in turn, with all that is not to be touched beside it, the
/// words of records not in use too.
#[test]
fn nothing_else_is_touched() {
    let world = plant();
    let before = in_words(&world.tables);
    for (kind, end) in ENDS_IN_WORDS.into_iter().enumerate() {
        for &number in &numbers(&world.tables)[kind] {
            let mut words = before;
            assert_eq!(end(&mut words, number.into()), Ok(()));
            assert!(words == left_by(&before, kind, number.into()));
            assert!(words[1348..] == before[1348..]);
            assert!(unpack(&words).unwrap().sound());
        }
    }
}

/// As the commands do it, for a session, tree and open of the asker's own.
#[test]
fn as_by_the_commands() {
    for (uid, tid, fid) in [(1, 1, 1), (1, 1, 5), (1, 3, 3), (3, 4, 6)] {
        let by = |ask: Ask| {
            let mut world = plant();
            world.header = Header { tid, pid: 7, uid };
            assert_eq!(status(&world.ask(&[ask])), (0, 0));
            world.tables
        };
        let ended = |kind: usize, number: u16| {
            let mut world = plant();
            assert_eq!(ENDS[kind](&mut world.tables, number.into()), Ok(()));
            world.tables
        };
        assert_eq!(ended(0, uid), by(Ask::Logoff));
        assert_eq!(ended(1, tid), by(Ask::TreeDisconnect));
        assert_eq!(ended(2, fid), by(Ask::Close { fid }));
    }
    // And a connection is dropped by the end of its sessions.
    let [mut one, mut other] = [plant().tables, plant().tables];
    host::drop_connection(&mut one, CONNECTION).unwrap();
    for uid in [3, 1] {
        end_session(&mut other, uid).unwrap();
    }
    assert_eq!(one, other);
}

/// 6 for a number that no record in use has, and nothing is written: 0, one not
/// given out, one past the table, one past its field's width that is somebody's in
/// its lower 16 bits.
#[test]
fn unknown_numbers() {
    let world = plant();
    let before = in_words(&world.tables);
    for (kind, end) in ENDS_IN_WORDS.into_iter().enumerate() {
        let unused = [4, 5, 7][kind];
        for number in [
            0,
            unused,
            16,
            17,
            32,
            33,
            64,
            65,
            255,
            256,
            257,
            65_535,
            65_536,
            65_537,
            65_538,
            131_073,
            0x8000_0001,
            u32::MAX,
        ] {
            let mut words = before;
            let outcome = end(&mut words, number);
            assert_eq!(outcome, Err(CallRefusal::NoSuch), "{kind} {number}");
            assert!(words == before);
        }
    }
    // What stands behind the records in use is nobody's number.
    let mut words = before;
    words[1 + 2 * 3] = 9;
    words[34 + 3 * 4] = 9;
    words[131 + 9 * 6] = 9;
    let before = words;
    for end in ENDS_IN_WORDS {
        assert_eq!(end(&mut words, 9), Err(CallRefusal::NoSuch));
        assert!(words == before);
    }
}

/// A UID is no TID and no FID.
#[test]
fn numbers_of_another_kind() {
    let mut tables = Tables::empty();
    for uid in 1..=3 {
        assert_eq!(add_session(&mut tables, 5), Ok(uid));
    }
    assert_eq!(end_tree(&mut tables, 1), Err(CallRefusal::NoSuch));
    assert_eq!(end_open(&mut tables, 1), Err(CallRefusal::NoSuch));
    for tid in 1..=5 {
        assert_eq!(add_tree(&mut tables, 3, 1), Ok(tid));
    }
    for fid in 1..=7 {
        assert_eq!(add_open(&mut tables, 3, 5, 9, 2, 0), Ok(fid));
    }
    assert_eq!(end_session(&mut tables, 5), Err(CallRefusal::NoSuch));
    assert_eq!(end_tree(&mut tables, 7), Err(CallRefusal::NoSuch));
    // The connection, the process and the file are no numbers of these either.
    for end in ENDS {
        assert_eq!(end(&mut tables, 9), Err(CallRefusal::NoSuch));
    }
    assert_eq!(end_session(&mut tables, 2), Ok(()));
    assert_eq!(tables.trees.count, 5);
    assert_eq!(end_tree(&mut tables, 3), Ok(()));
    assert_eq!((tables.sessions.count, tables.opens.count), (2, 7));
    assert_eq!(end_open(&mut tables, 5), Ok(()));
    assert_eq!((tables.sessions.count, tables.trees.count), (2, 4));
}

/// "(by TID alone)", "(by FID alone)": of whatever session and connection.
#[test]
fn whosever_it_is() {
    for (tid, fids) in [(1, vec![1, 5]), (2, vec![2, 4]), (3, vec![3]), (4, vec![6])] {
        let mut tables = plant().tables;
        end_tree(&mut tables, tid).unwrap();
        for fid in 1..=6 {
            assert_eq!(tables.open_of(fid).is_none(), fids.contains(&fid));
        }
    }
    for fid in 1..=6 {
        let mut tables = plant().tables;
        end_open(&mut tables, fid.into()).unwrap();
        assert!(tables.open_of(fid).is_none());
        assert_eq!(tables.opens.count, 5);
    }
}

/// Order 4, 6: of tables that are not sound, or with a word in use that does not fit
/// its field, every number is 4, and no word is written.
#[test]
fn not_sound_comes_first() {
    let good = in_words(&plant().tables);
    // A file's size; a doubled UID; a lock of an open that is not there; a UID, a
    // right, a FID and a flag that do not fit; a count.
    for (word, value) in [
        (1348, 4097),
        (3, 1),
        (708, 64),
        (1, 65_537),
        (36, 256),
        (131, 65_537),
        (138, 2),
        (0, 17),
        (707, u64::MAX),
        (1380, 17),
    ] {
        let mut before = good;
        before[word] = value;
        for end in ENDS_IN_WORDS {
            for number in [1, 2, 0, 50, 65_537, u32::MAX] {
                let mut words = before;
                let outcome = end(&mut words, number);
                assert_eq!(outcome, Err(CallRefusal::NotSound), "{word} {number}");
                assert!(words == before);
            }
        }
    }
    // A word that does not fit is nothing behind the records in use.
    let mut words = good;
    words[131 + 9 * 6] = u64::MAX;
    assert_eq!(words::end_open(&mut words, 1), Ok(()));
    assert_eq!(words[131 + 9 * 6], u64::MAX);
}

/// What was ended is gone: the same number again is 6, and so are those of what hung
/// on it.
#[test]
fn two_in_a_row() {
    for (kind, end) in ENDS.into_iter().enumerate() {
        let mut tables = plant().tables;
        assert_eq!(end(&mut tables, 1), Ok(()));
        let once = tables.clone();
        assert_eq!(end(&mut tables, 1), Err(CallRefusal::NoSuch), "{kind}");
        assert_eq!(tables, once);
        assert_eq!(end(&mut tables, 2), Ok(()));
        assert_ne!(tables, once);
    }
    let mut tables = plant().tables;
    end_session(&mut tables, 1).unwrap();
    for (end, numbers) in [(ENDS[1], [1, 3]), (ENDS[2], [1, 5])] {
        for number in numbers {
            assert_eq!(end(&mut tables, number), Err(CallRefusal::NoSuch));
        }
    }
    // From the leaves: each goes alone, and the last leaves nothing.
    let mut tables = plant().tables;
    for (end, last) in [(ENDS[2], 6), (ENDS[1], 4), (ENDS[0], 3)] {
        for number in 1..=last {
            assert_eq!(end(&mut tables, number), Ok(()));
        }
    }
    assert!(numbers(&tables).iter().all(Vec::is_empty));
    let before = plant().tables;
    assert_eq!(tables.files, before.files);
    assert_eq!(tables.catalogue, before.catalogue);
}

/// "freed numbers and records are used again", and a new open is a new one.
#[test]
fn numbers_are_given_out_again() {
    let mut world = plant();
    let tables = &mut world.tables;
    assert!(tables.open_of(2).unwrap().read);
    end_open(tables, 2).unwrap();
    assert_eq!(add_open(tables, 1, 1, 8, 0, 0), Ok(2));
    let again = tables.open_of(2).unwrap();
    assert_eq!((again.uid, again.process, again.read), (1, 8, false));
    assert_eq!(tables.opens.records[5], *again);
    end_tree(tables, 3).unwrap();
    assert_eq!(add_tree(tables, 2, 0), Ok(3));
    end_session(tables, 1).unwrap();
    assert_eq!(add_session(tables, 5), Ok(1));
    // The new session has nothing of the old one's.
    assert_eq!(
        tables.trees.in_use().iter().filter(|t| t.uid == 1).count(),
        0
    );
    assert!(tables.sound());
}

/// What an end leaves is what the others see: a lock is in nobody's way any more, a
/// file without an open can be loaded, the opens that stand remember what they did.
#[test]
fn what_others_see_then() {
    let mut world = World::with_size(20);
    add_session(&mut world.tables, OTHER).unwrap();
    add_tree(&mut world.tables, 2, 1).unwrap();
    add_open(&mut world.tables, 2, 2, 7, 0, 2).unwrap();
    assert_eq!(status(&world.ask(&[read(1, 0, 5)])), (0, 0));
    let terminal = world.header;
    let desk = Header {
        tid: 2,
        pid: 7,
        uid: 2,
    };
    (world.header, world.connection) = (desk, OTHER);
    assert_eq!(world.status(lock(2, &[(7, 0, 10)])), (0, 0));
    (world.header, world.connection) = (terminal, CONNECTION);
    assert_eq!(world.status(write(1, 0, b"x")), (1, 33));
    assert_eq!(host::unchanged(&world.tables, 1), Ok(true));
    end_open(&mut world.tables, 2).unwrap();
    assert_eq!(host::unchanged(&world.tables, 1), Ok(true));
    assert_eq!(world.status(write(1, 0, b"x")), (0, 0));
    assert_eq!(host::unchanged(&world.tables, 1), Ok(false));
    let World { tables, memory, .. } = &mut world;
    let loaded = host::load_file(tables, 0, b"new", memory);
    assert_eq!(loaded, Err(CallRefusal::HasOpen));
    end_tree(tables, 1).unwrap();
    assert_eq!(host::load_file(tables, 0, b"new", memory), Ok(()));
    assert_eq!(tables.files[0].changes, 2);
    assert_eq!(world.status(Ask::TreeDisconnect), (2, 5));
    end_session(&mut world.tables, 1).unwrap();
    assert_eq!(world.status(Ask::Logoff), (2, 91));
    // The other's stand.
    (world.header, world.connection) = (desk, OTHER);
    assert_eq!(world.status(Ask::TreeDisconnect), (0, 0));
}

/// Full tables have room again.
#[test]
fn full_tables() {
    let mut tables = Tables::empty();
    for place in 0..SESSIONS as u32 {
        add_session(&mut tables, place % 4).unwrap();
    }
    for place in 0..TREES as u32 {
        add_tree(&mut tables, 1 + place % 16, 1).unwrap();
    }
    for place in 0..OPENS as u32 {
        let tid = 1 + place % 32;
        add_open(&mut tables, 1 + (tid - 1) % 16, tid, place, 15, 2).unwrap();
    }
    for place in 0..LOCKS as u64 {
        tables.locks.push(lock_at(1 + (place % 64) as u16, place));
    }
    let before = in_words(&tables);
    for (kind, end) in ENDS_IN_WORDS.into_iter().enumerate() {
        let last = [SESSIONS, TREES, OPENS][kind] as u32;
        for number in [1, last / 2, last] {
            let mut words = before;
            assert_eq!(end(&mut words, number), Ok(()));
            assert!(words == left_by(&before, kind, number.into()));
        }
        let mut words = before;
        assert_eq!(end(&mut words, last + 1), Err(CallRefusal::NoSuch));
    }
    end_session(&mut tables, 16).unwrap();
    // Two trees, four opens and eight locks hung on it.
    let counts = [tables.trees.count, tables.opens.count, tables.locks.count];
    assert_eq!(counts, [30, 60, 120]);
    assert_eq!(add_session(&mut tables, 1), Ok(16));
    assert_eq!(add_tree(&mut tables, 16, 1), Ok(16));
    assert_eq!(add_open(&mut tables, 16, 16, 1, 0, 2), Ok(16));
}

/// As a value the call gives 0, and writes neither holder nor room nor a file's byte.
#[test]
fn as_values() {
    let tables = plant().tables;
    for (call, kind) in [
        (Call::EndSession { uid: 3 }, 0),
        (Call::EndTree { tid: 3 }, 1),
        (Call::EndOpen { fid: 3 }, 2),
    ] {
        let before = in_words(&tables);
        let mut words = before;
        let mut memory = vec![0xEE; MEMORY_BYTES];
        let mut room = vec![0xA5; ROOM_BYTES];
        let mut holder = [7; HOLDER_WORDS];
        let outcome = call.make(&mut words, &mut memory, &mut room, &mut holder);
        assert_eq!(outcome, Ok(0));
        assert!(words == left_by(&before, kind, 3));
        assert!(memory.iter().all(|&byte| byte == 0xEE));
        assert!(room.iter().all(|&byte| byte == 0xA5));
        assert_eq!(holder, [7; HOLDER_WORDS]);
        assert!(call.input().is_empty());
    }
}

/// Many tables, and ends of any number one behind the other.
#[test]
fn any_tables() {
    let mut rng = Rng::new(0x454E_4453);
    for _ in 0..300 {
        let mut words = in_words(&any(&mut rng));
        for _ in 0..12 {
            let kind = rng.below(3);
            let number = rng.below([18, 34, 66][kind]) as u32;
            let number = rng.pick(&[number, number, number, number + 0x1_0000]);
            let known = known(&words, kind, number);
            let before = words;
            let outcome = ENDS_IN_WORDS[kind](&mut words, number);
            match known {
                true => {
                    assert_eq!(outcome, Ok(()));
                    assert!(words == left_by(&before, kind, number.into()));
                }
                false => {
                    assert_eq!(outcome, Err(CallRefusal::NoSuch));
                    assert!(words == before);
                }
            }
            assert!(unpack(&words).unwrap().sound());
        }
    }
}

/// Whether a record in use has the number.
fn known(words: &Words, kind: usize, number: u32) -> bool {
    let (count, fields) = [(0, 2), (33, 3), (130, 9)][kind];
    let used = words[count] as usize;
    let records = words[count + 1..].chunks(fields).take(used);
    records.into_iter().any(|record| record[0] == number.into())
}

/// Tables made by adding, some of it ended between; the locks in any order of grant.
fn any(rng: &mut Rng) -> Tables {
    let mut tables = Tables::empty();
    for _ in 0..60 {
        let number = 1 + rng.below(8) as u32;
        // What is refused adds nothing.
        let _ = match rng.below(10) {
            0 | 1 => add_session(&mut tables, number % 3).map(drop),
            2 | 3 => add_tree(&mut tables, number, 1).map(drop),
            4..=8 => add_locked(&mut tables, rng),
            _ => end_tree(&mut tables, number),
        };
    }
    for place in (1..tables.locks.count).rev() {
        tables.locks.records.swap(place, rng.below(place + 1));
    }
    tables
}

/// Adds an open through some tree, with up to two locks.
fn add_locked(tables: &mut Tables, rng: &mut Rng) -> Outcome<()> {
    let trees = tables.trees.in_use();
    if trees.is_empty() {
        return Err(CallRefusal::NoSuch);
    }
    let tree = rng.pick(trees);
    let (uid, tid) = (tree.uid.into(), tree.tid.into());
    let fid = add_open(tables, uid, tid, 7, rng.below(16) as u32, 2)?;
    let first = rng.number() >> 32;
    for offset in first..first + rng.below(3) as u64 {
        tables.locks.push(lock_at(fid, offset));
    }
    Ok(())
}
