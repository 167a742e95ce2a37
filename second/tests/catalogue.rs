//! The catalogue and the sharing codes in the tables, and the call that sets the
//! catalogue: the state that request 6 of document 02 adds.

mod common;

use common::{catalogue, World};
use second::catalogue::Catalogue;
use second::host::{add_open, drop_connection, set_catalogue};
use second::refusals::{number, CallRefusal};
use second::tables::{Table, Tables, DENY_BOTH, DENY_NONE};
use second::words::{self, pack, pack_catalogue, unpack, CatalogueWords, Words, CATALOGUE, WORDS};

/// 16 names of one letter.
fn full() -> Catalogue {
    let letters: Vec<[u8; 1]> = (b'A'..=b'P').map(|letter| [letter]).collect();
    let names: Vec<(&[u8], u8)> = letters.iter().map(|name| (&name[..], 15)).collect();
    catalogue(&names)
}

/// Catalogues that keep the rules, and those that break one each.
fn judged() -> Vec<(Catalogue, bool)> {
    let long = catalogue(&[(b"ABCDEFGHIJKL", 15)]);
    let with = |change: fn(&mut Catalogue)| {
        let mut catalogue = catalogue(&[(b"LIST", 0), (b"list.txt", 15)]);
        change(&mut catalogue);
        catalogue
    };
    vec![
        (Table::empty(), true),
        (full(), true),
        (long, true),
        (with(|_| {}), true),
        // Two names may have one file.
        (with(|c| c.records[1].file = 0), true),
        // Bytes past the length are free, zero or not.
        (with(|c| c.records[0].text[4..].fill(255)), true),
        (with(|c| c.records[1].text[4..].fill(32)), true),
        (with(|c| c.count = 17), false),
        (with(|c| c.count = usize::MAX), false),
        (with(|c| c.records[0].length = 0), false),
        (with(|c| c.records[1].length = 13), false),
        (with(|c| c.records[1].length = 255), false),
        (with(|c| c.records[0].text[0] = 0), false),
        (with(|c| c.records[0].text[3] = 0), false),
        (with(|c| c.records[0].length = 5), false),
        (with(|c| c.records[0].file = 16), false),
        (with(|c| c.records[1].file = 255), false),
        // Doubled: "LIST" and "list".
        (with(|c| c.records[1].length = 4), false),
        (with(|c| c.records[1] = c.records[0]), false),
        (with(|c| c.count = 3), false),
    ]
}

#[test]
fn rules() {
    for (place, (catalogue, good)) in judged().into_iter().enumerate() {
        assert_eq!(catalogue.sound(), good, "{place}");
        let mut tables = Tables::empty();
        tables.catalogue = catalogue.clone();
        assert_eq!(tables.sound(), good, "{place}");
        let outcome = drop_connection(&mut tables, 1);
        assert_eq!(number(&outcome), if good { 0 } else { 4 });
        let mut tables = Tables::empty();
        let outcome = set_catalogue(&mut tables, &catalogue);
        assert_eq!(number(&outcome), if good { 0 } else { 7 });
        assert_eq!(tables.catalogue == catalogue, good);
    }
}

/// "Names fold A–Z with a–z only."
#[test]
fn letters_alone_fold() {
    for one in 1..=255u8 {
        for other in 1..=255u8 {
            let letters = one.is_ascii_alphabetic() && other.is_ascii_alphabetic();
            let same = one == other || letters && one ^ other == 0x20;
            let names = catalogue(&[(&[b'x', one], 1), (&[b'X', other], 2)]);
            assert_eq!(names.sound(), !same, "{one} {other}");
            let found = catalogue(&[(&[one], 3)]).file(&[other]);
            assert_eq!(found, same.then_some(3), "{one} {other}");
        }
    }
}

#[test]
fn names_are_found_whole() {
    let names = catalogue(&[(b"list", 4), (b"LIST.TXT", 9), (b"LI", 0)]);
    for (name, file) in [
        (&b"LIST"[..], Some(4)),
        (b"lIsT", Some(4)),
        (b"list.txt", Some(9)),
        (b"li", Some(0)),
        (b"", None),
        (b"L", None),
        (b"LIST.", None),
        (b"LIST.TXT     ", None),
        (b" LIST", None),
        (b"\\LIST", None),
    ] {
        assert_eq!(names.file(name), file);
    }
}

/// "Sharing codes 1 to 4"; the host's opens have 4.
#[test]
fn sharing_codes() {
    let mut world = World::with_size(0);
    assert_eq!(world.tables.opens.records[0].sharing, DENY_NONE);
    for sharing in 0..=255 {
        world.tables.opens.records[0].sharing = sharing;
        assert_eq!(world.tables.sound(), (1..=4).contains(&sharing));
    }
    // No rule on pairs of opens.
    world.tables.opens.records[0].sharing = DENY_BOTH;
    assert_eq!(add_open(&mut world.tables, 1, 1, 7, 0, 2), Ok(2));
    world.tables.opens.records[1].sharing = DENY_BOTH;
    assert!(world.tables.sound());
}

/// The catalogue is kept by everything else, and setting it looks at no open.
#[test]
fn set_whole() {
    let mut world = World::with_size(5);
    let (one, other) = (full(), catalogue(&[(b"B", 0)]));
    for given in [one, other, Table::empty()] {
        let mut expected = world.tables.clone();
        expected.catalogue = given.clone();
        assert_eq!(set_catalogue(&mut world.tables, &given), Ok(()));
        assert_eq!(world.tables, expected);
        drop_connection(&mut world.tables, 99).unwrap();
        assert_eq!(world.tables, expected);
    }
}

/// Words of tables with these words for the catalogue.
fn with_part(part: &CatalogueWords) -> Words {
    let mut all = [0; WORDS];
    words::add_session(&mut all, 3).unwrap();
    all[CATALOGUE..].copy_from_slice(part);
    all
}

#[test]
fn words_are_those_given() {
    assert_eq!(CATALOGUE, 1380);
    let old = pack_catalogue(&catalogue(&[(b"OLD", 3), (b"OLDER", 2)]));
    for (place, (given, good)) in judged().into_iter().enumerate() {
        let mut given = pack_catalogue(&given);
        // Records past the count are anything.
        let used = given[0].min(16) as usize;
        given[1 + 14 * used..].fill(u64::MAX);
        let mut all = with_part(&old);
        let wanted = if good { given } else { old };
        let outcome = words::set_catalogue(&mut all, &given);
        assert_eq!(number(&outcome), if good { 0 } else { 7 }, "{place}");
        assert_eq!(all, with_part(&wanted), "{place}");
        // The same as a part of the tables: sound or not.
        let mut all = with_part(&given);
        let outcome = words::drop_connection(&mut all, 9);
        assert_eq!(number(&outcome), if good { 0 } else { 4 }, "{place}");
        assert_eq!(all, with_part(&given));
    }
}

/// Each word of a name in use fits a byte, also past the name's length; of other
/// names it may be anything.
#[test]
fn words_that_do_not_fit() {
    let good = pack_catalogue(&catalogue(&[(b"A", 1), (b"B", 2)]));
    for word in 0..good.len() {
        for value in [256, 65_536, 1 << 32, u64::MAX, 256 + good[word]] {
            let mut given = good;
            given[word] = value;
            let free = word > 2 * 14;
            let mut all = with_part(&good);
            let outcome = words::set_catalogue(&mut all, &given);
            assert_eq!(number(&outcome), if free { 0 } else { 7 });
            assert_eq!(all, with_part(if free { &given } else { &good }));
            let mut all = with_part(&given);
            let outcome = words::set_catalogue(&mut all, &good);
            assert_eq!(number(&outcome), if free { 0 } else { 4 });
            assert_eq!(all, with_part(if free { &good } else { &given }));
        }
    }
}

/// "Order 4, 7."
#[test]
fn unsound_tables_come_first() {
    let mut all = with_part(&pack_catalogue(&full()));
    all[0] = 17;
    for given in [pack_catalogue(&full()), [u64::MAX; 225]] {
        let outcome = words::set_catalogue(&mut all, &given);
        assert_eq!(outcome, Err(CallRefusal::NotSound));
    }
}

/// What is packed is unpacked, and a shorter catalogue leaves no old name in use.
#[test]
fn own_tables_and_words_agree() {
    let mut all = with_part(&pack_catalogue(&full()));
    let tables = unpack(&all).unwrap();
    assert_eq!(tables.catalogue, full());
    let given = pack_catalogue(&catalogue(&[(b"B", 0)]));
    words::set_catalogue(&mut all, &given).unwrap();
    let mut own = tables;
    set_catalogue(&mut own, &catalogue(&[(b"B", 0)])).unwrap();
    assert_eq!(unpack(&all).unwrap(), own);
    let mut packed = all;
    pack(&own, &mut packed);
    assert_eq!(packed, all);
}
