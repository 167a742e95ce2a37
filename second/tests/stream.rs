//! The stream's reader and writer, from document 02, CR 1.

use second::rng::Rng;
use second::stream::{write, Handed, Reader, Step, Stop, WriteRefusal, HEADER};

const KEEP_ALIVE: [u8; 4] = [0x85, 0, 0, 0];

fn message(length: usize) -> Vec<u8> {
    (0..length).map(|place| (place * 7 + 3) as u8).collect()
}

/// The message behind its header.
fn framed(message: &[u8]) -> Vec<u8> {
    let mut room = vec![0; message.len() + HEADER];
    assert_eq!(write(message, &mut room), Ok(room.len()));
    room
}

/// The number of a reader that gets this header.
fn judged(header: [u8; 4]) -> u8 {
    let (messages, stop) = Reader::default().feed(&header);
    assert!(stop.is_none() || messages.is_empty());
    stop.map_or(0, |stop| stop as u8)
}

/// What a reader hands out for the pieces, and the reader then.
fn fed<'p>(pieces: impl Iterator<Item = &'p [u8]>) -> (Vec<Vec<u8>>, Reader) {
    let mut reader = Reader::default();
    let messages = pieces.flat_map(|piece| reader.feed(piece).0).collect();
    (messages, reader)
}

#[test]
fn each_refusal_and_their_order() {
    for kind in 0..=255 {
        let known = kind == 0x00 || kind == 0x85;
        let first = if known { 0 } else { 1 };
        assert_eq!(judged([kind, 0, 0, 0]), first);
        // Also reserved flags and a length that is too long: 1 comes first.
        assert_eq!(judged([kind, 0xFE, 0xFF, 0xFF]), if known { 2 } else { 1 });
    }
    for flags in 2..=255 {
        assert_eq!(judged([0x00, flags, 0, 5]), 2);
        // 2 before 3 and before 4.
        assert_eq!(judged([0x85, flags, 0, 5]), 2);
        assert_eq!(judged([0x00, flags, 0xFF, 0xFF]), 2);
    }
    assert_eq!(judged([0x85, 0, 0, 1]), 3);
    assert_eq!(judged([0x85, 0, 1, 0]), 3);
    // A keep-alive above 8,192 is 3: 4 is of messages.
    assert_eq!(judged([0x85, 0, 0x20, 0x01]), 3);
    assert_eq!(judged([0x00, 0, 0x20, 0x00]), 0);
    assert_eq!(judged([0x00, 0, 0x20, 0x01]), 4);
    assert_eq!(judged([0x00, 0, 0xFF, 0xFF]), 4);
}

#[test]
fn lengths_have_17_bits() {
    assert_eq!(judged([0x85, 1, 0, 0]), 3);
    assert_eq!(judged([0x00, 1, 0, 0]), 4);
    assert_eq!(judged([0x00, 1, 0x20, 0x00]), 4);
    assert_eq!(judged([0x00, 1, 0xFF, 0xFF]), 4);
    assert_eq!(judged([0x01, 1, 0, 0]), 1);
}

#[test]
fn keep_alives_are_passed_over() {
    let mut reader = Reader::default();
    assert_eq!(reader.feed(&KEEP_ALIVE.repeat(3)), (vec![], None));
    assert_eq!(reader, Reader::default());
    let stream = [&KEEP_ALIVE[..], &framed(b"ab"), &KEEP_ALIVE, &framed(b"c")].concat();
    let expected = vec![b"ab".to_vec(), b"c".to_vec()];
    assert_eq!(reader.feed(&stream), (expected, None));
    // No message is in between: one step passes over them.
    let stream = [&KEEP_ALIVE[..], &KEEP_ALIVE, &framed(b"ab"), &KEEP_ALIVE].concat();
    let handed = Some(Handed::InPiece { at: 12, length: 2 });
    assert_eq!(reader.step(&stream), Ok(Step { taken: 14, handed }));
}

#[test]
fn a_message_of_length_0_is_handed_out_with_its_header() {
    let mut reader = Reader::default();
    assert_eq!(reader.feed(&[0, 0, 0]), (vec![], None));
    let handed = Some(Handed::InPiece { at: 1, length: 0 });
    assert_eq!(reader.step(&[0, 9]), Ok(Step { taken: 1, handed }));
    assert_eq!(reader, Reader::default());
    assert_eq!(reader.feed(&[0; 12]), (vec![vec![]; 3], None));
}

#[test]
fn a_header_is_judged_at_its_fourth_byte() {
    for (header, stop) in [
        ([0x42, 0xFF, 0xFF, 0xFF], Stop::OtherType),
        ([0x00, 0x02, 0x00, 0x00], Stop::ReservedFlags),
        ([0x85, 0x01, 0x00, 0x00], Stop::KeepAliveWithLength),
        ([0x00, 0x01, 0x00, 0x00], Stop::TooLong),
    ] {
        let mut reader = Reader::default();
        for &byte in &header[..3] {
            let step = reader.step(&[byte]);
            let handed = None;
            assert_eq!(step, Ok(Step { taken: 1, handed }));
        }
        assert_eq!(reader.step(&[]).unwrap().taken, 0);
        assert_eq!(reader.step(&header[3..]), Err(stop));
    }
}

#[test]
fn two_messages_and_a_bad_header_in_one_piece() {
    let bad = [0x00, 0x80, 0x00, 0x01, 7, 7, 7];
    let stream = [&framed(b"one")[..], &framed(b"other"), &bad].concat();
    let mut reader = Reader::default();
    let expected = vec![b"one".to_vec(), b"other".to_vec()];
    assert_eq!(reader.feed(&stream), (expected, Some(Stop::ReservedFlags)));
    let mut stopped = Reader::default();
    stopped.feed(&bad[..4]);
    assert_eq!(reader, stopped, "nothing is kept of the bytes behind");
}

#[test]
fn a_stopped_reader_answers_its_number_until_reset() {
    let mut reader = Reader::default();
    assert_eq!(
        reader.feed(&[0x85, 0, 0, 1]).1.map(|stop| stop as u8),
        Some(3)
    );
    let before = reader.clone();
    for piece in [&[][..], &[0x42; 4], &framed(b"ab"), &KEEP_ALIVE] {
        let answer = (vec![], Some(Stop::KeepAliveWithLength));
        assert_eq!(reader.feed(piece), answer);
        assert_eq!(reader, before);
    }
    reader.reset();
    assert_eq!(reader.feed(&framed(b"ab")), (vec![b"ab".to_vec()], None));
}

#[test]
fn where_a_message_stands() {
    let mut reader = Reader::default();
    let (stream, all) = (framed(b"abc"), b"abc".to_vec());
    let in_piece = |at| Some(Handed::InPiece { at, length: 3 });
    for cut in 0..=HEADER {
        // Its bytes are all in the second piece.
        assert_eq!(reader.step(&stream[..cut]).unwrap().handed, None);
        let step = reader.step(&stream[cut..]).unwrap();
        assert_eq!((step.taken, step.handed), (7 - cut, in_piece(4 - cut)));
    }
    for cut in HEADER + 1..7 {
        assert_eq!(reader.step(&stream[..cut]).unwrap().handed, None);
        let handed = Some(Handed::Gathered(all.clone()));
        let taken = 7 - cut;
        let rest = [&stream[cut..], &KEEP_ALIVE].concat();
        assert_eq!(reader.step(&rest), Ok(Step { taken, handed }));
    }
}

#[test]
fn however_it_is_cut() {
    let mut rng = Rng::new(5);
    let ends: [&[u8]; 4] = [&[], &[0x85, 0, 0], &[0, 0, 0, 9, 1, 2], &[0, 2, 0, 0, 5]];
    for end in ends {
        let [first, second] = [rng.bytes(9), rng.bytes(3)];
        let parts: [&[u8]; 6] = [
            &framed(&first),
            &KEEP_ALIVE,
            &framed(&[]),
            &KEEP_ALIVE,
            &framed(&second),
            end,
        ];
        let stream = parts.concat();
        let whole = fed([&stream[..]].into_iter());
        assert_eq!(whole.0, [first, vec![], second]);
        assert_eq!(fed(stream.chunks(1)), whole);
        for cut in 0..=stream.len() {
            let (front, rest) = stream.split_at(cut);
            for other in 0..=rest.len() {
                let pieces = [front, &rest[..other], &rest[other..]];
                assert_eq!(fed(pieces.into_iter()), whole, "cut at {cut}, {other}");
            }
        }
    }
}

#[test]
fn the_writer_refuses_a_longer_message_before_too_little_room() {
    let mut room = vec![0xAA; 13_000];
    let before = room.clone();
    for room in [&mut room[..0], &mut [0xAA; 13_000]] {
        assert_eq!(write(&message(12_293), room), Err(WriteRefusal::Longer));
        assert!(room.iter().all(|&byte| byte == 0xAA));
    }
    for (length, short) in [(0, 3), (0, 0), (1, 4), (12_292, 12_295)] {
        let room = &mut room[..short];
        assert_eq!(write(&message(length), room), Err(WriteRefusal::Room));
    }
    assert_eq!(room, before);
    assert_eq!(
        [WriteRefusal::Longer as u8, WriteRefusal::Room as u8],
        [1, 2]
    );
}

#[test]
fn lengths_at_the_limits() {
    for (length, written, read) in [
        (0, true, true),
        (1, true, true),
        (8_191, true, true),
        (8_192, true, true),
        (8_193, true, false),
        (12_292, true, false),
        (12_293, false, false),
    ] {
        let (message, mut room) = (message(length), vec![0xAA; length + 6]);
        let done = write(&message, &mut room);
        assert_eq!(done.is_ok(), written, "{length}");
        if written {
            assert_eq!(done, Ok(length + 4));
            assert_eq!(room[..2], [0, 0], "type and flags");
            assert_eq!(room[length + 4..], [0xAA; 2]);
            let given = Reader::default().feed(&room[..length + 4]);
            let expected = match read {
                true => (vec![message], None),
                false => (vec![], Some(Stop::TooLong)),
            };
            assert_eq!(given, expected);
        }
    }
    // Room for it exactly.
    let mut room = [0; 6];
    assert_eq!(write(b"ab", &mut room), Ok(6));
    assert_eq!(room, [0, 0, 0, 2, b'a', b'b']);
}
