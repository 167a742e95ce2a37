//! The words that a host keeps of a stream's reader.

use second::stream::{Reader, LONGEST_READ};
use second::stream_words::{
    pack, read, reset, unpack, write_to, Buffer, StreamWords, IN_BUFFER, IN_PIECE, NO_STATE, WANTED,
};

const UNTOUCHED: [u64; 4] = [91, 92, 93, 94];

/// A reader's words and buffer after so many bytes of a stream.
fn after(stream: &[u8]) -> (StreamWords, Box<Buffer>) {
    let mut reader = Reader::default();
    reader.feed(stream);
    let (mut words, mut buffer) = ([77; 7], Box::new([0xAA; LONGEST_READ]));
    pack(&reader, &mut words, &mut buffer);
    assert_eq!(unpack(&words, &buffer), Some(reader));
    (words, buffer)
}

#[test]
fn the_words_of_each_kind_of_state() {
    for (stream, words) in [
        (&[][..], [0, 0, 0, 0, 0, 0, 0]),
        (&[0x42], [0, 1, 0x42, 0, 0, 0, 0]),
        (&[0, 0xFF], [0, 2, 0, 0xFF, 0, 0, 0]),
        (&[0, 0, 0], [0, 3, 0, 0, 0, 0, 0]),
        (&[0x85, 1, 2], [0, 3, 0x85, 1, 2, 0, 0]),
        (&[0, 0, 0x20, 0], [0, 0, 0, 0, 0, 8192, 0]),
        (&[0, 0, 0, 3, 8, 9], [0, 0, 0, 0, 0, 3, 2]),
        (&[0, 0, 0, 2, 8, 9], [0; 7]),
        (&[0x85, 0, 0, 0], [0; 7]),
        (&[1, 0, 0, 0, 5, 6], [1, 0, 0, 0, 0, 0, 0]),
        (&[0, 2, 0, 0], [2, 0, 0, 0, 0, 0, 0]),
        (&[0x85, 0, 0, 1], [3, 0, 0, 0, 0, 0, 0]),
        (&[0, 1, 0, 0], [4, 0, 0, 0, 0, 0, 0]),
    ] {
        assert_eq!(after(stream).0, words, "{stream:?}");
    }
    let (_, buffer) = after(&[0, 0, 0, 3, 8, 9]);
    assert_eq!(buffer[..3], [8, 9, 0xAA]);
}

#[test]
fn words_that_no_stream_leaves() {
    const LARGE: u64 = 1 << 32;
    for words in [
        [5, 0, 0, 0, 0, 0, 0],
        [256, 0, 0, 0, 0, 0, 0],
        [LARGE + 1, 0, 0, 0, 0, 0, 0],
        [1, 1, 0, 0, 0, 0, 0],
        [1, 0, 7, 0, 0, 0, 0],
        [4, 0, 0, 0, 0, 5, 0],
        [0, 0, 1, 0, 0, 0, 0],
        [0, 1, 1, 1, 0, 0, 0],
        [0, 2, 1, 1, 1, 0, 0],
        [0, 1, 256, 0, 0, 0, 0],
        [0, 3, 0, 0, u64::MAX, 0, 0],
        [0, 4, 0, 0, 0, 0, 0],
        [0, LARGE, 0, 0, 0, 0, 0],
        [0, u64::MAX, 0, 0, 0, 0, 0],
        [0, 0, 0, 0, 0, 8193, 0],
        [0, 0, 0, 0, 0, u64::MAX, 0],
        [0, 0, 0, 0, 0, 0, 1],
        [0, 0, 0, 0, 0, 3, 3],
        [0, 0, 0, 0, 0, 3, LARGE],
        [0, 1, 0, 0, 0, 3, 1],
        [0, 0, 0, 0, 5, 3, 1],
    ] {
        let (mut changed, mut buffer, mut step) = (words, [0xAA; LONGEST_READ], UNTOUCHED);
        for piece in [&[][..], &[0x42, 0, 0, 0, 0]] {
            let number = read(&mut changed, &mut buffer, piece, &mut step);
            assert_eq!(number, NO_STATE, "{words:?}");
            assert_eq!((changed, step), (words, UNTOUCHED));
            assert_eq!(buffer, [0xAA; LONGEST_READ]);
        }
        reset(&mut changed);
        assert_eq!(changed, [0; 7]);
    }
}

#[test]
fn a_step_and_what_it_leaves() {
    let (mut words, mut buffer) = after(&[]);
    let mut step = UNTOUCHED;
    let mut given = |piece: &[u8]| {
        step = UNTOUCHED;
        let number = read(&mut words, &mut buffer, piece, &mut step);
        (number, step, words, [buffer[0], buffer[1], buffer[2]])
    };
    let (none, aa) = ([0; 7], [0xAA; 3]);
    assert_eq!(given(&[]), (0, [0, WANTED, 0, 0], none, aa));
    assert_eq!(
        given(&[0x85, 0, 0, 0, 0, 0, 0, 2, 5, 6, 0]),
        (0, [10, IN_PIECE, 8, 2], none, aa)
    );
    let begun = [0, 0, 0, 0, 0, 2, 1];
    assert_eq!(
        given(&[0, 0, 0, 2, 7]),
        (0, [5, WANTED, 0, 0], begun, [7, 0xAA, 0xAA])
    );
    assert_eq!(
        given(&[8, 9]),
        (0, [1, IN_BUFFER, 0, 2], none, [7, 8, 0xAA])
    );
    let stopped = [1, 0, 0, 0, 0, 0, 0];
    assert_eq!(given(&[9; 9]), (1, UNTOUCHED, stopped, [7, 8, 0xAA]));
    assert_eq!(given(&[]), (1, UNTOUCHED, stopped, [7, 8, 0xAA]));
}

#[test]
fn what_the_writer_leaves() {
    let (mut room, mut written) = ([0xAA; 7], 91);
    assert_eq!(write_to(b"abcd", &mut room, &mut written), 2);
    assert_eq!(write_to(&[0; 12_293], &mut room, &mut written), 1);
    assert_eq!((room, written), ([0xAA; 7], 91));
    assert_eq!(write_to(b"ab", &mut room, &mut written), 0);
    assert_eq!((room, written), ([0, 0, 0, 2, b'a', b'b', 0xAA], 6));
}
