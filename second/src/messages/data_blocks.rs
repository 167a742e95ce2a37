//! Data blocks of WRITE, good and bad: "a data block not marked 0x01 or whose
//! lengths disagree is 2/1" (document 02, request 3).

use super::{put16, Chain, Expected, Form, Gap, Maker, Sort, CORE_COUNT, LIMIT};
use crate::grammar::{DATA_BLOCK_HEAD, DATA_MARK};

const KIND: &str = "data blocks";

/// A message whose last block is a WRITE, with its data block's place.
struct Write {
    chain: Chain,
    area: usize,
}

impl Write {
    /// A WRITE of so many bytes, alone or behind a LOCKING, with free bytes at
    /// its end, so that no wrong length reaches past the message.
    fn new(maker: &mut Maker, data: usize, second: bool) -> Write {
        let form = Form::CoreWrite { data };
        let mut chain = if second {
            let first = maker.form(Sort::Locking10, 16);
            Chain::of(&mut maker.rng, &[first, form], Gap::Random)
        } else {
            Chain::new(&mut maker.rng, form)
        };
        let area = chain.last() + form.area();
        chain.free(&mut maker.rng, 300);
        Write { chain, area }
    }

    fn set_count(&mut self, count: usize) {
        let place = self.chain.last() + CORE_COUNT;
        put16(&mut self.chain.bytes, place, count);
    }

    fn set_byte_count(&mut self, count: usize) {
        put16(&mut self.chain.bytes, self.area - 2, count);
    }

    fn set_length(&mut self, length: usize) {
        put16(&mut self.chain.bytes, self.area + 1, length);
    }

    fn push(self, maker: &mut Maker, good: bool) {
        let expected = match good {
            true => self.chain.expected(),
            false => Expected::NotAChain,
        };
        maker.push(KIND, self.chain.bytes, expected);
    }
}

pub(super) fn data_blocks(maker: &mut Maker) {
    marks(maker);
    lengths(maker);
    far_lengths(maker);
    cut(maker);
}

/// Every mark, over a block that is good otherwise.
fn marks(maker: &mut Maker) {
    for mark in 0..=255u8 {
        for (data, second) in [(0, false), (3, true)] {
            let mut write = Write::new(maker, data, second);
            write.chain.bytes[write.area] = mark;
            write.push(maker, mark == DATA_MARK);
        }
    }
}

/// The three lengths near the right ones, in every combination. Where two of
/// them agree the third may be the wrong one.
fn lengths(maker: &mut Maker) {
    let near = |right: usize| right.saturating_sub(1)..=right + 1;
    for data in [0, 1, 4, 255, 256] {
        for count in near(data) {
            for length in near(data) {
                for byte_count in near(data + DATA_BLOCK_HEAD) {
                    for second in [false, true] {
                        let mut write = Write::new(maker, data, second);
                        write.set_count(count);
                        write.set_length(length);
                        write.set_byte_count(byte_count);
                        let good = count == data && length == data;
                        let good = good && byte_count == data + DATA_BLOCK_HEAD;
                        if good || count != length || byte_count != count + DATA_BLOCK_HEAD {
                            write.push(maker, good);
                        }
                    }
                }
            }
        }
    }
}

/// ByteCount under 3, also where count + 3 comes out so in 16 bits; lengths
/// that agree in one byte only, or with their bytes changed about.
fn far_lengths(maker: &mut Maker) {
    for byte_count in 0..DATA_BLOCK_HEAD {
        let wrapped = 0x10000 + byte_count - DATA_BLOCK_HEAD;
        for (count, length) in [(0, 0), (wrapped, 0), (0, wrapped), (wrapped, wrapped)] {
            for second in [false, true] {
                let mut write = Write::new(maker, 0, second);
                write.set_count(count);
                write.set_length(length);
                write.set_byte_count(byte_count);
                write.push(maker, false);
            }
        }
    }
    for (count, length, byte_count) in [
        (2, 258, 5),
        (258, 2, 261),
        (258, 258, 5),
        (1, 256, 4),
        (256, 1, 259),
        (2, 2, 2),
        (5, 5, 5),
        (0, 0, 0),
        (0, 0, 300),
        (0xFFFF, 0xFFFF, 2),
        (0xFFFF, 2, 5),
        (2, 0xFFFF, 5),
        (2, 2, 0xFFFF),
        (0x8000, 0x8000, 0x8003),
    ] {
        let mut write = Write::new(maker, 2, false);
        write.set_count(count);
        write.set_length(length);
        write.set_byte_count(byte_count);
        write.push(maker, false);
    }
}

/// The data block up to the message's end, and cut by each number of bytes.
fn cut(maker: &mut Maker) {
    for data in [0, 1, 7, LIMIT - 32 - 16] {
        for second in [false, true].into_iter().take(1 + usize::from(data < 8)) {
            let write = Write::new(maker, data, second);
            let end = write.area + DATA_BLOCK_HEAD + data;
            for missing in 0..=DATA_BLOCK_HEAD + data.min(8) {
                let mut bytes = write.chain.bytes.clone();
                bytes.truncate(end - missing);
                let expected = match missing {
                    0 => Expected::Listing(write.chain.listing()),
                    _ => Expected::NotAChain,
                };
                maker.push(KIND, bytes, expected);
            }
        }
    }
}
