//! Names of OPEN_ANDX, good and bad: "a name of any length, even none, without zero
//! bytes, then one zero byte; else 2/1" (document 02, request 6).

use super::{put16, Chain, Expected, Form, Gap, Maker, Sort};

const KIND: &str = "names";

/// An OPEN_ANDX of a name of so many bytes, alone or before a READ_ANDX, with free
/// bytes at the end.
struct Open {
    chain: Chain,
    form: Form,
}

impl Open {
    fn new(maker: &mut Maker, name: usize, first: bool) -> Open {
        let form = Form::Open { name };
        let mut chain = if first {
            let read = maker.form(Sort::Read10, 0);
            Chain::of(&mut maker.rng, &[form, read], Gap::Random)
        } else {
            Chain::new(&mut maker.rng, form)
        };
        chain.free(&mut maker.rng, 300);
        Open { chain, form }
    }

    /// Where the name stands.
    fn area(&self) -> usize {
        32 + self.form.area()
    }

    fn set_byte_count(&mut self, count: usize) {
        let place = self.area() - 2;
        put16(&mut self.chain.bytes, place, count);
    }

    fn push(self, maker: &mut Maker, good: bool) {
        let expected = match good {
            true => self.chain.expected(),
            false => Expected::NotAChain,
        };
        maker.push(KIND, self.chain.bytes, expected);
    }
}

pub(super) fn names(maker: &mut Maker) {
    for first in [false, true] {
        for name in [0, 1, 2, 7, 11, 12, 13, 255, 256, 300] {
            lengths(maker, name, first);
        }
        ends(maker, first);
    }
}

/// A good name; ByteCount 0, one less, one more; and a zero byte at each place of
/// the name.
fn lengths(maker: &mut Maker, name: usize, first: bool) {
    Open::new(maker, name, first).push(maker, true);
    for count in [0, name] {
        let mut open = Open::new(maker, name, first);
        open.set_byte_count(count);
        open.push(maker, false);
    }
    // One more byte: a zero byte or another behind the name's own.
    for behind in [0, 0x41] {
        let mut open = Open::new(maker, name, false);
        open.set_byte_count(name + 2);
        let place = open.area() + name + 1;
        open.chain.bytes[place] = behind;
        open.push(maker, false);
    }
    let few = [0, 1, name / 2, name.saturating_sub(1)];
    for place in few.into_iter().filter(|&place| place < name) {
        let mut open = Open::new(maker, name, first);
        let place = open.area() + place;
        open.chain.bytes[place] = 0;
        open.push(maker, false);
    }
}

/// Every last byte, and every byte in a name of one.
fn ends(maker: &mut Maker, first: bool) {
    for byte in 0..=255 {
        for name in [0, 1] {
            let mut open = Open::new(maker, name, first);
            let end = open.area() + name;
            open.chain.bytes[end] = byte;
            open.push(maker, byte == 0);
        }
        let mut open = Open::new(maker, 1, first);
        let place = open.area();
        open.chain.bytes[place] = byte;
        open.push(maker, byte != 0);
    }
}
