//! Plans OPEN_ANDX (document 02, request 6), what follows it, and damage to its
//! name.

use super::{Planner, Scene};
use crate::catalogues::{cased, POOL};
use second::builder::Ask;
use second::catalogue::Name;
use second::grammar::{blocks, OPEN_ANDX};
use second::request::JUST_OPENED;
use second::tables::{Tables, DENY_NONE, LARGEST_ACCESS};

/// Where ByteCount and the name stand in a block.
const BYTE_COUNT: usize = 31;
const NAME: usize = 33;

impl Planner {
    pub(super) fn open_ask(&mut self, tables: &Tables) -> Ask {
        let any = self.rng.number() as u16;
        let mode = self.seldom(1, &[0, 2, 0x10, 0x11, 0x0101, 0x8001, any]);
        Ask::Open {
            flags: self.rng.pick(&[0, 1, 2, 3, any]),
            access_mode: self.access_mode(),
            open_mode: mode,
            name: self.name_to_ask(tables),
        }
    }

    /// Mostly known codes; the other bits are anything half of the time.
    fn access_mode(&mut self) -> u16 {
        let access = self.rng.pick(&[0, 0, 1, 1, 2, 2]);
        let sharing = self.rng.pick(&[1, 2, 3, 4, 4, 4]);
        let access = self.seldom(access, &[3, 4, 5, 6, 7]);
        let sharing = self.seldom(sharing, &[0, 0, 5, 6, 7]);
        let others = match self.once_in(2) {
            true => self.rng.number() as u16 & !0x77,
            false => 0,
        };
        others | sharing << 4 | access
    }

    /// A name of the catalogue, once in three of a file that nobody has open, where
    /// there is one.
    fn known_name(&mut self, tables: &Tables) -> Option<Name> {
        let opens = tables.opens.in_use();
        let unopened = |name: &Name| opens.iter().all(|open| open.file != name.file);
        let mut names = tables.catalogue.in_use().to_vec();
        if self.once_in(3) && names.iter().any(unopened) {
            names.retain(unopened);
        }
        (!names.is_empty()).then(|| self.rng.pick(&names))
    }

    /// Mostly a name of the catalogue, in any case.
    fn name_to_ask(&mut self, tables: &Tables) -> Vec<u8> {
        let mut name = match self.known_name(tables) {
            Some(name) if !self.once_in(10) => name.bytes().to_vec(),
            _ => self.rng.pick(&POOL).to_vec(),
        };
        if self.once_in(2) {
            name.iter_mut().for_each(|b| *b = cased(*b, &mut self.rng));
        }
        match self.rng.below(60) {
            0 => name.clear(),
            1 => name.resize(self.rng.pick(&[12, 13, 14, 255, 256, 2000]), b'n'),
            2 => name.insert(0, b'\\'),
            3 => name.push(b' '),
            4 => drop(name.pop()),
            5 => name
                .iter_mut()
                .for_each(|byte| *byte = (*byte ^ 0x20).max(1)),
            _ => {}
        }
        name
    }

    /// Puts the FID into what is behind an OPEN_ANDX: mostly 0xFFFF or the one that
    /// the open will have.
    pub(super) fn set_behind_open(&mut self, ask: &mut Ask, tables: &Tables) {
        let given = tables.next_fid();
        let (just, any) = (JUST_OPENED, self.any_number());
        match ask {
            Ask::Read { .. } if self.once_in(5) => {}
            Ask::Read { .. } => ask.set_fid(self.rng.pick(&[just, just, just, given, any])),
            _ => ask.set_fid(self.rng.pick(&[just, given])),
        }
    }

    /// Now and then FID 0xFFFF where it means no open.
    pub(super) fn seldom_misplaced(&mut self, asks: &mut [Ask]) {
        let times = match asks {
            [_, .., Ask::Read { .. }] => 15,
            _ => 150,
        };
        if let (true, Some(ask)) = (self.once_in(times), asks.last_mut()) {
            ask.set_fid(JUST_OPENED);
        }
    }

    /// An OPEN_ANDX that denies nothing and asks for what the tree lets be opened:
    /// only a sharing code or want of a FID can be in its way.
    pub(super) fn willing_open(&mut self, tables: &Tables, scene: &Scene) -> Ask {
        let tree = tables.tree(scene.header.tid, scene.header.uid);
        let access = match tree.map(|tree| tree.right) {
            Some(0) => 0,
            _ => self.rng.below(usize::from(LARGEST_ACCESS) + 1) as u16,
        };
        let mut ask = self.open_ask(tables);
        if let Ask::Open {
            access_mode,
            open_mode,
            ..
        } = &mut ask
        {
            *access_mode = *access_mode & !0x77 | u16::from(DENY_NONE) << 4 | access;
            *open_mode = 1;
        }
        ask
    }

    /// Spoils the name of the message's first block, if it is an OPEN_ANDX: its end,
    /// a byte of it, or ByteCount.
    pub(super) fn damage_name(&mut self, message: &mut [u8]) {
        let first = blocks(message).flatten().next();
        let Some(block) = first.filter(|block| block.command == OPEN_ANDX) else {
            return;
        };
        let (at, end) = (block.offset, block.offset + block.length - 1);
        let name = end - (at + NAME);
        match self.rng.below(6) {
            0 | 1 => message[end] = 1 + self.rng.below(255) as u8,
            2 if name > 0 => message[at + NAME + self.rng.below(name)] = 0,
            3 => message[at + BYTE_COUNT..at + NAME].fill(0),
            4 => message[at + BYTE_COUNT] = message[at + BYTE_COUNT].wrapping_sub(1),
            _ => message[at + BYTE_COUNT] = message[at + BYTE_COUNT].wrapping_add(1),
        }
    }
}
