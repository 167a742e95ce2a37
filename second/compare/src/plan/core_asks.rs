//! Plans core commands (document 02, request 3), and damages the data block of a
//! WRITE.

use super::{near, Planner, Scene, EDGES};
use second::builder::{core_read, core_write, lock_range, locking, unlock_range, Ask};
use second::grammar::{blocks, DATA_BLOCK_HEAD, WRITE};
use second::tables::{Lock, Tables, FILE_BYTES};

impl Planner {
    /// READ, WRITE, LOCK, UNLOCK.
    pub(super) fn core_ask(
        &mut self,
        kind: usize,
        fid: u16,
        tables: &Tables,
        scene: &Scene,
    ) -> Ask {
        match kind {
            0 if self.once_in(2) => core_read(fid, 0, u16::MAX),
            0 => {
                let count = self.max();
                core_read(fid, self.place(tables, scene, fid) as u32, count)
            }
            1 if !self.once_in(3) => core_write(fid, self.size(tables, scene, fid), &[]),
            1 => {
                let (offset, length) = self.span_to_write(fid, tables, scene);
                let data = self.rng.bytes(length.max(1));
                core_write(fid, offset as u32, &data)
            }
            2 if self.once_in(2) => {
                let size = size_of(tables, file_of(tables, fid));
                let offset = size + self.rng.below(20) as u32;
                lock_range(fid, offset, 1 + self.rng.below(20) as u32)
            }
            2 => {
                let fresh = self.once_in(2);
                let (_, offset, length) = self.asked(tables, scene, fresh);
                lock_range(fid, offset as u32, length as u32)
            }
            _ => self.unlock(fid, tables, scene),
        }
    }

    /// A core command at a lock, through its FID: at its bytes, or from the file's
    /// start on. READ and WRITE are now and then behind a LOCKING, and at the bytes
    /// that it asks for.
    pub(super) fn core_at_lock(&mut self, tables: &Tables, scene: &Scene, lock: Lock) -> Vec<Ask> {
        let fid = lock.fid;
        let mut place = (lock.range.offset as u32, lock.range.length.min(60) as u32);
        let mut asks = Vec::new();
        let mut kinds: &[usize] = &[0, 1, 1, 2, 2, 2, 3, 4];
        if self.once_in(4) {
            kinds = &[0, 1, 2];
            let fresh = self.once_in(2);
            let (process, offset, length) = self.asked(tables, scene, fresh);
            place = (offset as u32, length.min(60) as u32);
            let asked = (process, place.0.into(), place.1.into());
            asks.push(locking(fid, self.rng.pick(&[0, 1]), &[], &[asked]));
        }
        if self.once_in(4) {
            place = (0, 60 + self.rng.below(60) as u32);
        }
        let kind = self.rng.pick(kinds);
        asks.push(self.core_over(kind, fid, tables, place));
        asks
    }

    /// READ, WRITE, a size, LOCK or UNLOCK of the bytes from a place on.
    fn core_over(&mut self, kind: usize, fid: u16, tables: &Tables, place: (u32, u32)) -> Ask {
        let (start, length) = place;
        let more = length.wrapping_add(self.rng.below(2) as u32);
        match kind {
            0 => core_read(fid, start, more as u16),
            1 => {
                let data = self.rng.bytes(more.clamp(1, 120) as usize);
                core_write(fid, start, &data)
            }
            2 => {
                let size = size_of(tables, file_of(tables, fid));
                let other = if size > start {
                    start
                } else {
                    start.wrapping_add(more)
                };
                core_write(fid, other, &[])
            }
            3 => lock_range(fid, start, more),
            _ => unlock_range(fid, start, length),
        }
    }

    /// A size for the FID's file: equal, less, more, at a lock, or past 4,096.
    fn size(&mut self, tables: &Tables, scene: &Scene, fid: u16) -> u32 {
        let file = file_of(tables, fid);
        let size = size_of(tables, file);
        let most = FILE_BYTES as u32;
        let some = self.rng.below(120) as u32;
        match self.rng.below(21) {
            0..=2 => size,
            3..=5 => self.rng.below(size as usize + 1) as u32,
            6..=8 => size + some,
            9 => some / 4,
            10 => self.rng.below(FILE_BYTES + 1) as u32,
            11 | 12 => most - self.rng.pick(&[0, 0, 1, 2]),
            13 | 14 => most + self.rng.pick(&[1, 2, some, 1000]),
            15 | 16 => beside_a_lock(tables, file, size).unwrap_or(some),
            17..=19 => self.over_a_lock(tables, scene, fid, size).unwrap_or(some),
            _ => self.rng.pick(&EDGES) as u32,
        }
    }

    /// A size on the other side of a lock, mostly one of the sender's own.
    fn over_a_lock(&mut self, tables: &Tables, scene: &Scene, fid: u16, size: u32) -> Option<u32> {
        let low = |lock: &Lock| lock.fid == fid && lock.range.end() < FILE_BYTES as u128;
        let own = |lock: &Lock| lock.process == scene.header.pid && !lock.shared;
        let lock = match self.held_that(tables, |lock| low(lock) && own(lock)) {
            Some(lock) => lock,
            None => self.held_that(tables, low)?,
        };
        let (start, end) = (lock.range.start() as u32, lock.range.end() as u32);
        Some(if size > start { start } else { end })
    }

    /// Mostly a lock that the sender holds, else one of the same FID, or nearly.
    fn unlock(&mut self, fid: u16, tables: &Tables, scene: &Scene) -> Ask {
        let own = |lock: &Lock| (lock.fid, lock.process) == (fid, scene.header.pid);
        let lock = match self.held_that(tables, own) {
            Some(lock) if !self.once_in(12) => Some(lock),
            _ => self.held_that(tables, |lock| lock.fid == fid),
        };
        let (mut offset, mut length) = match lock {
            Some(lock) => (lock.range.offset, lock.range.length),
            None => (self.rng.below(80) as u64, self.rng.below(12) as u64),
        };
        match self.rng.below(16) {
            0 => offset = near(&mut self.rng, offset),
            1 => length = near(&mut self.rng, length),
            _ => {}
        }
        unlock_range(fid, offset as u32, length as u32)
    }

    /// Spoils the data block of the message's last block, if it is a WRITE: its
    /// mark, one or two of the three lengths, or ByteCount under 3.
    pub(super) fn damage_data_block(&mut self, message: &mut [u8]) {
        let last = blocks(message).flatten().last();
        let Some(at) = last.filter(|b| b.command == WRITE).map(|b| b.offset) else {
            return;
        };
        if self.once_in(5) {
            message[at + 13] = self.rng.pick(&[0, 2, 3, 4, 5, 0x81, 0xFF]);
            return;
        }
        let count = u16::from_le_bytes([message[at + 3], message[at + 4]]);
        let lengths = self.other_lengths(count);
        for (place, number) in [3, 14, 11].into_iter().zip(lengths) {
            message[at + place..at + place + 2].copy_from_slice(&number.to_le_bytes());
        }
    }

    /// The count, the data block's length and ByteCount of a WRITE, not all as
    /// they should be.
    fn other_lengths(&mut self, count: u16) -> [u16; 3] {
        let head = DATA_BLOCK_HEAD as u16;
        let bytes = count + head;
        let other = near(&mut self.rng, count.into()) as u16;
        let other_bytes = other.wrapping_add(head);
        let few = self.rng.below(DATA_BLOCK_HEAD) as u16;
        // ByteCount less 3, in 16 bits.
        let wrapped = few.wrapping_sub(head);
        match self.rng.below(8) {
            0 => [other, count, bytes],
            1 => [count, other, bytes],
            2 => [count, count, other_bytes],
            3 => [other, count.wrapping_add(5), bytes],
            4 => [other, other, bytes],
            5 => [count, other, other_bytes],
            6 => [count, count, few],
            _ => [wrapped, wrapped, few],
        }
    }
}

fn file_of(tables: &Tables, fid: u16) -> u8 {
    tables.open_of(fid).map_or(0, |open| open.file)
}

fn size_of(tables: &Tables, file: u8) -> u32 {
    tables.files[usize::from(file)].size as u32
}

/// Makes a size that is set one behind what a LOCKING before it locks first.
pub(super) fn set_across(ask: &mut Ask, before: &Ask) {
    if let (Ask::CoreWrite { offset, data, .. }, Ask::Locking { locks, .. }) = (ask, before) {
        if let (true, [(_, start, length), ..]) = (data.is_empty(), &locks[..]) {
            *offset = start.wrapping_add(*length) as u32;
        }
    }
}

/// The next lock's start behind a size, or the last one's end before it: as far
/// as no lock bars it.
fn beside_a_lock(tables: &Tables, file: u8, size: u32) -> Option<u32> {
    let size = u128::from(size);
    let ranges = || tables.locks_of(file).map(|(_, lock)| lock.range);
    let above = ranges().map(|range| range.start()).filter(|&start| {
        let inside = start <= FILE_BYTES as u128;
        inside && start > size
    });
    let below = ranges().map(|range| range.end()).filter(|&end| end < size);
    above.min().or(below.max()).map(|place| place as u32)
}
