//! The writers, and their messages read back.

use super::plan::{framed, LONGEST};
use super::sides::Setting;
use super::Streams;

/// Most bytes of a message that a writer takes.
const LONGEST_WRITTEN: usize = 12_292;

impl Streams {
    pub fn written(&mut self) -> Result<(), String> {
        let bytes = self.rng().bytes(131_072);
        for length in 0..LONGEST_WRITTEN + 8 {
            let message = &bytes[length..2 * length];
            for room in [length + 3, length + 4] {
                self.write(message, room)?;
            }
        }
        for length in lengths() {
            for room in rooms(length) {
                self.write(&bytes[..length], room)?;
            }
        }
        Ok(())
    }

    /// Writes a message to a room of so many bytes. What was written must be
    /// read back, or stop the reader if it is too long for that.
    fn write(&mut self, message: &[u8], room: usize) -> Result<(), String> {
        let number = match message.len() {
            length if length > LONGEST_WRITTEN => 1,
            length if room < length + 4 => 2,
            _ => 0,
        };
        let mut filled = vec![self.rng().byte(); room];
        let given = self.write_into(message, &mut filled)?;
        super::expect(&given.0, &number, "writer's number")?;
        if number == 0 {
            let written = &filled[..given.1];
            super::expect(&written, &&framed(message)[..], "message written")?;
            self.read_back(message, written)?;
        }
        Ok(())
    }

    pub fn write_into(&mut self, message: &[u8], room: &mut [u8]) -> Result<(u8, usize), String> {
        let setting = Setting::any(&mut self.planner.rng);
        let given = self.readers.write(message, room, setting)?;
        self.tally.write(message.len(), room.len(), given.0);
        Ok(given)
    }

    /// By a reader that isn't stopped and has nothing begun.
    fn read_back(&mut self, message: &[u8], written: &[u8]) -> Result<(), String> {
        if self.readers.words != [0; 7] {
            self.reset()?;
        }
        let cut = self.rng().below(written.len() + 1);
        let (mut messages, mut number) = self.feed(&written[..cut])?;
        if cut < written.len() {
            let more = self.feed(&written[cut..])?;
            messages.extend(more.0);
            number = more.1;
        }
        let planned = match message.len() > LONGEST {
            true => (Vec::new(), 4),
            false => (vec![message.to_vec()], 0),
        };
        super::expect(&(messages, number), &planned, "written, then read")?;
        if number == 0 {
            self.tally.counts.met("read back");
            super::expect(&self.readers.words, &[0; 7], "state after reading back")?;
        }
        Ok(())
    }
}

/// Lengths around the limits and the powers of 256, and far too long ones.
fn lengths() -> Vec<usize> {
    let mut lengths: Vec<usize> = (0..12).collect();
    for middle in [256, LONGEST, LONGEST_WRITTEN] {
        lengths.extend(middle - 5..middle + 8);
    }
    lengths.extend([16_384, 65_535, 65_536, 65_537, 65_540, 131_072]);
    lengths
}

/// Rooms around what a message needs, and around the limits.
fn rooms(length: usize) -> Vec<usize> {
    let mut rooms: Vec<usize> = (0..8).collect();
    rooms.extend(length.saturating_sub(2)..length + 9);
    for middle in [LONGEST, LONGEST_WRITTEN] {
        rooms.extend(middle - 2..middle + 8);
    }
    rooms.push(131_100);
    rooms
}
