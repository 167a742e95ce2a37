//! A small gateway to try messages on.
#![allow(dead_code)]

use second::builder::{locking, message, set_status_form, Ask, Asked, Header};
use second::catalogue::{Catalogue, Name};
use second::holder::Holder;
use second::host;
use second::message::{take_message, Taken, ROOM_BYTES};
use second::refusals::Outcome;
use second::status::StatusForm;
use second::tables::{Table, Tables, MEMORY_BYTES};

/// FID, process, place, offset and length.
pub type Held = (u16, u32, usize, u64, u64);

pub const CONNECTION: u32 = 9;

pub struct World {
    pub tables: Tables,
    pub memory: Vec<u8>,
    pub connection: u32,
    pub header: Header,
    /// The form of Status that its messages ask for.
    pub form: StatusForm,
    /// Who held the lock when the last message was refused 1/33.
    pub holder: Option<Holder>,
}

impl World {
    /// UID 1 on connection 9; TID 1, read/write; FID 1 of process 7, file 0,
    /// access both. File 0 holds `size` bytes 1, 2, 3, ..., the rest 0xEE.
    pub fn with_size(size: usize) -> World {
        let mut tables = Tables::empty();
        let mut memory = vec![0xEE; MEMORY_BYTES];
        assert_eq!(host::add_session(&mut tables, CONNECTION), Ok(1));
        assert_eq!(host::add_tree(&mut tables, 1, 1), Ok(1));
        assert_eq!(host::add_open(&mut tables, 1, 1, 7, 0, 2), Ok(1));
        tables.files[0].size = size as u64;
        for (place, byte) in memory[..size].iter_mut().enumerate() {
            *byte = (place + 1) as u8;
        }
        World {
            tables,
            memory,
            connection: CONNECTION,
            header: Header {
                tid: 1,
                pid: 7,
                uid: 1,
            },
            form: StatusForm::Smb,
            holder: None,
        }
    }

    /// The reply to a message, taken with the least room.
    pub fn take(&mut self, message: &[u8]) -> Outcome<Vec<u8>> {
        let mut room = vec![0xA5; ROOM_BYTES];
        self.holder = None;
        let Taken { length, holder } = take_message(
            &mut self.tables,
            self.connection,
            message,
            &mut self.memory,
            &mut room,
        )?;
        assert!(room[length..].iter().all(|&byte| byte == 0xA5));
        assert!(self.tables.sound());
        room.truncate(length);
        self.holder = holder;
        assert_eq!(holder.is_some(), status(&room) == (1, 33));
        Ok(room)
    }

    pub fn message(&self, asks: &[Ask]) -> Vec<u8> {
        let mut message = message(self.header, asks, &mut || 0, &mut || 0);
        set_status_form(&mut message, self.form);
        message
    }

    /// The reply to a chain.
    pub fn ask(&mut self, asks: &[Ask]) -> Vec<u8> {
        let message = self.message(asks);
        self.take(&message).unwrap()
    }

    /// Class and code of the reply to one request. If refused, nothing was
    /// changed and the block is WordCount 0, ByteCount 0.
    pub fn status(&mut self, ask: Ask) -> (u8, u16) {
        let before = (self.tables.clone(), self.memory.clone());
        let reply = self.ask(&[ask]);
        let status = status(&reply);
        if status != (0, 0) {
            assert_eq!(reply[32..], [0, 0, 0]);
            assert!(before == (self.tables.clone(), self.memory.clone()));
        }
        status
    }
}

/// A catalogue of these names and files.
pub fn catalogue(names: &[(&[u8], u8)]) -> Catalogue {
    let mut catalogue = Table::empty();
    for &(name, file) in names {
        catalogue.push(Name::new(name, file));
    }
    catalogue
}

/// A holder's numbers.
pub fn held(Holder { place, lock }: Holder) -> Held {
    let range = lock.range;
    (lock.fid, lock.process, place, range.offset, range.length)
}

pub use second::status::class_and_code as status;

/// Locks, exclusive, in ranges of 20 bytes.
pub fn lock(fid: u16, ranges: &[Asked]) -> Ask {
    locking(fid, 0x10, &[], ranges)
}

pub fn share(fid: u16, ranges: &[Asked]) -> Ask {
    locking(fid, 0x11, &[], ranges)
}

pub fn unlock(fid: u16, ranges: &[Asked]) -> Ask {
    locking(fid, 0x10, ranges, &[])
}

pub fn read(fid: u16, offset: u64, max: u16) -> Ask {
    Ask::Read {
        fid,
        offset,
        max,
        long: true,
    }
}

pub fn write(fid: u16, offset: u64, data: &[u8]) -> Ask {
    Ask::Write {
        fid,
        offset,
        data: data.to_vec(),
        long: true,
        around: (0, 0),
    }
}

/// Bytes from hex digits; spaces are free.
pub fn hex(digits: &str) -> Vec<u8> {
    let digits: Vec<u8> = digits.bytes().filter(|&b| b != b' ').collect();
    digits
        .chunks(2)
        .map(|pair| u8::from_str_radix(std::str::from_utf8(pair).unwrap(), 16).unwrap())
        .collect()
}
