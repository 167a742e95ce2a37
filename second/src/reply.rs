//! The reply, from "Header" and "Reply blocks" of document 01, the core commands'
//! from source document 004 and OPEN_ANDX's from 001.

use crate::commands::{Done, Told};
use crate::grammar::{DATA_BLOCK_HEAD, DATA_MARK, READ, WRITE};
use crate::header::{COMMAND, FLAGS, FLAGS2, FLAGS2_NT_STATUS, HEADER, PID_HIGH, STATUS, TID};
use crate::refusals::WireRefusal;
use crate::request::u16_at;
use crate::status::StatusForm;

/// "Flags2 keeps only 0x0001", and "with the bit set in a request, the reply sets
/// it" (document 02, request 7).
const FLAGS2_KEPT: u16 = 0x0001 | FLAGS2_NT_STATUS;

/// A reply under construction at the start of the room.
pub struct Reply<'r> {
    room: &'r mut [u8],
    length: usize,
    /// The place of AndX in the last block, if it has one.
    andx: Option<usize>,
}

impl<'r> Reply<'r> {
    /// "A reply copies Command, PIDHigh, TID, PIDLow, UID and MID; Flags is
    /// 0x80 plus the request's 0x08; Flags2 keeps only 0x0001 [and 0x4000]; the
    /// rest is 0 but for Status."
    pub fn new(room: &'r mut [u8], request: &[u8]) -> Reply<'r> {
        let header = &mut room[..HEADER];
        header.fill(0);
        header[..4].copy_from_slice(&request[..4]);
        header[COMMAND] = request[COMMAND];
        header[FLAGS] = 0x80 | request[FLAGS] & 0x08;
        let flags2 = u16_at(request, FLAGS2) & FLAGS2_KEPT;
        header[FLAGS2..FLAGS2 + 2].copy_from_slice(&flags2.to_le_bytes());
        header[PID_HIGH..PID_HIGH + 2].copy_from_slice(&request[PID_HIGH..PID_HIGH + 2]);
        // TID, PIDLow, UID and MID stand together at the end.
        header[TID..].copy_from_slice(&request[TID..HEADER]);
        Reply {
            room,
            length: HEADER,
            andx: None,
        }
    }

    /// Adds the block of a command that was done.
    pub fn done(&mut self, command: u8, done: &Done, memory: &[u8]) {
        self.link(command);
        match (done, command) {
            (Done::Plain, _) => self.block::<0>([], &[]),
            (Done::Linked, _) => self.andx_block([], &[]),
            (Done::Read(place), READ) => self.data_block(&memory[place.clone()]),
            (Done::Written(count), WRITE) => self.block([*count], &[]),
            // "AndX, 0xFFFF, 0, 0, length, data offset, ten zero bytes; the
            // bytes are the data"
            (Done::Read(place), _) => {
                let data = &memory[place.clone()];
                // Behind WordCount, 12 words and ByteCount.
                let data_offset = (self.length + 1 + 24 + 2) as u16;
                let length = data.len() as u16;
                self.andx_block([0xFFFF, 0, 0, length, data_offset, 0, 0, 0, 0, 0], data);
            }
            // "AndX, count, 0xFFFF, four zero bytes"
            (Done::Written(count), _) => self.andx_block([*count, 0xFFFF, 0, 0], &[]),
            (Done::Opened { fid, told }, _) => self.opened_block(*fid, *told),
        }
    }

    /// AndX, FID, FileAttrs, LastWriteTime (2 words), FileDataSize (2), AccessRights,
    /// ResourceType, NMPipeStatus, OpenResults, Reserved (3). "Zero after the FID
    /// with the block's Flags bit 0 clear; with it set the size, the access and
    /// OpenResults 1, the rest zero."
    fn opened_block(&mut self, fid: u16, told: Option<Told>) {
        let [mut low, mut high, mut access, mut results] = [0; 4];
        if let Some(told) = told {
            (low, high) = (told.size as u16, (told.size >> 16) as u16);
            (access, results) = (told.access.into(), 1);
        }
        let words = [fid, 0, 0, 0, low, high, access, 0, 0, results, 0, 0, 0];
        self.andx_block(words, &[]);
    }

    /// "A refused command or message gives WordCount 0 and ByteCount 0, and
    /// Status stands in the header", in the form that the header names.
    pub fn refused(&mut self, command: u8, refusal: WireRefusal) {
        self.link(command);
        self.block::<0>([], &[]);
        let status = refusal.status(StatusForm::of(self.room));
        self.room[STATUS..STATUS + 4].copy_from_slice(&status.value.to_le_bytes());
    }

    pub fn length(&self) -> usize {
        self.length
    }

    /// "AndX names the next block written": its command and its place.
    fn link(&mut self, command: u8) {
        if let Some(place) = self.andx.take() {
            let offset = (self.length as u16).to_le_bytes();
            self.room[place..place + 4].copy_from_slice(&[command, 0, offset[0], offset[1]]);
        }
    }

    /// Adds a block that begins with AndX, "with none it is FF 00 00 00".
    fn andx_block<const N: usize>(&mut self, words: [u16; N], bytes: &[u8]) {
        self.put(&[(2 + N) as u8]);
        self.andx = Some(self.length);
        self.put(&[0xFF, 0, 0, 0]);
        self.put_rest(words, bytes);
    }

    fn block<const N: usize>(&mut self, words: [u16; N], bytes: &[u8]) {
        self.put(&[N as u8]);
        self.put_rest(words, bytes);
    }

    /// "READ 5 words (count, eight zero bytes), bytes 01, length, data, also when
    /// there is no data (ByteCount 3)".
    fn data_block(&mut self, data: &[u8]) {
        let length = data.len() as u16;
        self.put(&[5]);
        self.put_words([length, 0, 0, 0, 0]);
        self.put_words([length + DATA_BLOCK_HEAD as u16]);
        self.put(&[DATA_MARK]);
        self.put_words([length]);
        self.put(data);
    }

    /// The words, ByteCount, the bytes.
    fn put_rest<const N: usize>(&mut self, words: [u16; N], bytes: &[u8]) {
        self.put_words(words);
        self.put_words([bytes.len() as u16]);
        self.put(bytes);
    }

    fn put_words<const N: usize>(&mut self, words: [u16; N]) {
        for word in words {
            self.put(&word.to_le_bytes());
        }
    }

    fn put(&mut self, bytes: &[u8]) {
        self.room[self.length..self.length + bytes.len()].copy_from_slice(bytes);
        self.length += bytes.len();
    }
}
