//! Counts what a history reaches of opening by name (document 02, request 6).

use super::{refusal_name, reply_blocks, Tally};
use second::grammar::{Block, CLOSE, OPEN_ANDX};
use second::request::{Request, JUST_OPENED};
use second::status::class_and_code;
use second::tables::Tables;

/// With the least count.
const REQUIRED: [(&str, usize); 16] = [
    ("set the catalogue: 0", 3),
    ("set the catalogue: 7", 5),
    ("catalogue of 16 names set", 1),
    ("empty catalogue set", 1),
    ("opened, told the FID alone", 20),
    ("opened, told size and access", 5),
    ("opened by another case", 20),
    ("FID of an open by name used again", 20),
    ("READ of the file just opened: done", 5),
    ("READ of the file just opened: refused 1/5", 1),
    ("READ of the file just opened: refused 1/33", 1),
    ("READ of another FID behind OPEN: done", 1),
    ("READ of another FID behind OPEN: refused 1/6", 1),
    ("FID 0xFFFF elsewhere: refused 1/6", 5),
    ("CLOSE of FID 0xFFFF behind that READ: refused 1/6", 1),
    ("OPEN refused for a host's open", 2),
];

pub fn required() -> Vec<(String, usize)> {
    let codes = (0..3).flat_map(|access| (1..=4).map(move |sharing| (access, sharing)));
    let mut all: Vec<_> = REQUIRED
        .map(|(what, least)| (what.to_string(), least))
        .into();
    all.extend(codes.map(|(access, sharing)| (opened_with(access, sharing), 2)));
    all
}

fn opened_with(access: u16, sharing: u16) -> String {
    format!("opened with access {access}, sharing {sharing}")
}

impl Tally {
    pub(super) fn note_catalogue(&mut self, names: u64, number: u8) {
        self.count(format!("set the catalogue: {number}"));
        let done = number == 0;
        self.count_if(done && names == 16, "catalogue of 16 names set");
        self.count_if(done && names == 0, "empty catalogue set");
    }

    /// Every FID 0xFFFF of a sentence, and its OPEN_ANDX.
    pub(super) fn note_opening(
        &mut self,
        message: &[u8],
        blocks: &[Block],
        reply: &[u8],
        before: &Tables,
    ) {
        let places = reply_blocks(reply);
        let refused = class_and_code(reply) != (0, 0);
        for (index, (block, &place)) in blocks.iter().zip(&places).enumerate() {
            let answer = match refused && index + 1 == places.len() {
                true => refusal_name(class_and_code(reply)),
                false => "done".to_string(),
            };
            if block.command == OPEN_ANDX {
                self.note_opened(message, block, &reply[place..], &answer, before);
            } else {
                let behind = index > 0 && blocks[index - 1].command == OPEN_ANDX;
                self.note_just_opened(message, block, behind, &answer);
            }
        }
    }

    fn note_opened(
        &mut self,
        message: &[u8],
        block: &Block,
        reply: &[u8],
        answer: &str,
        before: &Tables,
    ) {
        let Request::Open(asked) = Request::read(message, block) else {
            return;
        };
        if answer == "refused 1/32" {
            let file = before.catalogue.file(asked.name);
            let mut opens = before.opens.in_use().iter();
            // Of those that the host adds none denies anything.
            let hosts = opens.all(|open| Some(open.file) != file || open.sharing == 4);
            self.count_if(hosts, "OPEN refused for a host's open");
        }
        if answer != "done" {
            return;
        }
        self.count_if(asked.flags & 1 == 0, "opened, told the FID alone");
        self.count_if(asked.flags & 1 == 1, "opened, told size and access");
        let mut names = before.catalogue.in_use().iter();
        let same = names.any(|name| name.bytes() == asked.name);
        self.count_if(!same, "opened by another case");
        self.count(opened_with(
            asked.access_mode & 7,
            asked.access_mode >> 4 & 7,
        ));
        let fid = usize::from(reply[5]);
        let again = !self.given.insert(("FID by name", fid));
        self.count_if(again, "FID of an open by name used again");
    }

    fn note_just_opened(&mut self, message: &[u8], block: &Block, behind: bool, answer: &str) {
        let fid = match Request::read(message, block) {
            Request::Read { fid, .. }
            | Request::Write { fid, .. }
            | Request::Locking { fid, .. }
            | Request::Close { fid } => fid,
            _ => return,
        };
        let closing = block.command == CLOSE && block.offset > 32;
        match (fid == JUST_OPENED, behind) {
            (true, true) => self.count(format!("READ of the file just opened: {answer}")),
            (false, true) => self.count(format!("READ of another FID behind OPEN: {answer}")),
            (true, false) if closing => {
                self.count(format!("CLOSE of FID 0xFFFF behind that READ: {answer}"))
            }
            (true, false) => self.count(format!("FID 0xFFFF elsewhere: {answer}")),
            (false, false) => {}
        }
    }
}
