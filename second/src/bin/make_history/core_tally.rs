//! Counts what a history reaches of the core commands: the reads, and what a
//! WRITE of count 0 made of the size (document 02, request 3).

use super::{refusal_name, reply_blocks, Tally};
use second::grammar::Block;
use second::header::header_numbers;
use second::request::Request;
use second::status::class_and_code;
use second::tables::{Lock, Range, Tables, FILE_BYTES};

/// With the least count.
const REQUIRED: [(&str, usize); 16] = [
    ("core read of 0 bytes", 5),
    ("core read of fewer bytes than asked", 5),
    ("core read of 4096 bytes", 1),
    ("size raised: done", 10),
    ("size lowered: done", 10),
    ("size kept: done", 5),
    ("size raised: refused 1/33", 5),
    ("size lowered: refused 1/33", 5),
    ("size past 4096: refused 1/33", 3),
    ("size past 4096: refused 3/39", 5),
    ("size raised in a chain: done", 2),
    ("size lowered in a chain: done", 2),
    ("size lowered in a chain: refused 1/33", 2),
    ("size past 4096 in a chain: refused 3/39", 2),
    ("size changed over an own exclusive lock", 3),
    ("size refused for an own shared lock", 3),
];

pub fn required() -> Vec<(String, usize)> {
    REQUIRED
        .map(|(what, least)| (what.to_string(), least))
        .into()
}

impl Tally {
    /// A WRITE of count 0, the last of its sentence. What comes before it in a
    /// chain changes no size.
    pub(super) fn note_core(
        &mut self,
        message: &[u8],
        blocks: &[Block],
        reply: &[u8],
        before: &Tables,
    ) {
        let block = &blocks[blocks.len() - 1];
        let Request::Resize { fid, size } = Request::read(message, block) else {
            return;
        };
        let (uid, tid, process) = header_numbers(message);
        let begun = reply_blocks(reply).len() == blocks.len();
        let Some(open) = before.open(fid, uid, tid).filter(|_| begun) else {
            return;
        };
        let old = before.files[usize::from(open.file)].size;
        let change = match size.cmp(&old) {
            _ if size > FILE_BYTES as u64 => "past 4096",
            std::cmp::Ordering::Less => "lowered",
            std::cmp::Ordering::Equal => "kept",
            std::cmp::Ordering::Greater => "raised",
        };
        let among = if blocks.len() > 1 { " in a chain" } else { "" };
        let done = class_and_code(reply) == (0, 0);
        let answer = match done {
            true => "done".to_string(),
            false => refusal_name(class_and_code(reply)),
        };
        self.count(format!("size {change}{among}: {answer}"));
        let between = Range {
            offset: old.min(size),
            length: old.abs_diff(size),
        };
        let own = |lock: &&Lock| {
            (lock.fid, lock.process) == (fid, process) && lock.range.overlaps(between)
        };
        let mut own = before.locks.in_use().iter().filter(own);
        let exclusive = own.clone().any(|lock| !lock.shared);
        self.count_if(done && exclusive, "size changed over an own exclusive lock");
        let shared = own.any(|lock| lock.shared) && class_and_code(reply) == (1, 33);
        self.count_if(shared, "size refused for an own shared lock");
    }
}
