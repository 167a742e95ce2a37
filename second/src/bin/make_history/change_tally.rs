//! Counts what a history reaches of change numbers (document 02, request 8).

use super::{reply_blocks, Tally};
use crate::calls::Answer;
use second::grammar::{Block, READ, WRITE};
use second::header::header_numbers;
use second::request::{Request, JUST_OPENED};
use second::status::class_and_code;
use second::tables::Tables;

/// With the least count.
const REQUIRED: [(&str, usize); 22] = [
    ("asked: unchanged", 50),
    ("asked: changed, never read", 20),
    ("asked: changed, raised by one", 20),
    ("asked: changed, raised by more", 20),
    ("asked: 6 for a FID of 1 to 64", 10),
    ("asked: 6 for another FID", 4),
    ("raised by WRITE", 50),
    ("raised by core WRITE", 10),
    ("raised by a size", 10),
    ("raised by a load", 10),
    ("raised by an empty load", 2),
    ("raised more than once in a chain", 2),
    ("not raised by a WRITE of no byte", 5),
    ("not raised by a size that is kept", 5),
    ("not raised by a refused write", 10),
    ("READ remembers", 50),
    ("core READ remembers", 20),
    ("READ of 0 bytes remembers", 5),
    ("core READ of 0 bytes remembers", 2),
    ("READ behind a WRITE remembers the number after it", 2),
    ("READ of the file just opened remembers", 2),
    ("READ refused does not remember", 10),
];

pub fn required() -> Vec<(String, usize)> {
    REQUIRED
        .map(|(what, least)| (what.to_string(), least))
        .into()
}

/// Whether an open has read, and what it remembers.
fn remembered(tables: &Tables, fid: u16) -> Option<(bool, u64)> {
    let open = tables.open_of(fid)?;
    Some((open.read, open.seen))
}

impl Tally {
    pub(super) fn note_question(&mut self, fid: u32, answer: &Answer, tables: &Tables) {
        let open = u16::try_from(fid).ok().and_then(|fid| tables.open_of(fid));
        let raised = open.map(|open| {
            let number = tables.files[usize::from(open.file)].changes;
            (open.read, number - open.seen)
        });
        self.count(match (answer.number, answer.value, raised) {
            (0, 1, _) => "asked: unchanged",
            (0, _, Some((false, _))) => "asked: changed, never read",
            (0, _, Some((true, 1))) => "asked: changed, raised by one",
            (0, _, _) => "asked: changed, raised by more",
            _ if (1..=64).contains(&fid) => "asked: 6 for a FID of 1 to 64",
            _ => "asked: 6 for another FID",
        });
    }

    pub(super) fn note_load(&mut self, empty: bool, answer: &Answer) {
        self.count(format!("load a file: {}", answer.number));
        let done = answer.number == 0;
        self.count_if(done, "raised by a load");
        self.count_if(done && empty, "raised by an empty load");
    }

    /// The last command begun of a sentence, if it reads or writes.
    pub(super) fn note_changes(
        &mut self,
        message: &[u8],
        blocks: &[Block],
        reply: &[u8],
        (before, after): (&Tables, &Tables),
    ) {
        let begun = reply_blocks(reply).len();
        let (uid, tid, _) = header_numbers(message);
        let done = class_and_code(reply) == (0, 0);
        let numbers = |tables: &Tables| tables.files.map(|file| file.changes);
        let changed = numbers(before) != numbers(after);
        let mut raised = numbers(before).into_iter().zip(numbers(after));
        let more = raised.any(|(before, after)| after > before + 1);
        self.count_if(more, "raised more than once in a chain");
        let block = &blocks[begun - 1];
        let core = [READ, WRITE].contains(&block.command);
        let core = if core { "core " } else { "" };
        match Request::read(message, block) {
            Request::Write { fid, data, .. } if before.open(fid, uid, tid).is_some() => {
                self.count_if(done && changed, &format!("raised by {core}WRITE"));
                let none = done && data.is_empty() && begun == 1;
                self.count_if(none, "not raised by a WRITE of no byte");
                self.count_if(!done && !changed, "not raised by a refused write");
            }
            Request::Resize { fid, .. } if before.open(fid, uid, tid).is_some() => {
                self.count_if(done && changed, "raised by a size");
                self.count_if(done && !changed, "not raised by a size that is kept");
                self.count_if(!done, "not raised by a refused write");
            }
            Request::Read { fid, range } => {
                let just = fid == JUST_OPENED && before.opens.count < after.opens.count;
                let fid = if just { before.next_fid() } else { fid };
                let new = remembered(before, fid) != remembered(after, fid);
                self.count_if(done && new, &format!("{core}READ remembers"));
                let none = done && new && range.length == 0;
                self.count_if(none, &format!("{core}READ of 0 bytes remembers"));
                let behind = done && new && changed;
                self.count_if(behind, "READ behind a WRITE remembers the number after it");
                let what = "READ of the file just opened remembers";
                self.count_if(done && new && just, what);
                let known = before.open(fid, uid, tid).is_some();
                self.count_if(!done && known && !new, "READ refused does not remember");
            }
            _ => {}
        }
    }
}
