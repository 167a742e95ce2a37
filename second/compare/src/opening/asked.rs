//! What became of OPEN_ANDX and of what followed it, told from the message, the
//! reply, and the tables before and after.

use super::Opening;
use crate::tally::commands;
use second::grammar::{
    blocks, Block, Why, CLOSE, LOCKING_ANDX, LOCK_BYTE_RANGE, READ, READ_ANDX, UNLOCK_BYTE_RANGE,
    WRITE, WRITE_ANDX,
};
use second::header::header_numbers;
use second::listing::dropped;
use second::refusals::WireRefusal::{self, *};
use second::request::{Request, ToOpen, JUST_OPENED};
use second::status::class_and_code;
use second::tables::{denied, Open, Tables, OPENS};

const AMONG: [&str; 2] = ["OPEN alone", "OPEN before READ"];

/// What an OPEN_ANDX can be refused for.
const REFUSALS: [WireRefusal; 8] = [
    NoSession,
    NoTree,
    NotSupported,
    AccessCode,
    NoName,
    Access,
    Sharing,
    NoFid,
];

const CODES: [&str; 2] = ["1/12: access code alone", "1/12: sharing code alone"];
const NAMES: [&str; 4] = [
    "1/2: no byte",
    "1/2: more than 12 bytes",
    "1/2: the catalogue is empty",
    "1/2: another name",
];
const IN_THE_WAY: [&str; 6] = [
    "1/32: asks what another denies, and no more",
    "1/32: denies what another has, and no more",
    "1/32: for a host's open alone",
    "1/32: for the asker's own open alone",
    "1/32: for another session's open alone",
    "1/32: for the last of several opens of the file",
];
const OPENED: [&str; 10] = [
    "opened, Flags bit 0 clear",
    "opened, Flags bit 0 set",
    "opened, Flags bit 0 set, of a size other than 0",
    "opened, other bits of Flags and AccessMode set",
    "opened by the name as it stands",
    "opened by another case",
    "opened beside other opens of the file",
    "opened by one of several names of the file",
    "opened with a FID below another in use",
    "opened, the 64th",
];
/// A READ behind an OPEN_ANDX that was done: of 0xFFFF, of the FID that the open
/// got, and of another; then a CLOSE.
const BEHIND: [&str; 7] = [
    "READ of 0xFFFF behind OPEN: done",
    "READ of 0xFFFF behind OPEN: 1/5",
    "READ of 0xFFFF behind OPEN: 1/33",
    "READ of the FID given behind OPEN: done",
    "READ of another FID behind OPEN: done",
    "READ of another FID behind OPEN: 1/6",
    "CLOSE of the FID given behind OPEN and READ: done",
];
/// Where FID 0xFFFF is an unknown FID.
const ELSEWHERE: [&str; 10] = [
    "LOCKING",
    "READ",
    "READ behind others",
    "WRITE",
    "CLOSE",
    "CLOSE behind OPEN and READ",
    "core READ",
    "core WRITE",
    "LOCK",
    "UNLOCK",
];
const MALFORMED: [&str; 3] = [
    "2/1: a name without its zero byte",
    "2/1: no byte at all",
    "2/1: a name with a zero byte",
];
const REMOVALS: [&str; 8] = [
    "CLOSE",
    "PROCESS_EXIT",
    "TREE_DISCONNECT",
    "LOGOFF",
    "drop",
    "end_session",
    "end_tree",
    "end_open",
];

/// All that must be met.
pub(super) fn required() -> Vec<String> {
    let lists: [&[&str]; 6] = [&CODES, &NAMES, &IN_THE_WAY, &OPENED, &BEHIND, &MALFORMED];
    let mut all: Vec<String> = Vec::new();
    for among in AMONG {
        all.push(format!("{among}: done"));
        all.extend(REFUSALS.map(|refusal| format!("{among}: {}", code(refusal.class_and_code()))));
    }
    all.extend(lists.concat().into_iter().map(str::to_string));
    for access in 0..3 {
        all.extend((1..5).map(|sharing| opened_with(access, sharing)));
    }
    all.extend(ELSEWHERE.map(elsewhere));
    all.extend(REMOVALS.map(removed));
    all
}

fn code(status: (u8, u16)) -> String {
    match status {
        (0, 0) => "done".to_string(),
        (class, code) => format!("{class}/{code}"),
    }
}

fn opened_with(access: u8, sharing: u8) -> String {
    format!("opened with access {access}, sharing {sharing}")
}

fn elsewhere(which: &str) -> String {
    format!("0xFFFF elsewhere, 1/6: {which}")
}

pub(super) fn removed(by: &str) -> String {
    format!("open by name removed by {by}")
}

/// A sentence that was taken.
struct Sentence<'m> {
    /// The commands begun, with their requests.
    begun: Vec<(u8, Request<'m>)>,
    /// The blocks in all.
    blocks: usize,
    /// UID, TID and process.
    asker: (u16, u16, u32),
    /// Class and code.
    status: (u8, u16),
    /// The FID in the reply's first block, if that is of an OPEN_ANDX.
    given: Option<u16>,
}

impl<'m> Sentence<'m> {
    fn new(message: &'m [u8], read: &[Block], reply: &[u8]) -> Sentence<'m> {
        let begun = commands(message, reply).len();
        let requests = read.iter().take(begun);
        let requests = requests.map(|b| (b.command, Request::read(message, b)));
        Sentence {
            begun: requests.collect(),
            blocks: read.len(),
            asker: header_numbers(message),
            status: class_and_code(reply),
            given: match reply[32] {
                15 => Some(u16::from_le_bytes([reply[37], reply[38]])),
                _ => None,
            },
        }
    }

    /// What became of the command at a place.
    fn answer(&self, place: usize) -> String {
        match place + 1 == self.begun.len() {
            true => code(self.status),
            false => code((0, 0)),
        }
    }
}

impl Opening {
    pub(super) fn count_message(
        &mut self,
        message: &[u8],
        reply: &[u8],
        before: &Tables,
        after: &Tables,
    ) {
        if dropped(message).is_some() {
            return;
        }
        match blocks(message).collect::<Result<Vec<Block>, _>>() {
            Ok(read) => {
                let sentence = Sentence::new(message, &read, reply);
                self.count_open(&sentence, before);
                self.count_behind(&sentence);
                self.count_elsewhere(&sentence);
                self.count_removal(&sentence, before, after);
                if let Some(fid) = sentence.given {
                    self.hosts.remove(&fid);
                }
            }
            // ByteCount of a first block of 15 words.
            Err(reason) => match (reason.why, message.get(63..65)) {
                (Why::NameEnd, Some([0, 0])) => self.counts.met(MALFORMED[1]),
                (Why::NameEnd, _) => self.counts.met(MALFORMED[0]),
                (Why::NameZero, _) => self.counts.met(MALFORMED[2]),
                _ => {}
            },
        }
    }

    fn count_open(&mut self, sentence: &Sentence, before: &Tables) {
        let (_, Request::Open(asked)) = sentence.begun[0] else {
            return;
        };
        let answer = sentence.answer(0);
        self.counts.met(format!(
            "{}: {answer}",
            AMONG[usize::from(sentence.blocks > 1)]
        ));
        let code = |from: u16| (asked.access_mode >> from & 7) as u8;
        let (access, sharing) = (code(0), code(4));
        match answer.as_str() {
            "1/12" => {
                let known = (1..5).contains(&sharing);
                self.counts.met_if(known, CODES[0]);
                self.counts.met_if(!known && access < 3, CODES[1]);
            }
            "1/2" => self.counts.met(match asked.name.len() {
                0 => NAMES[0],
                13.. => NAMES[1],
                _ if before.catalogue.count == 0 => NAMES[2],
                _ => NAMES[3],
            }),
            "1/32" => self.count_sharing(sentence, &asked, (access, sharing), before),
            "done" => {
                self.counts.met(opened_with(access, sharing));
                self.count_opened(sentence, &asked, before);
            }
            _ => {}
        }
    }

    /// Which opens are in the way, and why.
    fn count_sharing(
        &mut self,
        sentence: &Sentence,
        asked: &ToOpen,
        (access, sharing): (u8, u8),
        before: &Tables,
    ) {
        let file = before.catalogue.file(asked.name);
        let opens = before.opens.in_use().iter();
        let opens: Vec<&Open> = opens.filter(|open| Some(open.file) == file).collect();
        let asks = |open: &Open| denied(access, open.sharing);
        let denies = |open: &Open| denied(open.access, sharing);
        let barring = opens.iter().filter(|open| asks(open) || denies(open));
        let barring: Vec<&Open> = barring.copied().collect();
        let all = |test: &dyn Fn(&Open) -> bool| barring.iter().all(|open| test(open));
        let (uid, tid, process) = sentence.asker;
        let hosts = all(&|open| self.hosts.contains(&open.fid));
        let last = barring.len() == 1 && opens.len() > 1 && opens.last() == barring.last();
        for (holds, what) in [
            all(&|open| asks(open) && !denies(open)),
            all(&|open| denies(open) && !asks(open)),
            hosts,
            all(&|open| (open.uid, open.tid, open.process) == (uid, tid, process)),
            all(&|open| open.uid != uid),
            last,
        ]
        .into_iter()
        .zip(IN_THE_WAY)
        {
            self.counts.met_if(holds, what);
        }
    }

    fn count_opened(&mut self, sentence: &Sentence, asked: &ToOpen, before: &Tables) {
        let names = before.catalogue.in_use();
        let Some(file) = before.catalogue.file(asked.name) else {
            return;
        };
        let told = asked.flags & 1 == 1;
        let size = before.files[usize::from(file)].size;
        let as_it_stands = names.iter().any(|name| name.bytes() == asked.name);
        let mut opens = before.opens.in_use().iter();
        let above = opens.clone().any(|open| Some(open.fid) > sentence.given);
        for (holds, what) in [
            !told,
            told,
            told && size > 0,
            asked.flags & !1 != 0 && asked.access_mode & !0x77 != 0,
            as_it_stands,
            !as_it_stands,
            opens.any(|open| open.file == file),
            names.iter().filter(|name| name.file == file).count() > 1,
            above,
            before.opens.count == OPENS - 1,
        ]
        .into_iter()
        .zip(OPENED)
        {
            self.counts.met_if(holds, what);
        }
    }

    /// What is behind an OPEN_ANDX that was done.
    fn count_behind(&mut self, sentence: &Sentence) {
        let Some(given) = sentence.given else {
            return;
        };
        if let Some((_, Request::Read { fid, .. })) = sentence.begun.get(1) {
            let which = match *fid {
                JUST_OPENED => "0xFFFF",
                fid if fid == given => "the FID given",
                _ => "another FID",
            };
            let what = format!("READ of {which} behind OPEN: {}", sentence.answer(1));
            self.counts.met(what);
        }
        if let Some((_, Request::Close { fid })) = sentence.begun.get(2) {
            let closed = *fid == given && sentence.answer(2) == "done";
            self.counts.met_if(closed, BEHIND[6]);
        }
    }

    /// FID 0xFFFF that is not in a READ directly behind an OPEN_ANDX.
    fn count_elsewhere(&mut self, sentence: &Sentence) {
        let place = sentence.begun.len() - 1;
        let (command, request) = &sentence.begun[place];
        let opened = sentence.given.is_some();
        let behind = opened && place == 1;
        if fid_of(request) != Some(JUST_OPENED) || behind || sentence.status != (1, 6) {
            return;
        }
        self.counts.met(elsewhere(match *command {
            LOCKING_ANDX => "LOCKING",
            READ_ANDX if place > 0 => "READ behind others",
            READ_ANDX => "READ",
            WRITE_ANDX => "WRITE",
            CLOSE if opened => "CLOSE behind OPEN and READ",
            CLOSE => "CLOSE",
            READ => "core READ",
            WRITE => "core WRITE",
            LOCK_BYTE_RANGE => "LOCK",
            UNLOCK_BYTE_RANGE => "UNLOCK",
            _ => return,
        }));
    }

    fn count_removal(&mut self, sentence: &Sentence, before: &Tables, after: &Tables) {
        let by = match sentence.begun[0].1 {
            Request::Close { .. } => REMOVALS[0],
            Request::ProcessExit => REMOVALS[1],
            Request::TreeDisconnect => REMOVALS[2],
            Request::Logoff => REMOVALS[3],
            _ => return,
        };
        self.count_gone(by, before, after);
    }
}

fn fid_of(request: &Request) -> Option<u16> {
    match *request {
        Request::Locking { fid, .. }
        | Request::Read { fid, .. }
        | Request::Write { fid, .. }
        | Request::Resize { fid, .. }
        | Request::Lock { fid, .. }
        | Request::Unlock { fid, .. }
        | Request::Close { fid } => Some(fid),
        _ => None,
    }
}
