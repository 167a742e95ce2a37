//! Counts what request 8 of document 02 brings: the answers to the question whether
//! a file is unchanged, each with what made it so; what reads remember; change
//! numbers raised and at their largest; and tables that are not sound for these
//! numbers alone. What befell a file since an open read it is followed here.

mod question;
mod soundness;

use crate::counts::Counts;
use crate::places;
use crate::sides::Given;
use crate::tally::{commands, Around};
use second::call::Call;
use second::grammar::{blocks, is_andx};
use second::header::header_numbers;
use second::listing::dropped;
use second::request::Request;
use second::status::class_and_code;
use second::tables::{Open, Tables, LARGEST_CHANGE};
use second::words::Words;
use std::collections::{BTreeMap, BTreeSet};

/// A READ that remembers has not read before, or remembered another number.
const REMEMBERED: [&str; 12] = [
    "READ_ANDX remembers",
    "core READ remembers",
    "READ_ANDX that asks no byte remembers",
    "core READ that asks no byte remembers",
    "READ_ANDX past the end remembers",
    "core READ past the end remembers",
    "READ behind a WRITE in one chain remembers the number after it",
    "READ of FID 0xFFFF behind OPEN_ANDX remembers a number that is not 0",
    "READ_ANDX refused 1/5 does not remember",
    "READ_ANDX refused 1/33 does not remember",
    "core READ refused 1/5 does not remember",
    "core READ refused 1/33 does not remember",
];
const RAISED: [&str; 9] = [
    "raised by WRITE_ANDX",
    "raised by core WRITE",
    "raised by a larger size",
    "raised by a smaller size",
    "raised by a load",
    "raised by an empty load",
    "raised more than once in a chain",
    "raised by a WRITE of the bytes that stand there",
    "raised to the largest in a chain of more writes",
];
const STAYS: [&str; 4] = [
    "stays at the largest on WRITE_ANDX",
    "stays at the largest on core WRITE",
    "stays at the largest on a size",
    "stays at the largest on a load",
];

/// What befell the file of an open since it read last, or since it was opened.
#[derive(Clone, Copy, Debug, PartialEq, Eq, PartialOrd, Ord)]
enum Event {
    OwnBytes,
    OthersBytes,
    Size,
    RefusedWrite,
    RefusedSize,
    NoByte,
    SameSize,
    RefusedRead,
    OthersReadOrEnd,
}

impl Event {
    fn changes(self) -> bool {
        matches!(self, Event::OwnBytes | Event::OthersBytes | Event::Size)
    }
}

#[derive(Default)]
pub struct Changes {
    counts: Counts,
    /// The words for opens and files that the last call on sound tables left: what
    /// follows holds as long as no others are found.
    left: Vec<u64>,
    /// By FID. Of an open that is not here nothing is known.
    since: BTreeMap<u16, BTreeSet<Event>>,
    /// By FID, the file and the number that an open remembered which is gone.
    gone: BTreeMap<u16, (u8, u64)>,
    /// What the last call was.
    last: Option<&'static str>,
}

/// A command of a message, its answer, and the open that it names.
struct Begun<'m> {
    request: Request<'m>,
    andx: bool,
    /// A READ that means the file just opened.
    just_opened: bool,
    /// Class and code.
    status: (u8, u16),
    open: Option<Open>,
}

impl Begun<'_> {
    fn done(&self) -> bool {
        self.status == (0, 0)
    }
}

impl Changes {
    pub fn begin_history(&mut self) {
        self.since.clear();
        self.gone.clear();
        self.last = None;
    }

    /// Counts a call, these being the words before and after it and, if it was
    /// done, the tables around it.
    pub fn count(
        &mut self,
        call: &Call,
        given: Given,
        reply: &[u8],
        (before, after): (&Words, &Words),
        around: Option<&Around>,
    ) {
        match given.number {
            // The tables were not looked at.
            2 => return,
            4 => return self.count_unsound(call, before),
            _ => {}
        }
        self.forget_unless_left(before);
        self.keep_left(after);
        if let Call::Unchanged { fid } = *call {
            match around {
                Some(around) => self.count_answer(fid as u16, given.value == 1, &around.before),
                None => self.count_unknown(fid, before),
            }
            return self.count_behind();
        }
        self.count_not_in_use(before);
        self.last = None;
        let Some(Around { before, after }) = around else {
            return;
        };
        match call {
            Call::AddOpen { .. } => self.last = Some("open added"),
            Call::DropConnection { .. } => self.last = Some("drop"),
            Call::EndSession { .. } | Call::EndTree { .. } | Call::EndOpen { .. } => {
                self.last = Some("end");
            }
            Call::LoadFile { file, contents } => {
                self.last = Some("load");
                self.count_load(*file as usize, contents.is_empty(), before);
            }
            Call::TakeMessage { message, .. } => self.count_message(message, reply, before, after),
            _ => {}
        }
        self.follow_opens(before, after);
    }

    /// Nothing is known of opens and files that are not as they were left.
    fn forget_unless_left(&mut self, words: &Words) {
        let [opens, files] = opens_and_files(words);
        if !(self.left.starts_with(opens) && self.left.ends_with(files)) {
            self.since.clear();
            self.gone.clear();
        }
    }

    fn keep_left(&mut self, words: &Words) {
        self.left.clear();
        for part in opens_and_files(words) {
            self.left.extend_from_slice(part);
        }
    }

    /// Opens that are gone, and opens that are new.
    fn follow_opens(&mut self, old: &Tables, new: &Tables) {
        let stands = |tables: &Tables, fid| tables.open_of(fid).is_some();
        for open in old.opens.in_use() {
            if !stands(new, open.fid) {
                self.since.remove(&open.fid);
                self.gone.remove(&open.fid);
                if open.read {
                    self.gone.insert(open.fid, (open.file, open.seen));
                }
                self.befalls(open.file, None, new, |_| Event::OthersReadOrEnd);
            }
        }
        for open in new.opens.in_use() {
            if !stands(old, open.fid) {
                self.since.entry(open.fid).or_default();
            }
        }
    }

    /// An event for every open of a file that stands, but for one of this FID.
    fn befalls(
        &mut self,
        file: u8,
        but: Option<u16>,
        tables: &Tables,
        event: impl Fn(u16) -> Event,
    ) {
        for open in tables.opens.in_use() {
            if open.file == file && Some(open.fid) != but {
                if let Some(since) = self.since.get_mut(&open.fid) {
                    since.insert(event(open.fid));
                }
            }
        }
    }

    fn count_message(&mut self, message: &[u8], reply: &[u8], old: &Tables, new: &Tables) {
        if dropped(message).is_some() || blocks(message).any(|block| block.is_err()) {
            return;
        }
        let begun = begun(message, reply, old, new);
        self.count_chain(&begun, old, new);
        for (place, command) in begun.iter().enumerate() {
            let Some(open) = command.open else {
                continue;
            };
            let file = usize::from(open.file);
            match command.request {
                Request::Read { fid, range } => {
                    self.last = Some("READ");
                    let size = new.files[file].size;
                    let what = match range.length {
                        0 => Some("that asks no byte"),
                        _ if range.offset >= size => Some("past the end"),
                        _ => None,
                    };
                    let written = begun[..place].iter().any(|earlier| writes(earlier, file));
                    self.count_read(command, fid, what, written, old, new);
                }
                Request::Write { fid, data, .. } => {
                    self.last = Some("WRITE");
                    self.count_write(command, fid, data.is_empty(), &open, old, new);
                }
                Request::Resize { size, .. } => {
                    self.last = Some("WRITE");
                    self.count_size(command, size, &open, old, new);
                }
                Request::Close { .. } => self.last = Some("CLOSE"),
                _ => {}
            }
        }
    }

    /// What is told of a chain as a whole.
    fn count_chain(&mut self, begun: &[Begun], old: &Tables, new: &Tables) {
        for (file, (old, new)) in old.files.iter().zip(&new.files).enumerate() {
            let writes = begun.iter().filter(|command| writes(command, file)).count() as u64;
            self.counts.met_if(new.changes > old.changes + 1, RAISED[6]);
            let reached = new.changes == LARGEST_CHANGE && old.changes < LARGEST_CHANGE;
            let more = writes > new.changes - old.changes;
            self.counts.met_if(reached && more, RAISED[8]);
        }
        let again = begun.windows(2).any(|pair| {
            let bytes = matches!(pair[0].request, Request::Write { data, .. } if !data.is_empty());
            bytes && pair[1].done() && pair[0].request == pair[1].request
        });
        self.counts.met_if(again, RAISED[7]);
    }

    /// A READ, of which a chain has one at most, and which only a CLOSE follows.
    fn count_read(
        &mut self,
        command: &Begun,
        fid: u16,
        no_byte: Option<&str>,
        written: bool,
        old: &Tables,
        new: &Tables,
    ) {
        let which = match command.andx {
            true => "READ_ANDX",
            false => "core READ",
        };
        let now = new.open_of(fid);
        let number = |open: &Open| new.files[usize::from(open.file)].changes;
        if !command.done() {
            let would = now.is_some_and(|open| !open.read || open.seen != number(open));
            let (class, code) = command.status;
            let what = format!("{which} refused {class}/{code} does not remember");
            self.counts.met_if(would, &what);
            if let Some(since) = self.since.get_mut(&fid) {
                since.insert(Event::RefusedRead);
            }
            return;
        }
        self.since.insert(fid, BTreeSet::new());
        let Some(now) = now else {
            return;
        };
        self.befalls(now.file, Some(fid), new, |_| Event::OthersReadOrEnd);
        let before = old.open_of(fid);
        if before.map(|open| (open.read, open.seen)) == Some((now.read, now.seen)) {
            return;
        }
        self.counts.met(format!("{which} remembers"));
        if let Some(how) = no_byte {
            self.counts.met(format!("{which} {how} remembers"));
        }
        let raised = number(now) > old.files[usize::from(now.file)].changes;
        self.counts.met_if(written && raised, REMEMBERED[6]);
        let just = command.just_opened && now.seen > 0;
        self.counts.met_if(just, REMEMBERED[7]);
    }

    fn count_write(
        &mut self,
        command: &Begun,
        fid: u16,
        empty: bool,
        open: &Open,
        old: &Tables,
        new: &Tables,
    ) {
        let event = match (command.done(), empty) {
            (false, _) => Event::RefusedWrite,
            (true, true) => Event::NoByte,
            (true, false) => Event::OwnBytes,
        };
        self.befalls(open.file, None, new, |other| match event {
            Event::OwnBytes if other != fid => Event::OthersBytes,
            event => event,
        });
        if event == Event::OwnBytes {
            let which = usize::from(!command.andx);
            self.count_raised(open, RAISED[which], STAYS[which], old);
        }
    }

    /// A size set by a WRITE of count 0, which is alone or behind a LOCKING.
    fn count_size(&mut self, command: &Begun, size: u64, open: &Open, old: &Tables, new: &Tables) {
        let before = old.files[usize::from(open.file)].size;
        let event = match command.done() {
            false => Event::RefusedSize,
            true if size == before => Event::SameSize,
            true => Event::Size,
        };
        self.befalls(open.file, None, new, |_| event);
        if event == Event::Size {
            let what = if size > before { RAISED[2] } else { RAISED[3] };
            self.count_raised(open, what, STAYS[2], old);
        }
    }

    /// A number that was raised, or was at its largest before.
    fn count_raised(&mut self, open: &Open, raised: &str, stays: &str, old: &Tables) {
        let largest = old.files[usize::from(open.file)].changes == LARGEST_CHANGE;
        self.counts.met(if largest { stays } else { raised });
    }

    fn count_load(&mut self, file: usize, empty: bool, old: &Tables) {
        let largest = old.files[file].changes == LARGEST_CHANGE;
        self.counts.met_if(largest, STAYS[3]);
        self.counts.met_if(!largest, RAISED[4]);
        self.counts.met_if(!largest && empty, RAISED[5]);
    }

    /// Prints the counts. False if something was met too seldom.
    pub fn print(&self) -> bool {
        self.counts.print("change numbers", required())
    }
}

/// Their words.
fn opens_and_files(words: &Words) -> [&[u64]; 2] {
    let opens = &words[places::OPENS..places::LOCKS];
    let files = &words[places::FILES..places::NAMES];
    [opens, files]
}

/// The commands that a reply has blocks of.
fn begun<'m>(message: &'m [u8], reply: &[u8], old: &Tables, new: &Tables) -> Vec<Begun<'m>> {
    let (uid, tid, _) = header_numbers(message);
    let count = commands(message, reply).len();
    let mut opened = None;
    let mut begun = Vec::new();
    for (place, block) in blocks(message).flatten().take(count).enumerate() {
        let written = Request::read(message, &block);
        let request = written.behind_open(opened);
        let status = match place + 1 == count {
            true => class_and_code(reply),
            false => (0, 0),
        };
        let fid = match request {
            Request::Read { fid, .. }
            | Request::Write { fid, .. }
            | Request::Resize { fid, .. }
            | Request::Close { fid } => Some(fid),
            _ => None,
        };
        let standing = |fid| old.open(fid, uid, tid).or(new.open(fid, uid, tid));
        opened = match request {
            Request::Open(_) => Some(old.next_fid()),
            _ => None,
        };
        begun.push(Begun {
            request,
            andx: is_andx(block.command),
            just_opened: request != written,
            status,
            open: fid.and_then(standing).copied(),
        });
    }
    begun
}

/// Whether a command put bytes into a file.
fn writes(command: &Begun, file: usize) -> bool {
    let bytes = matches!(command.request, Request::Write { data, .. } if !data.is_empty());
    let open = command.open.filter(|_| bytes && command.done());
    open.is_some_and(|open| usize::from(open.file) == file)
}

/// All that must be met.
fn required() -> Vec<String> {
    let lists: [&[&str]; 3] = [&REMEMBERED, &RAISED, &STAYS];
    let mut all = question::required();
    all.extend(lists.concat().into_iter().map(str::to_string));
    all.extend(soundness::required());
    all
}
