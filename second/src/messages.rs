//! The messages to compare on, made from a fixed seed: valid chains first,
//! then damage of every kind. Where the way a message is made already tells
//! its listing, that is kept as `Expected`, so that the reader of
//! `grammar.rs` is itself checked against something.

mod data_blocks;
mod names;

use crate::grammar::{
    is_andx, CLOSE, DATA_BLOCK_HEAD, DATA_MARK, LOCKING_ANDX, LOCK_BYTE_RANGE, LOGOFF_ANDX,
    OPEN_ANDX, PROCESS_EXIT, READ, READ_ANDX, TREE_DISCONNECT, UNLOCK_BYTE_RANGE, WRITE,
    WRITE_ANDX,
};
use crate::rng::Rng;
use std::collections::HashSet;

/// The longest message that is not dropped.
const LIMIT: usize = 8192;
const SEED: u64 = 0x534D_4231;

/// What the making of a message tells of its listing.
#[derive(Clone, Debug, PartialEq, Eq)]
pub enum Expected {
    Listing(String),
    NotAChain,
    Dropped,
    /// The damage may or may not matter.
    Unstated,
}

impl Expected {
    /// Whether a listing is as expected.
    pub fn allows(&self, listing: &str) -> bool {
        match self {
            Expected::Listing(lines) => listing == lines,
            Expected::NotAChain => listing == "not a chain\n",
            Expected::Dropped => listing == "dropped\n",
            Expected::Unstated => true,
        }
    }
}

/// One message to compare on.
#[derive(Clone, Debug)]
pub struct Made {
    pub kind: &'static str,
    pub bytes: Vec<u8>,
    pub expected: Expected,
}

/// A block to be made.
#[derive(Clone, Copy, Debug)]
enum Form {
    /// `kind` is the type byte; its bit 0x10 makes the ranges 20 bytes long.
    Locking {
        kind: u8,
        unlocks: usize,
        locks: usize,
    },
    Read {
        words: u8,
    },
    /// The byte area is `before` bytes, `data` bytes and `after` bytes.
    Write {
        words: u8,
        before: usize,
        data: usize,
        after: usize,
    },
    CoreRead,
    /// The byte area is a data block of so many bytes.
    CoreWrite {
        data: usize,
    },
    LockRange,
    UnlockRange,
    /// The byte area is a name of so many bytes and its zero byte.
    Open {
        name: usize,
    },
    Close,
    Logoff,
    TreeDisconnect,
    ProcessExit,
}

impl Form {
    fn command(self) -> u8 {
        match self {
            Form::Locking { .. } => LOCKING_ANDX,
            Form::Read { .. } => READ_ANDX,
            Form::Write { .. } => WRITE_ANDX,
            Form::CoreRead => READ,
            Form::CoreWrite { .. } => WRITE,
            Form::LockRange => LOCK_BYTE_RANGE,
            Form::UnlockRange => UNLOCK_BYTE_RANGE,
            Form::Open { .. } => OPEN_ANDX,
            Form::Close => CLOSE,
            Form::Logoff => LOGOFF_ANDX,
            Form::TreeDisconnect => TREE_DISCONNECT,
            Form::ProcessExit => PROCESS_EXIT,
        }
    }

    fn words(self) -> u8 {
        match self {
            Form::Locking { .. } => 8,
            Form::Read { words } | Form::Write { words, .. } => words,
            Form::CoreRead | Form::CoreWrite { .. } | Form::LockRange | Form::UnlockRange => 5,
            Form::Open { .. } => 15,
            Form::Close => 3,
            Form::Logoff => 2,
            Form::TreeDisconnect | Form::ProcessExit => 0,
        }
    }

    fn byte_count(self) -> usize {
        match self {
            Form::Locking {
                kind,
                unlocks,
                locks,
            } => (unlocks + locks) * if kind & 0x10 == 0 { 10 } else { 20 },
            Form::Write {
                before,
                data,
                after,
                ..
            } => before + data + after,
            Form::CoreWrite { data } => DATA_BLOCK_HEAD + data,
            Form::Open { name } => name + 1,
            _ => 0,
        }
    }

    /// From the block's start to its byte area.
    fn area(self) -> usize {
        1 + 2 * usize::from(self.words()) + 2
    }

    fn length(self) -> usize {
        self.area() + self.byte_count()
    }
}

/// The successions of "May be followed by", those of document 02, request 3,
/// last in their row, that of request 6 last.
pub const SUCCESSIONS: [(u8, u8); 9] = [
    (LOCKING_ANDX, READ_ANDX),
    (LOCKING_ANDX, WRITE_ANDX),
    (LOCKING_ANDX, READ),
    (LOCKING_ANDX, WRITE),
    (READ_ANDX, CLOSE),
    (WRITE_ANDX, WRITE_ANDX),
    (WRITE_ANDX, READ_ANDX),
    (WRITE_ANDX, CLOSE),
    (OPEN_ANDX, READ_ANDX),
];

/// Places in a block, counted from its WordCount.
const ANDX_COMMAND: usize = 1;
const ANDX_OFFSET: usize = 3;
const LOCK_TYPE: usize = 7;
const UNLOCKS: usize = 13;
const LOCKS: usize = 15;
const DATA_LENGTH: usize = 21;
const DATA_OFFSET: usize = 23;
const CORE_COUNT: usize = 3;

/// The fifteen sorts of block: each command with each word count, and each
/// length of range.
#[derive(Clone, Copy, PartialEq, Eq, Debug)]
enum Sort {
    Locking10,
    Locking20,
    Read10,
    Read12,
    Write12,
    Write14,
    CoreRead,
    CoreWrite,
    LockRange,
    UnlockRange,
    Open,
    Close,
    Logoff,
    TreeDisconnect,
    ProcessExit,
}

const SORTS: [Sort; 15] = [
    Sort::Locking10,
    Sort::Locking20,
    Sort::Read10,
    Sort::Read12,
    Sort::Write12,
    Sort::Write14,
    Sort::CoreRead,
    Sort::CoreWrite,
    Sort::LockRange,
    Sort::UnlockRange,
    Sort::Open,
    Sort::Close,
    Sort::Logoff,
    Sort::TreeDisconnect,
    Sort::ProcessExit,
];

impl Sort {
    /// The sorts that the paper's table lets follow.
    fn next(self) -> &'static [Sort] {
        match self {
            Sort::Locking10 | Sort::Locking20 => &[
                Sort::Read10,
                Sort::Read12,
                Sort::Write12,
                Sort::Write14,
                Sort::CoreRead,
                Sort::CoreWrite,
            ],
            Sort::Read10 | Sort::Read12 => &[Sort::Close],
            Sort::Write12 | Sort::Write14 => &[
                Sort::Write12,
                Sort::Write14,
                Sort::Read10,
                Sort::Read12,
                Sort::Close,
            ],
            Sort::Open => &[Sort::Read10, Sort::Read12],
            _ => &[],
        }
    }

    /// A form of this sort, with parts up to about `size`.
    fn form(self, rng: &mut Rng, size: usize) -> Form {
        match self {
            Sort::Locking10 => Form::Locking {
                kind: rng.pick(&[0, 0, 1, 1, 2, 4, 8, 0x20, 0x40, 0x80, 0xEF]),
                unlocks: rng.below(1 + size / 8),
                locks: rng.below(1 + size / 8),
            },
            Sort::Locking20 => Form::Locking {
                kind: rng.pick(&[0x10, 0x10, 0x11, 0x11, 0x12, 0x14, 0x18, 0x30, 0x90, 0xFF]),
                unlocks: rng.below(1 + size / 8),
                locks: rng.below(1 + size / 8),
            },
            Sort::Read10 => Form::Read { words: 10 },
            Sort::Read12 => Form::Read { words: 12 },
            Sort::Write12 | Sort::Write14 => Form::Write {
                words: if self == Sort::Write12 { 12 } else { 14 },
                before: rng.pick(&[0, 0, 1, 3]),
                data: rng.below(1 + size),
                after: rng.pick(&[0, 0, 1, 2]),
            },
            Sort::CoreRead => Form::CoreRead,
            Sort::CoreWrite => Form::CoreWrite {
                data: rng.below(1 + size),
            },
            Sort::LockRange => Form::LockRange,
            Sort::UnlockRange => Form::UnlockRange,
            Sort::Open => Form::Open {
                name: rng.below(1 + size),
            },
            Sort::Close => Form::Close,
            Sort::Logoff => Form::Logoff,
            Sort::TreeDisconnect => Form::TreeDisconnect,
            Sort::ProcessExit => Form::ProcessExit,
        }
    }
}

fn put16(bytes: &mut [u8], place: usize, value: usize) {
    bytes[place] = (value & 0xFF) as u8;
    bytes[place + 1] = ((value >> 8) & 0xFF) as u8;
}

/// A header with the given command; what the grammar doesn't look at is
/// random.
fn header(rng: &mut Rng, command: u8) -> Vec<u8> {
    let mut bytes = rng.bytes(32);
    bytes[..4].copy_from_slice(b"\xFFSMB");
    bytes[4] = command;
    bytes[9] &= 0x7F;
    bytes
}

/// A block for the given place, the last of its chain. The rest is random.
fn block(rng: &mut Rng, form: Form, offset: usize) -> Vec<u8> {
    let mut bytes = rng.bytes(form.length());
    bytes[0] = form.words();
    put16(&mut bytes, form.area() - 2, form.byte_count());
    if is_andx(form.command()) {
        bytes[ANDX_COMMAND] = 0xFF;
    }
    match form {
        Form::Locking {
            kind,
            unlocks,
            locks,
        } => {
            bytes[LOCK_TYPE] = kind;
            put16(&mut bytes, UNLOCKS, unlocks);
            put16(&mut bytes, LOCKS, locks);
        }
        Form::Write { before, data, .. } => {
            put16(&mut bytes, DATA_LENGTH, data);
            put16(&mut bytes, DATA_OFFSET, offset + form.area() + before);
        }
        Form::CoreWrite { data } => {
            put16(&mut bytes, CORE_COUNT, data);
            bytes[form.area()] = DATA_MARK;
            put16(&mut bytes, form.area() + 1, data);
        }
        Form::Open { name } => {
            let (text, end) = bytes[form.area()..].split_at_mut(name);
            text.iter_mut().for_each(|byte| *byte = (*byte).max(1));
            end.fill(0);
        }
        _ => {}
    }
    bytes
}

/// What stands between blocks.
#[derive(Clone, Copy, PartialEq, Eq)]
enum Gap {
    None,
    Random,
    /// A whole block of the next command, which the chain passes over.
    Decoy,
}

/// A message under construction, with the places of its blocks.
#[derive(Clone)]
struct Chain {
    bytes: Vec<u8>,
    blocks: Vec<(Form, usize)>,
}

impl Chain {
    fn new(rng: &mut Rng, first: Form) -> Chain {
        let mut bytes = header(rng, first.command());
        let first_block = block(rng, first, 32);
        bytes.extend(first_block);
        Chain {
            bytes,
            blocks: vec![(first, 32)],
        }
    }

    /// A chain of the given blocks.
    fn of(rng: &mut Rng, forms: &[Form], gap: Gap) -> Chain {
        let mut chain = Chain::new(rng, forms[0]);
        for &form in &forms[1..] {
            match gap {
                Gap::None => {}
                Gap::Random => {
                    let count = rng.below(40);
                    chain.free(rng, count);
                }
                Gap::Decoy => {
                    let decoy = block(rng, form, chain.bytes.len());
                    chain.bytes.extend(decoy);
                }
            }
            chain.add(rng, form);
        }
        chain
    }

    /// Adds a block at the message's end and links the last one to it.
    fn add(&mut self, rng: &mut Rng, form: Form) {
        let offset = self.bytes.len();
        let last = self.last();
        self.bytes[last + ANDX_COMMAND] = form.command();
        put16(&mut self.bytes, last + ANDX_OFFSET, offset);
        let next = block(rng, form, offset);
        self.bytes.extend(next);
        self.blocks.push((form, offset));
    }

    /// Adds free bytes.
    fn free(&mut self, rng: &mut Rng, count: usize) {
        let bytes = rng.bytes(count);
        self.bytes.extend(bytes);
    }

    /// Offset of the last block.
    fn last(&self) -> usize {
        self.blocks[self.blocks.len() - 1].1
    }

    /// The listing, from the places where the blocks were put.
    fn listing(&self) -> String {
        let mut lines = String::new();
        for (index, (form, offset)) in self.blocks.iter().enumerate() {
            let place = index + 1;
            let command = form.command();
            let length = form.length();
            lines.push_str(&format!("{place} {command:02X} {offset} {length}\n"));
        }
        lines.push_str("end\n");
        lines
    }

    fn expected(&self) -> Expected {
        if self.bytes.len() > LIMIT {
            Expected::Dropped
        } else {
            Expected::Listing(self.listing())
        }
    }
}

/// The messages made so far, each only once.
struct Maker {
    rng: Rng,
    seen: HashSet<Vec<u8>>,
    list: Vec<Made>,
}

impl Maker {
    fn push(&mut self, kind: &'static str, bytes: Vec<u8>, expected: Expected) {
        if self.seen.insert(bytes.clone()) {
            self.list.push(Made {
                kind,
                bytes,
                expected,
            });
        }
    }

    fn push_chain(&mut self, kind: &'static str, chain: Chain) {
        let expected = chain.expected();
        self.push(kind, chain.bytes, expected);
    }

    fn form(&mut self, sort: Sort, size: usize) -> Form {
        sort.form(&mut self.rng, size)
    }

    /// A small valid chain of these sorts, without free bytes.
    fn small(&mut self, sorts: &[Sort]) -> Chain {
        let forms: Vec<Form> = sorts.iter().map(|&sort| self.form(sort, 9)).collect();
        Chain::of(&mut self.rng, &forms, Gap::None)
    }

    /// A random valid chain of at most `most` blocks.
    fn random_chain(&mut self, most: usize, size: usize) -> Chain {
        let mut sort = self.rng.pick(&[
            Sort::Locking10,
            Sort::Locking20,
            Sort::Read10,
            Sort::Read12,
            Sort::Write12,
            Sort::Write14,
            Sort::Open,
        ]);
        let first = self.form(sort, size);
        let mut chain = Chain::new(&mut self.rng, first);
        while chain.blocks.len() < most && !sort.next().is_empty() {
            if self.rng.below(8) == 0 {
                break;
            }
            sort = self.rng.pick(sort.next());
            if self.rng.below(2) == 0 {
                let count = self.rng.below(30);
                chain.free(&mut self.rng, count);
            }
            let form = self.form(sort, size);
            chain.add(&mut self.rng, form);
        }
        if self.rng.below(2) == 0 {
            let count = self.rng.below(50);
            chain.free(&mut self.rng, count);
        }
        chain
    }
}

/// Every chain of sorts of at most `most` blocks.
fn paths(most: usize) -> Vec<Vec<Sort>> {
    let mut all: Vec<Vec<Sort>> = SORTS.iter().map(|&sort| vec![sort]).collect();
    let mut from = 0;
    for _ in 1..most {
        let to = all.len();
        for index in from..to {
            let path = all[index].clone();
            for &next in path[path.len() - 1].next() {
                let mut longer = path.clone();
                longer.push(next);
                all.push(longer);
            }
        }
        from = to;
    }
    all
}

/// The small chains that are altered and cut at every place.
const BASES: [&[Sort]; 20] = [
    &[Sort::TreeDisconnect],
    &[Sort::ProcessExit],
    &[Sort::Logoff],
    &[Sort::Close],
    &[Sort::CoreRead],
    &[Sort::CoreWrite],
    &[Sort::LockRange],
    &[Sort::UnlockRange],
    &[Sort::Locking10, Sort::CoreRead],
    &[Sort::Locking20, Sort::CoreWrite],
    &[Sort::Read10, Sort::Close],
    &[Sort::Read12],
    &[Sort::Locking10, Sort::Read10],
    &[Sort::Locking20, Sort::Write14],
    &[Sort::Write12, Sort::Close],
    &[Sort::Write14, Sort::Read12],
    &[Sort::Write12, Sort::Write14],
    &[Sort::Locking10, Sort::Write12, Sort::Read12, Sort::Close],
    &[Sort::Open],
    &[Sort::Open, Sort::Read12, Sort::Close],
];

/// The 84-byte message of "A listing, whole".
pub fn worked() -> Vec<u8> {
    let mut bytes = vec![0xFF, 0x53, 0x4D, 0x42, 0x24];
    bytes.extend([0; 19]);
    bytes.extend([0x01, 0x00, 0x07, 0x00, 0x01, 0x00, 0x03, 0x00]);
    bytes.extend([
        0x08, 0x2E, 0x00, 0x3D, 0x00, 0x01, 0x00, 0x00, 0x00, 0x00, 0x00, 0x00, 0x00, 0x00, 0x00,
        0x01, 0x00, 0x0A, 0x00, 0x07, 0x00, 0x64, 0x00, 0x00, 0x00, 0x0A, 0x00, 0x00, 0x00,
    ]);
    bytes.extend([
        0x0A, 0xFF, 0x00, 0x00, 0x00, 0x01, 0x00, 0x64, 0x00, 0x00, 0x00, 0x0A, 0x00, 0x00, 0x00,
        0x00, 0x00, 0x00, 0x00, 0x00, 0x00, 0x00, 0x00,
    ]);
    bytes
}

/// All messages, the same on every run.
pub fn all() -> Vec<Made> {
    let mut maker = Maker {
        rng: Rng::new(SEED),
        seen: HashSet::new(),
        list: Vec::new(),
    };
    cases(&mut maker);
    successions(&mut maker);
    random_chains(&mut maker);
    long_chains(&mut maker);
    write_data(&mut maker);
    data_blocks::data_blocks(&mut maker);
    names::names(&mut maker);
    lock_ranges(&mut maker);
    word_counts(&mut maker);
    misfits(&mut maker);
    byte_counts(&mut maker);
    andx_offsets(&mut maker);
    overlaps(&mut maker);
    followers(&mut maker);
    header_commands(&mut maker);
    header_bytes(&mut maker);
    sizes(&mut maker);
    alterations(&mut maker);
    truncations(&mut maker);
    random_damage(&mut maker);
    maker.list
}

/// Cases 1, 2 and 3 of the paper.
fn cases(maker: &mut Maker) {
    let lines = "1 24 32 29\n2 2E 61 23\nend\n";
    maker.push("cases", worked(), Expected::Listing(lines.to_string()));
    let mut second = worked();
    second[35] = 60;
    maker.push("cases", second, Expected::NotAChain);
    for free in [0x00, 0x0A, 0xFF] {
        let mut third = worked();
        third[35] = 62;
        third.insert(61, free);
        let lines = "1 24 32 29\n2 2E 62 23\nend\n";
        maker.push("cases", third, Expected::Listing(lines.to_string()));
    }
}

/// Every allowed succession of every sort of block, up to four blocks.
fn successions(maker: &mut Maker) {
    for path in paths(4) {
        for (gap, tail) in [
            (Gap::None, 0),
            (Gap::None, 1),
            (Gap::Random, 0),
            (Gap::Random, 17),
            (Gap::Decoy, 0),
            (Gap::Decoy, 30),
        ] {
            let forms: Vec<Form> = path.iter().map(|&sort| maker.form(sort, 24)).collect();
            let mut chain = Chain::of(&mut maker.rng, &forms, gap);
            chain.free(&mut maker.rng, tail);
            maker.push_chain("successions", chain);
        }
    }
}

fn random_chains(maker: &mut Maker) {
    for turn in 0..900 {
        let (most, size) = [(3, 20), (6, 60), (12, 300), (40, 40)][turn % 4];
        let chain = maker.random_chain(most, size);
        maker.push_chain("random chains", chain);
    }
    // One block filling the message to its limit, or just not, or over it.
    for size in LIMIT - 3..=LIMIT + 2 {
        for words in [12, 14] {
            let area = 32 + 1 + 2 * usize::from(words) + 2;
            for (before, after) in [(0, 0), (5, 0), (0, 7)] {
                let form = Form::Write {
                    words,
                    before,
                    data: size - area - before - after,
                    after,
                };
                let chain = Chain::new(&mut maker.rng, form);
                maker.push_chain("filled", chain);
            }
        }
        let area = 32 + Form::CoreRead.area() + DATA_BLOCK_HEAD;
        let core = Form::CoreWrite { data: size - area };
        let area = 32 + Form::Open { name: 0 }.length();
        let open = Form::Open { name: size - area };
        for form in [core, open] {
            let chain = Chain::new(&mut maker.rng, form);
            maker.push_chain("filled", chain);
        }
    }
    for (kind, ranges) in [
        (0, 814),
        (0, 815),
        (0x10, 407),
        (0x10, 408),
        (1, 26),
        (0, 256),
    ] {
        for unlocks in [0, 1, ranges / 2, ranges] {
            let form = Form::Locking {
                kind,
                unlocks,
                locks: ranges - unlocks,
            };
            let chain = Chain::new(&mut maker.rng, form);
            maker.push_chain("filled", chain);
        }
    }
}

/// Chains up to the limit of 8,192 bytes, also damaged near their end.
fn long_chains(maker: &mut Maker) {
    let empty = |words| Form::Write {
        words,
        before: 0,
        data: 0,
        after: 0,
    };
    let lock = Form::Locking {
        kind: 0,
        unlocks: 0,
        locks: 0,
    };
    // 303 blocks is the most: 32 + 19 + 301 * 27 + 9 = 8,187 bytes.
    let mut longest = vec![lock];
    longest.extend(vec![empty(12); 301]);
    longest.push(Form::Close);
    let mut with_read = vec![lock];
    with_read.extend(vec![empty(12); 300]);
    with_read.extend([Form::Read { words: 10 }, Form::Close]);
    let mut wide = vec![empty(14); 262];
    wide.push(Form::Close);
    let mut over = longest.clone();
    over.insert(1, empty(12));
    let only_writes = vec![empty(12); 302];
    for forms in [&longest, &with_read, &wide, &over, &only_writes] {
        let chain = Chain::of(&mut maker.rng, forms, Gap::None);
        let size = chain.bytes.len();
        maker.push_chain("long chains", chain.clone());
        for total in [LIMIT - 1, LIMIT, LIMIT + 1] {
            if total > size {
                let mut filled = chain.clone();
                filled.free(&mut maker.rng, total - size);
                maker.push_chain("long chains", filled);
            }
        }
        if size > LIMIT {
            continue;
        }
        // The last block cut, then spoilt; then a link spoilt on the way.
        let mut cut = chain.bytes.clone();
        cut.pop();
        maker.push("long chains", cut, Expected::NotAChain);
        let mut spoilt = chain.bytes.clone();
        spoilt[chain.last()] = 1;
        maker.push("long chains", spoilt, Expected::NotAChain);
        for index in [1, 100, 200, forms.len() - 3] {
            let at = chain.blocks[index].1;
            let mut short = chain.bytes.clone();
            let length = chain.blocks[index].0.length();
            put16(&mut short, at + ANDX_OFFSET, at + length - 1);
            maker.push("long chains", short, Expected::NotAChain);
            let mut back = chain.bytes.clone();
            put16(&mut back, at + ANDX_OFFSET, chain.blocks[index - 1].1);
            maker.push("long chains", back, Expected::NotAChain);
        }
    }
    // Long chains of mixed blocks, filled up as far as they go.
    for turn in 0..40 {
        let size = [4, 10, 30, 120][turn % 4];
        let mut sort = maker.rng.pick(&[Sort::Locking10, Sort::Locking20]);
        let first = maker.form(sort, size);
        let mut chain = Chain::new(&mut maker.rng, first);
        loop {
            sort = maker.rng.pick(&[Sort::Write12, Sort::Write14]);
            let form = maker.form(sort, size);
            if chain.bytes.len() + form.length() + 27 + 9 > LIMIT {
                break;
            }
            chain.add(&mut maker.rng, form);
        }
        for sort in [Sort::Read12, Sort::Close] {
            let form = maker.form(sort, 0);
            chain.add(&mut maker.rng, form);
        }
        let rest = LIMIT - chain.bytes.len();
        let count = maker.rng.pick(&[0, rest, rest + 1]);
        chain.free(&mut maker.rng, count);
        maker.push_chain("long chains", chain);
    }
}

/// DataOffset and DataLength at and past the edges of the byte area.
fn write_data(maker: &mut Maker) {
    for words in [12, 14] {
        for count in 0..=4usize {
            let form = Form::Write {
                words,
                before: 0,
                data: count,
                after: 0,
            };
            let chain = Chain::new(&mut maker.rng, form);
            let area = 32 + form.area();
            for offset in area - 2..=area + count + 2 {
                for length in 0..=count + 2 {
                    let mut bytes = chain.bytes.clone();
                    put16(&mut bytes, 32 + DATA_LENGTH, length);
                    put16(&mut bytes, 32 + DATA_OFFSET, offset);
                    // Bytes after the block are not its data.
                    let tail = maker.rng.pick(&[0, 10]);
                    bytes.extend(maker.rng.bytes(tail));
                    let inside = offset >= area && offset + length <= area + count;
                    let expected = if inside {
                        chain.expected()
                    } else {
                        Expected::NotAChain
                    };
                    maker.push("write data", bytes, expected);
                }
            }
            // Sums that come out small if kept in 16 bits, and other far ones.
            for (offset, length) in [
                (0xFFFF, 1),
                (0xFFFF, area + 1),
                (0xFFFF, 0),
                (0xFFFF, 0xFFFF),
                (area, 0xFFFF),
                (area, 0x10000 - area),
                (area, 0x10000 - area - 1),
                (area + 1, 0xFFFF),
                (0x8000, 0x8000),
                (0x8000 + area, 0x8000),
                (0, 0),
                (0, count),
                (32, 0),
                (area + 256, 0),
                (area, 256),
                (area, 0x8000),
            ] {
                let mut bytes = chain.bytes.clone();
                put16(&mut bytes, 32 + DATA_LENGTH, length);
                put16(&mut bytes, 32 + DATA_OFFSET, offset);
                maker.push("write data", bytes, Expected::NotAChain);
            }
        }
        // The same edges in a second block, further on in the message.
        for count in [0, 1, 300] {
            let form = Form::Write {
                words,
                before: 0,
                data: count,
                after: 0,
            };
            let first = maker.form(Sort::Write12, 400);
            let mut chain = Chain::of(&mut maker.rng, &[first, form], Gap::Random);
            chain.free(&mut maker.rng, 5);
            let at = chain.last();
            let area = at + form.area();
            for (offset, length, fits) in [
                (area, count, true),
                (area + count, 0, true),
                (area - 1, count, false),
                (area - 1, 0, false),
                (area, count + 1, false),
                (area + 1, count, false),
                (area + count + 1, 0, false),
                (form.area(), count, false),
            ] {
                let mut bytes = chain.bytes.clone();
                put16(&mut bytes, at + DATA_LENGTH, length);
                put16(&mut bytes, at + DATA_OFFSET, offset);
                let expected = if fits {
                    chain.expected()
                } else {
                    Expected::NotAChain
                };
                maker.push("write data", bytes, expected);
            }
        }
    }
}

/// Counts of ranges, type bits and ByteCount of LOCKING.
fn lock_ranges(maker: &mut Maker) {
    // Every type byte over two ranges of 10 or of 20 bytes.
    for kind in 0..=255u8 {
        for range in [10, 20] {
            let form = Form::Locking {
                kind: if range == 10 { 0 } else { 0x10 },
                unlocks: 1,
                locks: 1,
            };
            let chain = Chain::new(&mut maker.rng, form);
            let mut bytes = chain.bytes.clone();
            bytes[32 + LOCK_TYPE] = kind;
            let expected = if (kind & 0x10 != 0) == (range == 20) {
                chain.expected()
            } else {
                Expected::NotAChain
            };
            maker.push("lock types", bytes, expected);
        }
    }
    // ByteCount near the right one, the bytes all there.
    for kind in [0, 0x11] {
        let range = if kind == 0 { 10 } else { 20 };
        for unlocks in 0..=2 {
            for locks in 0..=2 {
                let right: usize = (unlocks + locks) * range;
                for count in [
                    0,
                    1,
                    right.saturating_sub(1),
                    right,
                    right + 1,
                    right + range,
                    right * 2,
                    right / 2,
                    unlocks * range,
                    locks * range,
                    256 + right,
                ] {
                    let form = Form::Locking {
                        kind,
                        unlocks,
                        locks,
                    };
                    let mut chain = Chain::new(&mut maker.rng, form);
                    chain.free(&mut maker.rng, 400);
                    let expected = if count == right {
                        chain.expected()
                    } else {
                        Expected::NotAChain
                    };
                    put16(&mut chain.bytes, 32 + form.area() - 2, count);
                    maker.push("lock counts", chain.bytes, expected);
                }
            }
        }
    }
    // Counts whose sum or product comes out small in 16 or 8 bits.
    for (kind, unlocks, locks, count) in [
        (0, 0xFFFF, 1, 0),
        (0x10, 0xFFFF, 1, 0),
        (0, 0xFFFF, 2, 10),
        (0x10, 0xFFFF, 2, 20),
        (0, 0x8000, 0x8000, 0),
        (0, 0x8000, 0, 0),
        (0, 0, 0x8000, 0),
        (0, 0x8000, 1, 10),
        (0, 0, 0x8001, 10),
        (0x10, 0x4000, 0, 0),
        (0x10, 0, 0x4001, 20),
        (0x10, 0x2000, 0x2000, 0),
        (0, 0xFFFF, 0xFFFF, 0xFFEC),
        (0, 256, 0, 0),
        (0, 0, 256, 0),
        (0, 256, 1, 10),
        (0, 255, 1, 0),
        (0, 26, 0, 4),
        (0x10, 0, 13, 4),
        (0, 0, 819, 8190),
        (0, 0, 6553, 65530),
    ] {
        let form = Form::Locking {
            kind,
            unlocks: 0,
            locks: 0,
        };
        let mut chain = Chain::new(&mut maker.rng, form);
        chain.free(&mut maker.rng, 60);
        put16(&mut chain.bytes, 32 + UNLOCKS, unlocks);
        put16(&mut chain.bytes, 32 + LOCKS, locks);
        put16(&mut chain.bytes, 32 + form.area() - 2, count);
        maker.push("lock counts", chain.bytes, Expected::NotAChain);
    }
}

/// Word counts that are not the table's, with room for the words.
fn word_counts(maker: &mut Maker) {
    let bases: [&[Sort]; 20] = [
        &[Sort::Open],
        &[Sort::Open, Sort::Read10],
        &[Sort::Locking10],
        &[Sort::Locking20],
        &[Sort::Read10],
        &[Sort::Write12],
        &[Sort::CoreRead],
        &[Sort::CoreWrite],
        &[Sort::LockRange],
        &[Sort::UnlockRange],
        &[Sort::Locking10, Sort::CoreRead],
        &[Sort::Locking20, Sort::CoreWrite],
        &[Sort::Close],
        &[Sort::Logoff],
        &[Sort::TreeDisconnect],
        &[Sort::ProcessExit],
        &[Sort::Locking10, Sort::Read12],
        &[Sort::Locking10, Sort::Write14],
        &[Sort::Write12, Sort::Close],
        &[Sort::Read10, Sort::Close],
    ];
    for base in bases {
        let mut counts: Vec<u8> = (0..=24).collect();
        counts.extend([32, 64, 127, 128, 130, 131, 136, 138, 140, 142, 254, 255]);
        for count in counts {
            let mut chain = maker.small(base);
            let at = chain.last();
            let form = chain.blocks[chain.blocks.len() - 1].0;
            // Zeros after the block read as an empty byte area.
            chain.bytes.extend([0; 600]);
            let right = form.words();
            chain.bytes[at] = count;
            let other = match form.command() {
                READ_ANDX => 22 - right,
                WRITE_ANDX => 26 - right,
                _ => right,
            };
            let expected = if count == right {
                chain.expected()
            } else if count == other {
                Expected::Unstated
            } else {
                Expected::NotAChain
            };
            maker.push("word counts", chain.bytes, expected);
        }
    }
}

/// Blocks made for a wrong word count throughout, so that nothing else is
/// wrong with them: alone, and as the second block.
fn misfits(maker: &mut Maker) {
    for sort in SORTS {
        for count in 0..=20u8 {
            for second in [false, true] {
                let form = maker.form(sort, 16);
                let mut right = vec![form.words()];
                match sort {
                    Sort::Read10 | Sort::Read12 => right = vec![10, 12],
                    Sort::Write12 | Sort::Write14 => right = vec![12, 14],
                    _ => {}
                }
                if right.contains(&count) {
                    continue;
                }
                let mut bytes = header(&mut maker.rng, form.command());
                if second {
                    let before = match sort {
                        Sort::Read10 | Sort::Read12 => Sort::Locking10,
                        Sort::CoreRead | Sort::CoreWrite => Sort::Locking20,
                        Sort::Write12 | Sort::Write14 | Sort::Close => Sort::Write12,
                        _ => continue,
                    };
                    let mut chain = maker.small(&[before]);
                    let end = chain.bytes.len();
                    chain.bytes[32 + ANDX_COMMAND] = form.command();
                    put16(&mut chain.bytes, 32 + ANDX_OFFSET, end);
                    bytes = chain.bytes;
                }
                let at = bytes.len();
                let good = block(&mut maker.rng, form, at);
                let mut words = good[1..form.area() - 2].to_vec();
                words.resize(2 * usize::from(count), 0);
                bytes.push(count);
                bytes.extend(words);
                bytes.extend(&good[form.area() - 2..]);
                if let Form::Write { before, .. } = form {
                    if count > 12 {
                        let area = at + 1 + 2 * usize::from(count) + 2;
                        put16(&mut bytes, at + DATA_OFFSET, area + before);
                    }
                }
                maker.push("misfits", bytes, Expected::NotAChain);
            }
        }
    }
}

/// A good next block that begins before the end of the one that names it:
/// its first `shared` bytes are the last ones of that block.
fn overlaps(maker: &mut Maker) {
    for (first, next) in [
        (Sort::Locking10, Sort::Read10),
        (Sort::Locking20, Sort::Read12),
        (Sort::Locking10, Sort::Write12),
        (Sort::Locking20, Sort::Write14),
        (Sort::Locking10, Sort::CoreRead),
        (Sort::Locking20, Sort::CoreWrite),
        (Sort::Write12, Sort::Write12),
        (Sort::Write14, Sort::Read10),
        (Sort::Write12, Sort::Close),
        (Sort::Write14, Sort::Close),
        (Sort::Open, Sort::Read10),
        (Sort::Open, Sort::Read12),
    ] {
        for shared in 0..=40 {
            let form = match first {
                Sort::Locking10 => Form::Locking {
                    kind: 0,
                    unlocks: 2,
                    locks: 2,
                },
                Sort::Locking20 => Form::Locking {
                    kind: 0x10,
                    unlocks: 1,
                    locks: 1,
                },
                Sort::Open => Form::Open { name: 40 },
                _ => Form::Write {
                    words: if first == Sort::Write12 { 12 } else { 14 },
                    before: 0,
                    data: 40,
                    after: 0,
                },
            };
            let mut chain = Chain::new(&mut maker.rng, form);
            chain.bytes.truncate(32 + form.length() - shared);
            let form = maker.form(next, 9);
            chain.add(&mut maker.rng, form);
            // All of the first block is there, whatever is shared.
            chain.free(&mut maker.rng, 40);
            let expected = match shared {
                0 => chain.expected(),
                _ => Expected::NotAChain,
            };
            maker.push("overlaps", chain.bytes, expected);
        }
    }
    // A CLOSE in the words of a READ, or from them on past its end.
    for words in [10, 12] {
        let read = Form::Read { words };
        for at in 32 + 5..32 + read.length() - 2 {
            let chain = Chain::new(&mut maker.rng, read);
            let mut bytes = chain.bytes.clone();
            bytes.resize(bytes.len() + 20, 0);
            bytes[32 + ANDX_COMMAND] = CLOSE;
            put16(&mut bytes, 32 + ANDX_OFFSET, at);
            bytes[at] = 3;
            put16(&mut bytes, at + 7, 0);
            maker.push("overlaps", bytes, Expected::NotAChain);
        }
    }
}

/// ByteCount other than 0 where it must be 0, the bytes there or not.
fn byte_counts(maker: &mut Maker) {
    let bases: [&[Sort]; 13] = [
        &[Sort::Read10],
        &[Sort::Read12],
        &[Sort::CoreRead],
        &[Sort::LockRange],
        &[Sort::UnlockRange],
        &[Sort::Locking20, Sort::CoreRead],
        &[Sort::Close],
        &[Sort::Logoff],
        &[Sort::TreeDisconnect],
        &[Sort::ProcessExit],
        &[Sort::Locking10, Sort::Read12],
        &[Sort::Write12, Sort::Close],
        &[Sort::Write14, Sort::Read10, Sort::Close],
    ];
    for base in bases {
        for count in [1, 2, 3, 10, 255, 256, 0x100 + 1, 0x7FFF, 0x8000, 0xFFFF] {
            let chain = maker.small(base);
            let at = chain.last();
            let field = at + chain.blocks[chain.blocks.len() - 1].0.area() - 2;
            let mut bytes = chain.bytes.clone();
            put16(&mut bytes, field, count);
            for tail in [0, 1, count - 1, count, count + 5] {
                let mut longer = bytes.clone();
                if longer.len() + tail <= LIMIT {
                    longer.extend(maker.rng.bytes(tail));
                    maker.push("byte counts", longer, Expected::NotAChain);
                }
            }
        }
    }
    // ByteCount of WRITE up to the message's end and one past it.
    for words in [12, 14] {
        for tail in [0, 1, 200, 300] {
            for past in [0, 1, 256] {
                let form = Form::Write {
                    words,
                    before: 0,
                    data: 3,
                    after: tail,
                };
                let mut chain = Chain::new(&mut maker.rng, form);
                let expected = if past == 0 {
                    chain.expected()
                } else {
                    Expected::NotAChain
                };
                put16(&mut chain.bytes, 32 + form.area() - 2, 3 + tail + past);
                maker.push("byte counts", chain.bytes, expected);
            }
        }
    }
}

/// Every AndXOffset from 0 to past the message, and far ones.
fn andx_offsets(maker: &mut Maker) {
    let bases: [&[Sort]; 12] = [
        &[Sort::Open, Sort::Read10],
        &[Sort::Open, Sort::Read12, Sort::Close],
        &[Sort::Locking10, Sort::Read10],
        &[Sort::Locking20, Sort::Write12],
        &[Sort::Locking10, Sort::CoreWrite],
        &[Sort::Locking20, Sort::CoreRead],
        &[Sort::Read10, Sort::Close],
        &[Sort::Read12, Sort::Close],
        &[Sort::Write12, Sort::Close],
        &[Sort::Write14, Sort::Read12],
        &[Sort::Write12, Sort::Write14],
        &[Sort::Write12, Sort::Write12, Sort::Write12],
    ];
    for base in bases {
        let forms: Vec<Form> = base.iter().map(|&sort| maker.form(sort, 12)).collect();
        let chain = Chain::of(&mut maker.rng, &forms, Gap::Decoy);
        let index = chain.blocks.len() - 2;
        let (form, at) = chain.blocks[index];
        let right = chain.last();
        let size = chain.bytes.len();
        let mut offsets: Vec<usize> = (0..size + 3).collect();
        offsets.extend([256 + right, 512 + right, 0x7FFF, 0x8000 + right, 0xFFFF]);
        for offset in offsets {
            let mut bytes = chain.bytes.clone();
            put16(&mut bytes, at + ANDX_OFFSET, offset);
            let expected = if offset == right {
                chain.expected()
            } else if offset < at + form.length() || offset >= size {
                Expected::NotAChain
            } else {
                // The decoy, or whatever is read there.
                Expected::Unstated
            };
            maker.push("AndXOffset", bytes, expected);
        }
        // 0xFF: the offset is ignored, and the rest of the message is free.
        for offset in [0, 32, at, right, size, 0xFFFF] {
            let mut ended = chain.clone();
            ended.blocks.pop();
            ended.bytes[at + ANDX_COMMAND] = 0xFF;
            put16(&mut ended.bytes, at + ANDX_OFFSET, offset);
            maker.push_chain("AndXOffset", ended);
        }
    }
}

/// A form of this command, none if it is not served.
fn form_of(maker: &mut Maker, command: u8) -> Option<Form> {
    for sort in SORTS {
        let form = maker.form(sort, 9);
        if form.command() == command {
            return Some(form);
        }
    }
    None
}

/// Every AndXCommand after every request named ANDX, with a good block of
/// that command where there is such a thing.
fn followers(maker: &mut Maker) {
    for sort in [
        Sort::Locking10,
        Sort::Read10,
        Sort::Read12,
        Sort::Write12,
        Sort::Open,
        Sort::Logoff,
    ] {
        for command in 0..=255u8 {
            let first = maker.form(sort, 9);
            let mut chain = Chain::new(&mut maker.rng, first);
            match form_of(maker, command) {
                Some(form) => chain.add(&mut maker.rng, form),
                None => {
                    let end = chain.bytes.len();
                    chain.bytes[32 + ANDX_COMMAND] = command;
                    put16(&mut chain.bytes, 32 + ANDX_OFFSET, end);
                    chain.bytes.extend([0; 40]);
                }
            }
            let allowed = SUCCESSIONS.contains(&(first.command(), command));
            let expected = if allowed || command == 0xFF {
                chain.expected()
            } else {
                Expected::NotAChain
            };
            maker.push("followers", chain.bytes, expected);
        }
    }
    // These have no AndX: words that look like one are not looked at.
    for command in [CLOSE, READ_ANDX, WRITE_ANDX, READ, WRITE, 0x00, 0xFF] {
        for sorts in [
            &[Sort::Close][..],
            &[Sort::CoreRead][..],
            &[Sort::LockRange][..],
            &[Sort::UnlockRange][..],
            &[Sort::Locking10, Sort::CoreRead][..],
            &[Sort::Read10, Sort::Close][..],
            &[Sort::Write12, Sort::Close][..],
        ] {
            let mut chain = maker.small(sorts);
            let at = chain.last();
            chain.bytes[at + ANDX_COMMAND] = command;
            let offset = maker.rng.pick(&[0, 32, chain.bytes.len()]);
            put16(&mut chain.bytes, at + ANDX_OFFSET, offset);
            chain.free(&mut maker.rng, 30);
            maker.push_chain("followers", chain);
        }
    }
}

/// Every command in the header, over a good block of its own, and unserved
/// ones over the blocks of served ones.
fn header_commands(maker: &mut Maker) {
    for command in 0..=255u8 {
        match form_of(maker, command) {
            Some(form) => {
                let chain = Chain::new(&mut maker.rng, form);
                maker.push_chain("header commands", chain);
            }
            None => {
                let mut bytes = header(&mut maker.rng, command);
                bytes.extend([0; 3]);
                maker.push("header commands", bytes, Expected::NotAChain);
                let sort = maker.rng.pick(&SORTS);
                let mut chain = maker.small(&[sort]);
                chain.bytes[4] = command;
                maker.push("header commands", chain.bytes, Expected::NotAChain);
            }
        }
    }
}

/// Flags and the protocol bytes.
fn header_bytes(maker: &mut Maker) {
    for flags in 0..=255u8 {
        let base = maker.rng.pick(&BASES);
        let mut chain = maker.small(base);
        chain.bytes[9] = flags;
        let expected = if flags >= 0x80 {
            Expected::Dropped
        } else {
            chain.expected()
        };
        maker.push("flags", chain.bytes, expected);
    }
    // Bit 0x80 elsewhere in the header does not drop the message.
    for place in 5..32 {
        let base = maker.rng.pick(&BASES);
        let mut chain = maker.small(base);
        if place != 9 {
            chain.bytes[5..32].fill(0);
            chain.bytes[place] = 0x80;
            maker.push_chain("flags", chain);
        }
    }
    for place in 0..4 {
        for bit in 0..8 {
            let base = maker.rng.pick(&BASES);
            let mut chain = maker.small(base);
            chain.bytes[place] ^= 1 << bit;
            maker.push("protocol", chain.bytes, Expected::Dropped);
        }
    }
    for start in [
        *b"\xFESMB",
        *b"\xFDSMB",
        *b"BMS\xFF",
        *b"SMB\xFF",
        *b"\xFFsmb",
        [0; 4],
        [0xFF; 4],
    ] {
        let mut chain = maker.small(&[Sort::Locking10, Sort::Read10]);
        chain.bytes[..4].copy_from_slice(&start);
        maker.push("protocol", chain.bytes, Expected::Dropped);
    }
    // Several reasons of row 1 at once, and an unserved command with them.
    let mut chain = maker.small(&[Sort::Logoff]);
    chain.bytes[0] = 0;
    chain.bytes[9] = 0x80;
    maker.push("flags", chain.bytes.clone(), Expected::Dropped);
    chain.bytes[4] = 0;
    maker.push("flags", chain.bytes.clone(), Expected::Dropped);
    chain.bytes[0] = 0xFF;
    maker.push("flags", chain.bytes, Expected::Dropped);
}

/// Messages of special sizes; those within the limit are good chains.
fn sizes(maker: &mut Maker) {
    for size in 0..35 {
        let chain = maker.small(&[Sort::TreeDisconnect]);
        let bytes = chain.bytes[..size].to_vec();
        maker.push("sizes", bytes, Expected::Dropped);
        maker.push("sizes", vec![0; size], Expected::Dropped);
    }
    let mut totals: Vec<usize> = (35..45).collect();
    totals.extend([84, 255, 256, 257, 1000, 4095, 4096, 4097, 8000]);
    totals.extend(8188..8197);
    totals.extend([
        8192 + 84,
        12_292,
        16_384,
        16_384 + 84,
        20_000,
        32_768,
        65_535,
        65_536,
        65_536 + 34,
        65_536 + 35,
        65_536 + 84,
        65_536 + 8192,
        70_000,
        131_072 + 84,
        200_000,
    ]);
    for total in totals {
        for sorts in [
            &[Sort::TreeDisconnect][..],
            &[Sort::ProcessExit][..],
            &[Sort::Locking10, Sort::Read10][..],
        ] {
            let mut chain = maker.small(sorts);
            if let Some(count) = total.checked_sub(chain.bytes.len()) {
                chain.free(&mut maker.rng, count);
                maker.push_chain("sizes", chain);
            }
        }
        if total > LIMIT {
            maker.push("sizes", vec![0; total], Expected::Dropped);
        }
    }
}

/// Each byte of small messages altered.
fn alterations(maker: &mut Maker) {
    let mut bases: Vec<Vec<u8>> = vec![worked()];
    for base in BASES {
        bases.push(maker.small(base).bytes);
    }
    for base in bases {
        for place in 0..base.len() {
            let old = base[place];
            let other = maker.rng.byte();
            for new in [0, 0xFF, old.wrapping_add(1), old.wrapping_sub(1), other] {
                if new != old {
                    let mut bytes = base.clone();
                    bytes[place] = new;
                    maker.push("alterations", bytes, Expected::Unstated);
                }
            }
        }
    }
}

/// Small messages cut at every length: none of the shorter ones is a chain,
/// as the last block ends with the message.
fn truncations(maker: &mut Maker) {
    for base in BASES {
        let chain = maker.small(base);
        for size in 0..chain.bytes.len() {
            let expected = if size < 35 {
                Expected::Dropped
            } else {
                Expected::NotAChain
            };
            maker.push("truncations", chain.bytes[..size].to_vec(), expected);
        }
    }
    // With free bytes at the end, only the cut that reaches the block matters.
    for base in BASES {
        let mut chain = maker.small(base);
        let end = chain.bytes.len();
        chain.free(&mut maker.rng, 6);
        for size in end - 3..end + 6 {
            let expected = if size >= end {
                chain.expected()
            } else if size < 35 {
                Expected::Dropped
            } else {
                Expected::NotAChain
            };
            maker.push("truncations", chain.bytes[..size].to_vec(), expected);
        }
    }
}

/// Random chains with a few bytes changed, or a part taken out or doubled,
/// and random bytes after a good header.
fn random_damage(maker: &mut Maker) {
    for turn in 0..1000 {
        let mut bytes = maker.random_chain(5, 16).bytes;
        match turn % 4 {
            0 | 1 => {
                for _ in 0..1 + maker.rng.below(3) {
                    let place = 32 + maker.rng.below(bytes.len() - 32);
                    let byte = maker.rng.byte();
                    bytes[place] = maker.rng.pick(&[0, 1, 0x2E, 0x2F, 0xFF, byte]);
                }
            }
            2 => {
                let place = 32 + maker.rng.below(bytes.len() - 32);
                bytes.remove(place);
            }
            _ => {
                let place = 32 + maker.rng.below(bytes.len() - 32);
                bytes.insert(place, bytes[place]);
            }
        }
        maker.push("random damage", bytes, Expected::Unstated);
    }
    for _ in 0..200 {
        let command = maker.rng.pick(&crate::grammar::SERVED);
        let mut bytes = header(&mut maker.rng, command);
        let count = 3 + maker.rng.below(200);
        bytes.extend(maker.rng.bytes(count));
        maker.push("random damage", bytes, Expected::Unstated);
    }
}
