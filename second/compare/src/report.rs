//! What is said of a difference.

use crate::call::Trial;
use crate::places;
use linked::guarded::Side;
use second::call::Call;
use second::header::header_numbers;
use second::listing::{answer, Answer};
use second::request::{Ranges, Request};
use second::status::StatusForm;
use second::words::{HolderWords, Words, WORDS};

/// Most differences of one kind that are printed.
const MOST: usize = 12;

const OPEN_FIELDS: [&str; 9] = [
    "fid", "uid", "tid", "process", "file", "access", "sharing", "read", "seen",
];
const NAME_FIELDS: [&str; 14] = [
    "length", "text 0", "text 1", "text 2", "text 3", "text 4", "text 5", "text 6", "text 7",
    "text 8", "text 9", "text 10", "text 11", "file",
];

/// The name of a word: table, place and field.
pub fn word_name(word: usize) -> String {
    let tables: [(&str, usize, usize, &[&str]); 5] = [
        ("sessions", places::SESSIONS, 16, &["uid", "connection"]),
        ("trees", places::TREES, 32, &["tid", "uid", "right"]),
        ("opens", places::OPENS, 64, &OPEN_FIELDS),
        (
            "locks",
            places::LOCKS,
            128,
            &["fid", "process", "offset", "length", "shared"],
        ),
        ("names", places::NAMES, 16, &NAME_FIELDS),
    ];
    for (table, start, records, fields) in tables {
        let end = start + 1 + records * fields.len();
        if word == start {
            return format!("{table} count");
        }
        if word > start && word < end {
            let place = word - start - 1;
            let field = fields[place % fields.len()];
            return format!("{table}[{}].{field}", place / fields.len());
        }
    }
    let place = word - places::FILES;
    let fields = ["size", "changes"];
    format!("files[{}].{}", place / 2, fields[place % 2])
}

/// The words that differ.
pub fn words(own: &Words, theirs: &Words) -> Vec<String> {
    if own == theirs {
        return Vec::new();
    }
    let differing: Vec<usize> = (0..WORDS)
        .filter(|&word| own[word] != theirs[word])
        .collect();
    let mut lines: Vec<String> = differing
        .iter()
        .take(MOST)
        .map(|&word| {
            let name = word_name(word);
            format!(
                "word {word}, {name}: {}, library's {}",
                own[word], theirs[word]
            )
        })
        .collect();
    lines.push(format!("{} words differ", differing.len()));
    lines
}

/// The words that differ, of those with these names.
pub fn named_words(of: &str, names: &[&str], own: &[u64], theirs: &[u64]) -> Vec<String> {
    let each = names.iter().zip(own.iter().zip(theirs));
    let differing = each.filter(|(_, (own, theirs))| own != theirs);
    differing
        .map(|(name, (own, theirs))| format!("{of}, {name}: {own}, library's {theirs}"))
        .collect()
}

const HOLDER_NAMES: [&str; 6] = ["held", "fid", "process", "place", "offset", "length"];

/// Who holds the lock, if that differs, in words that were lent so.
pub fn holders(own: &HolderWords, theirs: &HolderWords, lent: &HolderWords) -> Vec<String> {
    if own == theirs {
        return Vec::new();
    }
    let (own_holder, their_holder) = (holder(own, lent), holder(theirs, lent));
    let mut lines = vec![format!("holder: {own_holder}; library's: {their_holder}")];
    lines.extend(named_words("holder", &HOLDER_NAMES, own, theirs));
    lines
}

/// What the words for the holder say.
fn holder(words: &HolderWords, lent: &HolderWords) -> String {
    match words {
        _ if words == lent => "not written".to_string(),
        [0, 0, 0, 0, 0, 0] => "nobody".to_string(),
        [1, fid, process, place, offset, length] => {
            format!("FID {fid}, process {process}, place {place}, offset {offset}, length {length}")
        }
        _ => format!("no such words, {words:?}"),
    }
}

/// The bytes that differ.
pub fn bytes(name: &str, own: &[u8], theirs: &[u8]) -> Vec<String> {
    if own == theirs {
        return Vec::new();
    }
    let differing: Vec<usize> = (0..own.len().min(theirs.len()))
        .filter(|&place| own[place] != theirs[place])
        .collect();
    let mut lines: Vec<String> = differing
        .iter()
        .take(MOST)
        .map(|&place| {
            let (own, theirs) = (own[place], theirs[place]);
            format!("{name}, byte {place}: {own:02X}, library's {theirs:02X}")
        })
        .collect();
    lines.push(format!("{name}: {} bytes differ", differing.len()));
    lines
}

pub fn hex(bytes: &[u8]) -> String {
    let pairs: Vec<String> = bytes.iter().map(|byte| format!("{byte:02X}")).collect();
    let lines: Vec<String> = pairs.chunks(32).map(|line| line.join(" ")).collect();
    lines.join("\n")
}

/// What differs, then the call and the tables before it.
pub fn whole(trial: &Trial, side: Side, before: &Words, differences: &[String]) -> String {
    let mut text = "differences (second program first):\n".to_string();
    for line in differences {
        text += &format!("  {line}\n");
    }
    text += &format!("buffers against the guard page at their {side:?}\n");
    text + &described(trial, before)
}

/// A call and the tables that it gets.
pub fn described(trial: &Trial, before: &Words) -> String {
    let input = trial.input();
    let (memory, room) = (trial.other_memory(), trial.room());
    let mut text = match trial.call() {
        Some(Call::LoadFile { file, .. }) => format!(
            "load_file: file {file}, {} bytes, memory {memory:?}\n{}\n",
            input.len(),
            hex(&input)
        ),
        Some(Call::TakeMessage { connection, .. }) => format!(
            "take_message: connection {connection}, {} bytes, memory {memory:?}, room {room}\n{}{}\n",
            input.len(),
            explained(&input),
            hex(&input)
        ),
        Some(other) => format!("{other:?}\n"),
        None => "empty\n".to_string(),
    };
    text += "tables before, records and counts that are not 0:\n";
    text + &records(before)
}

/// The header's numbers and the requests of a message, as far as it has any.
fn explained(message: &[u8]) -> String {
    match answer(message) {
        Answer::Dropped(reason) => format!("  to be dropped: {reason:?}\n"),
        Answer::NotAChain(reason) => {
            format!(
                "  not a chain: {:?} at {:02X}\n",
                reason.why, reason.command
            )
        }
        Answer::Chain(blocks) => {
            let (uid, tid, process) = header_numbers(message);
            let form = StatusForm::of(message);
            let mut text = format!("  TID {tid}, process {process}, UID {uid}, {form:?} status\n");
            for block in blocks {
                let request = request(&Request::read(message, &block));
                text += &format!("  {:02X}: {request}\n", block.command);
            }
            text
        }
    }
}

fn request(request: &Request) -> String {
    match request {
        Request::Locking {
            fid,
            kind,
            unlocks,
            locks,
        } => format!(
            "LOCKING FID {fid}, type {kind:02X}, unlocks {}, locks {}",
            ranges(unlocks),
            ranges(locks)
        ),
        Request::Write { fid, offset, data } => {
            format!("WRITE FID {fid}, offset {offset}, length {}", data.len())
        }
        other => format!("{other:?}"),
    }
}

/// Process, offset and length of each.
fn ranges(ranges: &Ranges) -> String {
    let each = ranges.iter();
    let each = each.map(|asked| (asked.process, asked.range.offset, asked.range.length));
    format!("{:?}", each.collect::<Vec<_>>())
}

/// The records, one to a line, that are not all 0.
fn records(words: &Words) -> String {
    let mut lines: Vec<(String, Vec<u64>)> = Vec::new();
    for (word, &value) in words.iter().enumerate() {
        let name = word_name(word);
        let record = name.split('.').next().unwrap_or_default();
        match lines.last_mut() {
            Some((last, fields)) if last == record => fields.push(value),
            _ => lines.push((record.to_string(), vec![value])),
        }
    }
    lines.retain(|(_, fields)| fields.iter().any(|&field| field != 0));
    let lines = lines
        .iter()
        .map(|(name, fields)| format!("  {name}: {fields:?}\n"));
    lines.collect()
}
