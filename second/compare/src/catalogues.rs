//! Catalogues for the call that sets one, and the rules that one can break
//! (document 02, request 6). All are 225 words: the count, then of each name the
//! length, twelve bytes of text and the file.

use second::rng::Rng;
use second::words::{CatalogueWords, CATALOGUE_WORDS};

const NAMES: usize = 16;
const FIELDS: usize = 14;
const LONGEST: usize = 12;
const FILE: usize = 13;

/// Names to set and to ask for. Some differ in case only, some in the bit that
/// case has in letters but are no letters.
pub const POOL: [&[u8]; 20] = [
    b"LIST",
    b"list",
    b"List.txt",
    b"LIST.TXT",
    b"A",
    b"z",
    b"TWELVE.BYTES",
    b"twelve.byteS",
    b"@1",
    b"`1",
    b"[1",
    b"{1",
    b"\xC4\xD6",
    b"\xE4\xF6",
    b"M-",
    b"m\r",
    b"\\A",
    b"a ",
    b"\xFF",
    b"\x01\x7F",
];

/// The rules that a catalogue can break.
pub const RULES: [&str; 6] = [
    "over 16 names",
    "a name of another length",
    "a name with a zero byte",
    "a name doubled",
    "a file above 15",
    "a word that does not fit",
];

/// Where a field of a name stands.
fn word(name: usize, field: usize) -> usize {
    1 + name * FIELDS + field
}

fn names_in_use(words: &[u64]) -> usize {
    words[0].min(NAMES as u64) as usize
}

/// The bytes of a name in use, as far as its length is within the limit.
fn text(words: &[u64], name: usize) -> &[u64] {
    let length = words[word(name, 0)].min(LONGEST as u64) as usize;
    &words[word(name, 1)..word(name, 1 + length)]
}

fn folded(byte: u64) -> u64 {
    match byte {
        0x41..=0x5A => byte + 0x20,
        _ => byte,
    }
}

fn doubled(words: &[u64], one: usize, other: usize) -> bool {
    let folded = |name| text(words, name).iter().map(|&byte| folded(byte));
    one != other && folded(one).eq(folded(other))
}

/// Which of the rules a catalogue breaks.
pub fn broken(words: &[u64]) -> [bool; RULES.len()] {
    let used = 0..names_in_use(words);
    let fields = |name| &words[word(name, 0)..word(name, FIELDS)];
    let length = |name| words[word(name, 0)];
    let any = |test: &dyn Fn(usize) -> bool| used.clone().any(test);
    [
        words[0] > NAMES as u64,
        any(&|name| length(name) == 0 || length(name) > LONGEST as u64),
        any(&|name| text(words, name).contains(&0)),
        any(&|name| used.clone().any(|other| doubled(words, name, other))),
        any(&|name| words[word(name, FILE)] > 15),
        any(&|name| fields(name).iter().any(|&field| field > 255)),
    ]
}

/// A catalogue that keeps the rules. What stands behind a name and behind the
/// names in use is anything that fits there.
pub fn good(rng: &mut Rng) -> CatalogueWords {
    let mut words = [0; CATALOGUE_WORDS];
    if rng.below(2) == 0 {
        words.fill_with(|| rng.number() >> (8 * rng.below(8)));
    }
    words[0] = 0;
    let count = rng.pick(&[0, 1, 3, 5, 8, 16, 16]);
    add_names(&mut words, count, rng);
    words
}

/// Puts names behind those in use until there are so many. A catalogue that is
/// broken gets none.
fn add_names(words: &mut [u64], count: usize, rng: &mut Rng) {
    for _ in 0..10 * count {
        if names_in_use(words) < count {
            add_name(words, rng);
        }
    }
}

/// Puts a name behind those in use: one of the pool, in any case, or random bytes.
fn add_name(words: &mut [u64], rng: &mut Rng) {
    let name = names_in_use(words);
    let pooled = rng.pick(&POOL);
    let length = match rng.below(4) {
        0 => 1 + rng.below(LONGEST),
        _ => pooled.len(),
    };
    let behind = rng.pick(&[0, 0, 0x20, 0xFF]);
    for place in 0..LONGEST {
        words[word(name, 1 + place)] = match pooled.get(place) {
            Some(&byte) if length == pooled.len() => cased(byte, rng).into(),
            _ if place < length => 1 + rng.below(255) as u64,
            _ => behind,
        };
    }
    words[word(name, 0)] = length as u64;
    let any = rng.below(16) as u64;
    words[word(name, FILE)] = rng.pick(&[0, 0, 1, 2, 3, 15, any, any]);
    words[0] += 1;
    if broken(words).contains(&true) {
        words[0] -= 1;
    }
}

/// A byte in either case.
pub fn cased(byte: u8, rng: &mut Rng) -> u8 {
    match rng.below(2) {
        0 => byte.to_ascii_uppercase(),
        _ => byte.to_ascii_lowercase(),
    }
}

/// Changes a catalogue, mostly so that it breaks a rule.
pub fn spoil(words: &mut [u64], rng: &mut Rng) {
    let way = rng.below(8);
    add_names(words, if way == 0 { NAMES } else { 2 }, rng);
    let used = names_in_use(words);
    if used < 2 {
        return;
    }
    let name = rng.below(used);
    let length = words[word(name, 0)].clamp(1, LONGEST as u64) as usize;
    match way {
        0 => words[0] = rng.pick(&[17, 17, 18, 255, 256, 1 << 32, u64::MAX]),
        1 => words[word(name, 0)] = rng.pick(&[0, 0, 13, 14, 255]),
        2 => words[word(name, 1 + rng.below(length))] = 0,
        3 => double(words, name, (name + 1 + rng.below(used - 1)) % used, rng),
        4 => words[word(name, FILE)] = rng.pick(&[16, 17, 31, 128, 255]),
        5 => words[word(name, rng.below(FIELDS))] |= rng.pick(&[256, 256, 1 << 16, 1 << 63]),
        6 => words[word(name, 1 + rng.below(LONGEST))] = rng.pick(&[0, 1, 255, 256]),
        _ => words[word(name, 0)] = 1 + rng.below(LONGEST) as u64,
    }
}

/// Makes one name the other but for case.
fn double(words: &mut [u64], one: usize, other: usize, rng: &mut Rng) {
    words[word(one, 0)] = words[word(other, 0)];
    for field in 1..=LONGEST {
        let byte = words[word(other, field)] as u8;
        words[word(one, field)] = cased(byte, rng).into();
    }
}
