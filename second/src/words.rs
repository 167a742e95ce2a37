//! The tables as the host hands them over: an array of 1605 words of 64
//! bits, and every call over it. Any words are legal; a field outside its
//! width, of a record in use, makes the tables not sound. Words of records
//! that are not in use are nobody's and stay as they are. A refused call
//! leaves every word as it was.

use crate::catalogue::{Catalogue, Name, LONGEST_NAME, NAMES};
use crate::holder::Holder;
use crate::host;
use crate::message;
use crate::refusals::{CallRefusal, Outcome};
use crate::tables::{
    File, Lock, Open, Range, Session, Table, Tables, Tree, FILES, LOCKS, MEMORY_BYTES, OPENS,
    SESSIONS, TREES,
};

/// The number of words.
pub const WORDS: usize = 1
    + SESSIONS * Session::FIELDS
    + 1
    + TREES * Tree::FIELDS
    + 1
    + OPENS * Open::FIELDS
    + 1
    + LOCKS * Lock::FIELDS
    + FILES * File::FIELDS
    + CATALOGUE_WORDS;

pub type Words = [u64; WORDS];

pub const CATALOGUE_WORDS: usize = 1 + NAMES * Name::FIELDS;
/// The catalogue's own part of the tables, which is at their end: a count and
/// the names.
pub type CatalogueWords = [u64; CATALOGUE_WORDS];
/// Where that part begins.
pub const CATALOGUE: usize = WORDS - CATALOGUE_WORDS;

pub const HOLDER_WORDS: usize = 6;
/// Who holds the lock: 1, FID, process, place, offset, length. All are 0 if
/// there is no holder.
pub type HolderWords = [u64; HOLDER_WORDS];

/// A record that stands in the array as so many fields, one to a word.
trait Record: Copy + Default {
    const FIELDS: usize;

    /// None if a field is outside its width.
    fn from_words(words: &[u64]) -> Option<Self>;

    fn to_words(self, words: &mut [u64]);
}

fn narrow<T: TryFrom<u64>>(word: u64) -> Option<T> {
    T::try_from(word).ok()
}

/// 0 or 1.
fn flag(word: u64) -> Option<bool> {
    match word {
        0 => Some(false),
        1 => Some(true),
        _ => None,
    }
}

impl Record for Session {
    const FIELDS: usize = 2;

    fn from_words(words: &[u64]) -> Option<Self> {
        Some(Session {
            uid: narrow(words[0])?,
            connection: narrow(words[1])?,
        })
    }

    fn to_words(self, words: &mut [u64]) {
        words.copy_from_slice(&[self.uid.into(), self.connection.into()]);
    }
}

impl Record for Tree {
    const FIELDS: usize = 3;

    fn from_words(words: &[u64]) -> Option<Self> {
        Some(Tree {
            tid: narrow(words[0])?,
            uid: narrow(words[1])?,
            right: narrow(words[2])?,
        })
    }

    fn to_words(self, words: &mut [u64]) {
        words.copy_from_slice(&[self.tid.into(), self.uid.into(), self.right.into()]);
    }
}

impl Record for Open {
    const FIELDS: usize = 9;

    fn from_words(words: &[u64]) -> Option<Self> {
        Some(Open {
            fid: narrow(words[0])?,
            uid: narrow(words[1])?,
            tid: narrow(words[2])?,
            process: narrow(words[3])?,
            file: narrow(words[4])?,
            access: narrow(words[5])?,
            sharing: narrow(words[6])?,
            read: flag(words[7])?,
            seen: words[8],
        })
    }

    fn to_words(self, words: &mut [u64]) {
        words.copy_from_slice(&[
            self.fid.into(),
            self.uid.into(),
            self.tid.into(),
            self.process.into(),
            self.file.into(),
            self.access.into(),
            self.sharing.into(),
            self.read.into(),
            self.seen,
        ]);
    }
}

impl Record for Lock {
    const FIELDS: usize = 5;

    fn from_words(words: &[u64]) -> Option<Self> {
        Some(Lock {
            fid: narrow(words[0])?,
            process: narrow(words[1])?,
            range: Range {
                offset: words[2],
                length: words[3],
            },
            shared: flag(words[4])?,
        })
    }

    fn to_words(self, words: &mut [u64]) {
        words.copy_from_slice(&[
            self.fid.into(),
            self.process.into(),
            self.range.offset,
            self.range.length,
            self.shared.into(),
        ]);
    }
}

impl Record for File {
    const FIELDS: usize = 2;

    fn from_words(words: &[u64]) -> Option<Self> {
        Some(File {
            size: words[0],
            changes: words[1],
        })
    }

    fn to_words(self, words: &mut [u64]) {
        words.copy_from_slice(&[self.size, self.changes]);
    }
}

/// Length, the bytes of the text, file.
impl Record for Name {
    const FIELDS: usize = 1 + LONGEST_NAME + 1;

    fn from_words(words: &[u64]) -> Option<Self> {
        let mut text = [0; LONGEST_NAME];
        for (byte, &word) in text.iter_mut().zip(&words[1..]) {
            *byte = narrow(word)?;
        }
        Some(Name {
            length: narrow(words[0])?,
            text,
            file: narrow(words[1 + LONGEST_NAME])?,
        })
    }

    fn to_words(self, words: &mut [u64]) {
        words[0] = self.length.into();
        for (word, byte) in words[1..].iter_mut().zip(self.text) {
            *word = byte.into();
        }
        words[1 + LONGEST_NAME] = self.file.into();
    }
}

/// Takes the words of so many records, of which the first `used` are read.
fn take_records<T: Record>(records: &mut [T], used: usize, words: &mut &[u64]) -> Option<()> {
    let (front, rest) = words.split_at(records.len() * T::FIELDS);
    *words = rest;
    let fields = front.chunks_exact(T::FIELDS);
    for (record, fields) in records.iter_mut().zip(fields).take(used) {
        *record = T::from_words(fields)?;
    }
    Some(())
}

fn take_table<T: Record, const N: usize>(
    table: &mut Table<T, N>,
    words: &mut &[u64],
) -> Option<()> {
    // A count that is no `usize` is above every limit.
    table.count = narrow(words[0])?;
    table.most = table.count;
    *words = &words[1..];
    take_records(&mut table.records, table.count, words)
}

/// The tables in the words; none if a field in use is outside its width.
pub fn unpack(words: &Words) -> Option<Tables> {
    let mut words = &words[..];
    let mut tables = Tables::empty();
    take_table(&mut tables.sessions, &mut words)?;
    take_table(&mut tables.trees, &mut words)?;
    take_table(&mut tables.opens, &mut words)?;
    take_table(&mut tables.locks, &mut words)?;
    take_records(&mut tables.files, FILES, &mut words)?;
    take_table(&mut tables.catalogue, &mut words)?;
    Some(tables)
}

/// The catalogue in words of its own; none if a field in use is outside its
/// width.
fn unpack_catalogue(words: &CatalogueWords) -> Option<Catalogue> {
    let mut catalogue = Table::empty();
    take_table(&mut catalogue, &mut &words[..])?;
    Some(catalogue)
}

/// Puts the first `used` of the records into their words; those behind stay.
fn put_records<T: Record>(records: &[T], used: usize, words: &mut &mut [u64]) {
    let (front, rest) = std::mem::take(words).split_at_mut(records.len() * T::FIELDS);
    let fields = front.chunks_exact_mut(T::FIELDS);
    for (record, fields) in records.iter().zip(fields).take(used) {
        record.to_words(fields);
    }
    *words = rest;
}

/// Puts the records in use, and empty ones over those given up.
fn put_table<T: Record, const N: usize>(table: &Table<T, N>, words: &mut &mut [u64]) {
    let (count, rest) = std::mem::take(words).split_at_mut(1);
    count[0] = table.count as u64;
    *words = rest;
    put_records(&table.records, table.most, words);
}

/// Puts the tables into the words that they were taken from.
pub fn pack(tables: &Tables, words: &mut Words) {
    let mut words = &mut words[..];
    put_table(&tables.sessions, &mut words);
    put_table(&tables.trees, &mut words);
    put_table(&tables.opens, &mut words);
    put_table(&tables.locks, &mut words);
    put_records(&tables.files, FILES, &mut words);
    put_table(&tables.catalogue, &mut words);
}

/// A catalogue in words of its own.
pub fn pack_catalogue(catalogue: &Catalogue) -> CatalogueWords {
    let mut words = [0; CATALOGUE_WORDS];
    put_table(catalogue, &mut &mut words[..]);
    words
}

/// Makes a call on the tables in the words and, when it is done, puts them
/// back.
fn on_tables<T>(words: &mut Words, call: impl FnOnce(&mut Tables) -> Outcome<T>) -> Outcome<T> {
    let mut tables = unpack(words).ok_or(CallRefusal::NotSound)?;
    let value = call(&mut tables)?;
    pack(&tables, words);
    Ok(value)
}

pub fn add_session(words: &mut Words, connection: u32) -> Outcome<u16> {
    on_tables(words, |tables| host::add_session(tables, connection))
}

pub fn add_tree(words: &mut Words, uid: u32, right: u32) -> Outcome<u16> {
    on_tables(words, |tables| host::add_tree(tables, uid, right))
}

pub fn add_open(
    words: &mut Words,
    uid: u32,
    tid: u32,
    process: u32,
    file: u32,
    access: u32,
) -> Outcome<u16> {
    on_tables(words, |tables| {
        host::add_open(tables, uid, tid, process, file, access)
    })
}

pub fn load_file(words: &mut Words, file: u32, contents: &[u8], memory: &mut [u8]) -> Outcome<()> {
    // Row 2 comes before row 4, so also before the words are looked at.
    host::ensure(memory.len() == MEMORY_BYTES, CallRefusal::Room)?;
    on_tables(words, |tables| {
        host::load_file(tables, file, contents, memory)
    })
}

pub fn drop_connection(words: &mut Words, connection: u32) -> Outcome<()> {
    on_tables(words, |tables| host::drop_connection(tables, connection))
}

pub fn end_session(words: &mut Words, uid: u32) -> Outcome<()> {
    on_tables(words, |tables| host::end_session(tables, uid))
}

pub fn end_tree(words: &mut Words, tid: u32) -> Outcome<()> {
    on_tables(words, |tables| host::end_tree(tables, tid))
}

pub fn end_open(words: &mut Words, fid: u32) -> Outcome<()> {
    on_tables(words, |tables| host::end_open(tables, fid))
}

/// Whether the file of the open of that FID is unchanged. No word is written.
pub fn unchanged(words: &Words, fid: u32) -> Outcome<bool> {
    let tables = unpack(words).ok_or(CallRefusal::NotSound)?;
    host::unchanged(&tables, fid)
}

/// On success the tables' part is exactly the words given, those past the names
/// in use too. A word of a name in use that does not fit breaks a rule as well.
pub fn set_catalogue(words: &mut Words, given: &CatalogueWords) -> Outcome<()> {
    on_tables(words, |tables| {
        host::ensure(tables.sound(), CallRefusal::NotSound)?;
        let catalogue = unpack_catalogue(given).ok_or(CallRefusal::OutOfRange)?;
        host::set_catalogue(tables, &catalogue)
    })?;
    words[CATALOGUE..].copy_from_slice(given);
    Ok(())
}

/// Gives the reply's length. Who holds the lock is written if the message was
/// taken, "beside the reply", and only then.
pub fn take_message(
    words: &mut Words,
    connection: u32,
    message: &[u8],
    memory: &mut [u8],
    room: &mut [u8],
    holder: &mut HolderWords,
) -> Outcome<usize> {
    message::check_room(memory, room)?;
    let taken = on_tables(words, |tables| {
        message::take_message(tables, connection, message, memory, room)
    })?;
    *holder = taken.holder.map_or([0; HOLDER_WORDS], holder_words);
    Ok(taken.length)
}

fn holder_words(Holder { place, lock }: Holder) -> HolderWords {
    [
        1,
        lock.fid.into(),
        lock.process.into(),
        place as u64,
        lock.range.offset,
        lock.range.length,
    ]
}
