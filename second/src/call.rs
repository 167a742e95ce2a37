//! A call of the host's as a value, so that histories of calls can be made.

use crate::refusals::Outcome;
use crate::words::{self, CatalogueWords, HolderWords, Words};
use std::borrow::Cow;

#[derive(Clone, Debug, PartialEq, Eq)]
pub enum Call {
    AddSession {
        connection: u32,
    },
    AddTree {
        uid: u32,
        right: u32,
    },
    AddOpen {
        uid: u32,
        tid: u32,
        process: u32,
        file: u32,
        access: u32,
    },
    LoadFile {
        file: u32,
        contents: Vec<u8>,
    },
    DropConnection {
        connection: u32,
    },
    EndSession {
        uid: u32,
    },
    EndTree {
        tid: u32,
    },
    EndOpen {
        fid: u32,
    },
    SetCatalogue {
        catalogue: Box<CatalogueWords>,
    },
    Unchanged {
        fid: u32,
    },
    TakeMessage {
        connection: u32,
        message: Vec<u8>,
    },
}

impl Call {
    /// Makes the call. It gives the number of what was added, 1 for "unchanged",
    /// the reply's length, or else 0. Only a message taken writes the holder.
    pub fn make(
        &self,
        words: &mut Words,
        memory: &mut [u8],
        room: &mut [u8],
        holder: &mut HolderWords,
    ) -> Outcome<usize> {
        match *self {
            Call::AddSession { connection } => {
                words::add_session(words, connection).map(usize::from)
            }
            Call::AddTree { uid, right } => words::add_tree(words, uid, right).map(usize::from),
            Call::AddOpen {
                uid,
                tid,
                process,
                file,
                access,
            } => words::add_open(words, uid, tid, process, file, access).map(usize::from),
            Call::LoadFile { file, ref contents } => {
                words::load_file(words, file, contents, memory).map(|()| 0)
            }
            Call::DropConnection { connection } => {
                words::drop_connection(words, connection).map(|()| 0)
            }
            Call::EndSession { uid } => words::end_session(words, uid).map(|()| 0),
            Call::EndTree { tid } => words::end_tree(words, tid).map(|()| 0),
            Call::EndOpen { fid } => words::end_open(words, fid).map(|()| 0),
            Call::SetCatalogue { ref catalogue } => {
                words::set_catalogue(words, catalogue).map(|()| 0)
            }
            Call::Unchanged { fid } => words::unchanged(words, fid).map(usize::from),
            Call::TakeMessage {
                connection,
                ref message,
            } => words::take_message(words, connection, message, memory, room, holder),
        }
    }

    /// The message, the contents to load, or the words of the catalogue as they
    /// stand in memory.
    pub fn input(&self) -> Cow<'_, [u8]> {
        match self {
            Call::LoadFile { contents, .. } => contents.into(),
            Call::TakeMessage { message, .. } => message.into(),
            Call::SetCatalogue { catalogue } => {
                let bytes = catalogue.iter().flat_map(|word| word.to_ne_bytes());
                bytes.collect::<Vec<u8>>().into()
            }
            _ => Cow::default(),
        }
    }
}
