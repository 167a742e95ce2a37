//! One call, what it is lent, and how either program makes it.

use linked as gateway;
use second::call::Call;
use second::refusals::number;
use second::words::{HolderWords, Words, HOLDER_WORDS};
use std::borrow::Cow;

/// What is asked of both programs.
#[derive(Clone, Debug)]
pub enum Trial {
    /// Tables to start from.
    Empty,
    Call {
        call: Call,
        /// Another length of the file memory.
        memory: Option<usize>,
        /// Bytes of reply room.
        room: usize,
    },
}

impl Trial {
    /// A call that is lent no reply room, and the file memory at most.
    pub fn plain(call: Call) -> Trial {
        Trial::Call {
            call,
            memory: None,
            room: 0,
        }
    }

    pub fn name(&self) -> &'static str {
        match self.call() {
            None => "empty",
            Some(Call::AddSession { .. }) => "add_session",
            Some(Call::AddTree { .. }) => "add_tree",
            Some(Call::AddOpen { .. }) => "add_open",
            Some(Call::LoadFile { .. }) => "load_file",
            Some(Call::DropConnection { .. }) => "drop_connection",
            Some(Call::EndSession { .. }) => "end_session",
            Some(Call::EndTree { .. }) => "end_tree",
            Some(Call::EndOpen { .. }) => "end_open",
            Some(Call::SetCatalogue { .. }) => "set_catalogue",
            Some(Call::Unchanged { .. }) => "unchanged",
            Some(Call::TakeMessage { .. }) => "take_message",
        }
    }

    pub fn call(&self) -> Option<&Call> {
        match self {
            Trial::Empty => None,
            Trial::Call { call, .. } => Some(call),
        }
    }

    /// The message, the contents to load, or the words of the catalogue.
    pub fn input(&self) -> Cow<'_, [u8]> {
        self.call().map(Call::input).unwrap_or_default()
    }

    /// Another length of the file memory.
    pub fn other_memory(&self) -> Option<usize> {
        match self {
            Trial::Empty => None,
            Trial::Call { memory, .. } => *memory,
        }
    }

    /// Bytes of reply room.
    pub fn room(&self) -> usize {
        match self {
            Trial::Empty => 0,
            Trial::Call { room, .. } => *room,
        }
    }

    /// Bytes of the parameter for a number given: a UID, TID, FID, whether a file
    /// is unchanged, or the reply's length.
    pub fn out_bytes(&self) -> usize {
        match self.call() {
            Some(
                Call::AddSession { .. }
                | Call::AddTree { .. }
                | Call::AddOpen { .. }
                | Call::Unchanged { .. },
            ) => 2,
            Some(Call::TakeMessage { .. }) => 8,
            _ => 0,
        }
    }

    /// Words of the parameter for the holder of a lock.
    pub fn holder_words(&self) -> usize {
        match self.call() {
            Some(Call::TakeMessage { .. }) => HOLDER_WORDS,
            _ => 0,
        }
    }
}

/// What a call works on besides its arguments, the tables and the holder.
pub struct Places<'p> {
    /// A copy of the call's input, for the library.
    pub input: &'p [u8],
    pub memory: &'p mut [u8],
    pub room: &'p mut [u8],
    pub out: &'p mut [u8],
}

/// Makes the call by this package's own program. Gives its number.
pub fn own(trial: &Trial, tables: &mut Words, holder: &mut HolderWords, places: Places) -> u8 {
    let Some(call) = trial.call() else {
        tables.fill(0);
        return 0;
    };
    let outcome = call.make(tables, places.memory, places.room, holder);
    if let Ok(value) = outcome {
        let bytes = &value.to_le_bytes()[..places.out.len()];
        places.out.copy_from_slice(bytes);
    }
    number(&outcome)
}

/// Makes the call by the library. Gives its number.
pub fn theirs(trial: &Trial, tables: &mut [u8], holder: &mut [u8], places: Places) -> u8 {
    let Places {
        input,
        memory,
        room,
        out,
    } = places;
    let tables = tables.as_mut_ptr().cast::<u64>();
    let holder = holder.as_mut_ptr().cast::<u64>();
    let out = out.as_mut_ptr();
    // SAFETY: the pointers are to whole slices, aligned for their types, and
    // the lengths are theirs.
    unsafe {
        let Some(call) = trial.call() else {
            gateway::gateway_empty(tables);
            return 0;
        };
        match *call {
            Call::AddSession { connection } => {
                gateway::gateway_add_session(tables, connection, out.cast())
            }
            Call::AddTree { uid, right } => {
                gateway::gateway_add_tree(tables, uid, right, out.cast())
            }
            Call::AddOpen {
                uid,
                tid,
                process,
                file,
                access,
            } => gateway::gateway_add_open(tables, uid, tid, process, file, access, out.cast()),
            Call::LoadFile { file, .. } => gateway::gateway_load_file(
                tables,
                file,
                input.as_ptr(),
                input.len(),
                memory.as_mut_ptr(),
                memory.len(),
            ),
            Call::DropConnection { connection } => {
                gateway::gateway_drop_connection(tables, connection)
            }
            Call::EndSession { uid } => gateway::gateway_end_session(tables, uid),
            Call::EndTree { tid } => gateway::gateway_end_tree(tables, tid),
            Call::EndOpen { fid } => gateway::gateway_end_open(tables, fid),
            Call::SetCatalogue { .. } => {
                gateway::gateway_set_catalogue(tables, input.as_ptr().cast())
            }
            Call::Unchanged { fid } => gateway::gateway_unchanged(tables, fid, out.cast()),
            Call::TakeMessage { connection, .. } => gateway::gateway_take_message(
                tables,
                connection,
                input.as_ptr(),
                input.len(),
                memory.as_mut_ptr(),
                memory.len(),
                room.as_mut_ptr(),
                room.len(),
                out.cast(),
                holder,
            ),
        }
    }
}
