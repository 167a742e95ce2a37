//! Taking a message: what document 01 says that a message gives.

use crate::commands::{carry_out, Asker};
use crate::grammar::{blocks, SERVED};
use crate::header::header_numbers;
use crate::holder::{Holder, Refused};
use crate::host::ensure;
use crate::listing::dropped;
use crate::refusals::{CallRefusal, Outcome, WireRefusal};
use crate::reply::Reply;
use crate::request::Request;
use crate::tables::{Tables, MEMORY_BYTES};

/// Least reply room.
pub const ROOM_BYTES: usize = 12_292;

/// "reply room under 12,292 bytes, or file memory not 65,536"
pub(crate) fn check_room(memory: &[u8], room: &[u8]) -> Outcome<()> {
    ensure(
        room.len() >= ROOM_BYTES && memory.len() == MEMORY_BYTES,
        CallRefusal::Room,
    )
}

/// What a message that was taken gives besides tables, files and the reply's
/// bytes.
#[derive(Clone, Copy, Debug, PartialEq, Eq)]
pub struct Taken {
    /// The reply's length.
    pub length: usize,
    /// If Status is 1/33: in a chain, the refused command's.
    pub holder: Option<Holder>,
}

/// Takes a message that came on a connection. On success the reply stands at
/// the room's start; bytes past its length are as they were. A refusal writes
/// nothing. Order: 2, 4, 1.
pub fn take_message(
    tables: &mut Tables,
    connection: u32,
    message: &[u8],
    memory: &mut [u8],
    room: &mut [u8],
) -> Outcome<Taken> {
    check_room(memory, room)?;
    ensure(tables.sound(), CallRefusal::NotSound)?;
    ensure(dropped(message).is_none(), CallRefusal::Dropped)?;
    let mut reply = Reply::new(room, message);
    let holder = match unreadable(message) {
        Some(refusal) => {
            reply.refused(message[4], refusal);
            None
        }
        None => answer_chain(tables, connection, message, memory, &mut reply),
    };
    Ok(Taken {
        length: reply.length(),
        holder,
    })
}

/// "2/22 and 2/1 come before anything is carried out."
fn unreadable(message: &[u8]) -> Option<WireRefusal> {
    if !SERVED.contains(&message[4]) {
        Some(WireRefusal::NotServed)
    } else if blocks(message).any(|block| block.is_err()) {
        Some(WireRefusal::NotASentence)
    } else {
        None
    }
}

/// Carries out a sentence command by command. "Commands before [one refused]
/// in the chain stand; those after it aren't begun." Gives the holder of the
/// one refused.
fn answer_chain(
    tables: &mut Tables,
    connection: u32,
    message: &[u8],
    memory: &mut [u8],
    reply: &mut Reply,
) -> Option<Holder> {
    let (uid, tid, process) = header_numbers(message);
    let asker = Asker {
        connection,
        uid,
        tid,
        process,
    };
    // What the command before has opened.
    let mut opened = None;
    for block in blocks(message).flatten() {
        let request = Request::read(message, &block).behind_open(opened);
        match carry_out(tables, memory, &asker, &request) {
            Ok(done) => {
                reply.done(block.command, &done, memory);
                opened = done.opened();
            }
            Err(Refused { why, holder }) => {
                reply.refused(block.command, why);
                return holder;
            }
        }
    }
    None
}
