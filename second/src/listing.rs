//! What the chain lister must print, from "A listing, whole" of document 01.

use crate::grammar::{read_chain, Block, NotAChain};

/// Row 1 of "What a call returns", its reasons in the order written.
#[derive(Clone, Copy, Debug, PartialEq, Eq, PartialOrd, Ord)]
pub enum Dropped {
    /// "under 35 [bytes]"
    Short,
    /// "over 8,192 bytes"
    Long,
    /// "not starting FF 53 4D 42"
    Protocol,
    /// "Flags bit 0x80 set"
    Flags,
}

impl Dropped {
    pub const ALL: [Dropped; 4] = [
        Dropped::Short,
        Dropped::Long,
        Dropped::Protocol,
        Dropped::Flags,
    ];
}

/// The three kinds of listing.
#[derive(Clone, Debug, PartialEq, Eq)]
pub enum Answer {
    Dropped(Dropped),
    NotAChain(NotAChain),
    Chain(Vec<Block>),
}

/// Why row 1 drops a message, if it does.
pub fn dropped(message: &[u8]) -> Option<Dropped> {
    if message.len() < 35 {
        Some(Dropped::Short)
    } else if message.len() > 8192 {
        Some(Dropped::Long)
    } else if message[..4] != [0xFF, 0x53, 0x4D, 0x42] {
        Some(Dropped::Protocol)
    } else if message[9] & 0x80 != 0 {
        // Flags is at 9 of the header.
        Some(Dropped::Flags)
    } else {
        None
    }
}

/// The answer to a message of any length. Row 1 comes first: only a message
/// that is not dropped is read as a chain.
pub fn answer(message: &[u8]) -> Answer {
    if let Some(reason) = dropped(message) {
        return Answer::Dropped(reason);
    }
    match read_chain(message) {
        Ok(blocks) => Answer::Chain(blocks),
        Err(reason) => Answer::NotAChain(reason),
    }
}

/// "prints for each block its place, command in hex, offset and length, then
/// `end`; else only `not a chain`, for an unserved command too, or `dropped`
/// by row 1".
pub fn text(answer: &Answer) -> String {
    match answer {
        Answer::Dropped(_) => "dropped\n".to_string(),
        Answer::NotAChain(_) => "not a chain\n".to_string(),
        Answer::Chain(blocks) => {
            let mut lines = String::new();
            for (index, block) in blocks.iter().enumerate() {
                lines += &format!(
                    "{} {:02X} {} {}\n",
                    index + 1,
                    block.command,
                    block.offset,
                    block.length
                );
            }
            lines + "end\n"
        }
    }
}

/// The whole text for a message.
pub fn listing(message: &[u8]) -> String {
    text(&answer(message))
}
