//! The independent second program: the gateway's message core written from
//! the papers alone (documents 01 and 02, the readings of 02, the sources), to
//! compare the first program with. It shares no code with it.
//!
//! The state is [`tables::Tables`] and a slice of file memory. [`host`] has
//! the host's calls, [`message::take_message`] takes a message, and [`words`]
//! offers all of them over the tables as the host hands them over. [`stream`]
//! reads and writes a terminal's stream, [`stream_words`] over the words that a
//! host keeps of a reader.
#![forbid(unsafe_code)]

pub mod builder;
pub mod call;
pub mod catalogue;
pub mod commands;
pub mod grammar;
pub mod header;
pub mod holder;
pub mod host;
pub mod listing;
pub mod message;
pub mod messages;
pub mod processes;
pub mod refusals;
pub mod reply;
pub mod request;
pub mod rng;
pub mod status;
pub mod stream;
pub mod stream_words;
pub mod tables;
pub mod words;
