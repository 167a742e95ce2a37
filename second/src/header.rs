//! The header, from "Header" of document 01: the places of its fields, and who
//! asks.

use crate::request::u16_at;

pub const COMMAND: usize = 4;
pub const STATUS: usize = 5;
pub const FLAGS: usize = 9;
pub const FLAGS2: usize = 10;
/// The bit of Flags2 with which a request asks for NTSTATUS (source document 002).
pub const FLAGS2_NT_STATUS: u16 = 0x4000;
pub const PID_HIGH: usize = 12;
pub const TID: usize = 24;
pub const PID_LOW: usize = 26;
pub const UID: usize = 28;
/// Length of the header.
pub const HEADER: usize = 32;

/// The header's numbers: UID, TID and process.
pub fn header_numbers(message: &[u8]) -> (u16, u16, u32) {
    (
        u16_at(message, UID),
        u16_at(message, TID),
        whole_process(pid_high(message), u16_at(message, PID_LOW)),
    )
}

/// The upper half of the process number, which ranges take from the header.
pub fn pid_high(message: &[u8]) -> u16 {
    u16_at(message, PID_HIGH)
}

/// "a request's process is PIDHigh × 65,536 + PIDLow" (document 02, request 4).
pub fn whole_process(high: u16, low: u16) -> u32 {
    u32::from(high) * 65_536 + u32::from(low)
}
