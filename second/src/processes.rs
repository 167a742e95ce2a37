//! Kinds of process numbers that the tallies count; no rule asks for them.

/// Two processes that differ in the upper half only.
pub fn twins(one: u32, other: u32) -> bool {
    one != other && one as u16 == other as u16
}

/// A process whose upper half is not 0.
pub fn above_65_535(process: u32) -> bool {
    process > 0xFFFF
}
