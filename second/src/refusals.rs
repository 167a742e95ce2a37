//! The two tables of refusals of document 01.

use crate::status::{Status, StatusForm};

/// "What a call returns": the numbers other than 0.
#[derive(Clone, Copy, Debug, PartialEq, Eq, PartialOrd, Ord)]
#[repr(u8)]
pub enum CallRefusal {
    /// "message dropped"
    Dropped = 1,
    /// "reply room under 12,292 bytes, or file memory not 65,536"
    Room = 2,
    /// "tables not sound"
    NotSound = 4,
    /// "table full"
    Full = 5,
    /// "no such session, or no such tree of that session"; "an unknown FID"; a
    /// number to be ended that no record has
    NoSuch = 6,
    /// "number out of range"; for a catalogue, a rule broken
    OutOfRange = 7,
    /// "open would exceed its tree's right"
    ExceedsRight = 8,
    /// "load of a file that has an open"
    HasOpen = 9,
}

/// What a call gives: on 0 its value (the reply's length, the new number, whether a
/// file is unchanged).
pub type Outcome<T> = Result<T, CallRefusal>;

/// The number that a call returns.
pub fn number<T>(outcome: &Outcome<T>) -> u8 {
    match outcome {
        Ok(_) => 0,
        Err(refusal) => *refusal as u8,
    }
}

/// "Refusals on the wire", in the order written, with those of document 02.
#[derive(Clone, Copy, Debug, PartialEq, Eq, PartialOrd, Ord)]
pub enum WireRefusal {
    /// "header command not served"
    NotServed,
    /// "not a sentence"
    NotASentence,
    /// "no session of that UID on this connection"
    NoSession,
    /// "no tree of that TID and UID"
    NoTree,
    /// "no open of that FID, UID and TID"
    NoOpen,
    /// "access"
    Access,
    /// "lock type bit other than 0x01 and 0x10"; of OPEN_ANDX, OpenMode
    NotSupported,
    /// "no such lock to release"
    NotLocked,
    /// "lock range passes 2^64"
    RangePasses,
    /// "lock conflict" of "a lock refused" (document 02, request 7)
    LockNotGranted,
    /// "lock conflict" of "a read or write refused"
    FileLockConflict,
    /// "no lock record free"
    NoLockRecord,
    /// "write would end past 4,096"
    FileFull,
    /// "access or sharing code" (document 02, request 6, as those below)
    AccessCode,
    /// "name"
    NoName,
    /// "sharing"
    Sharing,
    /// "all 64 FIDs in use"
    NoFid,
}

impl WireRefusal {
    pub const ALL: [WireRefusal; 17] = [
        WireRefusal::NotServed,
        WireRefusal::NotASentence,
        WireRefusal::NoSession,
        WireRefusal::NoTree,
        WireRefusal::NoOpen,
        WireRefusal::Access,
        WireRefusal::NotSupported,
        WireRefusal::NotLocked,
        WireRefusal::RangePasses,
        WireRefusal::LockNotGranted,
        WireRefusal::FileLockConflict,
        WireRefusal::NoLockRecord,
        WireRefusal::FileFull,
        WireRefusal::AccessCode,
        WireRefusal::NoName,
        WireRefusal::Sharing,
        WireRefusal::NoFid,
    ];

    /// The list: class and code of SMBSTATUS, decimal as in document 01, and the
    /// NTSTATUS of document 02, request 7.
    fn forms(self) -> ((u8, u16), u32) {
        match self {
            WireRefusal::NotServed => ((2, 22), 0x0016_0002),
            WireRefusal::NotASentence => ((2, 1), 0x0001_0002),
            WireRefusal::NoSession => ((2, 91), 0x005B_0002),
            WireRefusal::NoTree => ((2, 5), 0x0005_0002),
            WireRefusal::NoOpen => ((1, 6), 0xC000_0008),
            WireRefusal::Access => ((1, 5), 0xC000_0022),
            WireRefusal::NotSupported => ((2, 65535), 0xC000_00BB),
            WireRefusal::NotLocked => ((1, 158), 0xC000_007E),
            WireRefusal::RangePasses => ((1, 87), 0xC000_000D),
            WireRefusal::LockNotGranted => ((1, 33), 0xC000_0055),
            WireRefusal::FileLockConflict => ((1, 33), 0xC000_0054),
            WireRefusal::NoLockRecord => ((1, 8), 0xC000_0205),
            WireRefusal::FileFull => ((3, 39), 0xC000_007F),
            WireRefusal::AccessCode => ((1, 12), 0x000C_0001),
            WireRefusal::NoName => ((1, 2), 0xC000_000F),
            WireRefusal::Sharing => ((1, 32), 0xC000_0043),
            WireRefusal::NoFid => ((1, 4), 0xC000_011F),
        }
    }

    /// Class and code, whatever the form that it is sent in.
    pub fn class_and_code(self) -> (u8, u16) {
        self.forms().0
    }

    /// The header's Status. "SMBSTATUS is class, 0, code."
    pub fn status(self, form: StatusForm) -> Status {
        let ((class, code), nt_status) = self.forms();
        let value = match form {
            StatusForm::Smb => u32::from(class) | u32::from(code) << 16,
            StatusForm::Nt => nt_status,
        };
        Status { form, value }
    }
}
