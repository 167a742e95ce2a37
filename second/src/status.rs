//! The Status of a header, in the two forms that document 02, request 7, gives it.

use crate::header::{FLAGS2, FLAGS2_NT_STATUS, STATUS};
use crate::refusals::WireRefusal;
use crate::request::{u16_at, u32_at};
use std::fmt;

/// "Source document 002 wants NTSTATUS when Flags2 bit 0x4000 is set".
#[derive(Clone, Copy, Debug, PartialEq, Eq, PartialOrd, Ord)]
pub enum StatusForm {
    /// SMBSTATUS
    Smb,
    /// NTSTATUS
    Nt,
}

impl StatusForm {
    pub const BOTH: [StatusForm; 2] = [StatusForm::Smb, StatusForm::Nt];

    /// The form that a header's Flags2 names: a request's asks for it, and "the
    /// reply sets it".
    pub fn of(header: &[u8]) -> StatusForm {
        match u16_at(header, FLAGS2) & FLAGS2_NT_STATUS {
            0 => StatusForm::Smb,
            _ => StatusForm::Nt,
        }
    }
}

/// A Status in one of the forms.
#[derive(Clone, Copy, Debug, PartialEq, Eq, PartialOrd, Ord)]
pub struct Status {
    pub form: StatusForm,
    /// Four bytes of the header, little-endian; 0 is success in both forms.
    pub value: u32,
}

impl Status {
    /// The Status of a reply, in the form that the reply itself names.
    pub fn of(reply: &[u8]) -> Status {
        Status {
            form: StatusForm::of(reply),
            value: u32_at(reply, STATUS),
        }
    }

    /// The refusals that have this Status: at most one, but for 1/33, "the two lock
    /// codes being one in the old form".
    pub fn refusals(self) -> impl Iterator<Item = WireRefusal> {
        let all = WireRefusal::ALL.into_iter();
        all.filter(move |refusal| refusal.status(self.form) == self)
    }

    /// "A reader of either form must find the same refusal": its class and code,
    /// (0, 0) of success. None if the Status is not in the list.
    pub fn class_and_code(self) -> Option<(u8, u16)> {
        match self.value {
            0 => Some((0, 0)),
            _ => self.refusals().next().map(WireRefusal::class_and_code),
        }
    }
}

/// SMBSTATUS as class/code, NTSTATUS in hex.
impl fmt::Display for Status {
    fn fmt(&self, text: &mut fmt::Formatter) -> fmt::Result {
        let [class, zero, low, high] = self.value.to_le_bytes();
        match (self.form, zero) {
            (StatusForm::Smb, 0) => write!(text, "{class}/{}", u16::from_le_bytes([low, high])),
            (StatusForm::Smb, _) => write!(text, "no SMBSTATUS: {:08X}", self.value),
            (StatusForm::Nt, _) => write!(text, "{:08X}", self.value),
        }
    }
}

/// Class and code of a reply in either form; (0, 0) where there is none. A Status
/// that is not in the list ends the program.
pub fn class_and_code(reply: &[u8]) -> (u8, u16) {
    if reply.is_empty() {
        return (0, 0);
    }
    let status = Status::of(reply);
    let listed = status.class_and_code();
    listed.unwrap_or_else(|| panic!("a Status that is not in the list: {status}"))
}
