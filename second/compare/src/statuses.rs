//! Counts the Status of replies in its two forms (document 02, request 7), read
//! from the replies' bytes, and the messages that ask for each form.

use crate::counts::{enough, LEAST};
use second::grammar::SERVED;
use second::header::FLAGS2;
use second::refusals::WireRefusal;
use second::status::{Status, StatusForm};
use std::collections::{BTreeMap, BTreeSet};

/// "Reply Flags2 = request's & 0x4001."
const KEPT: [u8; 2] = [0x01, 0x40];
/// Of the messages answered, the fewest and the most in a hundred that ask for
/// NTSTATUS.
const ABOUT_HALF: [usize; 2] = [48, 52];

#[derive(Default)]
pub struct Statuses {
    met: BTreeMap<Status, usize>,
    /// Replies by the form that their message asks for.
    asked: [usize; 2],
    /// What should not be.
    wrong: Vec<String>,
}

impl Statuses {
    /// Counts a reply. The command is the one refused, if one is.
    pub fn count(&mut self, message: &[u8], reply: &[u8], command: u8) {
        self.asked[StatusForm::of(message) as usize] += 1;
        let status = Status::of(reply);
        *self.met.entry(status).or_default() += 1;
        let [asked, told] = [message, reply].map(|header| [header[FLAGS2], header[FLAGS2 + 1]]);
        if told != [asked[0] & KEPT[0], asked[1] & KEPT[1]] {
            self.wrong
                .push(format!("Flags2 {told:02X?} in a reply to {asked:02X?}"));
        }
        if status.value != 0 && refusal(status, command).is_none() {
            self.wrong
                .push(format!("Status {status} for {command:02X}"));
        }
    }

    /// Prints the counts. False if something was met too seldom, or was wrong.
    pub fn print(&self) -> bool {
        println!("Status of replies, in both forms:");
        let mut good = true;
        for status in listed() {
            let count = self.met.get(&status).copied().unwrap_or(0);
            println!("  {status}: {count}");
            good &= enough(count, LEAST, &format!("Status {status}"));
        }
        let [smb, nt] = self.asked;
        println!("  messages that ask for SMBSTATUS: {smb}, for NTSTATUS: {nt}");
        let [fewest, most] = ABOUT_HALF.map(|hundredth| (smb + nt) * hundredth / 100);
        if !(fewest..=most).contains(&nt) {
            println!("FAILED: not half of the messages ask for NTSTATUS");
            good = false;
        }
        for what in self.wrong.iter().take(5) {
            println!("FAILED: {what}");
        }
        good && self.wrong.is_empty()
    }
}

/// Success and every refusal, in both forms.
fn listed() -> BTreeSet<Status> {
    let refusals = |form| WireRefusal::ALL.map(|refusal| refusal.status(form));
    let mut all: BTreeSet<Status> = StatusForm::BOTH.into_iter().flat_map(refusals).collect();
    all.extend(StatusForm::BOTH.map(|form| Status { form, value: 0 }));
    all
}

/// The refusal of a command that a Status names; none if the command cannot get
/// it, or nothing can.
pub fn refusal(status: Status, command: u8) -> Option<WireRefusal> {
    status
        .refusals()
        .find(|&refusal| possible(refusal, command))
}

/// Whether a command can be refused so.
pub fn possible(refusal: WireRefusal, command: u8) -> bool {
    let commands: &[u8] = match refusal {
        WireRefusal::NotServed => return !SERVED.contains(&command),
        WireRefusal::NotASentence | WireRefusal::NoSession => &SERVED,
        WireRefusal::NoTree => &[0x04, 0x0A, 0x0B, 0x0C, 0x0D, 0x24, 0x2D, 0x2E, 0x2F, 0x71],
        WireRefusal::NoOpen => &[0x04, 0x0A, 0x0B, 0x0C, 0x0D, 0x24, 0x2E, 0x2F],
        WireRefusal::Access => &[0x0A, 0x0B, 0x2D, 0x2E, 0x2F],
        WireRefusal::LockNotGranted => &[0x0C, 0x24],
        WireRefusal::FileLockConflict => &[0x0A, 0x0B, 0x2E, 0x2F],
        WireRefusal::NotSupported => &[0x24, 0x2D],
        WireRefusal::RangePasses => &[0x24],
        WireRefusal::NotLocked => &[0x0D, 0x24],
        WireRefusal::NoLockRecord => &[0x0C, 0x24],
        WireRefusal::FileFull => &[0x0B, 0x2F],
        WireRefusal::AccessCode
        | WireRefusal::NoName
        | WireRefusal::Sharing
        | WireRefusal::NoFid => &[0x2D],
    };
    commands.contains(&command)
}
