//! Counts the replies' Status in its two forms (document 02, request 7).

use super::{name, refusals_by_command, Tally};
use second::refusals::WireRefusal::{self, *};
use second::status::{Status, StatusForm};

impl Tally {
    /// The form that a message asks for, and the Status that its reply has.
    pub(super) fn note_status(&mut self, message: &[u8], reply: &[u8]) {
        if !reply.is_empty() {
            self.count(asked(StatusForm::of(message)));
            self.count(format!("Status {}", Status::of(reply)));
        }
    }
}

fn asked(form: StatusForm) -> String {
    format!("messages that ask for {form:?} status")
}

/// So many messages of each form, and every refusal in both forms.
pub fn in_both_forms(messages: usize, refusals: usize) -> Vec<(String, usize)> {
    let mut all = Vec::new();
    for form in StatusForm::BOTH {
        all.push((asked(form), messages));
        let text = |refusal: WireRefusal| format!("Status {}", refusal.status(form));
        all.extend(WireRefusal::ALL.map(|refusal| (text(refusal), refusals)));
    }
    all
}

/// Of a history: about half of the messages in each form, every refusal in both,
/// and of those that several kinds of command get, each kind's NTSTATUS.
pub fn required() -> Vec<(String, usize)> {
    let mut all = in_both_forms(700, 2);
    for (refusal, command) in refusals_by_command() {
        if let LockNotGranted | FileLockConflict | Access | NotSupported = refusal {
            let status = refusal.status(StatusForm::Nt);
            all.push((format!("{} Status {status}", name(command)), 1));
        }
    }
    all
}
