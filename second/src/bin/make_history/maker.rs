//! Makes the calls one by one, keeping the history and its lines.

use crate::calls::{encode, Answer, State};
use crate::tally::{reply_blocks, Tally};
use second::builder::{self, set_status_form, Ask, Header};
use second::call::Call;
use second::catalogue::Name;
use second::refusals::WireRefusal;
use second::rng::Rng;
use second::status::StatusForm::{self, Nt, Smb};
use second::status::{class_and_code, Status};
use second::tables::{Table, Tables};
use second::words::{pack_catalogue, unpack, CatalogueWords, HOLDER_WORDS};
use std::collections::BTreeMap;

/// Who sends a message: its connection and the header's numbers.
#[derive(Clone, Copy, Debug, PartialEq, Eq)]
pub struct User {
    pub connection: u32,
    pub uid: u16,
    pub tid: u16,
    /// The process, PIDHigh and PIDLow.
    pub pid: u32,
}

/// A lock in the way: FID, process, place, offset and length.
pub type Held<P> = (u16, P, u64, u64, u64);

pub struct Maker {
    state: State,
    pub rng: Rng,
    /// Draws the form of Status that a message asks for.
    forms: Rng,
    /// The form that the next message to be answered so asks for.
    owed: BTreeMap<Option<WireRefusal>, StatusForm>,
    pub history: Vec<u8>,
    pub lines: String,
    pub calls: usize,
    pub tally: Tally,
    /// What went otherwise than the plan says.
    pub complaints: Vec<String>,
}

impl Maker {
    pub fn new() -> Maker {
        Maker {
            state: State::new(),
            rng: Rng::new(0x5348_4946_5431),
            forms: Rng::new(0x4E54),
            owed: BTreeMap::new(),
            history: Vec::new(),
            lines: String::new(),
            calls: 0,
            tally: Tally::default(),
            complaints: Vec::new(),
        }
    }

    /// The tables as they are now.
    pub fn tables(&self) -> Tables {
        unpack(&self.state.words).expect("sound tables")
    }

    pub fn memory(&self) -> &[u8] {
        &self.state.memory
    }

    /// Makes a call and keeps it with its line.
    pub fn call(&mut self, call: Call) -> Answer {
        let before = (self.tables(), self.state.memory.clone());
        let answer = self.state.make(&call);
        encode(&call, &mut self.history);
        self.lines += &self.state.line(&answer);
        self.calls += 1;
        let after = self.tables();
        if !after.sound() {
            self.complain("tables not sound", &call, &answer);
        }
        let holds = match (&call, answer.number) {
            (Call::TakeMessage { .. }, 0) => match class_and_code(&answer.reply) {
                (1, 33) => answer.holder.is_some_and(|words| words[0] == 1),
                _ => answer.holder == Some([0; HOLDER_WORDS]),
            },
            _ => answer.holder.is_none(),
        };
        if !holds {
            self.complain("other words for a holder", &call, &answer);
        }
        let unchanged = before.0 == after && before.1 == self.state.memory;
        // A reply of 35 bytes with a Status is that of a first command.
        let refused = class_and_code(&answer.reply) != (0, 0) && answer.value == 35;
        if (answer.number != 0 || refused) && !unchanged {
            self.complain("a refusal changed something", &call, &answer);
        }
        if matches!(call, Call::Unchanged { .. }) && !unchanged {
            self.complain("a question changed something", &call, &answer);
        }
        self.tally
            .note(&call, &answer, &before.0, &after, unchanged);
        answer
    }

    fn complain(&mut self, text: &str, call: &Call, answer: &Answer) {
        let number = self.calls;
        let told = class_and_code(&answer.reply);
        let answer = (answer.number, answer.value, told);
        self.complaints
            .push(format!("{text}: call {number}, {call:?}, {answer:?}"));
    }

    /// Makes a host's call that must return the number.
    pub fn host(&mut self, call: Call, number: u8) -> u16 {
        let answer = self.call(call.clone());
        if answer.number != number {
            self.complain("another number", &call, &answer);
        }
        answer.value as u16
    }

    pub fn session(&mut self, connection: u32) -> u16 {
        self.host(Call::AddSession { connection }, 0)
    }

    pub fn tree(&mut self, uid: u16, right: u8) -> u16 {
        let (uid, right) = (uid.into(), right.into());
        self.host(Call::AddTree { uid, right }, 0)
    }

    /// A new session with a new tree.
    pub fn user(&mut self, connection: u32, right: u8, pid: u32) -> User {
        let uid = self.session(connection);
        User {
            connection,
            uid,
            tid: self.tree(uid, right),
            pid,
        }
    }

    /// A new open of the user's process.
    pub fn open(&mut self, user: User, file: u8, access: u8) -> u16 {
        self.host(open_call(user, user.pid, file, access), 0)
    }

    pub fn load(&mut self, file: u8, size: usize) {
        let contents = self.rng.bytes(size);
        let file = file.into();
        self.host(Call::LoadFile { file, contents }, 0);
    }

    pub fn drop_connection(&mut self, connection: u32) {
        self.host(Call::DropConnection { connection }, 0);
    }

    /// Sets the catalogue, which must return the number.
    pub fn set_catalogue(&mut self, words: &CatalogueWords, number: u8) {
        let catalogue = Box::new(*words);
        self.host(Call::SetCatalogue { catalogue }, number);
    }

    /// Asks whether the file of an open is unchanged, which must be answered so.
    pub fn asked(&mut self, fid: u16, unchanged: bool) {
        let call = Call::Unchanged { fid: fid.into() };
        let answer = self.call(call.clone());
        if (answer.number, answer.value) != (0, unchanged.into()) {
            self.complain("another answer", &call, &answer);
        }
    }

    /// Asks it of a FID that no open has.
    pub fn unknown(&mut self, fid: u16) {
        self.host(Call::Unchanged { fid: fid.into() }, 6);
    }

    /// Takes a message whose answer is not foretold.
    pub fn take(&mut self, connection: u32, message: Vec<u8>) -> Answer {
        self.take_in_form(connection, message, None)
    }

    /// Takes a message, planned to be refused so or not to be.
    fn take_in_form(
        &mut self,
        connection: u32,
        mut message: Vec<u8>,
        planned: Option<WireRefusal>,
    ) -> Answer {
        set_status_form(&mut message, self.form(planned));
        self.call(Call::TakeMessage {
            connection,
            message,
        })
    }

    /// Of each two messages that are planned to be refused alike one asks for
    /// each form, and a lot says which of them.
    fn form(&mut self, planned: Option<WireRefusal>) -> StatusForm {
        self.owed.remove(&planned).unwrap_or_else(|| {
            let (form, other) = self.forms.pick(&[(Smb, Nt), (Nt, Smb)]);
            self.owed.insert(planned, other);
            form
        })
    }

    /// A message of the user, with free bytes between the blocks and free
    /// fields of any content.
    pub fn message(&mut self, user: User, asks: &[Ask]) -> Vec<u8> {
        let mut gaps = Rng::new(self.rng.number());
        let mut fill = Rng::new(self.rng.number());
        let numbers = Header {
            tid: user.tid,
            pid: user.pid,
            uid: user.uid,
        };
        let mut gap = || gaps.below(3) * gaps.below(3);
        builder::message(numbers, asks, &mut gap, &mut || fill.byte())
    }

    /// Sends a message whose answer is not foretold.
    pub fn send(&mut self, user: User, asks: &[Ask]) -> Answer {
        let message = self.message(user, asks);
        self.take(user.connection, message)
    }

    /// Sends a message that must be done whole.
    pub fn done(&mut self, user: User, asks: &[Ask]) -> Answer {
        let message = self.message(user, asks);
        self.take_for(user.connection, message, None)
    }

    /// Sends a message that must be refused so.
    pub fn refused(&mut self, user: User, asks: &[Ask], refusal: WireRefusal) -> Answer {
        let message = self.message(user, asks);
        self.take_for(user.connection, message, Some(refusal))
    }

    /// Sends a message that must be refused for this lock.
    pub fn held<P: Into<u64>>(&mut self, user: User, asks: &[Ask], holder: Held<P>) {
        let message = self.message(user, asks);
        let planned = asks.last().map(conflict);
        let answer = self.take_in_form(user.connection, message, planned);
        let barred = &asks[reply_blocks(&answer.reply).len() - 1];
        let (fid, process, place, offset, length) = holder;
        let wanted = [1, fid.into(), process.into(), place, offset, length];
        if !says(&answer, Some(conflict(barred))) || answer.holder != Some(wanted) {
            let number = self.calls;
            self.complaints
                .push(format!("{answer:?}, not {wanted:?}: call {number}"));
        }
    }

    /// Takes a message that must be refused so, or done.
    pub fn take_for(
        &mut self,
        connection: u32,
        message: Vec<u8>,
        wanted: Option<WireRefusal>,
    ) -> Answer {
        let answer = self.take_in_form(connection, message.clone(), wanted);
        if !says(&answer, wanted) {
            let call = Call::TakeMessage {
                connection,
                message,
            };
            self.complain(&format!("not {wanted:?}"), &call, &answer);
        }
        answer
    }

    /// Takes a message that must be dropped.
    pub fn dropped(&mut self, connection: u32, message: Vec<u8>) {
        let answer = self.take(connection, message.clone());
        if answer.number != 1 {
            let call = Call::TakeMessage {
                connection,
                message,
            };
            self.complain("not dropped", &call, &answer);
        }
    }
}

/// Whether a message was refused so, or done, in the form that its reply names.
fn says(answer: &Answer, wanted: Option<WireRefusal>) -> bool {
    if answer.number != 0 {
        return false;
    }
    let told = Status::of(&answer.reply);
    match wanted {
        Some(refusal) => told == refusal.status(told.form),
        None => told.value == 0,
    }
}

/// What a command is refused for where a lock is in its way: "C0000055 for a lock
/// refused, C0000054 for a read or write refused".
fn conflict(barred: &Ask) -> WireRefusal {
    match barred {
        Ask::Locking { .. } | Ask::LockRange { .. } => WireRefusal::LockNotGranted,
        _ => WireRefusal::FileLockConflict,
    }
}

/// The words of a catalogue of these names.
pub fn words_of(names: &[(&[u8], u8)]) -> CatalogueWords {
    let mut catalogue = Table::empty();
    for &(name, file) in names {
        catalogue.push(Name::new(name, file));
    }
    pack_catalogue(&catalogue)
}

pub fn open_call(user: User, process: u32, file: u8, access: u8) -> Call {
    Call::AddOpen {
        uid: user.uid.into(),
        tid: user.tid.into(),
        process,
        file: file.into(),
        access: access.into(),
    }
}

/// 12 words if the offset needs them, else 10.
pub fn read(fid: u16, offset: u64, max: u16) -> Ask {
    Ask::Read {
        fid,
        offset,
        max,
        long: offset >> 32 != 0,
    }
}

/// 14 words if the offset needs them, else 12.
pub fn write(fid: u16, offset: u64, data: &[u8]) -> Ask {
    Ask::Write {
        fid,
        offset,
        data: data.to_vec(),
        long: offset >> 32 != 0,
        around: (0, 0),
    }
}

/// The same with the longer form of words or ranges.
pub fn lengthened(ask: &Ask) -> Ask {
    let mut ask = ask.clone();
    match &mut ask {
        Ask::Locking { kind, .. } => *kind |= 0x10,
        Ask::Read { long, .. } => *long = true,
        Ask::Write { long, around, .. } => (*long, *around) = (true, (3, 2)),
        _ => {}
    }
    ask
}
