//! A terminal's TCP stream: each message stands behind a session header
//! (document 02, CR 1; RFC 1002). The header is four bytes: a type, flags, and
//! a length of 16 bits, high byte first, "flags whose lowest bit extends the
//! length to 17 bits".

/// Bytes of a header.
pub const HEADER: usize = 4;
/// Most bytes of a message that a reader hands out.
pub const LONGEST_READ: usize = 8192;
/// Most bytes of a message that the writer takes.
pub const LONGEST_WRITTEN: usize = 12_292;

const MESSAGE: u8 = 0x00;
const KEEP_ALIVE: u8 = 0x85;
/// The flag that is the length's bit 16.
const EXTENSION: u8 = 0x01;

/// "Refusals that stop the reader, in this order"
#[derive(Clone, Copy, Debug, PartialEq, Eq, PartialOrd, Ord)]
#[repr(u8)]
pub enum Stop {
    /// "another type"
    OtherType = 1,
    /// "reserved flag bits"
    ReservedFlags = 2,
    /// "a keep-alive with length"
    KeepAliveWithLength = 3,
    /// "a length above 8,192"
    TooLong = 4,
}

impl Stop {
    pub const ALL: [Stop; 4] = [
        Stop::OtherType,
        Stop::ReservedFlags,
        Stop::KeepAliveWithLength,
        Stop::TooLong,
    ];
}

/// What a good header says.
enum Announced {
    KeepAlive,
    /// A message of so many bytes.
    Message(usize),
}

fn judge(header: [u8; HEADER]) -> Result<Announced, Stop> {
    let [kind, flags, high, low] = header;
    let extended = usize::from(flags & EXTENSION);
    let length = extended << 16 | usize::from(high) << 8 | usize::from(low);
    if kind != MESSAGE && kind != KEEP_ALIVE {
        Err(Stop::OtherType)
    } else if flags & !EXTENSION != 0 {
        Err(Stop::ReservedFlags)
    } else if kind == KEEP_ALIVE && length != 0 {
        Err(Stop::KeepAliveWithLength)
    } else if kind == KEEP_ALIVE {
        Ok(Announced::KeepAlive)
    } else if length > LONGEST_READ {
        Err(Stop::TooLong)
    } else {
        Ok(Announced::Message(length))
    }
}

/// The header of a message of so many bytes, with no flag set. The length has
/// 16 bits.
pub(crate) fn header_of(length: usize) -> [u8; HEADER] {
    let [high, low] = u16::try_from(length).unwrap().to_be_bytes();
    [MESSAGE, 0, high, low]
}

/// A reader of one stream. The default has nothing begun.
#[derive(Clone, Debug, Default, PartialEq, Eq)]
pub struct Reader {
    /// Why it is stopped; then nothing is pending.
    pub(crate) stopped: Option<Stop>,
    /// What came since the last message or keep-alive: less than a header, or
    /// a good header of a message and less than that message.
    pub(crate) pending: Vec<u8>,
}

/// A message handed out.
#[derive(Clone, Debug, PartialEq, Eq)]
pub enum Handed {
    /// All of it came in this piece, where it stands from a place on.
    InPiece { at: usize, length: usize },
    /// Its bytes, the first of which came in an earlier piece.
    Gathered(Vec<u8>),
}

/// What a reader did with a piece: it took bytes of its front, up to the end of
/// the first message, or all of them.
#[derive(Clone, Debug, PartialEq, Eq)]
pub struct Step {
    pub taken: usize,
    pub handed: Option<Handed>,
}

impl Reader {
    /// Reads on until a message is there or the piece is at its end. "A stopped
    /// reader hands out nothing until reset and answers its number again."
    pub fn step(&mut self, piece: &[u8]) -> Result<Step, Stop> {
        if let Some(stop) = self.stopped {
            return Err(stop);
        }
        let mut taken = 0;
        loop {
            taken += self.fill(HEADER, &piece[taken..]);
            let Some(&header) = self.pending.first_chunk() else {
                return Ok(Step::unfinished(taken));
            };
            match judge(header) {
                Err(stop) => return Err(self.stop(stop)),
                Ok(Announced::KeepAlive) => self.pending.clear(),
                Ok(Announced::Message(length)) => return Ok(self.body(length, piece, taken)),
            }
        }
    }

    /// Reads a message's body from place `taken` on; its header is in.
    fn body(&mut self, length: usize, piece: &[u8], taken: usize) -> Step {
        let rest = &piece[taken..];
        if self.pending.len() == HEADER && rest.len() >= length {
            self.pending.clear();
            let at = taken;
            return Step {
                taken: at + length,
                handed: Some(Handed::InPiece { at, length }),
            };
        }
        self.pending
            .reserve_exact(HEADER + length - self.pending.len());
        let taken = taken + self.fill(HEADER + length, rest);
        if self.pending.len() < HEADER + length {
            return Step::unfinished(taken);
        }
        let mut message = std::mem::take(&mut self.pending);
        message.drain(..HEADER);
        Step {
            taken,
            handed: Some(Handed::Gathered(message)),
        }
    }

    /// Puts bytes into what is pending until it has `wanted`. Gives how many.
    fn fill(&mut self, wanted: usize, bytes: &[u8]) -> usize {
        let missing = wanted.saturating_sub(self.pending.len());
        let count = missing.min(bytes.len());
        self.pending.extend_from_slice(&bytes[..count]);
        count
    }

    fn stop(&mut self, stop: Stop) -> Stop {
        *self = Reader {
            stopped: Some(stop),
            pending: Vec::new(),
        };
        stop
    }

    /// Reads a whole piece: the messages handed out, and why the reader is
    /// stopped then, if it is. "Messages before stand."
    pub fn feed(&mut self, piece: &[u8]) -> (Vec<Vec<u8>>, Option<Stop>) {
        let mut messages = Vec::new();
        let mut rest = piece;
        loop {
            match self.step(rest) {
                Err(stop) => return (messages, Some(stop)),
                Ok(Step { handed: None, .. }) => return (messages, None),
                Ok(Step {
                    taken,
                    handed: Some(handed),
                }) => {
                    messages.push(handed.message(rest));
                    rest = &rest[taken..];
                }
            }
        }
    }

    pub fn reset(&mut self) {
        *self = Reader::default();
    }
}

impl Step {
    fn unfinished(taken: usize) -> Step {
        Step {
            taken,
            handed: None,
        }
    }
}

impl Handed {
    /// The message; the piece is the one that it was handed out for.
    pub fn message(self, piece: &[u8]) -> Vec<u8> {
        match self {
            Handed::InPiece { at, length } => piece[at..at + length].to_vec(),
            Handed::Gathered(message) => message,
        }
    }
}

/// "Writer's, nothing written", in this order.
#[derive(Clone, Copy, Debug, PartialEq, Eq, PartialOrd, Ord)]
#[repr(u8)]
pub enum WriteRefusal {
    /// "a longer message"
    Longer = 1,
    /// "too little room"
    Room = 2,
}

/// Writes a message behind its header to the room's front. Gives how many
/// bytes that are; those behind stay.
pub fn write(message: &[u8], room: &mut [u8]) -> Result<usize, WriteRefusal> {
    if message.len() > LONGEST_WRITTEN {
        return Err(WriteRefusal::Longer);
    }
    let written = HEADER + message.len();
    let room = room.get_mut(..written).ok_or(WriteRefusal::Room)?;
    room[..HEADER].copy_from_slice(&header_of(message.len()));
    room[HEADER..].copy_from_slice(message);
    Ok(written)
}
