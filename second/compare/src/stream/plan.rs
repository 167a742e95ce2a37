//! Plans streams: what they are made of, what must come out of them, and
//! where they are cut.

use second::messages::all;
use second::rng::Rng;
use second::stream_words::StreamWords;

/// Most bytes of a message in a stream.
pub const LONGEST: usize = 8192;
pub const KEEP_ALIVE: [u8; 4] = [0x85, 0, 0, 0];

/// The classes of bad headers, with their numbers.
pub const BAD: [(&str, u8); 15] = [
    ("another type", 1),
    ("another type, reserved flags", 1),
    ("another type, too long", 1),
    ("another type, reserved flags, too long", 1),
    ("message with reserved flags", 2),
    ("message with reserved flags, too long", 2),
    ("keep-alive with reserved flags", 2),
    ("keep-alive with reserved flags and length", 2),
    ("keep-alive with length", 3),
    ("keep-alive with the 17th bit alone", 3),
    ("keep-alive with a length above 8,192", 3),
    ("message of 8,193 bytes", 4),
    ("message of more than 8,193 bytes", 4),
    ("message with the 17th bit alone", 4),
    ("message of more than 65,536 bytes", 4),
];

/// A header of that class.
fn bad_header(class: usize, rng: &mut Rng) -> [u8; 4] {
    let any = 1 + rng.below(0x84) as u8;
    let other = rng.pick(&[any, any, 0x81, 0x82, 0x83, 0x84, 0x86, 0x80, 0x05, 0xFF]);
    let bit: u8 = 2 << rng.below(7);
    let flags = 2 + rng.below(254) as u8;
    let reserved = rng.pick(&[bit, bit | 1, 0xFF, 0xFE, flags]);
    let small = rng.below(200) as u16;
    let some = rng.pick(&[1, 2, 0x0100, 1 + small]);
    let wide = rng.pick(&[0x2001, 0x2002, 0x3000, 0x8000, 0xFFFF, 0x2001 + 77 * small]);
    let over = rng.pick(&[1, 2, 0x2000, 0x2001, 0xFFFF, 1 + small]);
    let (kind, flags, length) = match class {
        0 => (other, 0, small),
        1 => (other, reserved, small),
        2 => (other, rng.pick(&[0, 1]), wide),
        3 => (other, reserved, wide),
        4 => (0x00, reserved & 0xFE, small),
        5 => (0x00, reserved, wide),
        6 => (0x85, reserved & 0xFE, 0),
        7 => (0x85, reserved, some),
        8 => (0x85, 0, some),
        9 => (0x85, 1, 0),
        10 => (0x85, rng.pick(&[0, 1]), wide),
        11 => (0x00, 0, 0x2001),
        12 => (0x00, 0, wide.max(0x2002)),
        13 => (0x00, 1, 0),
        _ => (0x00, 1, over),
    };
    let [high, low] = length.to_be_bytes();
    [kind, flags, high, low]
}

/// What a part of a stream is.
#[derive(Clone, Copy, Debug, PartialEq, Eq)]
pub enum Kind {
    Message,
    KeepAlive,
    /// Less than a header, at the end.
    HeaderBegun,
    /// A bad header, by its class.
    Bad(usize),
    /// What stands behind a bad header.
    Behind,
}

#[derive(Clone, Copy, Debug)]
pub struct Part {
    pub kind: Kind,
    pub start: usize,
    pub end: usize,
}

/// A stream, and what must come out of it.
#[derive(Clone, Debug, Default)]
pub struct Stream {
    pub bytes: Vec<u8>,
    pub parts: Vec<Part>,
    pub messages: Vec<Vec<u8>>,
    /// The number that it ends with.
    pub number: u8,
    /// The state that it leaves.
    pub left: StreamWords,
    /// The bytes of a message begun at the end.
    pub begun: Vec<u8>,
}

impl Stream {
    fn put(&mut self, kind: Kind, bytes: &[u8]) {
        let start = self.bytes.len();
        self.bytes.extend_from_slice(bytes);
        let end = self.bytes.len();
        self.parts.push(Part { kind, start, end });
    }

    pub fn keep_alive(&mut self) {
        self.put(Kind::KeepAlive, &KEEP_ALIVE);
    }

    pub fn message(&mut self, message: &[u8]) {
        self.put(Kind::Message, &framed(message));
        self.messages.push(message.to_vec());
    }

    fn bad(&mut self, class: usize, rng: &mut Rng) {
        self.put(Kind::Bad(class), &bad_header(class, rng));
        self.number = BAD[class].1;
        self.left = [u64::from(self.number), 0, 0, 0, 0, 0, 0];
    }

    /// So many bytes of a header: any, or those of a good or a bad one.
    fn header_begun(&mut self, count: usize, rng: &mut Rng) {
        let mut header = match rng.below(3) {
            0 => [rng.byte(), rng.byte(), rng.byte(), 0],
            1 => KEEP_ALIVE,
            _ => bad_header(rng.below(BAD.len()), rng),
        };
        header[count..].fill(0);
        self.put(Kind::HeaderBegun, &header[..count]);
        let [first, second, third, _] = header.map(u64::from);
        self.left = [0, count as u64, first, second, third, 0, 0];
    }

    /// A message, which is not of length 0, with its end left out.
    fn message_begun(&mut self, message: &[u8], got: usize) {
        self.put(Kind::Message, &framed(message)[..4 + got]);
        self.left = [0, 0, 0, 0, 0, message.len() as u64, got as u64];
        self.begun = message[..got].to_vec();
    }

    /// The part that a cut at this place goes through, if it is inside one.
    pub fn cut_part(&self, place: usize) -> Option<&Part> {
        self.parts
            .iter()
            .find(|part| part.start < place && place < part.end)
    }
}

/// The message behind a header.
pub fn framed(message: &[u8]) -> Vec<u8> {
    let length = message.len() as u16;
    [&[0, 0, (length >> 8) as u8, length as u8], message].concat()
}

/// Makes streams.
pub struct StreamPlanner {
    pub rng: Rng,
    /// Real messages: short ones, and all that a reader hands out.
    short: Vec<Vec<u8>>,
    real: Vec<Vec<u8>>,
}

impl StreamPlanner {
    pub fn new(rng: Rng) -> StreamPlanner {
        let made = all().into_iter().map(|made| made.bytes);
        let real: Vec<_> = made.filter(|bytes| bytes.len() <= LONGEST).collect();
        let short = real.iter().filter(|bytes| bytes.len() < 120);
        StreamPlanner {
            rng,
            short: short.cloned().collect(),
            real,
        }
    }

    fn short_message(&mut self) -> Vec<u8> {
        let (few, place) = (self.rng.below(24), self.rng.below(self.short.len()));
        match self.rng.below(8) {
            0 => Vec::new(),
            1 => self.rng.bytes(1),
            2 | 3 => self.short[place].clone(),
            // Bytes that could be taken for headers.
            4 => KEEP_ALIVE.repeat(1 + few / 8),
            5 => vec![0; few],
            _ => self.rng.bytes(few),
        }
    }

    fn any_message(&mut self) -> Vec<u8> {
        let place = self.rng.below(self.real.len());
        let some = self.rng.below(LONGEST);
        let long = self
            .rng
            .pick(&[LONGEST, LONGEST - 1, LONGEST, some, 255, 256, 257]);
        match self.rng.below(8) {
            0 => self.rng.bytes(long),
            1 | 2 => self.real[place].clone(),
            _ => self.short_message(),
        }
    }

    /// A stream of so many messages and keep-alives, and then an end.
    fn stream(&mut self, parts: usize, message: fn(&mut StreamPlanner) -> Vec<u8>) -> Stream {
        let mut stream = Stream::default();
        for _ in 0..parts {
            match self.rng.below(4) {
                0 => stream.keep_alive(),
                _ => stream.message(&message(self)),
            }
        }
        match self.rng.below(6) {
            0 => {}
            1 => {
                let count = 1 + self.rng.below(3);
                stream.header_begun(count, &mut self.rng);
            }
            2 => {
                let message = message(self);
                if !message.is_empty() {
                    let some = self.rng.below(message.len());
                    let got = self.rng.pick(&[0, message.len() - 1, some, some]);
                    stream.message_begun(&message, got);
                }
            }
            _ => self.bad_end(&mut stream),
        }
        stream
    }

    /// A bad header and what stands behind it, which nobody may read.
    fn bad_end(&mut self, stream: &mut Stream) {
        let class = self.rng.below(BAD.len());
        stream.bad(class, &mut self.rng);
        let behind = match self.rng.below(3) {
            0 => Vec::new(),
            1 => framed(&self.short_message()),
            _ => {
                let count = self.rng.below(9);
                self.rng.bytes(count)
            }
        };
        if !behind.is_empty() {
            stream.put(Kind::Behind, &behind);
        }
    }

    /// One that is cut at every place.
    pub fn short_stream(&mut self) -> Stream {
        let parts = self.rng.below(6);
        self.stream(parts, StreamPlanner::short_message)
    }

    pub fn any_stream(&mut self) -> Stream {
        let parts = self.rng.pick(&[1, 2, 3, 5, 9, 17]);
        self.stream(parts, StreamPlanner::any_message)
    }

    /// Lengths of pieces of a stream, in all at least its own.
    pub fn cuts(&mut self, length: usize) -> Vec<usize> {
        // A long one is seldom cut small: each piece is a step.
        let small = length < 3000 || self.rng.below(10) == 0;
        let widest = match small {
            true => self.rng.pick(&[1, 1, 2, 4, 9, 60]),
            false => self.rng.pick(&[60, 60, 1000, 9000]),
        };
        let mut pieces = Vec::new();
        let mut sum = 0;
        while sum < length {
            let piece = match self.rng.below(12) {
                0 if widest > 1 => 0,
                1 if widest > 60 => 1 + self.rng.below(5),
                _ => 1 + self.rng.below(widest),
            };
            let piece = piece.min(length - sum);
            pieces.push(piece);
            sum += piece;
        }
        pieces
    }
}
