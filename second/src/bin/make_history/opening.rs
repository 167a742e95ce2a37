//! Opening by name (document 02, request 6): catalogues set and refused, OPEN_ANDX
//! alone and before a READ, done and refused for each reason. Each answer is
//! foretold.

use crate::maker::{open_call, read, words_of, write, Maker, User};
use second::builder::{core_read, locking, open, Ask};
use second::refusals::WireRefusal::{self, *};
use second::request::JUST_OPENED;
use second::tables::{denied, OPENS};
use std::slice::from_ref;

const TERMINAL: u32 = 910;
const DESK: u32 = 911;
/// The files that have names.
const LIST: u8 = 11;
const SHIFTS: u8 = 12;
const NAMES: [(&[u8], u8); 6] = [
    (b"REVOKED.TXT", LIST),
    (b"shifts", SHIFTS),
    (b"Alias", LIST),
    (b"[", SHIFTS),
    (b"{", LIST),
    (b"twelve.bytes", 15),
];

/// A terminal, what it sees through a tree of right read, and the desk.
struct Users {
    terminal: User,
    reader: User,
    desk: User,
}

pub fn opening(maker: &mut Maker) {
    let terminal = maker.user(TERMINAL, 1, 70_001);
    let users = Users {
        reader: User {
            tid: maker.tree(terminal.uid, 0),
            ..terminal
        },
        terminal,
        desk: maker.user(DESK, 1, 70_002),
    };
    // No name at first.
    maker.refused(terminal, &[open(0, 4, b"shifts")], NoName);
    catalogues(maker);
    maker.load(LIST, 90);
    maker.load(SHIFTS, 7);
    users.names(maker);
    users.flags(maker);
    users.codes(maker);
    users.in_order(maker);
    users.sharing(maker);
    users.hosts_opens(maker);
    users.just_opened(maker);
    users.refused_behind(maker);
    users.malformed(maker);
    users.full(maker);
    users.leaving(maker);
    maker.set_catalogue(&words_of(&[]), 0);
    maker.drop_connection(TERMINAL);
    maker.drop_connection(DESK);
}

/// Each rule broken, which leaves the old catalogue; what is free; and the names
/// that the rest goes by.
fn catalogues(maker: &mut Maker) {
    let letters: Vec<[u8; 2]> = (b'a'..).take(16).map(|letter| [letter, b'1']).collect();
    let full: Vec<(&[u8], u8)> = letters.iter().map(|name| (&name[..], 15)).collect();
    let full = words_of(&full);
    maker.set_catalogue(&full, 0);
    let good = words_of(&NAMES);
    maker.set_catalogue(&good, 0);
    // Count, then of the first names length, a byte of text and file.
    for (word, value) in [
        (1, 0),
        (1, 13),
        (1, 255),
        (15, 12),
        (2, 0),
        (12, 0),
        (14, 16),
    ] {
        let mut spoilt = good;
        spoilt[word] = value;
        maker.set_catalogue(&spoilt, 7);
    }
    let mut over = full;
    over[0] = 17;
    maker.set_catalogue(&over, 7);
    maker.set_catalogue(&words_of(&[(b"Shifts", 0), (b"sHIFTS", 1)]), 7);
    maker.set_catalogue(&words_of(&[(b"x", 0), (b"y", 0), (b"x", 0)]), 7);
    // What lies behind a name and behind the names in use.
    let mut free = good;
    (free[14 + 2 + 6], free[1 + 14 * 6]) = (255, 99);
    free[224] = 255;
    maker.set_catalogue(&free, 0);
}

/// Flags, AccessMode and OpenMode as given.
fn raw(flags: u16, access_mode: u16, open_mode: u16, name: &[u8]) -> Ask {
    Ask::Open {
        flags,
        access_mode,
        open_mode,
        name: name.to_vec(),
    }
}

impl Users {
    /// Opens, and gives the FID.
    fn open(&self, maker: &mut Maker, user: User, ask: Ask) -> u16 {
        let answer = maker.done(user, &[ask]);
        u16::from_le_bytes([answer.reply[37], answer.reply[38]])
    }

    fn close(&self, maker: &mut Maker, user: User, fid: u16) {
        maker.done(user, &[Ask::Close { fid }]);
    }

    /// Opens and closes again.
    fn in_and_out(&self, maker: &mut Maker, ask: Ask) {
        let fid = self.open(maker, self.terminal, ask);
        self.close(maker, self.terminal, fid);
    }

    fn names(&self, maker: &mut Maker) {
        for name in [
            &b"revoked.txt"[..],
            b"SHIFTS",
            b"aLiAs",
            b"[",
            b"{",
            b"Twelve.Bytes",
        ] {
            self.in_and_out(maker, open(0, 1, name));
        }
        let long = [b'n'; 200];
        for name in [
            &b""[..],
            b"shift",
            b"shifts ",
            b"\\shifts",
            b"twelve.bytes1",
            b"\x5C",
            b"a1",
            &long,
        ] {
            maker.refused(self.terminal, &[open(0, 1, name)], NoName);
        }
    }

    /// "zero after the FID with the block's Flags bit 0 clear".
    fn flags(&self, maker: &mut Maker) {
        for (flags, access) in [(0, 2), (1, 0), (1, 1), (3, 2), (0xFFFE, 1), (0xFFFF, 2)] {
            let ask = raw(flags, 0x40 | access, 1, b"alias");
            self.in_and_out(maker, ask.clone());
            let fid = self.open(maker, self.desk, ask);
            maker.done(self.desk, &[Ask::Close { fid }]);
        }
    }

    /// Each access and sharing code, with the bits between and above them set.
    fn codes(&self, maker: &mut Maker) {
        for sharing in 0..8 {
            for access in 0..8 {
                let ask = raw(0, 0xFF88 | sharing << 4 | access, 1, b"shifts");
                let known = access < 3 && (1..5).contains(&sharing);
                // Of those unknown a few do.
                if known {
                    self.in_and_out(maker, ask);
                } else if (access + sharing) % 5 == 0 {
                    maker.refused(self.terminal, &[ask], AccessCode);
                }
            }
        }
        for mode in [0, 2, 0x11, 0x0101, 0xFFFF] {
            maker.refused(
                self.terminal,
                &[raw(0, 0x40, mode, b"shifts")],
                NotSupported,
            );
        }
    }

    /// Each refusal with what would be refused behind it.
    fn in_order(&self, maker: &mut Maker) {
        let held = self.open(maker, self.desk, open(2, 1, b"shifts"));
        let nobody = User {
            uid: 0,
            ..self.terminal
        };
        let nowhere = User {
            tid: 0,
            ..self.terminal
        };
        let (terminal, reader) = (self.terminal, self.reader);
        let cases: [(User, Ask, WireRefusal); 9] = [
            (nobody, raw(0, 0, 0, b""), NoSession),
            (nowhere, raw(0, 0, 0, b""), NoTree),
            (reader, raw(1, 0, 0, b""), NotSupported),
            (reader, raw(1, 0x01, 1, b""), AccessCode),
            (reader, raw(1, 0x13, 1, b"shifts"), AccessCode),
            (reader, raw(1, 0x11, 1, b"none"), NoName),
            (reader, open(1, 1, b"shifts"), Access),
            (reader, open(2, 4, b"alias"), Access),
            (terminal, open(0, 4, b"SHIFTS"), Sharing),
        ];
        for (user, ask, refusal) in cases {
            maker.refused(user, from_ref(&ask), refusal);
            maker.refused(user, &[ask, read(JUST_OPENED, 0, 1)], refusal);
        }
        let fid = self.open(maker, reader, open(0, 4, b"alias"));
        self.close(maker, reader, fid);
        self.close(maker, self.desk, held);
    }

    /// Every pair of access and sharing codes against every other.
    fn sharing(&self, maker: &mut Maker) {
        let codes = || (0..3).flat_map(|access| (1..=4).map(move |sharing| (access, sharing)));
        for other in codes() {
            let held = self.open(maker, self.desk, open(other.0, other.1, b"alias"));
            for asked in codes() {
                let ask = open(asked.0, asked.1, b"revoked.TXT");
                if denied(asked.0, other.1) || denied(other.0, asked.1) {
                    maker.refused(self.terminal, &[ask], Sharing);
                } else {
                    self.in_and_out(maker, ask);
                }
            }
            self.close(maker, self.desk, held);
        }
    }

    /// "opens by the host deny nothing and are not tested"
    fn hosts_opens(&self, maker: &mut Maker) {
        let Users { terminal, desk, .. } = *self;
        let hosts = maker.open(desk, SHIFTS, 0);
        maker.refused(terminal, &[open(1, 3, b"shifts")], Sharing);
        maker.refused(terminal, &[open(0, 1, b"shifts")], Sharing);
        let fid = self.open(maker, terminal, open(1, 2, b"shifts"));
        let more = maker.open(desk, SHIFTS, 1);
        maker.done(desk, &[read(hosts, 0, 5)]);
        maker.refused(terminal, &[open(0, 2, b"shifts")], Sharing);
        for (user, fid) in [(terminal, fid), (desk, more), (desk, hosts)] {
            self.close(maker, user, fid);
        }
    }

    /// "FID 0xFFFF means the file just opened", and only there.
    fn just_opened(&self, maker: &mut Maker) {
        let user = self.terminal;
        let named = |access| open(access, 4, b"Revoked.txt");
        let just = read(JUST_OPENED, 10, 20);
        let other = self.open(maker, user, open(0, 4, b"shifts"));
        let fids: Vec<u16> = (0..4)
            .map(|turn| {
                let ask = [
                    just.clone(),
                    read(JUST_OPENED, 1 << 40, 9),
                    read(other, 0, 9),
                ];
                let next = ask[turn % 3].clone();
                let answer = maker.done(user, &[named(turn as u8 % 2 * 2), next]);
                u16::from_le_bytes([answer.reply[37], answer.reply[38]])
            })
            .collect();
        let close = |fid| Ask::Close { fid };
        maker.refused(user, &[named(0), just.clone(), close(JUST_OPENED)], NoOpen);
        let stands = maker
            .tables()
            .opens
            .in_use()
            .last()
            .map_or(0, |open| open.fid);
        maker.done(user, &[named(0), just.clone(), close(stands)]);
        for fid in fids.into_iter().chain([stands + 1]) {
            maker.done(user, &[read(fid, 0, 3), close(fid)]);
        }
        let nowhere = [
            vec![just.clone()],
            vec![locking(other, 0, &[], &[]), just.clone()],
            vec![write(JUST_OPENED, 0, b"x")],
            vec![core_read(JUST_OPENED, 0, 1)],
            vec![close(JUST_OPENED)],
        ];
        for asks in nowhere {
            maker.refused(user, &asks, NoOpen);
        }
        self.close(maker, user, other);
    }

    /// "A READ refused leaves the open standing."
    fn refused_behind(&self, maker: &mut Maker) {
        let Users { terminal, desk, .. } = *self;
        let just = read(JUST_OPENED, 0, 20);
        let fid = self.open(maker, desk, open(2, 4, b"alias"));
        maker.done(desk, &[locking(fid, 0, &[], &[(9, 5, 5)])]);
        let process = desk.pid & 0xFFFF_0000 | 9;
        let asks = [open(0, 4, b"alias"), just.clone()];
        maker.held(terminal, &asks, (fid, process, 0, 5, 5));
        maker.refused(terminal, &[open(1, 4, b"alias"), just], Access);
        maker.refused(terminal, &[open(1, 4, b"alias"), read(60, 0, 1)], NoOpen);
        let own = maker.tables();
        let own = own.opens.in_use().iter().filter(|o| o.uid == terminal.uid);
        for open in own.copied().collect::<Vec<_>>() {
            self.close(maker, terminal, open.fid);
        }
        self.close(maker, desk, fid);
    }

    /// Names without their zero byte, or with another; and other words.
    fn malformed(&self, maker: &mut Maker) {
        let message = maker.message(self.terminal, &[open(0, 4, b"alias")]);
        // ByteCount stands at 63, the name at 65.
        for (place, byte) in [
            (63, 0),
            (63, 5),
            (63, 7),
            (70, 1),
            (65, 0),
            (69, 0),
            (32, 14),
        ] {
            let mut message = message.clone();
            message[place] = byte;
            maker.take_for(TERMINAL, message, Some(NotASentence));
        }
        let mut longer = message.clone();
        longer.push(0);
        longer[63] = 7;
        maker.take_for(TERMINAL, longer, Some(NotASentence));
        for next in [open(0, 4, b"alias"), write(1, 0, b""), Ask::Logoff] {
            let message = maker.message(self.terminal, &[open(0, 4, b"alias"), next]);
            maker.take_for(TERMINAL, message, Some(NotASentence));
        }
        let asks = [read(1, 0, 1), open(0, 4, b"alias")];
        let message = maker.message(self.terminal, &asks);
        maker.take_for(TERMINAL, message, Some(NotASentence));
    }

    /// "all 64 FIDs in use", and one given up that is used again.
    fn full(&self, maker: &mut Maker) {
        let Users { terminal, desk, .. } = *self;
        let first = self.open(maker, terminal, open(0, 4, b"alias"));
        while maker.tables().opens.count < OPENS {
            maker.host(open_call(desk, desk.pid, LIST, 0), 0);
        }
        for ask in [open(0, 4, b"alias"), open(2, 2, b"shifts")] {
            maker.refused(terminal, from_ref(&ask), NoFid);
            maker.refused(terminal, &[ask, read(JUST_OPENED, 0, 1)], NoFid);
        }
        maker.refused(terminal, &[open(0, 1, b"alias")], Sharing);
        maker.refused(terminal, &[open(0, 4, b"ali")], NoName);
        self.close(maker, terminal, first);
        let again = self.open(maker, terminal, raw(1, 0x40, 1, b"alias"));
        if again != first {
            maker
                .complaints
                .push("another FID than the free one".to_string());
        }
        maker.refused(terminal, &[open(0, 4, b"alias")], NoFid);
        maker.done(desk, &[Ask::ProcessExit]);
        self.close(maker, terminal, again);
    }

    /// An open by name goes with its process, tree and session.
    fn leaving(&self, maker: &mut Maker) {
        let Users { terminal, desk, .. } = *self;
        let alone = || open(2, 1, b"alias");
        self.open(maker, terminal, alone());
        maker.refused(desk, &[alone()], Sharing);
        maker.done(terminal, &[Ask::ProcessExit]);
        let fid = self.open(maker, desk, alone());
        maker.done(desk, &[write(fid, 3, b"desk"), Ask::Close { fid }]);
        self.open(maker, terminal, alone());
        maker.done(terminal, &[Ask::TreeDisconnect]);
        self.open(maker, desk, alone());
        maker.drop_connection(DESK);
        let reader = self.reader;
        self.open(maker, reader, open(0, 1, b"alias"));
        maker.done(reader, &[Ask::Logoff]);
        maker.refused(reader, &[open(0, 1, b"alias")], NoSession);
    }
}
