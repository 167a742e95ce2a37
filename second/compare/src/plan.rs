//! Plans the calls: mostly plausible ones for the tables as they are, so
//! that every answer is met often, with errors and damage mixed in.

mod change_asks;
mod core_asks;
mod end_asks;
mod open_asks;

use crate::call::Trial;
use crate::catalogues;
use crate::sides::LARGEST;
use core_asks::set_across;
use end_asks::Ended;
use second::builder::{locking, message, set_status_form, Ask, Asked, Header};
use second::call::Call;
use second::grammar::blocks;
use second::header::whole_process;
use second::listing::dropped;
use second::message::ROOM_BYTES;
use second::messages::{all, Made};
use second::processes::twins;
use second::rng::Rng;
use second::status::StatusForm;
use second::tables::{Lock, Tables};
use second::words::pack_catalogue;

const CONNECTIONS: [u32; 6] = [0, 1, 2, 77, 0x1_0001, u32::MAX];
/// The halves of processes. They are few, so that two processes often differ in
/// one half only, or have each other's.
const LOWS: [u16; 6] = [0, 1, 7, 8, 256, u16::MAX];
const HIGHS: [u16; 5] = [0, 0, 1, 7, u16::MAX];
const EDGES: [u64; 14] = [
    0,
    1,
    0x7FFF_FFFF,
    0xFFFF_FFFE,
    0xFFFF_FFFF,
    1 << 32,
    (1 << 32) + 5,
    1 << 63,
    (1 << 63) - 1,
    (1 << 63) + 1,
    u64::MAX - 2,
    u64::MAX - 1,
    u64::MAX,
    4096,
];

/// The kinds of call, in the order of [`Mood::calls`].
const CALLS: usize = 11;
const END_SESSION: usize = 5;
const END_TREE: usize = 6;
const END_OPEN: usize = 7;
const SET_CATALOGUE: usize = 8;
const QUESTION: usize = 9;
/// The kinds of command, in the order of [`Mood::asks`].
const KINDS: usize = 12;
const FIRST_CORE: usize = 7;
const CORES: usize = 4;
const OPEN: usize = FIRST_CORE + CORES;

/// What the calls tend to for a while.
#[derive(Clone, Copy, Debug, PartialEq, Eq)]
enum Mood {
    Grow,
    Fill,
    Work,
    Locks,
    Shrink,
}

impl Mood {
    /// Weights: add session, tree, open; load; drop; end session, tree, open; set the
    /// catalogue; ask whether a file is unchanged; message.
    fn calls(self) -> [usize; CALLS] {
        match self {
            Mood::Grow => [8, 12, 40, 4, 0, 1, 1, 1, 2, 16, 50],
            Mood::Fill => [12, 26, 56, 6, 0, 1, 1, 1, 4, 12, 30],
            Mood::Work => [2, 3, 8, 6, 1, 1, 1, 2, 4, 32, 180],
            Mood::Locks => [1, 1, 2, 2, 0, 0, 0, 1, 1, 8, 100],
            Mood::Shrink => [2, 2, 5, 10, 6, 3, 4, 6, 3, 16, 100],
        }
    }

    /// Weights: LOCKING, READ_ANDX, WRITE_ANDX, CLOSE, LOGOFF, TREE_DISCONNECT,
    /// PROCESS_EXIT, then READ, WRITE, LOCK, UNLOCK, then OPEN_ANDX.
    fn asks(self) -> [usize; KINDS] {
        match self {
            Mood::Grow | Mood::Fill => [300, 200, 200, 4, 1, 1, 2, 50, 80, 60, 40, 200],
            Mood::Work => [320, 270, 300, 20, 3, 4, 12, 70, 160, 60, 60, 140],
            Mood::Locks => [700, 60, 90, 5, 1, 1, 5, 30, 60, 100, 40, 20],
            Mood::Shrink => [100, 80, 80, 60, 12, 16, 20, 20, 40, 20, 20, 60],
        }
    }
}

/// Who asks in a message, and through which opens.
struct Scene {
    connection: u32,
    header: Header,
    fids: Vec<u16>,
}

pub struct Planner {
    pub rng: Rng,
    mood: Mood,
    /// Calls left in this mood.
    left: usize,
    /// An offset at which no lock was asked for yet.
    fresh: u64,
    /// The FIDs that the last message named, that the last open was to get, or that
    /// the last end was to take.
    named: Vec<u16>,
    /// The file of the open that the last message or end was to close.
    closed: Option<u8>,
    /// What the last call was to end, if it was to end something.
    ended: Option<Ended>,
    /// The messages made for the lister.
    listed: Vec<Made>,
}

impl Planner {
    pub fn new(rng: Rng) -> Planner {
        let mut listed = all();
        listed.retain(|made| made.bytes.len() <= LARGEST);
        Planner {
            rng,
            mood: Mood::Grow,
            left: 100,
            fresh: 100_000,
            named: Vec::new(),
            closed: None,
            ended: None,
            listed,
        }
    }

    fn once_in(&mut self, times: usize) -> bool {
        self.rng.below(times) == 0
    }

    /// An index, by weight.
    fn weighted(&mut self, weights: &[usize]) -> usize {
        let mut number = self.rng.below(weights.iter().sum());
        for (index, &weight) in weights.iter().enumerate() {
            if number < weight {
                return index;
            }
            number -= weight;
        }
        0
    }

    /// The next call for these tables.
    pub fn next(&mut self, tables: &Tables) -> Trial {
        if self.left == 0 {
            self.mood = self.rng.pick(&[
                Mood::Grow,
                Mood::Fill,
                Mood::Work,
                Mood::Work,
                Mood::Locks,
                Mood::Shrink,
            ]);
            self.left = 30 + self.rng.below(150);
        }
        self.left -= 1;
        let kind = self.call_kind(tables);
        self.call(kind, tables)
    }

    /// A call of any kind, one as often as the other.
    pub fn any(&mut self, tables: &Tables) -> Trial {
        let kind = self.rng.below(CALLS);
        self.call(kind, tables)
    }

    fn call(&mut self, kind: usize, tables: &Tables) -> Trial {
        let ended = self.ended.take();
        match kind {
            0 => Trial::plain(Call::AddSession {
                connection: self.connection(),
            }),
            1 => self.add_tree(tables),
            2 => self.add_open(tables),
            3 => self.load_file(tables),
            4 => Trial::plain(Call::DropConnection {
                connection: self.connection(),
            }),
            END_SESSION | END_TREE | END_OPEN => self.end(kind, ended, tables),
            SET_CATALOGUE => self.set_catalogue(tables),
            QUESTION => self.question(tables),
            _ => self.take_message(tables),
        }
    }

    /// By weight, but few records are mostly made more; now and then a file that was
    /// closed is opened again, and behind an end another of its kind follows.
    fn call_kind(&mut self, tables: &Tables) -> usize {
        if let Some((kind, _)) = self.ended {
            if self.once_in(6) {
                return kind;
            }
        }
        if self.closed.is_some() && self.once_in(3) {
            return 2;
        }
        if self.mood != Mood::Shrink && !self.once_in(4) {
            if tables.sessions.count < 2 {
                return 0;
            }
            if tables.trees.count < 2 {
                return 1;
            }
            if tables.opens.count < 4 {
                return 2;
            }
            if tables.catalogue.count == 0 {
                return SET_CATALOGUE;
            }
        }
        self.weighted(&self.mood.calls())
    }

    fn connection(&mut self) -> u32 {
        self.rng.pick(&CONNECTIONS)
    }

    fn add_tree(&mut self, tables: &Tables) -> Trial {
        let sessions = tables.sessions.in_use();
        let uid = match sessions.is_empty() || self.once_in(12) {
            true => self.any_number(),
            false => self.rng.pick(sessions).uid,
        };
        let right = self.rng.pick(&[0, 1, 1, 1, 1]);
        let right = self.seldom(right, &[2, 3, 255]);
        Trial::plain(Call::AddTree {
            uid: self.seldom_wide(uid.into()),
            right: self.seldom_wide(right),
        })
    }

    fn add_open(&mut self, tables: &Tables) -> Trial {
        let trees = tables.trees.in_use();
        let (mut uid, mut tid) = (self.any_number(), self.any_number());
        if !trees.is_empty() {
            let tree = self.rng.pick(trees);
            (uid, tid) = (tree.uid, tree.tid);
        }
        if self.once_in(20) {
            uid = self.any_number();
        }
        if self.once_in(20) {
            tid = self.any_number();
        }
        let file = self.rng.pick(&[0, 0, 0, 1, 1, 2, 3, 15]);
        let any_file = self.rng.below(16) as u32;
        let file = self.seldom(file, &[16, 17, 128, 255, any_file, any_file]);
        let file = self.closed.take().map_or(file, u32::from);
        let access = self.rng.pick(&[0, 1, 2, 2, 2]);
        let access = self.seldom(access, &[3, 4, 255]);
        self.note_open(tables);
        Trial::plain(Call::AddOpen {
            uid: self.seldom_wide(uid.into()),
            tid: self.seldom_wide(tid.into()),
            process: self.process(),
            file: self.seldom_wide(file),
            access: self.seldom_wide(access),
        })
    }

    fn process(&mut self) -> u32 {
        let low = self.rng.pick(&LOWS);
        self.twin(low)
    }

    /// A process with this lower half.
    fn twin(&mut self, low: u16) -> u32 {
        whole_process(self.rng.pick(&HIGHS), low)
    }

    fn load_file(&mut self, tables: &Tables) -> Trial {
        let any = self.rng.below(16) as u8;
        let opens = tables.opens.in_use();
        let unopened = (0..16).find(|&file| opens.iter().all(|open| open.file != file));
        let file = self.rng.pick(&[any, unopened.unwrap_or(any)]);
        let file = self.seldom(file.into(), &[16, 17, 255]);
        let small = self.rng.below(200);
        let length = self
            .rng
            .pick(&[small, small, small, 0, 4095, 4096, 4096, 4097, 9000]);
        Trial::Call {
            call: Call::LoadFile {
                file: self.seldom_wide(file),
                contents: self.rng.bytes(length),
            },
            memory: self.memory_length(),
            room: 0,
        }
    }

    /// A new catalogue, or the one that stands, changed; once in three spoilt.
    fn set_catalogue(&mut self, tables: &Tables) -> Trial {
        let mut words = match self.once_in(3) {
            true => pack_catalogue(&tables.catalogue),
            false => catalogues::good(&mut self.rng),
        };
        if self.once_in(3) {
            catalogues::spoil(&mut words, &mut self.rng);
        }
        Trial::plain(Call::SetCatalogue {
            catalogue: Box::new(words),
        })
    }

    /// The value, or once in 16 one of the others.
    fn seldom<T: Copy>(&mut self, value: T, others: &[T]) -> T {
        if self.once_in(16) {
            self.rng.pick(others)
        } else {
            value
        }
    }

    /// The value, or once in 20 one that is it in its low 8 or 16 bits, or
    /// that no field holds.
    fn seldom_wide(&mut self, value: u32) -> u32 {
        if self.once_in(20) {
            self.rng.pick(&[
                value + 0x100,
                value + 0x1_0000,
                value + 0x8000_0000,
                256,
                257,
                65_537,
                u32::MAX,
            ])
        } else {
            value
        }
    }

    fn any_number(&mut self) -> u16 {
        let small = self.rng.below(70) as u16;
        self.rng.pick(&[small, small, small, 0, 1, 0x101, u16::MAX])
    }

    fn memory_length(&mut self) -> Option<usize> {
        if self.once_in(50) {
            Some(self.rng.pick(&[0, 1, 4096, 65_535, 65_537, 131_072]))
        } else {
            None
        }
    }

    fn room_length(&mut self) -> usize {
        match self.rng.below(50) {
            0 => self.rng.pick(&[0, 32, 35, 12_000, 12_291]),
            1 => self.rng.pick(&[12_293, 16_384, 20_000]),
            _ => ROOM_BYTES,
        }
    }

    fn take_message(&mut self, tables: &Tables) -> Trial {
        let (scene, mut message) = self.message(tables);
        if message.len() >= 35 && self.once_in(14) {
            self.damage(&mut message);
        } else if self.once_in(5) && dropped(&message).is_none() {
            self.damage_data_block(&mut message);
        } else if self.once_in(15) && dropped(&message).is_none() {
            self.damage_name(&mut message);
        }
        // Half of all messages ask for NTSTATUS.
        set_status_form(&mut message, self.rng.pick(&StatusForm::BOTH));
        Trial::Call {
            call: Call::TakeMessage {
                connection: scene.connection,
                message,
            },
            memory: self.memory_length(),
            room: self.room_length(),
        }
    }

    /// A message, with who sends it.
    fn message(&mut self, tables: &Tables) -> (Scene, Vec<u8>) {
        if self.once_in(10) {
            if let Some(lock) = self.held_to_ask_for(tables) {
                let scene = self.owners_scene(tables, lock);
                let asks = self.core_at_lock(tables, &scene, lock);
                self.note_named(&asks, tables);
                let message = self.written(scene.header, &asks);
                return (scene, message);
            }
        }
        if self.once_in(80) {
            if let Some((scene, ask)) = self.idle_write(tables) {
                let asks = [ask];
                self.note_named(&asks, tables);
                let message = self.written(scene.header, &asks);
                return (scene, message);
            }
        }
        let scene = self.scene(tables);
        let message = if self.once_in(25) {
            self.listed_message(&scene)
        } else {
            let asks = self.asks(tables, &scene);
            self.note_named(&asks, tables);
            self.written(scene.header, &asks)
        };
        (scene, message)
    }

    /// A message of the asks, with free bytes here and there.
    fn written(&mut self, header: Header, asks: &[Ask]) -> Vec<u8> {
        let mut gaps = Rng::new(self.rng.number());
        let mut fill = Rng::new(self.rng.number());
        let widest = self.rng.pick(&[1, 1, 1, 2, 9]);
        let tail = self.rng.pick(&[0, 0, 0, 1, 30]);
        let mut bytes = message(header, asks, &mut || gaps.below(widest), &mut || {
            fill.byte()
        });
        bytes.extend(fill.bytes(tail));
        bytes
    }

    fn scene(&mut self, tables: &Tables) -> Scene {
        if self.once_in(6) {
            if let Some(lock) = self.held_to_ask_for(tables) {
                return self.owners_scene(tables, lock);
            }
        }
        let (opens, trees) = (tables.opens.in_use(), tables.trees.in_use());
        let sessions = tables.sessions.in_use();
        let (mut uid, mut tid) = (self.any_number(), self.any_number());
        let mut pid = self.process();
        if !opens.is_empty() && !self.once_in(40) {
            let open = self.rng.pick(opens);
            (uid, tid) = (open.uid, open.tid);
            let twin = self.twin(open.process as u16);
            pid = self.rng.pick(&[pid, twin, open.process, open.process]);
        } else if !trees.is_empty() && !self.once_in(4) {
            let tree = self.rng.pick(trees);
            (uid, tid) = (tree.uid, tree.tid);
        } else if !sessions.is_empty() {
            uid = self.rng.pick(sessions).uid;
        }
        let own = tables.session(uid).map(|session| session.connection);
        let other = self.connection();
        let mut connection = own.unwrap_or(other);
        match self.rng.below(60) {
            0 => connection = other,
            1 => uid = self.any_number(),
            2 | 3 => tid = self.any_number(),
            _ => {}
        }
        let fids = opens.iter().filter(|o| o.uid == uid && o.tid == tid);
        Scene {
            connection,
            header: Header { tid, pid, uid },
            fids: fids.map(|open| open.fid).collect(),
        }
    }

    /// The owner of a lock, or its twin, with the lock's open alone.
    fn owners_scene(&mut self, tables: &Tables, lock: Lock) -> Scene {
        let open = tables.open_of(lock.fid);
        let (uid, tid) = open.map_or((0, 0), |open| (open.uid, open.tid));
        let session = tables.session(uid);
        let twin = self.twin(lock.process as u16);
        let pid = self.rng.pick(&[lock.process, lock.process, twin]);
        Scene {
            connection: session.map_or(0, |session| session.connection),
            header: Header { tid, pid, uid },
            fids: vec![lock.fid],
        }
    }

    fn fid(&mut self, tables: &Tables, scene: &Scene) -> u16 {
        let opens = tables.opens.in_use();
        if !scene.fids.is_empty() && !self.once_in(30) {
            self.rng.pick(&scene.fids)
        } else if !opens.is_empty() && !self.once_in(2) {
            self.rng.pick(opens).fid
        } else {
            self.any_number()
        }
    }

    /// The blocks of a message: a succession of the grammar, or nearly.
    fn asks(&mut self, tables: &Tables, scene: &Scene) -> Vec<Ask> {
        if self.once_in(120) {
            return self.long_chain(tables, scene);
        }
        let first = self.weighted(&self.mood.asks());
        let mut asks = vec![self.ask(first, tables, scene)];
        // One FID for the chain, mostly.
        let same = self.rng.below(4) != 0;
        let often = self.rng.pick(&[1, 2, 2, 6]);
        while asks.len() < 12 && !self.once_in(often) {
            let followers: &[usize] = match &asks[asks.len() - 1] {
                Ask::Locking { .. } => &[1, 1, 2, 2, FIRST_CORE, FIRST_CORE + 1],
                Ask::Read { .. } => &[3],
                Ask::Write { .. } => &[2, 2, 2, 1, 1, 3],
                Ask::Open { .. } => &[1],
                _ => break,
            };
            let any = self.rng.below(KINDS);
            let core = FIRST_CORE + self.rng.below(CORES);
            let next = self.rng.pick(followers);
            let next = self.seldom(next, &[next, next, next, next, any, core]);
            let mut ask = self.ask(next, tables, scene);
            if asks.len() > 1 && self.once_in(2) {
                widen(&mut ask);
            }
            match asks[0].fid() {
                _ if next >= FIRST_CORE && self.once_in(12) => ask.set_fid(self.any_number()),
                Some(fid) if same => ask.set_fid(fid),
                _ => {}
            }
            if self.once_in(3) {
                set_across(&mut ask, &asks[0]);
            }
            if first == OPEN {
                self.set_behind_open(&mut ask, tables);
            }
            self.seldom_again(&mut ask, &asks[asks.len() - 1]);
            asks.push(ask);
        }
        if first != OPEN {
            self.seldom_misplaced(&mut asks);
        }
        asks
    }

    /// Many short writes.
    fn long_chain(&mut self, tables: &Tables, scene: &Scene) -> Vec<Ask> {
        let count = self.rng.pick(&[20, 100, 250, 300, 302, 303]);
        let fid = self.fid(tables, scene);
        let most = if count >= 300 { 1 } else { 3 };
        let mut asks: Vec<Ask> = (0..count)
            .map(|_| Ask::Write {
                fid,
                offset: self.rng.below(4096) as u64,
                data: (0..self.rng.below(most)).map(|_| self.rng.byte()).collect(),
                long: false,
                around: (0, 0),
            })
            .collect();
        match self.rng.below(3) {
            0 => asks.push(self.ask(1, tables, scene)),
            1 => asks.push(Ask::Close { fid }),
            _ => {}
        }
        asks
    }

    fn ask(&mut self, kind: usize, tables: &Tables, scene: &Scene) -> Ask {
        let fid = self.fid(tables, scene);
        match kind {
            0 => self.locking(fid, tables, scene),
            1 => {
                let mut ask = Ask::Read {
                    max: self.max(),
                    fid,
                    offset: self.place(tables, scene, fid),
                    long: self.once_in(2),
                };
                if self.once_in(8) {
                    widen(&mut ask);
                }
                ask
            }
            2 => self.write(fid, tables, scene),
            3 => Ask::Close { fid },
            4 => Ask::Logoff,
            5 => Ask::TreeDisconnect,
            6 => Ask::ProcessExit,
            OPEN if self.once_in(3) => self.willing_open(tables, scene),
            OPEN => self.open_ask(tables),
            _ => self.core_ask(kind - FIRST_CORE, fid, tables, scene),
        }
    }

    /// How many bytes to read.
    fn max(&mut self) -> u16 {
        let some = self.rng.below(100) as u16;
        self.rng
            .pick(&[some, some, 0, 1, 2, 10, 4096, 4097, 65_535])
    }

    fn write(&mut self, fid: u16, tables: &Tables, scene: &Scene) -> Ask {
        let (offset, length) = self.span_to_write(fid, tables, scene);
        Ask::Write {
            fid,
            offset,
            data: self.rng.bytes(length),
            long: self.once_in(2),
            around: self.rng.pick(&[(0, 0), (0, 0), (1, 0), (0, 1), (3, 2)]),
        }
    }

    /// Offset and length of a write.
    fn span_to_write(&mut self, fid: u16, tables: &Tables, scene: &Scene) -> (u64, usize) {
        let (few, some) = (self.rng.below(30), self.rng.below(300));
        let length = self.rng.pick(&[few, few, few, few, some, 0, 1, 2]);
        let length = self.seldom(length, &[2000, 4095, 4096, 4097, 6000]);
        let to_the_end = (4096 - length.min(4096)) as u64 + self.rng.below(3) as u64;
        let offset = match self.rng.below(6) {
            0 => to_the_end.saturating_sub(1),
            _ => self.place(tables, scene, fid),
        };
        (offset, length)
    }

    /// An offset for a read or a write.
    fn place(&mut self, tables: &Tables, scene: &Scene, fid: u16) -> u64 {
        let open = tables.open_of(fid);
        let size = open.map_or(0, |open| tables.files[usize::from(open.file)].size);
        let own = |lock: &Lock| {
            let owner = (lock.fid, lock.process) == (fid, scene.header.pid);
            owner && !lock.shared && lock.range.offset < 4096
        };
        match self.rng.below(14) {
            0..=4 => self.rng.below(120) as u64,
            5 | 6 => (size + self.rng.below(5) as u64).saturating_sub(2),
            7 => size / 2,
            8 => 4088 + self.rng.below(12) as u64,
            9 => match open.and_then(|open| self.held_of(tables, open.file)) {
                Some(lock) => near(&mut self.rng, lock.range.offset),
                None => 0,
            },
            10 => self.rng.below(5000) as u64,
            11 | 12 => self
                .held_that(tables, own)
                .map_or(0, |lock| lock.range.offset),
            _ => self.rng.pick(&EDGES),
        }
    }

    /// A lock of the file.
    fn held_of(&mut self, tables: &Tables, file: u8) -> Option<Lock> {
        let locks: Vec<Lock> = tables.locks_of(file).map(|(_, lock)| *lock).collect();
        (!locks.is_empty()).then(|| self.rng.pick(&locks))
    }

    /// A lock that passes the test.
    fn held_that(&mut self, tables: &Tables, test: impl Fn(&Lock) -> bool) -> Option<Lock> {
        let locks = tables.locks.in_use().iter().copied();
        let locks: Vec<Lock> = locks.filter(test).collect();
        (!locks.is_empty()).then(|| self.rng.pick(&locks))
    }

    fn held(&mut self, tables: &Tables) -> Option<Lock> {
        self.held_that(tables, |_| true)
    }

    /// Any lock, or one behind a twin's alike: these are few.
    fn held_to_ask_for(&mut self, tables: &Tables) -> Option<Lock> {
        let locks = tables.locks.in_use();
        let behind_twin = |lock: &Lock| {
            let alike = |other: &&Lock| (other.fid, other.range) == (lock.fid, lock.range);
            let first = locks.iter().find(alike);
            first.is_some_and(|first| twins(first.process, lock.process))
        };
        match self.once_in(3) {
            true => self.held_that(tables, behind_twin),
            false => self.held(tables),
        }
    }

    fn locking(&mut self, fid: u16, tables: &Tables, scene: &Scene) -> Ask {
        if self.once_in(5) {
            if let Some(lock) = self.held_that(tables, |lock| lock.fid == fid && lock.shared) {
                return self.shared_again(lock);
            }
        }
        let kind = self.rng.pick(&[0, 0, 1, 0x10, 0x10, 0x10, 0x11, 0x11]);
        let other = self
            .rng
            .pick(&[0x02, 0x04, 0x08, 0x20, 0x40, 0x80, 0x12, 0x31, 0xFF, 0xEF]);
        let kind = if self.once_in(40) { other } else { kind };
        let locks = match self.mood {
            Mood::Locks => self.rng.pick(&[0, 0, 1, 1, 2, 5, 10, 20, 40, 64]),
            _ => self.rng.pick(&[0, 1, 1, 1, 1, 2, 2, 3, 5]),
        };
        let locks = match self.rng.below(60) {
            0 => self.rng.pick(&[127, 128, 129, 130, 200, 390]),
            _ => locks,
        };
        // A long request mostly asks for what nobody holds.
        let fresh = locks > 5 || self.mood == Mood::Locks && !self.once_in(6);
        let unlocks = self.unlocks(fid, tables, scene);
        let mut locks: Vec<Asked> = (0..locks)
            .map(|_| self.asked(tables, scene, fresh))
            .collect();
        if self.once_in(12) {
            self.cross(&mut locks);
        }
        Ask::Locking {
            fid,
            kind,
            unlocks,
            locks,
        }
    }

    /// A shared lock once more, now for the process of the header's upper half.
    fn shared_again(&mut self, lock: Lock) -> Ask {
        let asked = (lock.process as u16, lock.range.offset, lock.range.length);
        let kind = self.rng.pick(&[0x01, 0x11]);
        locking(lock.fid, kind, &[], &[asked])
    }

    /// Puts the last range on or beside an earlier one of the same request, a
    /// late one mostly.
    fn cross(&mut self, ranges: &mut [Asked]) {
        if let [earlier @ .., last] = ranges {
            if let Some(from) = earlier.len().checked_sub(1) {
                let (_, offset, length) = earlier[from - self.rng.below(from.min(4) + 1)];
                let process = self.rng.pick(&LOWS);
                *last = (process, near(&mut self.rng, offset), length);
            }
        }
    }

    /// Mostly ranges that the FID holds, for processes of the header's upper
    /// half.
    fn unlocks(&mut self, fid: u16, tables: &Tables, scene: &Scene) -> Vec<Asked> {
        let any_half = self.once_in(6);
        let high = |process: u32| process >> 16;
        let held = tables.locks.in_use().iter().filter(|l| l.fid == fid);
        let mut held: Vec<Asked> = held
            .filter(|l| any_half || high(l.process) == high(scene.header.pid))
            .map(|l| (l.process as u16, l.range.offset, l.range.length))
            .collect();
        let most = self.rng.pick(&[0, 0, 0, 0, 1, 1, 1, 2, 4, 128]);
        while held.len() > most {
            let place = self.rng.below(held.len());
            held.remove(place);
        }
        if self.once_in(3) {
            held.reverse();
        }
        if !held.is_empty() && self.once_in(8) {
            let place = self.rng.below(held.len());
            match self.rng.below(4) {
                0 => held[place].0 ^= 1,
                1 => held[place].1 ^= 1,
                2 => held[place].2 ^= 1,
                _ => held.push(held[place]),
            }
        }
        if self.once_in(60) {
            held.push(self.asked(tables, scene, false));
        }
        held
    }

    /// A range to be locked.
    fn asked(&mut self, tables: &Tables, scene: &Scene, fresh: bool) -> Asked {
        let process = self.rng.pick(&LOWS);
        let own = scene.header.pid as u16;
        let process = self.rng.pick(&[process, own, own]);
        let (small, length) = (self.rng.below(80) as u64, self.rng.below(12) as u64);
        let kind = self.rng.below(12);
        if fresh && kind != 0 || kind >= 10 {
            self.fresh += 1 + length;
            return (process, self.fresh - length, length);
        }
        let (offset, length) = match kind {
            0..=1 if fresh => (small, 0),
            0..=4 => (small, length),
            5 | 6 => match self.held(tables) {
                Some(lock) => self.beside(lock),
                None => (small, length),
            },
            7 => (4080 + small / 4, 2 * length),
            8 => self.edge(),
            _ => (
                small * 50,
                self.rng.pick(&[0, 1, 4096, u64::MAX - small * 50]),
            ),
        };
        (process, offset, length)
    }

    /// A range equal to a held one, next to it, or nearly so.
    fn beside(&mut self, lock: Lock) -> (u64, u64) {
        let (offset, length) = (lock.range.offset, lock.range.length);
        match self.rng.below(7) {
            0 | 1 => (offset, length),
            2 => (offset.wrapping_add(length), 1),
            3 => (offset.wrapping_add(length).wrapping_sub(1), 1),
            4 => (offset.wrapping_sub(1), 1),
            5 => (offset.wrapping_sub(1), 2),
            _ => (near(&mut self.rng, offset), length),
        }
    }

    /// A range at an edge of 32 or 64 bits: mostly one that fits.
    fn edge(&mut self) -> (u64, u64) {
        let offset = self.rng.pick(&EDGES);
        let fits = 0u64.wrapping_sub(offset);
        let length = match self.rng.below(6) {
            0 => self.rng.pick(&EDGES),
            1 => fits.wrapping_add(1),
            2 => fits.wrapping_sub(1),
            3 => self.rng.below(3) as u64,
            _ => fits,
        };
        (offset, length)
    }

    /// One of the lister's messages, with numbers that mean something here.
    fn listed_message(&mut self, scene: &Scene) -> Vec<u8> {
        let index = self.rng.below(self.listed.len());
        let mut bytes = self.listed[index].bytes.clone();
        if dropped(&bytes).is_some() {
            return bytes;
        }
        bytes[24..26].copy_from_slice(&scene.header.tid.to_le_bytes());
        let [low, high] = [scene.header.pid as u16, (scene.header.pid >> 16) as u16];
        bytes[12..14].copy_from_slice(&high.to_le_bytes());
        bytes[26..28].copy_from_slice(&low.to_le_bytes());
        bytes[28..30].copy_from_slice(&scene.header.uid.to_le_bytes());
        let read: Vec<_> = blocks(&bytes).flatten().collect();
        for block in read {
            // The places of the FID and of an offset.
            let (fid_at, offset_at) = match block.command {
                0x04 => (1, None),
                0x0A | 0x0B => (1, Some(5)),
                0x0C | 0x0D => (1, Some(7)),
                0x24 => (5, None),
                0x2E | 0x2F => (5, Some(7)),
                _ => continue,
            };
            if !scene.fids.is_empty() {
                let fid = self.rng.pick(&scene.fids).to_le_bytes();
                let place = block.offset + fid_at;
                bytes[place..place + 2].copy_from_slice(&fid);
            }
            // A low offset, so that not every write is past the end.
            if let (Some(offset_at), true) = (offset_at, self.once_in(2)) {
                let place = block.offset + offset_at;
                bytes[place + 1..place + 4].fill(0);
            }
        }
        bytes
    }

    /// Damage of any kind.
    fn damage(&mut self, bytes: &mut Vec<u8>) {
        let place = self.rng.below(bytes.len());
        let byte = self.rng.byte();
        match self.rng.below(14) {
            0 => bytes.truncate(place),
            1 => bytes.truncate(bytes.len() - 1),
            2 => bytes[4] = byte,
            3 => bytes[9] |= 0x80,
            4 => bytes[place % 4] ^= 1 << (byte % 8),
            5 => bytes[place] = byte,
            6 => bytes[place] = bytes[place].wrapping_add(1),
            7 => bytes[place] = bytes[place].wrapping_sub(1),
            8 => bytes.insert(place, byte),
            9 => {
                let size = self.rng.pick(&[34, 35, 8191, 8192, 8193, 9000]);
                bytes.resize(size, byte);
            }
            10 | 11 => {
                // The first block's WordCount or AndX.
                let place = 32 + place % 5;
                if place < bytes.len() {
                    bytes[place] = self.rng.pick(&[byte, 0, 0xFF, 0x2E, 0x2F]);
                }
            }
            12 => bytes[32] = bytes[32].wrapping_add(2),
            _ => *bytes = self.rng.bytes(place),
        }
    }
}

/// A number within 2 of the given one.
fn near(rng: &mut Rng, number: u64) -> u64 {
    number.wrapping_add(rng.below(5) as u64).wrapping_sub(2)
}

/// Makes a read one of the whole file, which locks bar more often.
fn widen(ask: &mut Ask) {
    if let Ask::Read { offset, max, .. } = ask {
        (*offset, *max) = (0, u16::MAX);
    }
}
