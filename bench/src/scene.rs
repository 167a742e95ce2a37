//! The states that requests are measured on. In each the one who asks is the
//! last terminal added, so that a search for its records goes through all of
//! them.

use second::builder::{message, Ask, Asked, Header};
use second::catalogue::{Name, NAMES};
use second::tables::{Table, Tables, FILES, FILE_BYTES, MEMORY_BYTES};
use second::words::{
    add_open, add_session, add_tree, load_file, pack_catalogue, set_catalogue, take_message,
    unpack, CatalogueWords, Words, HOLDER_WORDS, WORDS,
};

pub const PROCESS: u16 = 7;

/// An open and who has it.
#[derive(Clone, Copy, Default)]
pub struct Asker {
    pub connection: u32,
    pub header: Header,
    pub fid: u16,
}

pub struct Scene {
    pub name: &'static str,
    pub words: Words,
    pub memory: Vec<u8>,
    pub asker: Asker,
    /// A lock that the asker holds, if the lock table is full.
    pub to_release: Option<Asked>,
    /// The lock type (01's bit 0x01) of what is held and asked for.
    pub kind: u8,
    room: Vec<u8>,
}

/// A catalogue of so many names of twelve bytes. The last is of file 0.
pub fn catalogue(names: usize) -> CatalogueWords {
    let mut catalogue = Table::empty();
    for place in 0..names {
        let name = format!("Revoked.{place:04}");
        let file = (names - 1 - place) % FILES;
        catalogue.push(Name::new(name.as_bytes(), file as u8));
    }
    pack_catalogue(&catalogue)
}

impl Scene {
    /// Every file full, so many names in the catalogue, no record.
    fn new(name: &'static str, names: usize) -> Scene {
        let mut scene = Scene {
            name,
            words: [0; WORDS],
            memory: vec![0; MEMORY_BYTES],
            asker: Asker::default(),
            to_release: None,
            kind: 0,
            room: vec![0; 12_292],
        };
        for file in 0..FILES as u8 {
            let contents = vec![b'a' + file; FILE_BYTES];
            load_file(&mut scene.words, file.into(), &contents, &mut scene.memory).unwrap();
        }
        set_catalogue(&mut scene.words, &catalogue(names)).unwrap();
        scene
    }

    pub fn tables(&self) -> Tables {
        unpack(&self.words).unwrap()
    }

    fn session(&mut self, connection: u32) {
        self.asker.connection = connection;
        self.asker.header.uid = add_session(&mut self.words, connection).unwrap();
        self.asker.header.pid = PROCESS.into();
    }

    fn tree(&mut self) {
        self.asker.header.tid = add_tree(&mut self.words, self.asker.header.uid.into(), 1).unwrap();
    }

    fn open(&mut self, file: u8) {
        let Header { uid, tid, pid } = self.asker.header;
        self.asker.fid =
            add_open(&mut self.words, uid.into(), tid.into(), pid, file.into(), 2).unwrap();
    }

    /// Takes locks of the scene's type through the asker's open.
    fn lock(&mut self, locks: Vec<Asked>) {
        let ask = Ask::Locking {
            fid: self.asker.fid,
            kind: self.kind,
            unlocks: Vec::new(),
            locks,
        };
        let message = message(self.asker.header, &[ask], &mut || 0, &mut || 0);
        let (words, memory) = (&mut self.words, &mut self.memory);
        take_message(
            words,
            self.asker.connection,
            &message,
            memory,
            &mut self.room,
            &mut [0; HOLDER_WORDS],
        )
        .unwrap();
        assert_eq!(self.room[5..9], [0; 4], "a lock of the scene was refused");
    }
}

/// Ten bytes at a place of their own, above those that requests touch.
fn range(place: u64) -> Asked {
    (PROCESS, 1000 + 20 * place, 10)
}

/// One terminal that holds no lock.
fn empty() -> Scene {
    let mut scene = Scene::new("empty", 1);
    scene.session(100);
    scene.tree();
    scene.open(0);
    scene
}

/// Four terminals. Each has a file of its own open and file 0, in which it
/// holds three locks.
fn typical() -> Scene {
    let mut scene = Scene::new("typical", 4);
    for terminal in 0..4 {
        scene.session(100 + terminal);
        scene.tree();
        scene.open(1 + terminal as u8);
        scene.open(0);
        let first = 3 * u64::from(terminal);
        scene.lock((first..first + 3).map(range).collect());
    }
    scene
}

/// Every table full: 16 names, 16 sessions with two trees each, two opens to a
/// tree, two locks to an open. `file` says which file an open is of, `held` which
/// two locks it takes.
fn full_of(
    name: &'static str,
    kind: u8,
    file: impl Fn(u32) -> u8,
    held: impl Fn(u64) -> [Asked; 2],
) -> Scene {
    let mut scene = Scene::new(name, NAMES);
    scene.kind = kind;
    for open in 0..64 {
        if open % 4 == 0 {
            scene.session(100 + open / 4);
        }
        if open % 2 == 0 {
            scene.tree();
        }
        scene.open(file(open));
        scene.lock(held(open.into()).to_vec());
    }
    scene.to_release = Some(held(63)[1]);
    scene
}

/// Four opens and eight locks to a file, in order of place.
fn full() -> Scene {
    let held = |open| [range(2 * open), range(2 * open + 1)];
    full_of("full", 0, |open| (open % 16) as u8, held)
}

/// Shared locks on one file that all overlap: the natural state of a list
/// that every terminal reads.
fn shared() -> Scene {
    let held = |open| [(PROCESS, 1000 + open, 2000), (PROCESS, 1500 + open, 2000)];
    full_of("full, 128 shared on one file", 1, |_| 0, held)
}

/// Exclusive locks on one file, taken in no order of place.
fn shuffled() -> Scene {
    // 77 and 128 have no common factor, so each place comes once.
    let place = |lock| range(lock * 77 % 128);
    let held = move |open| [place(2 * open), place(2 * open + 1)];
    full_of("full, 128 shuffled on one file", 0, |_| 0, held)
}

pub fn all() -> [Scene; 5] {
    let scenes = [empty(), typical(), full(), shared(), shuffled()];
    let counts = scenes.each_ref().map(|scene| {
        let tables = scene.tables();
        let (sessions, trees) = (tables.sessions.count, tables.trees.count);
        (sessions, trees, tables.opens.count, tables.locks.count)
    });
    let most = (16, 32, 64, 128);
    let expected = [(1, 1, 1, 0), (4, 4, 8, 12), most, most, most];
    assert_eq!(counts, expected, "sessions, trees, opens, locks");
    scenes
}
