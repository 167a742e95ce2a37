//! The requests that are measured.

use crate::scene::{Scene, PROCESS};
use second::builder::{
    core_read, core_write, lock_range, message, open, set_status_form, unlock_range, Ask, Asked,
    Header,
};
use second::request::JUST_OPENED;
use second::status::StatusForm;
use second::tables::{DENY_NONE, FILE_BYTES};

const LARGEST: usize = 8192;

/// Stands in every byte that the papers do not look at.
const FILL: u8 = 0x5B;

/// A message, and the status (class, code) with which it is answered, in the form
/// that it asks for.
#[derive(Clone)]
pub struct Request {
    pub name: String,
    pub bytes: Vec<u8>,
    pub status: (u8, u16),
}

const CONFLICT: (u8, u16) = (1, 33);

impl Request {
    fn new(name: &str, scene: &Scene, asks: &[Ask]) -> Request {
        Request::from(name, scene.asker.header, asks)
    }

    fn from(name: &str, header: Header, asks: &[Ask]) -> Request {
        let mut bytes = message(header, asks, &mut || 0, &mut || FILL);
        set_status_form(&mut bytes, StatusForm::Smb);
        assert!(bytes.len() <= LARGEST);
        Request {
            name: name.to_string(),
            bytes,
            status: (0, 0),
        }
    }
}

fn locking(scene: &Scene, unlocks: Vec<Asked>, locks: Vec<Asked>) -> Ask {
    Ask::Locking {
        fid: scene.asker.fid,
        kind: scene.kind,
        unlocks,
        locks,
    }
}

/// A lock of ten bytes; where no lock record is free, one is released first.
fn lock(scene: &Scene) -> Ask {
    let wanted = (PROCESS, 10, 10);
    locking(scene, scene.to_release.into_iter().collect(), vec![wanted])
}

fn read(scene: &Scene) -> Ask {
    Ask::Read {
        fid: scene.asker.fid,
        offset: 0,
        max: 64,
        long: false,
    }
}

/// The counterparts of [`read`] and [`write`] (document 02, request 3).
fn core(scene: &Scene) -> (Ask, Ask) {
    let fid = scene.asker.fid;
    (core_read(fid, 0, 64), core_write(fid, 0, &[b'w'; 64]))
}

fn write(scene: &Scene, length: usize) -> Ask {
    Ask::Write {
        fid: scene.asker.fid,
        offset: 0,
        data: vec![b'w'; length],
        long: false,
        around: (0, 0),
    }
}

fn close(scene: &Scene) -> Ask {
    Ask::Close {
        fid: scene.asker.fid,
    }
}

/// The last name of the catalogue in another case, for reading (document 02,
/// request 6), alone and before a READ of what was opened. Where every FID is in use
/// it is refused, behind all else that is looked at.
fn opens(scene: &Scene) -> [Request; 2] {
    let tables = scene.tables();
    let names = tables.catalogue.in_use();
    let name = names[names.len() - 1].bytes().to_ascii_uppercase();
    let mut just = read(scene);
    just.set_fid(JUST_OPENED);
    let asks = [open(0, DENY_NONE, &name), just];
    let full = tables.opens.is_full();
    [("OPEN", 1), ("OPEN + READ", 2)].map(|(what, blocks)| {
        let name = format!("{what}{}", if full { " (refused 1/4)" } else { "" });
        Request {
            status: if full { (1, 4) } else { (0, 0) },
            ..Request::new(&name, scene, &asks[..blocks])
        }
    })
}

/// A chain of writes of so many bytes each.
pub fn writes(scene: &Scene, blocks: usize, length: usize) -> Request {
    Request::new("WRITE chain", scene, &vec![write(scene, length); blocks])
}

/// The chain of most blocks that a message can hold: 303 in 8,187 bytes.
fn longest(scene: &Scene) -> Request {
    let mut asks = vec![locking(scene, Vec::new(), Vec::new())];
    asks.extend(vec![write(scene, 0); 301]);
    asks.push(close(scene));
    Request::new("longest chain, 303 blocks", scene, &asks)
}

/// The request of most ranges: 814. Each is looked at, against every lock
/// held and every range before it, and then there are not records enough.
fn most_ranges(scene: &Scene) -> Request {
    let ranges = (0..814).map(|place| (PROCESS, 10_000 + 20 * place, 10));
    let asks = [locking(scene, Vec::new(), ranges.collect())];
    Request {
        status: (1, 8),
        ..Request::new("LOCKING, 814 ranges (refused 1/8)", scene, &asks)
    }
}

/// Refused 2/1 at its last block, after all of them were read.
fn spoilt(scene: &Scene) -> Request {
    let mut request = longest(scene);
    request.name = "longest chain, last block spoilt (2/1)".to_string();
    let last = request.bytes.len() - 9;
    request.bytes[last] = 1;
    request.status = (2, 1);
    request
}

/// The last byte of the last lock in a full list; no other lock has it.
fn last_byte(scene: &Scene) -> Option<u64> {
    let (_, offset, length) = scene.to_release?;
    Some(offset + length - 1)
}

/// A lock that the last one held is in the way of, the asker's own.
fn barred_lock(scene: &Scene) -> Option<Request> {
    let ask = Ask::Locking {
        fid: scene.asker.fid,
        kind: 0,
        unlocks: Vec::new(),
        locks: vec![(PROCESS, last_byte(scene)?, 1)],
    };
    Some(Request {
        status: CONFLICT,
        ..Request::new("LOCKING (refused 1/33 by the last lock)", scene, &[ask])
    })
}

/// A read by another process of the same bytes; shared locks bar none.
fn barred_read(scene: &Scene) -> Option<Request> {
    let header = Header {
        pid: scene.asker.header.pid + 1,
        ..scene.asker.header
    };
    let ask = Ask::Read {
        fid: scene.asker.fid,
        offset: last_byte(scene).filter(|_| scene.kind == 0)?,
        max: 64,
        long: false,
    };
    Some(Request {
        status: CONFLICT,
        ..Request::from("READ (refused 1/33 by the last lock)", header, &[ask])
    })
}

/// A READ of 64 bytes alone.
pub fn short_read(scene: &Scene) -> Request {
    Request::new("READ, 64 bytes", scene, &[read(scene)])
}

/// What is measured in both forms of Status (document 02, request 7): a READ
/// and, where it is one, a refused lock. Each without the bit of Flags2, then with
/// it.
pub fn in_both_forms(scene: &Scene) -> Vec<[Request; 2]> {
    let both = |request: Request| {
        let mut asked = request.clone();
        set_status_form(&mut asked.bytes, StatusForm::Nt);
        [request, asked]
    };
    let requests = [Some(short_read(scene)), barred_lock(scene)];
    requests.into_iter().flatten().map(both).collect()
}

/// A request, where the scene is one in which it is answered so.
pub type Sometimes = fn(&Scene) -> Option<Request>;

/// What only some scenes let be done, and what only some refuse.
pub const SOMETIMES: [Sometimes; 6] = [
    whole_read,
    whole_core_read,
    core_lock,
    core_unlock,
    barred_lock,
    barred_read,
];

/// Where no exclusive lock is held, so that none bars a read of the whole file.
fn whole(scene: &Scene, name: &str, ask: Ask) -> Option<Request> {
    let tables = scene.tables();
    let unbarred = tables.locks.in_use().iter().all(|lock| lock.shared);
    unbarred.then(|| Request::new(name, scene, &[ask]))
}

fn whole_read(scene: &Scene) -> Option<Request> {
    let ask = Ask::Read {
        fid: scene.asker.fid,
        offset: 0,
        max: FILE_BYTES as u16,
        long: false,
    };
    whole(scene, "READ, 4,096 bytes", ask)
}

fn whole_core_read(scene: &Scene) -> Option<Request> {
    let ask = core_read(scene.asker.fid, 0, FILE_BYTES as u16);
    whole(scene, "core READ, 4,096 bytes", ask)
}

/// Where a lock record is free.
fn core_lock(scene: &Scene) -> Option<Request> {
    let ask = lock_range(scene.asker.fid, 10, 10);
    let free = scene.to_release.is_none();
    free.then(|| Request::new("LOCK", scene, &[ask]))
}

/// Where a lock is held.
fn core_unlock(scene: &Scene) -> Option<Request> {
    let (_, offset, length) = scene.to_release?;
    let ask = unlock_range(scene.asker.fid, offset as u32, length as u32);
    Some(Request::new("UNLOCK", scene, &[ask]))
}

pub fn all(scene: &Scene) -> Vec<Request> {
    let (lock, write) = (lock(scene), write(scene, 64));
    let (core_read, core_write) = core(scene);
    let made = |name: &str, asks: &[Ask]| Request::new(name, scene, asks);
    let [open, open_and_read] = opens(scene);
    vec![
        made("LOCKING", std::slice::from_ref(&lock)),
        short_read(scene),
        made("core READ, 64 bytes", std::slice::from_ref(&core_read)),
        made("WRITE, 64 bytes", &[write]),
        made("core WRITE, 64 bytes", &[core_write]),
        made("CLOSE", &[close(scene)]),
        made("LOGOFF", &[Ask::Logoff]),
        made("TREE_DISCONNECT", &[Ask::TreeDisconnect]),
        made("PROCESS_EXIT", &[Ask::ProcessExit]),
        made("LOCKING + READ", &[lock.clone(), read(scene)]),
        made("LOCKING + core READ", &[lock, core_read]),
        open,
        open_and_read,
        longest(scene),
        spoilt(scene),
        most_ranges(scene),
    ]
}
