//! A plant's day: calls drawn by lot, most of them sensible.

use crate::maker::{lengthened, read, write, Maker, User};
use second::builder::{locking, Ask, Asked};
use second::call::Call;
use second::rng::Rng;
use second::tables::{Open, Tables};

const CALLS: usize = 210;
/// The machines' connections.
pub const CONNECTIONS: [u32; 5] = [9, 10, 0, 70_000, u32::MAX];
const PROCESSES: [u16; 4] = [7, 8, 300, 0xFFFF];
/// The files in use all day; the others are loaded now and then.
const BUSY_FILES: usize = 5;

pub fn day(maker: &mut Maker) {
    for _ in 0..CALLS {
        let tables = maker.tables();
        let lot = maker.rng.below(100);
        let call = host_call(&mut maker.rng, &tables, lot);
        match (call, pick_open(&mut maker.rng, &tables)) {
            (Some(call), _) => {
                maker.call(call);
            }
            (None, Some(open)) => send(maker, &tables, open),
            (None, None) => {
                let call = any_open(&mut maker.rng, &tables);
                maker.call(call);
            }
        }
    }
}

/// The host's call of that lot; the greater part of lots is for messages.
fn host_call(rng: &mut Rng, tables: &Tables, lot: usize) -> Option<Call> {
    let connection = rng.pick(&CONNECTIONS);
    let few = tables.opens.count < 12;
    Some(match lot {
        0..=1 => Call::AddSession { connection },
        2..=4 => Call::AddTree {
            uid: 1 + rng.below(tables.sessions.count + 1) as u32,
            right: rng.pick(&[0, 1, 1]),
        },
        5..=11 => any_open(rng, tables),
        12..=21 if few => any_open(rng, tables),
        22..=23 => Call::LoadFile {
            file: (BUSY_FILES - 1 + rng.below(16 - BUSY_FILES)) as u32,
            contents: some_bytes(rng, 90),
        },
        24 => Call::DropConnection { connection },
        _ => return None,
    })
}

fn some_bytes(rng: &mut Rng, limit: usize) -> Vec<u8> {
    let length = rng.below(limit);
    rng.bytes(length)
}

/// An open through one of the trees, within its right but for a few.
fn any_open(rng: &mut Rng, tables: &Tables) -> Call {
    let (tid, uid, right) = match tables.trees.in_use() {
        [] => (1, 1, 1),
        trees => {
            let tree = trees[rng.below(trees.len())];
            (tree.tid, tree.uid, tree.right)
        }
    };
    let high = u32::from(rng.below(12) == 0) << 16;
    Call::AddOpen {
        uid: uid.into(),
        tid: tid.into(),
        process: u32::from(rng.pick(&PROCESSES)) + high,
        file: rng.below(BUSY_FILES) as u32,
        access: match right {
            0 => rng.pick(&[0, 0, 0, 0, 1]),
            _ => rng.pick(&[0, 1, 2, 2, 2, 2]),
        },
    }
}

/// One of the opens, mostly one of access both.
fn pick_open(rng: &mut Rng, tables: &Tables) -> Option<Open> {
    let opens = tables.opens.in_use();
    if opens.is_empty() {
        return None;
    }
    let drawn = [rng.pick(opens), rng.pick(opens), rng.pick(opens)];
    drawn.into_iter().max_by_key(|open| open.access)
}

/// Sends a message about an open; some name something wrong, a few are
/// damaged.
fn send(maker: &mut Maker, tables: &Tables, open: Open) {
    let user = sender(&mut maker.rng, tables, open);
    let asks = chain(&mut maker.rng, tables, open, user.pid as u16);
    let mut message = maker.message(user, &asks);
    match maker.rng.below(40) {
        0 => {
            let place = 32 + maker.rng.below(message.len() - 32);
            message[place] = maker.rng.byte();
        }
        1 => message.truncate(32 + maker.rng.below(message.len() - 32)),
        _ => {}
    }
    maker.take(user.connection, message);
}

fn sender(rng: &mut Rng, tables: &Tables, open: Open) -> User {
    let session = tables.session(open.uid).expect("an open's session");
    let mut user = User {
        connection: session.connection,
        uid: open.uid,
        tid: open.tid,
        // A process below 65,536 asks, also through an open of one above.
        pid: open.process & 0xFFFF,
    };
    match rng.below(60) {
        0 => user.connection = rng.pick(&CONNECTIONS),
        1 => user.uid = rng.below(18) as u16,
        2 => user.tid = rng.below(34) as u16,
        3..=8 => user.pid = rng.pick(&PROCESSES).into(),
        _ => {}
    }
    user
}

/// A chain drawn by lot from the grammar.
pub fn chain(rng: &mut Rng, tables: &Tables, open: Open, pid: u16) -> Vec<Ask> {
    let first = match rng.below(100) {
        0..=39 => any_locking(rng, tables, open, pid),
        40..=64 => any_read(rng, open),
        65..=91 => any_write(rng, open),
        92..=96 => Ask::Close { fid: open.fid },
        97 => Ask::Logoff,
        98 => Ask::TreeDisconnect,
        _ => Ask::ProcessExit,
    };
    let mut asks = vec![first];
    while rng.below(2) == 0 {
        let close = Ask::Close { fid: open.fid };
        let next = match (&asks[asks.len() - 1], rng.below(8)) {
            (Ask::Locking { .. }, 0..=3) => any_read(rng, open),
            (Ask::Locking { .. }, _) => any_write(rng, open),
            (Ask::Read { .. }, 0..=2) => close,
            (Ask::Write { .. }, 0..=2) => any_read(rng, open),
            (Ask::Write { .. }, 3) => close,
            (Ask::Write { .. }, _) => any_write(rng, open),
            _ => break,
        };
        asks.push(next);
    }
    asks
}

fn either_form(rng: &mut Rng, ask: Ask) -> Ask {
    if rng.below(2) == 0 {
        lengthened(&ask)
    } else {
        ask
    }
}

/// Mostly the open's FID.
fn any_fid(rng: &mut Rng, open: Open) -> u16 {
    match rng.below(30) {
        0 => rng.below(66) as u16,
        _ => open.fid,
    }
}

fn any_offset(rng: &mut Rng) -> u64 {
    match rng.below(24) {
        0 => 4080 + rng.below(20) as u64,
        1 => u64::from(u32::MAX) - rng.below(3) as u64,
        _ => rng.below(240) as u64,
    }
}

fn any_read(rng: &mut Rng, open: Open) -> Ask {
    let max = rng.pick(&[0, 1, 4, 12, 30, 60, 120]);
    let ask = read(any_fid(rng, open), any_offset(rng), max);
    either_form(rng, ask)
}

fn any_write(rng: &mut Rng, open: Open) -> Ask {
    let data = some_bytes(rng, 40);
    let ask = write(any_fid(rng, open), any_offset(rng), &data);
    either_form(rng, ask)
}

/// Up to two releases of locks that the open has, up to three new ones.
fn any_locking(rng: &mut Rng, tables: &Tables, open: Open, pid: u16) -> Ask {
    let held = held_by(tables, open);
    let unlocks: Vec<Asked> = held
        .into_iter()
        .filter(|_| rng.below(2) == 0)
        .take(2)
        .collect();
    let locks: Vec<Asked> = (0..rng.below(4)).map(|_| any_range(rng, pid)).collect();
    let wide = unlocks
        .iter()
        .any(|&(_, offset, length)| (offset | length) >> 32 != 0);
    let kind = rng.pick(&[0, 0, 1, 1, 1]) | if wide { 0x10 } else { 0 };
    let ask = locking(any_fid(rng, open), kind, &unlocks, &locks);
    either_form(rng, ask)
}

/// The locks of an open, as they would be released.
fn held_by(tables: &Tables, open: Open) -> Vec<Asked> {
    let locks = tables.locks.in_use().iter();
    locks
        .filter(|lock| lock.fid == open.fid)
        .map(|lock| (lock.process as u16, lock.range.offset, lock.range.length))
        .collect()
}

fn any_range(rng: &mut Rng, pid: u16) -> Asked {
    let process = match rng.below(8) {
        0 => rng.pick(&PROCESSES),
        _ => pid,
    };
    (process, any_offset(rng), rng.below(14) as u64)
}
