//! Chains: replies worked out by hand, and "Sent one to a message".

mod common;

use common::{catalogue, hex, lock, read, status, write, World};
use second::builder::{
    core_read, core_write, lock_range, locking, open, unlock_range, Ask, Header,
};
use second::grammar::{blocks, is_andx, Block, OPEN_ANDX, WRITE_ANDX};
use second::host;
use second::rng::Rng;
use second::status::StatusForm;

#[test]
fn a_chain_of_four() {
    let mut world = World::with_size(3);
    let asks = [
        lock(1, &[(7, 0, 100)]),
        write(1, 5, &[0xAB]),
        read(1, 2, 10),
        Ask::Close { fid: 1 },
    ];
    let reply = world.ask(&asks);
    let mut expected = hex("02 2F002700 0000");
    expected.extend(hex("06 2E003600 0100 FFFF 00000000 0000"));
    expected.extend(hex(
        "0C 04005500 FFFF 0000 0000 0400 5100 00000000000000000000 0400 030000AB",
    ));
    expected.extend(hex("00 0000"));
    assert_eq!(reply[32..], expected);
    assert_eq!((reply[4], status(&reply)), (0x24, (0, 0)));
    assert_eq!(world.tables.opens.count, 0);
    assert_eq!(world.tables.locks.count, 0);
    assert_eq!(world.tables.files[0].size, 6);
    assert_eq!(world.memory[..7], [1, 2, 3, 0, 0, 0xAB, 0xEE]);
}

#[test]
fn commands_before_a_refused_one_stand() {
    let mut world = World::with_size(3);
    let asks = [
        write(1, 0, &[9]),
        write(1, 4096, &[9]),
        Ask::Close { fid: 1 },
    ];
    let reply = world.ask(&asks);
    assert_eq!(reply[4..9], [0x2F, 3, 0, 39, 0]);
    let expected = hex("06 2F002F00 0100 FFFF 00000000 0000 00 0000");
    assert_eq!(reply[32..], expected);
    assert_eq!(world.memory[0], 9);
    assert_eq!(world.tables.opens.count, 1);
    // The header's Command is the chain's, though the write is refused.
    let reply = world.ask(&[lock(1, &[(8, 0, 1)]), write(1, 0, &[9])]);
    assert_eq!(reply[4..9], [0x24, 1, 0, 33, 0]);
    assert_eq!(reply[32..], hex("02 2F002700 0000 00 0000"));
}

#[test]
fn headers_of_replies() {
    let mut world = World::with_size(3);
    let mut message = world.message(&[Ask::ProcessExit]);
    message[5..24].fill(0xFF);
    message[9] = 0x7F;
    message[30..32].copy_from_slice(&[0x12, 0x34]);
    let reply = world.take(&message).unwrap();
    let mut expected = hex("FF534D42 11 00000000 88 0140 FFFF");
    expected.extend([0; 10]);
    expected.extend(hex("0100 0700 0100 1234 00 0000"));
    assert_eq!(reply, expected);
    message[4] = 0x72;
    message[9] = 0x77;
    message[10] = 0xFE;
    let reply = world.take(&message).unwrap();
    assert_eq!(reply[4..12], hex("72 02 00 1600 80 0040"));
    assert_eq!(reply[32..], [0, 0, 0]);
}

/// The message with every byte changed that is in no block and not in the
/// header, and more bytes at its end.
fn with_other_free_bytes(message: &[u8], blocks: &[Block]) -> Vec<u8> {
    let mut other = message.to_vec();
    for (place, byte) in other.iter_mut().enumerate().skip(32) {
        let mut parts = blocks.iter().map(|b| b.offset..b.offset + b.length);
        if !parts.any(|part| part.contains(&place)) {
            *byte ^= 0xFF;
        }
    }
    other.extend([0x08, 0xFF, 0x00]);
    other
}

#[test]
fn free_bytes_are_free() {
    let mut rng = Rng::new(4);
    for _ in 0..500 {
        let mut world = random_world(&mut rng);
        let asks = [
            lock(1, &[(8, rng.below(40) as u64, 3)]),
            write(1, rng.below(40) as u64, &[7; 5]),
            read(1, 0, 50),
        ];
        let mut gaps = Rng::new(rng.number());
        let gap = &mut || gaps.below(9);
        let chain = second::builder::message(world.header, &asks, gap, &mut || 0);
        let read: Vec<Block> = blocks(&chain).collect::<Result<_, _>>().unwrap();
        let mut other = World {
            tables: world.tables.clone(),
            memory: world.memory.clone(),
            ..world
        };
        let reply = other.take(&with_other_free_bytes(&chain, &read));
        assert_eq!(world.take(&chain), reply);
        assert!(world.tables == other.tables && world.memory == other.memory);
        assert_eq!(world.holder, other.holder);
    }
}

/// The message of one block, as document 01 has it, behind an OPEN_ANDX that gave
/// this FID, or none: "for 0xFFFF, and only then, demand 3's separate READ carries
/// the FID returned" (document 02, request 6).
fn alone(message: &[u8], block: &Block, opened: Option<[u8; 2]>) -> Vec<u8> {
    let mut single = message[..32].to_vec();
    single[4] = block.command;
    single.extend(&message[block.offset..block.offset + block.length]);
    if is_andx(block.command) {
        single[33] = 0xFF;
    }
    match opened {
        Some(fid) if single[37..39] == [0xFF; 2] => single[37..39].copy_from_slice(&fid),
        _ => {}
    }
    if block.command == WRITE_ANDX {
        let data_offset = u16::from_le_bytes([single[55], single[56]]);
        let moved = (block.offset - 32) as u16;
        single[55..57].copy_from_slice(&(data_offset - moved).to_le_bytes());
    }
    single
}

/// What a chain's reply must be, from the replies to its messages.
fn joined(commands: &[u8], replies: &[Vec<u8>], chain: &[u8]) -> Vec<u8> {
    let mut reply = replies[replies.len() - 1][..32].to_vec();
    reply[4] = chain[4];
    for (index, single) in replies.iter().enumerate() {
        let start = reply.len();
        reply.extend(&single[32..]);
        if let (Some(command), true) = (commands.get(index + 1), index + 1 < replies.len()) {
            let next = (reply.len() as u16).to_le_bytes();
            reply[start + 1..start + 5].copy_from_slice(&[*command, 0, next[0], next[1]]);
        }
        // A READ's data offset, which counts from the header.
        if single[32] == 12 {
            let data = (start + 27) as u16;
            reply[start + 13..start + 15].copy_from_slice(&data.to_le_bytes());
        }
    }
    reply
}

fn random_ask(rng: &mut Rng, follows: Option<&Ask>) -> Ask {
    let fid = rng.pick(&[1, 2, 3, 4, 1, 2, 3, 4, 0xFFFF]);
    let fid = match follows {
        Some(Ask::Open { .. }) => rng.pick(&[fid, 0xFFFF, 0xFFFF, 6]),
        _ => fid,
    };
    let offset = rng.below(40) as u64;
    let kinds: &[usize] = match follows {
        None => &[0, 0, 0, 0, 1, 2, 2, 3, 4, 5, 6, 7, 8, 9, 10, 11, 11, 11, 11],
        Some(Ask::Open { .. }) => &[1],
        Some(Ask::Locking { .. }) => &[1, 2, 2, 7, 8],
        Some(Ask::Write { .. }) => &[1, 2, 2, 2, 3],
        _ => &[3],
    };
    match rng.pick(kinds) {
        0 => locking(
            fid,
            rng.pick(&[0, 1, 0x10, 0x11, 2]),
            &[(7, offset, 4)][..rng.below(2)],
            &[(7, offset + 1, 4), (8, offset + 5, 3)][..rng.below(3)],
        ),
        1 => read(fid, offset, rng.below(60) as u16),
        2 => write(
            fid,
            rng.pick(&[offset, 4090]),
            &[rng.byte(); 9][..rng.below(10)],
        ),
        3 => Ask::Close { fid },
        4 => Ask::Logoff,
        5 => Ask::TreeDisconnect,
        6 => Ask::ProcessExit,
        7 => core_read(fid, offset as u32, rng.below(60) as u16),
        8 => core_write(
            fid,
            rng.pick(&[offset as u32, 4090]),
            &[rng.byte(); 9][..rng.below(10)],
        ),
        9 => lock_range(fid, offset as u32, 4),
        10 => unlock_range(fid, offset as u32, 4),
        _ => random_open(rng),
    }
}

fn random_open(rng: &mut Rng) -> Ask {
    let name: &[u8] = rng.pick(&[b"LIST", b"list", b"Other", b"other", b"none"]);
    let sharing = rng.pick(&[1, 2, 3, 4, 4, 4, 4, 4, 4, 4, 4, 5]);
    let mut ask = open(rng.below(3) as u8, sharing, name);
    if let Ask::Open {
        flags, open_mode, ..
    } = &mut ask
    {
        *flags = rng.below(4) as u16;
        *open_mode = rng.pick(&[1, 1, 1, 1, 1, 1, 0]);
    }
    ask
}

fn random_world(rng: &mut Rng) -> World {
    let mut world = World::with_size(rng.below(60));
    let names = catalogue(&[(b"List", 0), (b"OTHER", rng.below(2) as u8)]);
    host::set_catalogue(&mut world.tables, &names).unwrap();
    for access in [2, 2, 0, 1] {
        let file = rng.below(2) as u32;
        host::add_open(&mut world.tables, 1, 1, 7, file, access).unwrap();
    }
    for _ in 0..rng.below(4) {
        let fid = 1 + rng.below(4) as u16;
        let ranges = [(rng.pick(&[7, 8]), rng.below(40) as u64, 4)];
        world.status(lock(fid, &ranges));
    }
    world.header = Header {
        tid: rng.pick(&[1, 1, 1, 1, 1, 2]),
        pid: rng.pick(&[7, 7, 65_543]),
        ..world.header
    };
    world
}

#[test]
fn chains_are_their_messages_in_turn() {
    let mut rng = Rng::new(3);
    let (mut refused, mut just_opened) = ([0, 0], [0, 0]);
    for _ in 0..4000 {
        let mut world = random_world(&mut rng);
        let mut asks = vec![random_ask(&mut rng, None)];
        while rng.below(5) != 0
            && matches!(
                asks[asks.len() - 1],
                Ask::Locking { .. } | Ask::Read { .. } | Ask::Write { .. } | Ask::Open { .. }
            )
        {
            asks.push(random_ask(&mut rng, asks.last()));
        }
        let mut gaps = Rng::new(rng.number());
        let mut fill = Rng::new(rng.number());
        let chain =
            second::builder::message(world.header, &asks, &mut || gaps.below(3), &mut || {
                fill.byte()
            });
        let read: Vec<Block> = blocks(&chain).collect::<Result<_, _>>().unwrap();
        assert_eq!(read.len(), asks.len());
        let mut apart = World {
            tables: world.tables.clone(),
            memory: world.memory.clone(),
            ..world
        };
        let (mut replies, mut opened) = (Vec::new(), None);
        for block in &read {
            let reply = apart.take(&alone(&chain, block, opened)).unwrap();
            // "refused (Status not 0)"
            let done = reply[5..9] == [0; 4];
            let just = opened.is_some() && chain[block.offset + 5..][..2] == [0xFF; 2];
            just_opened[usize::from(done)] += usize::from(just);
            // Behind WordCount and AndX.
            opened = (done && block.command == OPEN_ANDX).then(|| [reply[37], reply[38]]);
            replies.push(reply);
            if !done {
                refused[StatusForm::of(&chain) as usize] += 1;
                break;
            }
        }
        let reply = world.take(&chain).unwrap();
        let commands: Vec<u8> = read.iter().map(|block| block.command).collect();
        assert_eq!(reply, joined(&commands, &replies, &chain));
        assert!(world.tables == apart.tables && world.memory == apart.memory);
        assert_eq!(world.holder, apart.holder);
    }
    // In both forms.
    let often = |count| (500..1750).contains(&count);
    assert!(refused.into_iter().all(often), "{refused:?}");
    // A READ of the file just opened, refused and done.
    assert!(
        just_opened.iter().all(|&count| count > 50),
        "{just_opened:?}"
    );
}
