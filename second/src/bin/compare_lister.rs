//! Compares a chain lister with this package's own listing.
//!
//! `compare_lister PATH_TO_LISTER` runs the program at that path once for
//! each message of `messages.rs`, with the message on standard input, and
//! compares its standard output byte for byte. It ends with a failure at the
//! first difference, or if some kind of answer was never met.
#![forbid(unsafe_code)]

use second::grammar::{
    NotAChain, Why, CLOSE, LOCKING_ANDX, LOCK_BYTE_RANGE, LOGOFF_ANDX, OPEN_ANDX, PROCESS_EXIT,
    READ, READ_ANDX, SERVED, TREE_DISCONNECT, UNLOCK_BYTE_RANGE, WRITE, WRITE_ANDX,
};
use second::listing::{answer, listing, text, Answer, Dropped};
use second::messages::{all, Made, SUCCESSIONS};
use std::collections::{BTreeMap, BTreeSet};
use std::io::{ErrorKind, Read, Write};
use std::process::{Command, ExitCode, Stdio};
use std::sync::atomic::{AtomicUsize, Ordering};
use std::sync::mpsc::channel;
use std::sync::Mutex;
use std::thread;
use std::time::Duration;

/// Listers run at a time.
const WORKERS: usize = 2;
/// Fewest messages that count as a comparison.
const LEAST: usize = 4000;
/// Longest time for one message.
const PATIENCE: Duration = Duration::from_secs(20);
/// Most output kept; the longest right listing is far shorter.
const MOST_OUTPUT: u64 = 1 << 20;

fn main() -> ExitCode {
    let mut arguments = std::env::args_os().skip(1);
    let (Some(lister), None) = (arguments.next(), arguments.next()) else {
        eprintln!("usage: compare_lister PATH_TO_LISTER");
        return ExitCode::from(2);
    };

    let messages = all();
    if !check_own(&messages) {
        return ExitCode::FAILURE;
    }

    let next = AtomicUsize::new(0);
    let passed = AtomicUsize::new(0);
    // The differences found: one at most for each worker.
    let failures: Mutex<BTreeMap<usize, String>> = Mutex::new(BTreeMap::new());
    let exit_codes: Mutex<BTreeMap<i32, usize>> = Mutex::new(BTreeMap::new());
    thread::scope(|scope| {
        for _ in 0..WORKERS {
            scope.spawn(|| loop {
                let index = next.fetch_add(1, Ordering::SeqCst);
                let Some(made) = messages.get(index) else {
                    return;
                };
                match compare(&lister, made) {
                    Ok(code) => {
                        *exit_codes.lock().unwrap().entry(code).or_insert(0) += 1;
                        passed.fetch_add(1, Ordering::SeqCst);
                    }
                    Err(report) => {
                        // No worker takes another message.
                        next.fetch_add(messages.len(), Ordering::SeqCst);
                        failures.lock().unwrap().insert(index, report);
                        return;
                    }
                }
            });
        }
    });

    let passed = passed.into_inner();
    let failures = failures.into_inner().unwrap();
    if let Some((index, report)) = failures.first_key_value() {
        println!("message {} of {}", index + 1, messages.len());
        println!("{report}");
        println!("compare_lister: {passed} passed, {} failed", failures.len());
        return ExitCode::FAILURE;
    }
    for (code, count) in exit_codes.into_inner().unwrap() {
        println!("exit code {code}: {count}");
    }
    println!("compare_lister: {passed} passed, 0 failed");
    ExitCode::SUCCESS
}

/// Runs the lister on one message. Gives its exit code (of which the paper
/// says nothing) if its output is right, else a report.
fn compare(lister: &std::ffi::OsStr, made: &Made) -> Result<i32, String> {
    let (output, code) =
        run(lister, &made.bytes).map_err(|error| report(made, &format!("({error})")))?;
    let Some(code) = code else {
        return Err(report(made, "(the lister was ended by a signal)"));
    };
    if output == listing(&made.bytes).as_bytes() {
        Ok(code)
    } else {
        Err(report(made, &shown(&output)))
    }
}

/// The lister's standard output and its exit code, none after a signal.
fn run(lister: &std::ffi::OsStr, message: &[u8]) -> Result<(Vec<u8>, Option<i32>), String> {
    let mut child = Command::new(lister)
        .stdin(Stdio::piped())
        .stdout(Stdio::piped())
        .spawn()
        .map_err(|error| format!("the lister does not start: {error}"))?;
    let mut input = child.stdin.take().unwrap();
    let output = child.stdout.take().unwrap();
    thread::scope(|scope| {
        // Written beside the reading, so that neither side waits for ever.
        let writer = scope.spawn(move || match input.write_all(message) {
            // A lister may stop reading a message that it drops.
            Err(error) if error.kind() != ErrorKind::BrokenPipe => Err(error.to_string()),
            _ => Ok(()),
        });
        let (sender, receiver) = channel();
        scope.spawn(move || {
            let mut bytes = Vec::new();
            let result = output.take(MOST_OUTPUT).read_to_end(&mut bytes);
            // The receiver may have lost patience.
            let _ = sender.send(result.map(|_| bytes));
        });
        let received = receiver.recv_timeout(PATIENCE);
        if received.is_err() {
            let _ = child.kill();
        }
        let status = child.wait().map_err(|error| error.to_string())?;
        writer
            .join()
            .unwrap()
            .map_err(|error| format!("writing to the lister: {error}"))?;
        let bytes = received
            .map_err(|_| "the lister takes too long".to_string())?
            .map_err(|error| format!("reading from the lister: {error}"))?;
        Ok((bytes, status.code()))
    })
}

/// The message and both texts.
fn report(made: &Made, theirs: &str) -> String {
    let hex: Vec<String> = made.bytes.iter().map(|b| format!("{b:02X}")).collect();
    let own = answer(&made.bytes);
    let reason = match &own {
        Answer::Dropped(reason) => format!("dropped: {reason:?}"),
        Answer::NotAChain(reason) => {
            format!("not a chain: {:?} at {:02X}", reason.why, reason.command)
        }
        Answer::Chain(blocks) => format!("a chain of {}", blocks.len()),
    };
    format!(
        "DIFFERENCE ({}, {} bytes; {reason})\nmessage:\n{}\nexpected:\n{}lister's:\n{theirs}",
        made.kind,
        made.bytes.len(),
        hex.join(" "),
        text(&own),
    )
}

/// Output as text; as hex too if it is not plain lines.
fn shown(output: &[u8]) -> String {
    let plain = output.ends_with(b"\n")
        && output
            .iter()
            .all(|&b| b == b'\n' || (b' '..=b'~').contains(&b));
    let lossy = String::from_utf8_lossy(output);
    if plain {
        lossy.trim_end_matches('\n').to_string()
    } else {
        let hex: Vec<String> = output
            .iter()
            .take(400)
            .map(|b| format!("{b:02X}"))
            .collect();
        format!("{lossy:?}\nas bytes: {}", hex.join(" "))
    }
}

/// Prints the histogram, and checks that the messages agree with what their
/// making tells and that nothing was left out.
fn check_own(messages: &[Made]) -> bool {
    let mut kinds: BTreeMap<&str, usize> = BTreeMap::new();
    let mut dropped: BTreeMap<Dropped, usize> = BTreeMap::new();
    let mut refused: BTreeMap<NotAChain, usize> = BTreeMap::new();
    let mut lengths = [0; 4];
    let mut longest = 0;
    let mut alone: BTreeMap<u8, usize> = BTreeMap::new();
    let mut successions: BTreeMap<(u8, u8), usize> = BTreeMap::new();
    // Blocks in chains by command, word count and length of range.
    let mut shapes: BTreeMap<(u8, u8, u8), usize> = BTreeMap::new();
    let mut good = true;

    for made in messages {
        *kinds.entry(made.kind).or_default() += 1;
        if !made.expected.allows(&listing(&made.bytes)) {
            println!("{}", report(made, "(not run)"));
            println!("FAILED: made as {:?}", made.expected);
            good = false;
        }
        match answer(&made.bytes) {
            Answer::Dropped(reason) => *dropped.entry(reason).or_default() += 1,
            Answer::NotAChain(mut reason) => {
                if reason.why == Why::NotServed {
                    reason.command = 0;
                }
                *refused.entry(reason).or_default() += 1;
            }
            Answer::Chain(blocks) => {
                lengths[blocks.len().min(4) - 1] += 1;
                longest = longest.max(blocks.len());
                if blocks.len() == 1 {
                    *alone.entry(blocks[0].command).or_default() += 1;
                }
                for pair in blocks.windows(2) {
                    let pair = (pair[0].command, pair[1].command);
                    *successions.entry(pair).or_default() += 1;
                }
                for block in blocks {
                    let range = match block.command {
                        LOCKING_ANDX if made.bytes[block.offset + 7] & 0x10 != 0 => 20,
                        LOCKING_ANDX => 10,
                        _ => 0,
                    };
                    let shape = (block.command, made.bytes[block.offset], range);
                    *shapes.entry(shape).or_default() += 1;
                }
            }
        }
    }

    println!("messages: {}", messages.len());
    for (kind, count) in &kinds {
        println!("  {kind}: {count}");
    }
    println!("listings: {}", lengths.iter().sum::<usize>());
    for (index, name) in ["1", "2", "3", "4+"].iter().enumerate() {
        println!("  blocks {name}: {}", lengths[index]);
        good &= met(lengths[index], &format!("listing of {name} blocks"));
    }
    println!("  most blocks: {longest}");
    good &= met(usize::from(longest >= 300), "chain of 300 blocks");

    println!("blocks in listings:");
    for ((command, words, range), count) in &shapes {
        let range = match range {
            0 => String::new(),
            length => format!(", ranges of {length}"),
        };
        println!("  {command:02X} with {words} words{range}: {count}");
    }
    for shape in [
        (LOCKING_ANDX, 8, 10),
        (LOCKING_ANDX, 8, 20),
        (READ_ANDX, 10, 0),
        (READ_ANDX, 12, 0),
        (WRITE_ANDX, 12, 0),
        (WRITE_ANDX, 14, 0),
        (READ, 5, 0),
        (WRITE, 5, 0),
        (LOCK_BYTE_RANGE, 5, 0),
        (UNLOCK_BYTE_RANGE, 5, 0),
        (OPEN_ANDX, 15, 0),
        (CLOSE, 3, 0),
        (LOGOFF_ANDX, 2, 0),
        (TREE_DISCONNECT, 0, 0),
        (PROCESS_EXIT, 0, 0),
    ] {
        let count = shapes.get(&shape).copied().unwrap_or(0);
        good &= met(count, &format!("block {shape:02X?}"));
    }

    println!("alone and in succession:");
    for (command, count) in &alone {
        println!("  {command:02X}: {count}");
    }
    for command in SERVED {
        let count = alone.get(&command).copied().unwrap_or(0);
        good &= met(count, &format!("{command:02X} alone"));
    }
    for ((first, next), count) in &successions {
        println!("  {first:02X} {next:02X}: {count}");
    }
    for pair in SUCCESSIONS {
        let count = successions.get(&pair).copied().unwrap_or(0);
        good &= met(count, &format!("succession {pair:02X?}"));
    }

    println!("not a chain: {}", refused.values().sum::<usize>());
    for why in Why::ALL {
        let counts: Vec<String> = refused
            .iter()
            .filter(|(reason, _)| reason.why == why)
            .map(|(reason, count)| match why {
                Why::NotServed => count.to_string(),
                _ => format!("{:02X}: {count}", reason.command),
            })
            .collect();
        println!("  {why:?}: {}", counts.join(", "));
    }
    for reason in possible_reasons() {
        let count = refused.get(&reason).copied().unwrap_or(0);
        good &= met(
            count,
            &format!("{:?} at {:02X}", reason.why, reason.command),
        );
    }

    println!("dropped: {}", dropped.values().sum::<usize>());
    for reason in Dropped::ALL {
        let count = dropped.get(&reason).copied().unwrap_or(0);
        println!("  {reason:?}: {count}");
        good &= met(count, &format!("dropped {reason:?}"));
    }
    good &= met(
        usize::from(messages.len() >= LEAST),
        &format!("{LEAST} messages"),
    );
    good
}

/// Says if something was never met.
fn met(count: usize, what: &str) -> bool {
    if count == 0 {
        println!("FAILED: never met: {what}");
    }
    count != 0
}

/// Every reason with every command at which it can arise.
fn possible_reasons() -> BTreeSet<NotAChain> {
    let mut reasons = BTreeSet::new();
    for why in Why::ALL {
        let commands: &[u8] = match why {
            // Counted together, under command 0.
            Why::NotServed => &[0],
            // The first block starts inside, so only those that may follow.
            Why::StartOutside => &[READ_ANDX, WRITE_ANDX, CLOSE, READ, WRITE],
            Why::WordCount | Why::BytesOutside => &SERVED,
            // 35 bytes hold all of a block without words and bytes.
            Why::WordsOutside | Why::ByteCountOutside => &[
                LOCKING_ANDX,
                OPEN_ANDX,
                READ_ANDX,
                WRITE_ANDX,
                CLOSE,
                READ,
                WRITE,
                LOCK_BYTE_RANGE,
                UNLOCK_BYTE_RANGE,
                LOGOFF_ANDX,
            ],
            // Any ByteCount may do for a WRITE_ANDX, any but 0 for an OPEN_ANDX.
            Why::ByteCount => &[
                LOCKING_ANDX,
                READ_ANDX,
                CLOSE,
                READ,
                WRITE,
                LOCK_BYTE_RANGE,
                UNLOCK_BYTE_RANGE,
                LOGOFF_ANDX,
                TREE_DISCONNECT,
                PROCESS_EXIT,
            ],
            Why::DataBefore | Why::DataPast => &[WRITE_ANDX],
            Why::DataMark | Why::DataLength => &[WRITE],
            Why::NameEnd | Why::NameZero => &[OPEN_ANDX],
            Why::Follower => &[LOCKING_ANDX, OPEN_ANDX, READ_ANDX, WRITE_ANDX, LOGOFF_ANDX],
            Why::AndXOffset => &[LOCKING_ANDX, OPEN_ANDX, READ_ANDX, WRITE_ANDX],
        };
        reasons.extend(commands.iter().map(|&command| NotAChain { why, command }));
    }
    reasons
}
