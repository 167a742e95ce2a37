//! Measures the gateway library beside the second program, in one run: what a
//! message costs, in both forms of its Status, what the question costs whether a
//! file has changed, how the cost grows with a chain, what the stream adds, and how
//! much stack a call uses. Prints tables in Markdown.

mod clock;
mod measure;
mod requests;
mod scene;
mod stack;
mod stream;

use measure::{by_library, cost, costs, question_cost};
use requests::Request;
use scene::Scene;
use second::catalogue::NAMES;
use second::message::ROOM_BYTES;
use second::tables::FILE_BYTES;
use second::words::{self, HOLDER_WORDS};
use stack::Stack;
use std::hint::black_box;

const ROUNDS: usize = 101;

/// The file that is opened or loaded where stack is measured; it has no open
/// but in full tables.
const LAST_FILE: u32 = 15;

fn main() {
    let rounds = match std::env::args().nth(1).map(|word| word.parse()) {
        None => ROUNDS,
        Some(Ok(rounds)) if rounds > 0 => rounds,
        Some(_) => {
            eprintln!("usage: bench_gateway [ROUNDS]");
            std::process::exit(2);
        }
    };
    let scenes = scene::all();
    message_table(&scenes, rounds);
    status_table(&scenes, rounds);
    question_table(&scenes, rounds);
    chain_table(&scenes, rounds);
    stream::table(&scenes[0], rounds);
    stack_table(&scenes);
}

fn message_table(scenes: &[Scene], rounds: usize) {
    println!("Nanoseconds for a message, median of {rounds} rounds.");
    println!(
        "(a) the library; (b) the second program over the same words; (c) over its own tables."
    );
    println!();
    println!("| request | tables | a | b | c | a/b | a/c |");
    println!("|---|---|--:|--:|--:|--:|--:|");
    for which in 0..requests::all(&scenes[0]).len() {
        for scene in scenes {
            message_line(scene, &requests::all(scene)[which], rounds);
        }
    }
    for sometimes in requests::SOMETIMES {
        for scene in scenes {
            if let Some(request) = sometimes(scene) {
                message_line(scene, &request, rounds);
            }
        }
    }
    println!();
}

fn message_line(scene: &Scene, request: &Request, rounds: usize) {
    let cost = cost(scene, request, rounds);
    println!(
        "| {} | {} | {:.0} | {:.0} | {:.0} | {:.2} | {:.2} |",
        request.name,
        scene.name,
        cost.library,
        cost.words,
        cost.own,
        cost.library / cost.words,
        cost.library / cost.own
    );
}

/// What NTSTATUS costs: each request in both forms, in the same rounds.
fn status_table(scenes: &[Scene], rounds: usize) {
    println!("Nanoseconds for a message that asks for class and code, and for NTSTATUS (nt), by the library (a) and the second program over the same words (b).");
    println!();
    println!("| request | tables | a | a, nt | nt / a | b | b, nt | nt / b |");
    println!("|---|---|--:|--:|--:|--:|--:|--:|");
    for scene in scenes {
        for both in requests::in_both_forms(scene) {
            let [plain, nt] = costs(scene, &both, rounds)[..] else {
                unreachable!()
            };
            println!(
                "| {} | {} | {:.0} | {:.0} | {:.2} | {:.0} | {:.0} | {:.2} |",
                both[0].name,
                scene.name,
                plain.0,
                nt.0,
                nt.0 / plain.0,
                plain.1,
                nt.1,
                nt.1 / plain.1
            );
        }
    }
    println!();
}

/// What the question costs whether a file has changed, beside the READ that it
/// saves, in the same rounds.
fn question_table(scenes: &[Scene], rounds: usize) {
    println!("Nanoseconds for gateway_unchanged, of an open that has read: (a), (b) and (c) as above, and a READ of 64 bytes by the library.");
    println!();
    println!("| tables | a | b | c | a/b | a/c | READ | a / READ |");
    println!("|---|--:|--:|--:|--:|--:|--:|--:|");
    for scene in scenes {
        let cost = question_cost(scene, &requests::short_read(scene), rounds);
        println!(
            "| {} | {:.0} | {:.0} | {:.0} | {:.2} | {:.2} | {:.0} | {:.2} |",
            scene.name,
            cost.library,
            cost.words,
            cost.own,
            cost.library / cost.words,
            cost.library / cost.own,
            cost.read,
            cost.library / cost.read
        );
    }
    println!();
}

/// Chains of writes. Of writes that carry a byte 291 fit, of empty ones 302.
fn chain_table(scenes: &[Scene], rounds: usize) {
    println!("Nanoseconds for chains of WRITE blocks, by the library (a) and the second program over the same words (b).");
    println!("\"Added\" is what each block costs beyond the chain in the line above: the same in every line if the cost is linear.");
    println!();
    println!("| tables | bytes in a block | blocks | a | a / blocks | a, added | b | b, added |");
    println!("|---|--:|--:|--:|--:|--:|--:|--:|");
    for scene in scenes {
        for (length, most) in [(0, 300), (1, 290)] {
            chain_lines(scene, length, most, rounds);
        }
    }
    println!();
}

fn chain_lines(scene: &Scene, length: usize, most: usize, rounds: usize) {
    let sizes = [1, 10, 50, 100, 200, most];
    let chains = sizes.map(|blocks| requests::writes(scene, blocks, length));
    let costs = costs(scene, &chains, rounds);
    for (place, (&blocks, &(library, second))) in sizes.iter().zip(&costs).enumerate() {
        let added = match place {
            0 => (String::new(), String::new()),
            _ => {
                let (before, more) = (costs[place - 1], (blocks - sizes[place - 1]) as f64);
                let by = |now: f64, before: f64| format!("{:.0}", (now - before) / more);
                (by(library, before.0), by(second, before.1))
            }
        };
        println!(
            "| {} | {length} | {blocks} | {library:.0} | {:.0} | {} | {second:.0} | {} |",
            scene.name,
            library / blocks as f64,
            added.0,
            added.1
        );
    }
}

/// The most over the scenes, for each call of the library and, for messages,
/// of the second program too.
fn stack_table(scenes: &[Scene]) {
    let mut stack = Stack::new();
    println!("Bytes of stack, the most over all states of the tables. The first line is what the measuring itself uses.");
    println!();
    println!("| call | library | second program |");
    println!("|---|--:|--:|");
    println!("| none | {} | |", stack.used(&mut || {}));
    for (name, used) in host_calls(scenes, &mut stack) {
        println!("| {name} | {used} | |");
    }
    for (name, used) in stream::stack_used(&scenes[0], &mut stack) {
        println!("| {name} | {used} | |");
    }
    for which in 0..requests::all(&scenes[0]).len() {
        let used: Vec<_> = scenes
            .iter()
            .map(|scene| message_stack(scene, which, &mut stack))
            .collect();
        let library = used.iter().map(|used| used.0).max().unwrap();
        let second = used.iter().map(|used| used.1).max().unwrap();
        let name = &requests::all(&scenes[0])[which].name;
        println!("| gateway_take_message: {name} | {library} | {second} |");
    }
}

/// A message by the library and by the second program.
fn message_stack(scene: &Scene, which: usize, stack: &mut Stack) -> (usize, usize) {
    let request = &requests::all(scene)[which];
    let (connection, bytes) = (scene.asker.connection, &request.bytes);
    let (mut words, mut memory) = (scene.words, scene.memory.clone());
    let (mut room, mut holder) = (vec![0; ROOM_BYTES], [0; HOLDER_WORDS]);
    let library = stack.used(&mut || {
        words.copy_from_slice(&scene.words);
        let (memory, room) = (&mut memory, &mut room);
        by_library(&mut words, connection, bytes, memory, room, &mut holder);
    });
    let second = stack.used(&mut || {
        words.copy_from_slice(&scene.words);
        let (memory, room) = (&mut memory, &mut room);
        words::take_message(&mut words, connection, bytes, memory, room, &mut holder).unwrap();
    });
    (library, second)
}

/// The host's other calls. A full table refuses an add at the end of its
/// tests, so the other states have the adds that are done.
fn host_calls(scenes: &[Scene], stack: &mut Stack) -> Vec<(&'static str, usize)> {
    let mut most = vec![
        ("gateway_empty", 0),
        ("gateway_add_session", 0),
        ("gateway_add_tree", 0),
        ("gateway_add_open", 0),
        ("gateway_load_file", 0),
        ("gateway_set_catalogue", 0),
        ("gateway_unchanged", 0),
        ("gateway_drop_connection", 0),
    ];
    for scene in scenes {
        for (which, (_, used)) in most.iter_mut().enumerate() {
            *used = (*used).max(host_call_stack(scene, which, stack));
        }
    }
    most
}

fn host_call_stack(scene: &Scene, which: usize, stack: &mut Stack) -> usize {
    let Scene { asker, .. } = scene;
    let (uid, tid) = (asker.header.uid.into(), asker.header.tid.into());
    let connection = asker.connection;
    let (mut words, mut memory) = (scene.words, scene.memory.clone());
    let (contents, mut out) = (vec![1; FILE_BYTES], 0);
    let catalogue = scene::catalogue(NAMES);
    stack.used(&mut || {
        words.copy_from_slice(&scene.words);
        let (tables, out) = (words.as_mut_ptr(), &raw mut out);
        let (from, to) = (contents.as_ptr(), memory.as_mut_ptr());
        // SAFETY: pointers and lengths are of memory held here, all apart.
        let number = unsafe {
            match which {
                0 => {
                    linked::gateway_empty(tables);
                    0
                }
                1 => linked::gateway_add_session(tables, connection, out),
                2 => linked::gateway_add_tree(tables, uid, 1, out),
                3 => linked::gateway_add_open(tables, uid, tid, 7, LAST_FILE, 2, out),
                4 => linked::gateway_load_file(
                    tables,
                    LAST_FILE,
                    from,
                    contents.len(),
                    to,
                    memory.len(),
                ),
                5 => linked::gateway_set_catalogue(tables, catalogue.as_ptr()),
                6 => linked::gateway_unchanged(tables, asker.fid.into(), out),
                _ => linked::gateway_drop_connection(tables, connection),
            }
        };
        black_box(number);
    })
}
