//! What a call costs.
//!
//! Each measured call starts from the same tables: they are copied from the
//! scene's before each call, and the cost of that copy, measured by itself in
//! the same rounds, is taken off. The file memory is not restored: what a
//! request writes is the same bytes each time, inside the file's size, so the
//! first call leaves it as every later one finds it.
//!
//! The programs and the bare copies take turns in each round, a batch of calls
//! at a time, so that whatever else the machine does falls on all of them. What
//! is taken is the processor's time for this thread, which does not run while
//! another process has the processor. The result is the median of the rounds.

use crate::clock::thread_time;
use crate::requests::Request;
use crate::scene::Scene;
use linked as gateway;
use second::host;
use second::message::{take_message, ROOM_BYTES};
use second::status::{class_and_code, StatusForm};
use second::words::{self, unpack, HolderWords, Words, HOLDER_WORDS};
use std::hint::black_box;

/// Least time of a batch, in nanoseconds.
const BATCH: u64 = 300_000;

/// Nanoseconds for a message, without the restoring of tables.
pub struct Cost {
    /// The library.
    pub library: f64,
    /// The second program over the same words.
    pub words: f64,
    /// The second program over its own tables.
    pub own: f64,
}

/// Nanoseconds for a question whether a file has changed, which leaves the tables
/// as they are.
pub struct QuestionCost {
    /// The library.
    pub library: f64,
    /// The second program over the same words.
    pub words: f64,
    /// The second program over its own tables.
    pub own: f64,
    /// The READ that it saves, by the library.
    pub read: f64,
}

/// Something that is done so many times.
pub type Batch<'a> = Box<dyn FnMut(usize) + 'a>;

/// Words at the start of a page, so that every copy of them costs the same.
#[repr(align(4096))]
struct Paged(Words);

/// What a call is lent besides the tables.
struct Lent {
    memory: Vec<u8>,
    room: Vec<u8>,
    holder: HolderWords,
}

impl Lent {
    fn new(scene: &Scene) -> Lent {
        Lent {
            memory: scene.memory.clone(),
            room: vec![0; ROOM_BYTES],
            holder: [u64::MAX; HOLDER_WORDS],
        }
    }
}

/// A call of the library: its number and the reply's length.
pub fn by_library(
    words: &mut Words,
    connection: u32,
    message: &[u8],
    memory: &mut [u8],
    room: &mut [u8],
    holder: &mut HolderWords,
) -> (u8, usize) {
    let mut length = 0;
    // SAFETY: pointers and lengths are of slices that do not overlap.
    let number = unsafe {
        gateway::gateway_take_message(
            words.as_mut_ptr(),
            connection,
            message.as_ptr(),
            message.len(),
            memory.as_mut_ptr(),
            memory.len(),
            room.as_mut_ptr(),
            room.len(),
            &mut length,
            holder.as_mut_ptr(),
        )
    };
    (number, length)
}

/// A call of the second program over the words.
fn by_second(
    words: &mut Words,
    connection: u32,
    message: &[u8],
    memory: &mut [u8],
    room: &mut [u8],
    holder: &mut HolderWords,
) -> (u8, usize) {
    let length = words::take_message(words, connection, message, memory, room, holder);
    (0, length.unwrap())
}

/// A program's call over words, message, file memory, room and holder.
type Call = fn(&mut Words, u32, &[u8], &mut [u8], &mut [u8], &mut HolderWords) -> (u8, usize);

/// So many calls over the words, which are restored before each.
fn words_calls<'a>(scene: &'a Scene, message: &'a [u8], call: Call) -> impl FnMut(usize) + 'a {
    let (start, mut words) = (Paged(scene.words), Paged(scene.words));
    let mut lent = Lent::new(scene);
    move |calls| {
        for _ in 0..calls {
            words.0.copy_from_slice(black_box(&start.0));
            let (connection, message) = (scene.asker.connection, black_box(message));
            let Lent {
                memory,
                room,
                holder,
            } = &mut lent;
            let words = &mut words.0;
            black_box(call(words, connection, message, memory, room, holder));
        }
    }
}

/// So many calls of the second program over its own tables.
fn own_calls<'a>(scene: &'a Scene, message: &'a [u8]) -> impl FnMut(usize) + 'a {
    let (start, mut tables, mut lent) = (scene.tables(), scene.tables(), Lent::new(scene));
    move |calls| {
        for _ in 0..calls {
            tables.clone_from(black_box(&start));
            let (connection, message) = (scene.asker.connection, black_box(message));
            let Lent { memory, room, .. } = &mut lent;
            let taken = take_message(&mut tables, connection, message, memory, room);
            black_box(taken).unwrap();
        }
    }
}

/// So many times the words restored, and nothing else.
fn words_restored(scene: &Scene) -> impl FnMut(usize) {
    let (start, mut words) = (Paged(scene.words), Paged(scene.words));
    move |calls| {
        for _ in 0..calls {
            words.0.copy_from_slice(black_box(&start.0));
            black_box(&mut words.0);
        }
    }
}

/// So many times the second program's tables restored, and nothing else.
fn own_restored(scene: &Scene) -> impl FnMut(usize) {
    let (start, mut tables) = (scene.tables(), scene.tables());
    move |calls| {
        for _ in 0..calls {
            tables.clone_from(black_box(&start));
            black_box(&mut tables);
        }
    }
}

/// The library's number, and its answer whether the file of an open is unchanged.
fn asked_of_library(words: &Words, fid: u32) -> (u8, bool) {
    let mut unchanged = 0;
    // SAFETY: the tables are only read, and the place of the answer is apart.
    let number = unsafe { gateway::gateway_unchanged(words.as_ptr(), fid, &mut unchanged) };
    (number, unchanged == 1)
}

/// So many questions to a program over its tables.
fn questions<'a, T, A: 'a>(
    tables: &'a T,
    fid: u32,
    ask: fn(&T, u32) -> A,
) -> impl FnMut(usize) + 'a {
    move |calls| {
        for _ in 0..calls {
            black_box(ask(black_box(tables), black_box(fid)));
        }
    }
}

fn time(batch: &mut dyn FnMut(usize), calls: usize) -> u64 {
    let start = thread_time();
    batch(calls);
    thread_time() - start
}

/// So many calls that a batch takes long enough to be timed.
fn calls_in_batch(batch: &mut dyn FnMut(usize)) -> usize {
    let mut calls = 1;
    while time(batch, calls) < BATCH {
        calls *= 2;
    }
    calls
}

fn median(mut times: Vec<f64>) -> f64 {
    times.sort_by(f64::total_cmp);
    times[times.len() / 2]
}

/// The median time of each, in nanoseconds for one call.
pub fn in_turns(rounds: usize, batches: Vec<Batch>) -> Vec<f64> {
    let prepared = batches.into_iter().map(|mut batch| {
        let calls = calls_in_batch(&mut batch);
        (calls, batch, Vec::new())
    });
    let mut batches: Vec<_> = prepared.collect();
    for _ in 0..rounds {
        for (calls, batch, times) in &mut batches {
            times.push(time(batch, *calls) as f64 / *calls as f64);
        }
    }
    let times = batches.into_iter().map(|(_, _, times)| median(times));
    times.collect()
}

/// One call: what it gives, and the words and what is lent behind it.
fn called(scene: &Scene, message: &[u8], call: Call) -> ((u8, usize), Words, Lent) {
    let (mut words, mut lent) = (scene.words, Lent::new(scene));
    let Lent {
        memory,
        room,
        holder,
    } = &mut lent;
    let connection = scene.asker.connection;
    let given = call(&mut words, connection, message, memory, room, holder);
    (given, words, lent)
}

/// The programs agree on the request, and its answer is the one that is to be
/// measured.
fn check(scene: &Scene, request: &Request) {
    let message = &request.bytes;
    let (given, words, lent) = called(scene, message, by_library);
    let (own_given, own_words, own) = called(scene, message, by_second);
    let same = given == own_given
        && (words, &lent.memory, &lent.room) == (own_words, &own.memory, &own.room)
        && lent.holder == own.holder;
    assert!(same, "the programs differ: {}", request.name);
    let answered = (StatusForm::of(&lent.room), class_and_code(&lent.room));
    let wanted = (StatusForm::of(message), request.status);
    assert_eq!(answered, wanted, "{}", request.name);
}

/// A request by each program.
pub fn cost(scene: &Scene, request: &Request, rounds: usize) -> Cost {
    check(scene, request);
    let message = &request.bytes;
    let batches: Vec<Batch> = vec![
        Box::new(words_calls(scene, message, by_library)),
        Box::new(words_calls(scene, message, by_second)),
        Box::new(own_calls(scene, message)),
        Box::new(words_restored(scene)),
        Box::new(own_restored(scene)),
    ];
    let times = in_turns(rounds, batches);
    Cost {
        library: times[0] - times[3],
        words: times[1] - times[3],
        own: times[2] - times[4],
    }
}

/// The question of an open that has just read, so that its number is looked at and
/// the answer is "unchanged".
pub fn question_cost(scene: &Scene, read: &Request, rounds: usize) -> QuestionCost {
    check(scene, read);
    let fid = scene.asker.fid.into();
    let (_, words, _) = called(scene, &read.bytes, by_library);
    let tables = unpack(&words).unwrap();
    assert_eq!(asked_of_library(&words, fid), (0, true));
    assert_eq!(words::unchanged(&words, fid), Ok(true));
    assert_eq!(host::unchanged(&tables, fid), Ok(true));
    let batches: Vec<Batch> = vec![
        Box::new(questions(&words, fid, asked_of_library)),
        Box::new(questions(&words, fid, words::unchanged)),
        Box::new(questions(&tables, fid, host::unchanged)),
        Box::new(words_calls(scene, &read.bytes, by_library)),
        Box::new(words_restored(scene)),
    ];
    let times = in_turns(rounds, batches);
    QuestionCost {
        library: times[0],
        words: times[1],
        own: times[2],
        read: times[3] - times[4],
    }
}

/// Several requests by the library and by the second program over the same
/// words, all in the same rounds, so that they can be set against each other.
pub fn costs(scene: &Scene, requests: &[Request], rounds: usize) -> Vec<(f64, f64)> {
    let mut batches: Vec<Batch> = vec![Box::new(words_restored(scene))];
    for request in requests {
        check(scene, request);
        batches.push(Box::new(words_calls(scene, &request.bytes, by_library)));
        batches.push(Box::new(words_calls(scene, &request.bytes, by_second)));
    }
    let times = in_turns(rounds, batches);
    let net = |pair: &[f64]| (pair[0] - times[0], pair[1] - times[0]);
    times[1..].chunks_exact(2).map(net).collect()
}
