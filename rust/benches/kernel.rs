//! The kernel's time beside an accumulating pass over as many bytes as a board has, and beside the reference in plain Rust:
//!
//!     cargo bench --offline
//!
//! Each round measures all columns; times are medians of the rounds, multiples are medians of the ratios within a round. Boards and buffers are not
//! cleared between calls: each message leaves its board as it found it, after the first call. "on bytes": the reference tests the board, reads it, does
//! the message and writes the board anew, for each message of a journal. "test and memory": it tests the board and does the message in memory; of a
//! journal it tests and reads the board once, as the kernel does, and writes it once. "memory": it does the messages in memory alone. All write their
//! answers into a buffer.

#[path = "../tests/generate/mod.rs"]
mod generate;
#[path = "../tests/reference/mod.rs"]
mod reference;

use generate::{any_state, carried, Random};
use reference::{is_sound, State, ANSWER_LIMIT};
use staff_board::Message;
use std::hint::black_box;
use std::path::Path;
use std::time::Instant;

const ROUNDS: usize = 101;

/// One accumulating pass.
#[inline(never)]
fn pass(bytes: &[u8]) -> u8 {
    bytes.iter().fold(0, |sum, byte| sum | byte)
}

/// Nanoseconds for one call.
fn time<T>(calls: u32, mut call: impl FnMut() -> T) -> f64 {
    let start = Instant::now();
    for _ in 0..calls {
        black_box(call());
    }
    start.elapsed().as_nanos() as f64 / f64::from(calls)
}

fn median(mut values: Vec<f64>) -> f64 {
    values.sort_by(f64::total_cmp);
    values[values.len() / 2]
}

/// Rounds of the columns: the time of the first, and of each the median and its median multiple of the first.
fn row(name: &str, rounds: usize, mut columns: Vec<Box<dyn FnMut() -> f64 + '_>>) {
    let times: Vec<Vec<f64>> = (0..rounds)
        .map(|_| columns.iter_mut().map(|column| column()).collect())
        .collect();
    let cells: Vec<String> = (0..columns.len())
        .map(|k| {
            let of = |f: &dyn Fn(&Vec<f64>) -> f64| median(times.iter().map(f).collect());
            format!("{:.2} ({:.2})", of(&|t| t[k]) / 1000.0, of(&|t| t[k] / t[0]))
        })
        .collect();
    println!("| {name} | {} |", cells.join(" | "));
}

// ---- boards

/// A string as long as its limit.
fn longest(limit: usize) -> Vec<u8> {
    vec![b'a'; limit]
}

/// The pairs of different users up to this number, each in both orders.
fn pairs(users: u32) -> impl Iterator<Item = (u32, u32)> {
    (1..=users)
        .flat_map(move |a| (1..=users).map(move |b| (a, b)))
        .filter(|(a, b)| a != b)
}

/// 32 users, half of the pairs friends and half with requests both ways and their notes, 64 posts, 16 pending, every string as long as its limit.
fn full() -> State {
    let mut state = State::default();
    for i in 1..=32 {
        state.users.push(reference::User {
            number: i,
            password: 1,
            name: longest(24),
            info: longest(56),
        });
    }
    for i in 1..=64 {
        state.posts.push(reference::Post {
            number: i,
            picture: i,
            owner: 1 + i % 32,
            public: true,
            title: longest(40),
            text: longest(256),
        });
    }
    for i in 33..=48 {
        state.pending.push(reference::Pending {
            number: i,
            note: longest(24),
        });
    }
    for (a, b) in pairs(32) {
        if (a + b) % 2 == 0 {
            state.friends.insert((a, b));
        } else {
            state.requests.insert((a, b), longest(24));
        }
    }
    state
}

/// 5 users and 10 posts.
fn sparse() -> State {
    let mut state = full();
    state.users.truncate(5);
    state.posts.retain(|post| post.owner <= 5);
    state.posts.truncate(10);
    state.pending.clear();
    state.friends.retain(|&(a, b)| a <= 5 && b <= 5 && (a + b) % 3 == 0);
    state.requests.retain(|&(a, b), _| a <= 5 && b <= 5 && (a + b) % 3 == 0);
    state
}

/// The reference on a state in memory: the bytes of the answer.
fn step_in_memory(state: &mut State, message: &[u8], out: &mut [u8]) -> usize {
    let (_, frame) = reference::answer(state.step(message));
    out[..frame.len()].copy_from_slice(&frame);
    frame.len()
}

/// A message on a board, answered with this number.
fn steps(name: &str, state: &State, message: &[u8], number: u16) {
    assert_eq!(reference::answer(state.clone().step(message)).0, number, "{name}");
    let bytes = state.board();
    let (mut board, mut other) = (bytes.clone(), bytes.clone());
    let [mut out, mut other_out, mut tested_out, mut memory_out] = [[0; ANSWER_LIMIT]; 4];
    let (mut tested, mut memory) = (state.clone(), state.clone());
    row(
        name,
        ROUNDS,
        vec![
            Box::new(|| time(64, || pass(black_box(&bytes)))),
            Box::new(|| time(64, || staff_board::step(black_box(message), &mut board, &mut out))),
            Box::new(|| time(16, || reference::step(black_box(message), &mut other, &mut other_out))),
            Box::new(|| {
                time(64, || {
                    is_sound(black_box(&bytes))
                        .then(|| step_in_memory(&mut tested, black_box(message), &mut tested_out))
                })
            }),
            Box::new(|| time(64, || step_in_memory(&mut memory, black_box(message), &mut memory_out))),
        ],
    );
}

// ---- journals

fn replays(name: &str, journal: &[u8]) {
    let frames: Vec<&[u8]> = reference::frames(journal).collect();
    let mut out = vec![0; ANSWER_LIMIT * (frames.len() + 1)];
    let [mut other_out, mut tested_out, mut memory_out] = [out.clone(), out.clone(), out.clone()];
    let empty = State::default().board();
    row(
        name,
        11,
        vec![
            Box::new(|| time(64, || pass(black_box(&empty)))),
            Box::new(|| {
                let mut board = empty.clone();
                time(1, || staff_board::replay(journal, &mut board, &mut out))
            }),
            Box::new(|| {
                let (mut board, mut written) = (empty.clone(), 0);
                time(1, || {
                    frames
                        .iter()
                        .for_each(|frame| written += reference::step(frame, &mut board, &mut other_out[written..]).1)
                })
            }),
            Box::new(|| {
                let (mut board, mut written) = (empty.clone(), 0);
                time(1, || {
                    let mut state = State::of_board(black_box(&board)).expect("a sound board");
                    for frame in &frames {
                        written += step_in_memory(&mut state, frame, &mut tested_out[written..]);
                    }
                    board = state.board();
                })
            }),
            Box::new(|| {
                let (mut state, mut written) = (State::default(), 0);
                time(1, || {
                    frames
                        .iter()
                        .for_each(|frame| written += step_in_memory(&mut state, frame, &mut memory_out[written..]))
                })
            }),
        ],
    );
}

fn main() {
    // until the processor runs at its speed
    let empty = State::default().board();
    time(500_000, || pass(black_box(&empty)));
    println!("| | pass | kernel | reference on bytes | reference, test and memory | reference, memory |");
    println!("|---|---|---|---|---|---|");
    // post 4, of user 5, on both boards
    let (password, post) = (1, 4);
    let read = carried(&Message::RTextPost {
        user: 1,
        password,
        post,
    });
    let update = carried(&Message::UTextPost {
        user: 5,
        password,
        post,
        text: &longest(256),
    });
    let ask = carried(&Message::CNUReq { user: 1, note: b"" });
    let (sparse, full) = (sparse(), full());
    steps("empty board, 0201 (refused with 6)", &State::default(), &ask, 6);
    steps("sparse board (5 users, 10 posts), 0505", &sparse, &read, 0);
    steps("sparse board, 0403", &sparse, &update, 0);
    let name = "full board (32 users, 64 posts, 16 pending, all pairs friends or with requests), 0505";
    steps(name, &full, &read, 0);
    steps("full board, 0403", &full, &update, 0);
    let random = any_state(&mut Random::new(1));
    steps("a random board, 0505 (refused with 7)", &random, &read, 7);
    let data = Path::new(env!("CARGO_MANIFEST_DIR")).join("../crates/journals/data");
    for (name, file) in [
        ("replay of the week, 250 messages", "week.journal"),
        ("replay of 15,000 shortest frames", "shortest-frames-15000.journal"),
    ] {
        replays(name, &std::fs::read(data.join(file)).expect("a journal"));
    }
}
