//! The kernel beside an implementation of documents 01 and 02 in plain Rust (`reference`), on random journals, damaged frames, random sound boards,
//! damaged boards, boards with a request between friends, buffers of every length around 518, and whole replays. Number, counts, board and buffer must
//! be the same, byte for byte. The seeds are fixed.
//!
//! The tests find differences: `faults_are_found` runs them with five faulty copies of the kernel. Seventeen faults that were put into `reference` were
//! each found too: 0301 that ends the friendship on one side, an admin who reads every post, 0205 that leaves the request, 0205 that leaves a request of
//! its sender, a board that is sound with a request between friends, a 17th pending registration, a string of just its limit refused, a byte more than
//! the limit allowed in a title, a note, a name and an info, visibility 2 allowed in a message and on a board, passwords compared in their low halves, the
//! buffer tested before the board, a board of a byte more that is sound, and L of 277. So was a wrapper that asks for room for two answers before it goes
//! on.
#![cfg(feature = "alloc")] // for Message::to_vec

mod generate;
mod reference;

use generate::{any_message, any_state, damage, likely_message, unfit_message, Random, Range, NARROW, WIDE};
use reference::{State, ANSWER_LIMIT, BOARD_SIZE};
use staff_board::{answers, messages, Answer, Stop};
use std::fmt::{Debug, Write};

type Step = fn(&[u8], &mut [u8], &mut [u8]) -> Answer;

// ---- one step in both

/// A board in both forms, and the accepted messages that led from the first board to it.
struct Pair {
    state: State,
    board: Vec<u8>,
    first: Vec<u8>,
    journal: Vec<u8>,
}

impl Pair {
    fn of_state(state: State) -> Pair {
        let board = state.board();
        Pair {
            state,
            first: board.clone(),
            board,
            journal: Vec::new(),
        }
    }

    /// One message in both; a difference is described.
    fn step(&mut self, step: Step, random: &mut Random, message: &[u8], room: usize) -> Result<u16, String> {
        let mut out = random.bytes(room);
        let mut expected_out = out.clone();
        let (number, frame) = if room < ANSWER_LIMIT {
            (2, Vec::new())
        } else {
            reference::answer(self.state.step(message))
        };
        expected_out[..frame.len()].copy_from_slice(&frame);
        let changed = number == 0 && message[3] < 5;
        let before = changed.then(|| std::mem::replace(&mut self.board, self.state.board()));
        let mut board = before.unwrap_or_else(|| self.board.clone());
        let answer = step(message, &mut board, &mut out);
        let expected = Answer {
            number,
            written: frame.len(),
        };
        compare((answer, &board, &out), (expected, &self.board, &expected_out))
            .map_err(|what| describe(&what, &self.first, &self.journal, message, room))?;
        if changed {
            self.journal.extend(message);
        }
        Ok(number)
    }
}

/// What was returned, the board and the answer buffer.
fn compare<T: PartialEq + Debug>(found: (T, &[u8], &[u8]), expected: (T, &[u8], &[u8])) -> Result<(), String> {
    let mut differences = Vec::new();
    if found.0 != expected.0 {
        differences.push(format!("{:?} instead of {:?}", found.0, expected.0));
    }
    differences.extend(first_difference("board", found.1, expected.1));
    differences.extend(first_difference("answer buffer", found.2, expected.2));
    if differences.is_empty() {
        return Ok(());
    }
    Err(differences.join("\n"))
}

fn first_difference(name: &str, found: &[u8], expected: &[u8]) -> Option<String> {
    let i = (0..found.len()).find(|&i| found[i] != expected[i])?;
    Some(format!("{name}: byte {i} is {} instead of {}", found[i], expected[i]))
}

/// A difference, with all that it takes to see it again: the board at first, the journal that was replayed on it, then the message and the length of the
/// answer buffer.
fn describe(what: &str, board: &[u8], journal: &[u8], message: &[u8], room: usize) -> String {
    let mut text = what.to_owned();
    if board.iter().any(|&byte| byte != 0) {
        let _ = write!(text, "\non the board: {}", hexadecimal(board));
    }
    let _ = write!(text, "\njournal: {}", hexadecimal(journal));
    let _ = write!(text, "\nmessage: {}", hexadecimal(message));
    let _ = write!(text, "\nanswer buffer of {room} bytes");
    text
}

fn hexadecimal(bytes: &[u8]) -> String {
    bytes.iter().fold(String::new(), |mut text, byte| {
        let _ = write!(text, "{byte:02x}");
        text
    })
}

// ---- what is tried

/// How often each number was returned.
#[derive(Debug, Default)]
struct Numbers([usize; 13]);

impl Numbers {
    fn add(&mut self, number: u16) {
        self.0[usize::from(number)] += 1;
    }

    fn total(&self) -> usize {
        self.0.iter().sum()
    }
}

/// Lengths of the answer buffer: mostly enough.
fn room(random: &mut Random) -> usize {
    match random.below(20) {
        0 => random.below(ANSWER_LIMIT),
        1 => ANSWER_LIMIT,
        _ => ANSWER_LIMIT + random.below(20),
    }
}

/// Journals from the empty board, of messages that are mostly accepted; one in `any` is whatever message.
fn journals(
    step: Step,
    random: &mut Random,
    range: &Range,
    count: usize,
    length: usize,
    any: usize,
) -> Result<Numbers, String> {
    let mut numbers = Numbers::default();
    for _ in 0..count {
        let mut pair = Pair::of_state(State::default());
        for _ in 0..length {
            let message = if random.once_in(any) {
                any_message(random, range)
            } else {
                likely_message(random, &pair.state, range)
            };
            let message = spoilt(random, message, range);
            let room = room(random);
            numbers.add(pair.step(step, random, &message, room)?);
        }
    }
    Ok(numbers)
}

/// Now and then a damaged message, or one that does not fit, in its place.
fn spoilt(random: &mut Random, mut message: Vec<u8>, range: &Range) -> Vec<u8> {
    match random.below(30) {
        0 => damage(random, &mut message),
        1 => message = unfit_message(random, range),
        _ => {}
    }
    message
}

/// Random sound boards, and messages on each.
fn states(step: Step, random: &mut Random, count: usize, length: usize) -> Result<Numbers, String> {
    let mut numbers = Numbers::default();
    for _ in 0..count {
        let mut pair = Pair::of_state(any_state(random));
        for _ in 0..length {
            let message = likely_message(random, &pair.state, &WIDE);
            numbers.add(pair.step(step, random, &message, ANSWER_LIMIT)?);
        }
    }
    Ok(numbers)
}

/// Every buffer of 0 to 1,100 bytes.
fn buffers(step: Step, random: &mut Random) -> Result<Numbers, String> {
    let mut numbers = Numbers::default();
    let mut pair = Pair::of_state(any_state(random));
    for room in 0..1_100 {
        let message = likely_message(random, &pair.state, &WIDE);
        numbers.add(pair.step(step, random, &message, room)?);
    }
    Ok(numbers)
}

/// Boards of which one byte is changed, at places so far apart, and boards of other lengths.
fn damaged_boards(
    step: Step,
    random: &mut Random,
    states: impl Iterator<Item = State>,
    apart: usize,
) -> Result<Numbers, String> {
    let mut numbers = Numbers::default();
    for state in states {
        let whole = state.board();
        let mut board = whole.clone();
        for place in (random.below(apart)..BOARD_SIZE).step_by(apart) {
            board[place] = match random.below(3) {
                0 => whole[place] ^ 1 << random.below(8),
                1 => whole[place].wrapping_add(1),
                _ => random.next() as u8,
            };
            numbers.add(damaged_board(step, random, &state, &board)?);
            board[place] = whole[place];
        }
        for length in [0, 1, 16, BOARD_SIZE - 1, BOARD_SIZE + 1] {
            let mut board = whole.clone();
            board.resize(length, 0);
            numbers.add(damaged_board(step, random, &state, &board)?);
        }
    }
    Ok(numbers)
}

/// Boards on which one of two friends has requested the other.
fn requested_friends(step: Step, random: &mut Random, count: usize) -> Result<Numbers, String> {
    let mut numbers = Numbers::default();
    while numbers.total() < count {
        let mut state = any_state(random);
        if state.friends.is_empty() {
            continue;
        }
        let pair = random.below(state.friends.len());
        let pair = *state.friends.iter().nth(pair).expect("a pair of friends");
        state.requests.insert(pair, random.string(24));
        let board = state.board();
        numbers.add(damaged_board(step, random, &state, &board)?);
    }
    Ok(numbers)
}

/// A message that the state mostly accepts, on a board that may be another.
fn damaged_board(step: Step, random: &mut Random, state: &State, board: &[u8]) -> Result<u16, String> {
    let message = likely_message(random, state, &WIDE);
    let message = spoilt(random, message, &WIDE);
    let room = room(random);
    let (mut found, mut expected) = (board.to_vec(), board.to_vec());
    let mut out = random.bytes(room);
    let mut expected_out = out.clone();
    let is_sound = staff_board::is_sound(board);
    let answer = step(&message, &mut found, &mut out);
    let expected_is_sound = reference::is_sound(board);
    let (number, written) = reference::step(&message, &mut expected, &mut expected_out);
    compare(
        ((is_sound, answer), &found, &out),
        (
            (expected_is_sound, Answer { number, written }),
            &expected,
            &expected_out,
        ),
    )
    .map_err(|what| describe(&what, board, &[], &message, room))?;
    Ok(number)
}

/// A state with records, friends and requests in every table, and room after them.
fn used_state(random: &mut Random) -> State {
    loop {
        let state = any_state(random);
        let counts = [state.users.len(), state.posts.len(), state.pending.len()];
        let is_used = (8..32).contains(&counts[0]) && (8..64).contains(&counts[1]) && (4..16).contains(&counts[2]);
        if is_used && !state.friends.is_empty() && !state.requests.is_empty() {
            return state;
        }
    }
}

/// All of it, with how often each number was returned.
fn all(step: Step, seed: u64) -> Result<[Numbers; 7], String> {
    let random = &mut Random::new(seed);
    let some: Vec<State> = (0..60).map(|_| any_state(random)).collect();
    let used = used_state(random);
    Ok([
        journals(step, random, &WIDE, 160, 600, 20)?,
        journals(step, random, &NARROW, 600, 100, 2)?,
        states(step, random, 200, 60)?,
        buffers(step, random)?,
        damaged_boards(step, random, some.into_iter(), 97)?,
        damaged_boards(step, random, [used].into_iter(), 1)?,
        requested_friends(step, random, 500)?,
    ])
}

// ---- whole journals

/// Journals of up to so many messages on the empty board and on others, with damaged messages in them, cut or followed by other bytes.
fn replays(
    random: &mut Random,
    count: usize,
    length: usize,
    room: fn(&mut Random) -> usize,
) -> Result<[usize; 4], String> {
    let mut stops = [0; 4];
    for i in 0..count {
        let mut state = if random.once_in(2) {
            State::default()
        } else {
            any_state(random)
        };
        let mut board = state.board();
        let mut journal = Vec::new();
        for _ in 0..random.below(length) {
            let mut message = likely_message(random, &state, &WIDE);
            if random.once_in(4 * length) {
                damage(random, &mut message);
            }
            let _ = state.step(&message);
            journal.extend(message);
        }
        match i % 4 {
            0 => journal.truncate(random.below(journal.len() + 1)),
            1 => journal.extend(random.bytes(1 + i % 6)),
            _ => {}
        }
        match random.below(20) {
            0 => board[random.below(BOARD_SIZE)] ^= 1,
            1 => board.resize(BOARD_SIZE - 1 + 2 * random.below(2), 0),
            _ => {}
        }
        let room = room(random);
        stops[replay(random, &journal, &board, room)?] += 1;
    }
    Ok(stops)
}

fn replay(random: &mut Random, journal: &[u8], board: &[u8], room: usize) -> Result<usize, String> {
    let (mut found, mut expected) = (board.to_vec(), board.to_vec());
    let mut out = random.bytes(room);
    let mut expected_out = out.clone();
    let r = staff_board::replay(journal, &mut found, &mut out);
    let counts = (r.stop.number(), r.messages, r.passed, r.written);
    let expected_counts = reference::replay(journal, &mut expected, &mut expected_out);
    compare((counts, &found, &out), (expected_counts, &expected, &expected_out))
        .map_err(|what| describe(&what, board, journal, &[], room))?;
    assert_eq!(answers(&out[..r.written]).count(), r.messages);
    if matches!(r.stop, Stop::JournalUsed | Stop::FrameCut) {
        let mut frames = messages(journal);
        let count = frames.by_ref().count();
        assert_eq!((count, frames.rest()), (r.messages, &journal[r.passed..]));
    }
    Ok(r.stop.number() as usize)
}

// ---- the tests

#[test]
fn kernel_and_reference_agree() {
    let numbers = all(staff_board::step, 1).unwrap_or_else(|what| panic!("{what}"));
    let total: usize = numbers.iter().map(Numbers::total).sum();
    println!("{total} steps, by the number returned: {numbers:#?}");
    for number in 0..13 {
        let met: usize = numbers.iter().map(|n| n.0[number]).sum();
        assert!(met > 100, "{number} was returned {met} times");
    }
    let [.., requested_friends] = numbers;
    assert_eq!(requested_friends.0[1], requested_friends.total());
}

#[test]
fn replays_agree() {
    let room = |random: &mut Random| match random.below(2) {
        0 => random.below(4 * ANSWER_LIMIT),
        _ => random.below(60 * ANSWER_LIMIT),
    };
    let stops = replays(&mut Random::new(2), 2_000, 60, room).unwrap_or_else(|what| panic!("{what}"));
    println!("replays by their stop: {stops:?}");
    assert!(stops.iter().all(|&n| n > 50));
}

/// The wrapper lends long answer buffers in parts of 16,384 bytes; these end around one, two and three parts.
#[test]
fn long_replays_agree() {
    let room = |random: &mut Random| 16_384 * (1 + random.below(3)) + random.below(3 * ANSWER_LIMIT);
    let stops = replays(&mut Random::new(4), 200, 3_000, room).unwrap_or_else(|what| panic!("{what}"));
    println!("long replays by their stop: {stops:?}");
    assert!(stops.iter().all(|&n| n > 5));
}

// ---- faulty kernels

fn is_kind(message: &[u8], kind: u16) -> bool {
    message.get(2..4) == Some(&kind.to_le_bytes()[..])
}

/// An answer of 9 where the kernel says 8.
fn admin_missing(message: &[u8], board: &mut [u8], out: &mut [u8]) -> Answer {
    let mut answer = staff_board::step(message, board, out);
    if answer.number == 8 {
        answer.number = 9;
        out[2] = 9;
    }
    answer
}

/// A shorter text leaves the old tail on the board.
fn old_tail(message: &[u8], board: &mut [u8], out: &mut [u8]) -> Answer {
    let before = board.to_vec();
    let answer = staff_board::step(message, board, out);
    if answer.number == 0 && is_kind(message, 0x0403) {
        for (byte, old) in board.iter_mut().zip(before) {
            if *byte == 0 {
                *byte = old;
            }
        }
    }
    answer
}

/// A byte after the answer's frame is cleared.
fn byte_after(message: &[u8], board: &mut [u8], out: &mut [u8]) -> Answer {
    let answer = staff_board::step(message, board, out);
    if answer.written > 0 && answer.written < out.len() {
        out[answer.written] = 0;
    }
    answer
}

/// A buffer of just 518 bytes is refused.
fn buffer_of_518(message: &[u8], board: &mut [u8], out: &mut [u8]) -> Answer {
    let room = if out.len() == ANSWER_LIMIT {
        ANSWER_LIMIT - 1
    } else {
        out.len()
    };
    staff_board::step(message, board, &mut out[..room])
}

/// The last byte of the board is not tested.
fn last_byte_untested(message: &[u8], board: &mut [u8], out: &mut [u8]) -> Answer {
    let Some(last) = board.last_mut() else {
        return staff_board::step(message, board, out);
    };
    let byte = std::mem::take(last);
    let answer = staff_board::step(message, board, out);
    if let Some(last) = board.last_mut() {
        *last = byte;
    }
    answer
}

#[test]
fn faults_are_found() {
    let faults: [(&str, Step); 5] = [
        ("admin_missing", admin_missing),
        ("old_tail", old_tail),
        ("byte_after", byte_after),
        ("buffer_of_518", buffer_of_518),
        ("last_byte_untested", last_byte_untested),
    ];
    for (name, step) in faults {
        let difference = all(step, 1).err();
        let difference = difference.unwrap_or_else(|| panic!("{name} was not found"));
        println!("{name}: {}", difference.lines().next().unwrap_or_default());
    }
}
