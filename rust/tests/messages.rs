//! The writer and the reader of messages: messages by their fields there and back, the frames of all journals back and there, and both calls beside the
//! reference on bare values, where number, count and the whole buffer must be the same. The seeds are fixed.
//!
//! The tests find differences: `faults_are_found` runs them with eight faulty copies of the calls. Seventeen faults that were put into `reference` were
//! each found too: of the writer a staff number 0, visibility 2, a staff number, picture, visibility or kind cut to its width, a byte over a limit, a
//! string of just its limit refused, an empty string past the lent bytes, one at their end refused, values too many, a buffer of just the frame refused,
//! and the limit of another string; of the reader room tested first, places that count from the message or from the length of the string, and room for
//! just the values refused.
#![cfg(feature = "alloc")] // for Message::to_vec

mod generate;
mod reference;

use generate::{any_message, carried, damage, message, string_limits, unfit_message, Parts, Random, WIDE};
use reference::{fields, frames, Field, KINDS};
use staff_board::{Board, Message, Outcome, Refusal, WriteRefusal, ANSWER_LIMIT, FRAME_LIMIT, VALUES_LIMIT};
use std::fmt::Debug;
use std::path::Path;

type Write = fn(u32, &[u64], &[u8], &mut [u8]) -> Outcome;
type Read = fn(&[u8], &mut [u64]) -> Outcome;

// ---- messages by their fields

/// Numbers of any size.
fn any_parts(random: &mut Random, kind: u16) -> Parts {
    let number = |random: &mut Random| (random.next() as u32).max(1);
    Parts {
        kind,
        user: number(random),
        password: random.next(),
        colleague: number(random),
        post: number(random),
        new_password: random.next(),
    }
}

/// A message with strings of these lengths, as far as its kind has any.
fn with_strings<T>(random: &mut Random, kind: u16, lengths: [usize; 2], then: fn(&mut Random, Message) -> T) -> T {
    let parts = any_parts(random, kind);
    let strings = lengths.map(|length| random.bytes(length));
    let message = message(random, &parts, [&strings[0], &strings[1]]);
    assert_eq!(message.kind(), kind);
    then(random, message)
}

/// A message that a frame carries: it is read as it was written, with room for the frame and more, and not written with less.
fn is_carried(random: &mut Random, message: Message) {
    let frame = carried(&message);
    assert_eq!(frame[2..4], message.kind().to_le_bytes());
    assert_eq!(Message::read(&frame), Ok(message));
    let n = frame.len();
    for room in [n, n + 1, n + 40] {
        let old = random.bytes(room);
        let mut out = old.clone();
        assert_eq!(message.write(&mut out), Ok(n));
        assert_eq!(out, [&frame, &old[n..]].concat());
    }
    for room in [n - 1, n / 2, 0] {
        is_refused(random, message, room, WriteRefusal::BufferShort);
    }
}

fn is_refused(random: &mut Random, message: Message, room: usize, refusal: WriteRefusal) {
    let old = random.bytes(room);
    let mut out = old.clone();
    assert_eq!(message.write(&mut out), Err(refusal), "{message:?}");
    assert_eq!(out, old, "{message:?}");
}

/// A message that no frame carries, whatever the room.
fn is_not_carried(random: &mut Random, message: Message) {
    for room in [0, 20, FRAME_LIMIT, 1_000] {
        is_refused(random, message, room, WriteRefusal::NotCarried);
    }
}

#[test]
fn messages_are_read_as_written() {
    let random = &mut Random::new(5);
    for kind in KINDS {
        let limits = string_limits(kind);
        for _ in 0..500 {
            let lengths = [0, 1].map(|i| limits.get(i).map_or(0, |limit| random.below(limit + 1)));
            with_strings(random, kind, lengths, is_carried);
        }
    }
}

#[test]
fn strings_are_carried_up_to_their_limits() {
    let random = &mut Random::new(6);
    for kind in KINDS {
        let limits = string_limits(kind);
        for (i, &limit) in limits.iter().enumerate() {
            for other in [0, limits[limits.len() - 1 - i]] {
                let lengths = |length: usize| if i == 0 { [length, other] } else { [other, length] };
                for length in [0, 1, limit - 1, limit] {
                    with_strings(random, kind, lengths(length), is_carried);
                }
                // of one byte more to more than the length of a string can say, with the limit in its low bytes
                for length in [limit + 1, 257, 300, 65_536 + limit] {
                    with_strings(random, kind, lengths(length), is_not_carried);
                }
            }
        }
    }
}

#[test]
fn numbers_0_and_other_visibilities_are_not_carried() {
    let random = &mut Random::new(7);
    for kind in KINDS {
        let parts = Parts {
            user: 0,
            ..any_parts(random, kind)
        };
        let message = message(random, &parts, [&[], &[]]);
        is_not_carried(random, message);
    }
    let (user, password) = (1, 0);
    let colleague = 0;
    is_not_carried(
        random,
        Message::CFriend {
            user,
            password,
            colleague,
        },
    );
    let post = 0;
    is_not_carried(random, Message::RTextPost { user, password, post });
    for visibility in 2..=255 {
        is_not_carried(
            random,
            Message::UVisPost {
                user,
                password,
                post: 1,
                visibility,
            },
        );
    }
}

#[test]
fn limits_are_met() {
    let random = &mut Random::new(8);
    let longest = |kind: u16| {
        let limits = string_limits(kind);
        [0, 1].map(|i| limits.get(i).copied().unwrap_or_default())
    };
    let lengths = KINDS.map(|kind| with_strings(random, kind, longest(kind), |_, message| carried(&message).len()));
    assert_eq!(lengths.into_iter().max(), Some(FRAME_LIMIT));
    let counts = KINDS.map(|kind| with_strings(random, kind, [0; 2], |_, message| values(&carried(&message)).len()));
    assert_eq!(counts.into_iter().max(), Some(VALUES_LIMIT));
}

// ---- the frames of journals

/// The values of a frame that the reader takes.
fn values(frame: &[u8]) -> Vec<u64> {
    let mut values = [0; VALUES_LIMIT];
    let done = staff_board::read(frame, &mut values);
    assert_eq!(done.number, 0);
    values[..done.written].to_vec()
}

/// A frame that the reader takes is written again, from its fields and from its values with its body lent.
fn is_written_again(frame: &[u8], message: Message) {
    assert_eq!(carried(&message), frame);
    let mut out = vec![0; frame.len()];
    let done = staff_board::write(message.kind().into(), &values(frame), &frame[4..], &mut out);
    assert_eq!((done.number, out.as_slice()), (0, frame));
}

/// Of all whole frames, and of what is left where a journal is cut: how many the reader takes, and how many it refuses, which is as a step does.
fn frames_of(journal: &[u8]) -> (usize, usize) {
    let mut board = Board::empty();
    let (mut taken, mut refused) = (0, 0);
    let whole: usize = frames(journal).map(<[u8]>::len).sum();
    let rest = Some(&journal[whole..]).filter(|rest| !rest.is_empty());
    for frame in frames(journal).chain(rest) {
        let stepped = board.step(frame, &mut [0; ANSWER_LIMIT]).err();
        let unread = stepped.filter(|refusal| matches!(refusal, Refusal::Frame | Refusal::Kind | Refusal::Body));
        match Message::read(frame) {
            Ok(message) => {
                assert_eq!(unread, None, "{frame:02x?}");
                is_written_again(frame, message);
                taken += 1;
            }
            Err(refusal) => {
                assert_eq!(unread, Some(refusal), "{frame:02x?}");
                refused += 1;
            }
        }
    }
    (taken, refused)
}

#[test]
fn frames_of_journals_are_written_as_read() {
    let data = Path::new(env!("CARGO_MANIFEST_DIR")).join("../crates/journals/data");
    let (mut journals, mut taken, mut refused) = (0, 0, 0);
    for file in data.read_dir().expect("the journals") {
        let journal = std::fs::read(file.expect("a journal").path()).expect("its bytes");
        let counts = frames_of(&journal);
        (journals, taken, refused) = (journals + 1, taken + counts.0, refused + counts.1);
    }
    println!("{journals} journals: {taken} frames written again, {refused} refused");
    assert!(journals >= 32 && taken > 5_000 && refused > 500);
}

// ---- the calls beside the reference

#[derive(Debug)]
struct Arguments {
    kind: u32,
    values: Vec<u64>,
    lent: Vec<u8>,
}

/// A kind of document 01, another, or one above 65,535 whose low bytes are a kind.
fn any_kind(random: &mut Random) -> u32 {
    let kind = u32::from(KINDS[random.below(KINDS.len())]);
    match random.below(24) {
        0 => random.next() as u32,
        1 => kind ^ 1 << random.below(16),
        2 => kind ^ 1 << (16 + random.below(16)),
        _ => kind,
    }
}

/// Where numbers and lengths cease to be good, and such as are good when they are cut to their field.
const EDGES: [u64; 24] = [
    0,
    1,
    2,
    24,
    25,
    40,
    41,
    56,
    57,
    255,
    256,
    257,
    65_535,
    65_536,
    65_537,
    1 << 31,
    u32::MAX as u64,
    1 << 32,
    (1 << 32) + 1,
    1 << 63,
    u64::MAX - 256,
    u64::MAX - 24,
    u64::MAX - 1,
    u64::MAX,
];

/// A number that its field can hold.
fn good_number(random: &mut Random, field: Field) -> u64 {
    match field {
        Field::Id => random.next() % u64::from(u32::MAX) + 1,
        Field::Picture => random.next() % (1 << 32),
        Field::Visibility => random.next() % 2,
        Field::Password | Field::String(_) => random.next(),
    }
}

/// A place within so many lent bytes of a string that is not over its limit.
fn good_place(random: &mut Random, limit: usize, lent: usize) -> [u64; 2] {
    let length = random.below(limit.min(lent) + 1);
    [random.below(lent - length + 1) as u64, length as u64]
}

/// A place around the end of so many lent bytes, or one whose end is past 2^64 and, cut to eight bytes, within them.
fn edge_place(random: &mut Random, limit: usize, lent: usize) -> [u64; 2] {
    let (limit, lent) = (limit as u64, lent as u64);
    let length = match random.below(8) {
        0 => limit,
        1 => limit + 1,
        2 => lent,
        3 => lent + 1,
        4 => EDGES[random.below(EDGES.len())],
        _ => random.next() % (limit.min(lent) + 1),
    };
    let start = match random.below(6) {
        0 => lent.wrapping_sub(length).wrapping_add(1),
        1 => 0u64.wrapping_sub(length).wrapping_add(random.next() % (lent + 1)),
        2 => lent + random.next() % 2,
        3 => EDGES[random.below(EDGES.len())],
        _ => lent.wrapping_sub(length),
    };
    [start, length]
}

/// Arguments of a writer, in most of which at most one thing is amiss.
fn any_arguments(random: &mut Random, kind: u32) -> Arguments {
    let n = random.below(300);
    let lent = random.bytes(n);
    let mut values = Vec::new();
    for &field in fields(kind as u16).unwrap_or(&[Field::Id, Field::Password]) {
        let is_good = !random.once_in(8);
        match field {
            Field::String(limit) if is_good => values.extend(good_place(random, limit, n)),
            Field::String(limit) => values.extend(edge_place(random, limit, n)),
            _ if is_good => values.push(good_number(random, field)),
            _ => values.push(EDGES[random.below(EDGES.len())]),
        }
    }
    match random.below(30) {
        0 => drop(values.pop()),
        1 => values.push(random.next() % 3),
        2 => values.clear(),
        _ => {}
    }
    Arguments { kind, values, lent }
}

/// How often each number was returned.
type Numbers = [usize; 14];

fn compare<T: PartialEq>(
    what: &dyn Debug,
    found: (Outcome, &[T]),
    expected: ((u16, usize), &[T]),
) -> Result<u16, String> {
    let (number, written) = expected.0;
    if found.0 != (Outcome { number, written }) {
        return Err(format!("{:?} instead of {:?}: {what:x?}", found.0, expected.0));
    }
    match (0..found.1.len()).find(|&i| found.1[i] != expected.1[i]) {
        Some(i) => Err(format!("place {i} of {} differs: {what:x?}", found.1.len())),
        None => Ok(number),
    }
}

/// One write in both, into no room and rooms around the frame.
fn write_once(write: Write, random: &mut Random, arguments: &Arguments, numbers: &mut Numbers) -> Result<(), String> {
    let Arguments { kind, values, lent } = arguments;
    let (_, n) = reference::write(*kind, values, lent, &mut [0; FRAME_LIMIT]);
    for room in [0, n.saturating_sub(1), n, n + 1 + random.below(300)] {
        let mut out = random.bytes(room);
        let mut expected_out = out.clone();
        let done = write(*kind, values, lent, &mut out);
        let expected = reference::write(*kind, values, lent, &mut expected_out);
        let number = compare(&(arguments, room), (done, &out), (expected, &expected_out))?;
        numbers[usize::from(number)] += 1;
    }
    Ok(())
}

/// Random arguments, and of each kind each value in turn at each edge.
fn writes(write: Write, seed: u64) -> Result<Numbers, String> {
    let random = &mut Random::new(seed);
    let mut numbers = Numbers::default();
    for _ in 0..100_000 {
        let kind = any_kind(random);
        let arguments = any_arguments(random, kind);
        write_once(write, random, &arguments, &mut numbers)?;
    }
    for kind in KINDS {
        for i in 0..VALUES_LIMIT {
            for edge in EDGES {
                let mut arguments = any_arguments(random, kind.into());
                if let Some(value) = arguments.values.get_mut(i) {
                    *value = edge;
                }
                write_once(write, random, &arguments, &mut numbers)?;
            }
        }
    }
    Ok(numbers)
}

/// A good message, or one that is damaged, does not fit, is cut, or whatever bytes.
fn any_frame(random: &mut Random) -> Vec<u8> {
    let mut message = any_message(random, &WIDE);
    match random.below(6) {
        0 => message = unfit_message(random, &WIDE),
        1 => message.truncate(random.below(message.len())),
        2 => {
            let n = random.below(24);
            message = random.bytes(n);
        }
        3 => damage(random, &mut message),
        _ => {}
    }
    message
}

/// Random frames, each into slices of 0 to 9 values.
fn reads(read: Read, seed: u64) -> Result<Numbers, String> {
    let random = &mut Random::new(seed);
    let mut numbers = Numbers::default();
    for _ in 0..50_000 {
        let message = any_frame(random);
        for room in 0..10 {
            let mut out: Vec<u64> = (0..room).map(|_| random.next()).collect();
            let mut expected_out = out.clone();
            let done = read(&message, &mut out);
            let expected = reference::read(&message, &mut expected_out);
            let number = compare(&(&message, room), (done, &out), (expected, &expected_out))?;
            numbers[usize::from(number)] += 1;
        }
    }
    Ok(numbers)
}

/// That these numbers were returned often, and no others.
fn are_met(numbers: Numbers, expected: &[usize]) {
    for (number, &met) in numbers.iter().enumerate() {
        assert_eq!(
            met > 1_000,
            expected.contains(&number),
            "{number} was returned {met} times"
        );
        assert!(met == 0 || expected.contains(&number), "{number} was returned");
    }
}

#[test]
fn writers_agree() {
    let numbers = writes(staff_board::write, 9).unwrap_or_else(|what| panic!("{what}"));
    println!("writes by the number returned: {numbers:?}");
    are_met(numbers, &[0, 5, 13]);
}

#[test]
fn readers_agree() {
    let numbers = reads(staff_board::read, 10).unwrap_or_else(|what| panic!("{what}"));
    println!("reads by the number returned: {numbers:?}");
    are_met(numbers, &[0, 3, 4, 5, 13]);
}

// ---- faulty copies

/// A byte after the frame is cleared.
fn byte_after(kind: u32, values: &[u64], lent: &[u8], frame: &mut [u8]) -> Outcome {
    let done = staff_board::write(kind, values, lent, frame);
    if done.number == 0 && done.written < frame.len() {
        frame[done.written] = 0;
    }
    done
}

/// A kind is cut to two bytes.
fn narrow_kind(kind: u32, values: &[u64], lent: &[u8], frame: &mut [u8]) -> Outcome {
    staff_board::write(kind % 65_536, values, lent, frame)
}

/// The buffer is looked at before the message.
fn buffer_first(kind: u32, values: &[u64], lent: &[u8], frame: &mut [u8]) -> Outcome {
    let mut done = staff_board::write(kind, values, lent, frame);
    if done.number == 5 && frame.is_empty() {
        done.number = 13;
    }
    done
}

/// An empty string may start past the lent bytes.
fn empty_past_end(kind: u32, values: &[u64], lent: &[u8], frame: &mut [u8]) -> Outcome {
    let mut values = values.to_vec();
    let is_string_last = !string_limits(kind as u16).is_empty();
    if let [.., start, 0] = values.as_mut_slice() {
        *start = if is_string_last { 0 } else { *start };
    }
    staff_board::write(kind, &values, lent, frame)
}

/// The end of a string is cut to eight bytes before it is compared.
fn end_wraps(kind: u32, values: &[u64], lent: &[u8], frame: &mut [u8]) -> Outcome {
    let mut values = values.to_vec();
    let is_string_last = !string_limits(kind as u16).is_empty();
    if let [.., start, length] = values.as_mut_slice() {
        let wraps = start.checked_add(*length).is_none() && start.wrapping_add(*length) <= lent.len() as u64;
        *start = if is_string_last && wraps { 0 } else { *start };
    }
    staff_board::write(kind, &values, lent, frame)
}

/// The places of strings count from the beginning of the message.
fn places_in_message(message: &[u8], values: &mut [u64]) -> Outcome {
    let done = staff_board::read(message, values);
    if done.number == 0 && message[2..4] == [3, 4] {
        values[3] += 4;
    }
    done
}

/// As many values as the message has are not enough.
fn one_value_more(message: &[u8], values: &mut [u64]) -> Outcome {
    let done = staff_board::read(message, &mut values.to_vec());
    if done.number == 0 && done.written == values.len() {
        return Outcome { number: 13, written: 0 };
    }
    staff_board::read(message, values)
}

/// The values after those of the message are cleared.
fn values_after(message: &[u8], values: &mut [u64]) -> Outcome {
    let done = staff_board::read(message, values);
    if done.number == 0 {
        values[done.written..].fill(0);
    }
    done
}

#[test]
fn faults_are_found() {
    let writers: [(&str, Write); 5] = [
        ("byte_after", byte_after),
        ("narrow_kind", narrow_kind),
        ("buffer_first", buffer_first),
        ("empty_past_end", empty_past_end),
        ("end_wraps", end_wraps),
    ];
    let readers: [(&str, Read); 3] = [
        ("places_in_message", places_in_message),
        ("one_value_more", one_value_more),
        ("values_after", values_after),
    ];
    let writers = writers.map(|(name, write)| (name, writes(write, 9)));
    let readers = readers.map(|(name, read)| (name, reads(read, 10)));
    for (name, found) in writers.into_iter().chain(readers) {
        let difference = found.err().unwrap_or_else(|| panic!("{name} was not found"));
        println!("{name}: {}", difference.chars().take(100).collect::<String>());
    }
}
