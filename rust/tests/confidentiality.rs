//! Demand 3, tried on the running kernel: random pairs of journals that differ only in text updates of a post while it was closed to a set of staff, with
//! the same last text or no update before each opening. What the set sends and is answered must be the same in both. It is proved; here it is seen.
//!
//! The pairs meet the hypotheses by the way in which they are made, and what is closed is read off the accepted messages. A copy of the reference that
//! tells whether the text is empty to those who may not read it is caught.
#![cfg(feature = "alloc")] // for Message::to_vec

mod generate;
mod reference;

use generate::{any_message, carried, damage, likely_message, Random, NARROW};
use reference::{answer, frame_length, frames, State};
use staff_board::Message;
use std::collections::BTreeSet;

// ---- what the accepted messages say: document 01, "Shut and open"

#[derive(Clone)]
struct History {
    set: BTreeSet<u32>,
    post: u32,
    registered: BTreeSet<u32>,
    owner: Option<u32>,
    friends: BTreeSet<(u32, u32)>,
    public: bool,
}

impl History {
    fn new(set: BTreeSet<u32>, post: u32) -> History {
        History {
            set,
            post,
            registered: BTreeSet::new(),
            owner: None,
            friends: BTreeSet::new(),
            public: false,
        }
    }

    fn accept(&mut self, message: &[u8]) {
        let number = |at: usize| u32::from_le_bytes(message[at..at + 4].try_into().expect("four bytes"));
        let (u, v) = (4, 16); // the offsets of U, and of V or N after the password
        match u16::from_le_bytes([message[2], message[3]]) {
            0x0101 => drop(self.registered.insert(number(u))),
            0x0202 => drop(self.registered.insert(number(v))),
            0x0203 if number(v) == self.post => self.owner = Some(number(u)),
            0x0205 => self.friends.extend([(number(u), number(v)), (number(v), number(u))]),
            0x0301 => self
                .friends
                .retain(|&pair| pair != (number(u), number(v)) && pair != (number(v), number(u))),
            0x0405 if number(v) == self.post => self.public = message[20] == 1,
            _ => {}
        }
    }

    /// No registered member of the set owns the post or is a friend of its owner, and the post is not public or nobody of the set is registered.
    fn is_closed(&self) -> bool {
        let mut members = self.set.intersection(&self.registered);
        let Some(owner) = self.owner else {
            return true;
        };
        !members.any(|&member| self.public || member == owner || self.friends.contains(&(owner, member)))
    }
}

// ---- pairs of journals

struct Journals {
    set: BTreeSet<u32>,
    post: u32,
    journals: [Vec<u8>; 2],
    openings: usize,
}

/// A message that changes the text of the post, by its owner.
fn update(state: &State, post: u32, text: &[u8]) -> Vec<u8> {
    let owner = state.user(state.post(post).expect("a post").owner).expect("its owner");
    carried(&Message::UTextPost {
        user: owner.number,
        password: owner.password,
        post,
        text,
    })
}

/// A message by which a registered member of the set asks for the text.
fn read(random: &mut Random, state: &State, set: &BTreeSet<u32>, post: u32) -> Option<Vec<u8>> {
    let members: Vec<u32> = state
        .users
        .iter()
        .map(|u| u.number)
        .filter(|n| set.contains(n))
        .collect();
    let member = state.user(random.pick(&members)?)?;
    Some(carried(&Message::RTextPost {
        user: member.number,
        password: member.password,
        post,
    }))
}

fn random_pair(random: &mut Random, length: usize) -> Journals {
    let post = random.below(NARROW.posts) as u32 + 1;
    let set: BTreeSet<u32> = (1..=NARROW.staff as u32).filter(|_| random.once_in(2)).collect();
    let mut history = History::new(set.clone(), post);
    let mut state = State::default();
    let mut journals = [Vec::new(), Vec::new()];
    // whether a journal has an update in this window
    let mut updated = false;
    let mut openings = 0;
    for _ in 0..length {
        if history.is_closed() && state.post(post).is_some() {
            for journal in &mut journals {
                while random.once_in(3) {
                    let text = random.string(256);
                    journal.extend(update(&state, post, &text));
                    updated = true;
                }
            }
        }
        let message = match random.below(6) {
            0 => any_message(random, &NARROW),
            1 => read(random, &state, &set, post).unwrap_or_else(|| any_message(random, &NARROW)),
            2 => damaged_frame(random, &state),
            _ => likely_message(random, &state, &NARROW),
        };
        let closed = history.is_closed();
        let common = message[2..4] == [3, 4] && message.get(16..20) == Some(&post.to_le_bytes()[..]);
        let accepted = state.clone().step(&message).is_ok();
        updated |= common && closed && accepted;
        let mut next = history.clone();
        if accepted {
            next.accept(&message);
        }
        if closed && !next.is_closed() {
            openings += 1;
            if updated {
                let text = random.string(256);
                let last = update(&state, post, &text);
                for journal in &mut journals {
                    journal.extend(&last);
                }
            }
        }
        if !next.is_closed() {
            updated = false;
        }
        for journal in &mut journals {
            journal.extend(&message);
        }
        let _ = state.step(&message);
        history = next;
    }
    // what a replay stops at with 3, or nothing
    let tail: &[u8] = [&[][..], &[5], &[1, 0, 5, 5], &[200, 0, 3, 4, 1]][random.below(4)];
    for journal in &mut journals {
        journal.extend(tail);
    }
    Journals {
        set,
        post,
        journals,
        openings,
    }
}

/// A damaged message that is still a whole frame: of an unknown kind, too short for a sender, or whatever it has become.
fn damaged_frame(random: &mut Random, state: &State) -> Vec<u8> {
    loop {
        let mut message = likely_message(random, state, &NARROW);
        damage(random, &mut message);
        if frame_length(&message) == Some(message.len()) {
            return message;
        }
    }
}

// ---- what a set sees

type Exchange = (Vec<u8>, Vec<u8>);

/// The messages of a journal with their answers, by the kernel.
fn by_kernel(journal: &[u8]) -> Vec<Exchange> {
    let mut board = vec![0; staff_board::BOARD_SIZE];
    let mut answers = vec![0; 518 * (1 + journal.len() / 4)];
    let replayed = staff_board::replay(journal, &mut board, &mut answers);
    assert_eq!(replayed.passed, frames(journal).map(<[u8]>::len).sum());
    let mut rest = &answers[..replayed.written];
    let exchanges = frames(journal).map(|message| {
        let (answer, later) = rest.split_at(2 + usize::from(u16::from_le_bytes([rest[0], rest[1]])));
        rest = later;
        (message.to_vec(), answer.to_vec())
    });
    exchanges.collect()
}

/// The same by the reference; a leaky one answers 9 instead of 10 where the text is not empty.
fn by_reference(journal: &[u8], is_leaky: bool) -> Vec<Exchange> {
    let mut state = State::default();
    let exchanges = frames(journal).map(|message| {
        let mut result = state.step(message);
        if is_leaky && result == Err(10) && message[2..4] == [5, 5] {
            let post = u32::from_le_bytes(message[16..20].try_into().expect("a post number"));
            if !state.post(post).expect("a post").text.is_empty() {
                result = Err(9);
            }
        }
        (message.to_vec(), answer(result).1)
    });
    exchanges.collect()
}

/// Those sent under numbers of the set: the first four bytes of the body.
fn observed(set: &BTreeSet<u32>, exchanges: Vec<Exchange>) -> Vec<Exchange> {
    let is_observer = |message: &[u8]| {
        message
            .get(4..8)
            .is_some_and(|u| set.contains(&u32::from_le_bytes(u.try_into().expect("four bytes"))))
    };
    exchanges
        .into_iter()
        .filter(|(message, _)| is_observer(message))
        .collect()
}

// ---- the tests

const PAIRS: usize = 1_000;
const LENGTH: usize = 120;

#[test]
fn sets_cannot_tell_journals_apart() {
    let random = &mut Random::new(3);
    let (mut different, mut openings, mut read) = (0, 0, 0);
    for _ in 0..PAIRS {
        let pair = random_pair(random, LENGTH);
        let [one, other] = pair
            .journals
            .each_ref()
            .map(|journal| observed(&pair.set, by_kernel(journal)));
        if let Some(i) = (0..one.len().max(other.len())).find(|&i| one.get(i) != other.get(i)) {
            panic!(
                "post {}, set {:?}: {:?} and {:?} in\n{:02x?}\n{:02x?}",
                pair.post,
                pair.set,
                one.get(i),
                other.get(i),
                pair.journals[0],
                pair.journals[1]
            );
        }
        different += usize::from(pair.journals[0] != pair.journals[1]);
        openings += pair.openings;
        let is_read = |(message, answer): &&Exchange| {
            message[2..4] == [5, 5] && message.get(16..20) == Some(&pair.post.to_le_bytes()[..]) && answer[2] == 0
        };
        read += one.iter().filter(is_read).count();
    }
    println!("{different} pairs of different journals, {openings} openings, {read} reads of the post by the set");
    assert!(different > 200 && openings > 200 && read > 200);
}

#[test]
fn a_leaky_copy_is_caught() {
    let random = &mut Random::new(3);
    let told_apart = |is_leaky: bool, pair: &Journals| {
        let [one, other] = pair
            .journals
            .each_ref()
            .map(|journal| observed(&pair.set, by_reference(journal, is_leaky)));
        one != other
    };
    let pairs: Vec<Journals> = (0..PAIRS).map(|_| random_pair(random, LENGTH)).collect();
    assert_eq!(pairs.iter().filter(|pair| told_apart(false, pair)).count(), 0);
    let caught = pairs.iter().filter(|pair| told_apart(true, pair)).count();
    println!("{caught} of {} pairs tell the leaky copy", pairs.len());
    assert!(caught > 20);
}
