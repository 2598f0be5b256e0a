//! Random messages, states and damage, from a fixed seed.
#![allow(dead_code)] // each test uses a part of it

use crate::reference::{fields, Field, Pending, Post, State, User, KINDS};
use staff_board::Message;

/// A small generator of random numbers (SplitMix64).
pub struct Random {
    state: u64,
}

impl Random {
    pub fn new(seed: u64) -> Random {
        Random { state: seed }
    }

    pub fn next(&mut self) -> u64 {
        self.state = self.state.wrapping_add(0x9e37_79b9_7f4a_7c15);
        let mut z = self.state;
        z = (z ^ (z >> 30)).wrapping_mul(0xbf58_476d_1ce4_e5b9);
        z = (z ^ (z >> 27)).wrapping_mul(0x94d0_49bb_1331_11eb);
        z ^ (z >> 31)
    }

    pub fn below(&mut self, limit: usize) -> usize {
        (self.next() % limit as u64) as usize
    }

    /// True once in so many calls.
    pub fn once_in(&mut self, n: usize) -> bool {
        self.below(n) == 0
    }

    pub fn pick<T: Copy>(&mut self, from: &[T]) -> Option<T> {
        if from.is_empty() {
            return None;
        }
        Some(from[self.below(from.len())])
    }

    pub fn bytes(&mut self, n: usize) -> Vec<u8> {
        (0..n).map(|_| self.next() as u8).collect()
    }

    /// Bytes of a string: often none or as many as its limit allows.
    pub fn string(&mut self, limit: usize) -> Vec<u8> {
        let n = match self.below(6) {
            0 => 0,
            1 => limit,
            _ => self.below(limit + 1),
        };
        self.bytes(n)
    }
}

/// The limits of the strings of a kind, which stand at its end.
pub fn string_limits(kind: u16) -> Vec<usize> {
    let limit = |field: &Field| match *field {
        Field::String(limit) => Some(limit),
        _ => None,
    };
    fields(kind).into_iter().flatten().filter_map(limit).collect()
}

/// Which numbers messages carry: staff and post numbers from 1 on, passwords from 0 on.
pub struct Range {
    pub staff: usize,
    pub posts: usize,
    pub passwords: usize,
}

/// Many users and posts, and passwords of all eight bytes.
pub const WIDE: Range = Range {
    staff: 60,
    posts: 90,
    passwords: usize::MAX,
};

/// Few of each, so that messages often name what is not there or is there already.
pub const NARROW: Range = Range {
    staff: 5,
    posts: 3,
    passwords: 2,
};

/// What a message is made of; a kind takes what its fields need.
pub struct Parts {
    pub kind: u16,
    pub user: u32,
    pub password: u64,
    pub colleague: u32,
    pub post: u32,
    pub new_password: u64,
}

/// A random message: its numbers from the range, whatever the state holds.
pub fn any_message(random: &mut Random, range: &Range) -> Vec<u8> {
    let parts = any_parts(random, range);
    frame(random, &parts)
}

/// A random message with a string that is a byte over its limit, or a visibility above 1; now and then it is still a good one.
pub fn unfit_message(random: &mut Random, range: &Range) -> Vec<u8> {
    let kind = [0x0201, 0x0203, 0x0204, 0x0401, 0x0402, 0x0403, 0x0405][random.below(7)];
    let parts = Parts {
        kind,
        ..any_parts(random, range)
    };
    // no frame carries it, so it is made by hand from one that has empty strings
    let limits = string_limits(kind);
    let mut frame = carried(&message(random, &parts, [&[], &[]]));
    if kind == 0x0405 {
        frame[20] += 2;
    }
    frame.truncate(frame.len() - 2 * limits.len());
    for limit in limits {
        let string = if random.once_in(2) {
            random.bytes(limit + 1)
        } else {
            random.string(limit)
        };
        frame.extend((string.len() as u16).to_le_bytes());
        frame.extend(string);
    }
    set_length(&mut frame);
    frame
}

pub fn any_parts(random: &mut Random, range: &Range) -> Parts {
    Parts {
        kind: KINDS[random.below(KINDS.len())],
        user: random.below(range.staff) as u32 + 1,
        password: random.below(range.passwords) as u64,
        colleague: random.below(range.staff) as u32 + 1,
        post: random.below(range.posts) as u32 + 1,
        new_password: random.below(range.passwords) as u64,
    }
}

/// A random message that the state mostly accepts.
pub fn likely_message(random: &mut Random, state: &State, range: &Range) -> Vec<u8> {
    let any = any_parts(random, range);
    if state.users.is_empty() {
        return frame(random, &Parts { kind: 0x0101, ..any });
    }
    let kind = likely_kind(random);
    let users: Vec<u32> = state.users.iter().map(|u| u.number).collect();
    let mut user = users[random.below(users.len())];
    if matches!(kind, 0x0202 | 0x0502 | 0x0601) && !random.once_in(8) {
        user = users[0];
    }
    if kind == 0x0201 {
        user = any.user;
    }
    // now and then a wrong password, which differs in one bit
    let password = match state.user(user) {
        Some(known) if random.once_in(40) => known.password ^ 1 << random.below(64),
        Some(known) => known.password,
        None => any.password,
    };
    let colleagues: Vec<u32> = match kind {
        0x0202 | 0x0502 => state.pending.iter().map(|p| p.number).collect(),
        0x0205 | 0x0509 => users.into_iter().filter(|&v| state.has_requested(v, user)).collect(),
        0x050a => users.into_iter().filter(|&v| state.has_requested(user, v)).collect(),
        0x0301 | 0x0606 => users.into_iter().filter(|&v| state.are_friends(user, v)).collect(),
        _ => users,
    };
    let owned = |post: &&Post| post.owner == user;
    let posts: Vec<u32> = match kind {
        0x0203 => Vec::new(),
        0x0402..=0x0405 => state.posts.iter().filter(owned).map(|p| p.number).collect(),
        _ => state.posts.iter().map(|p| p.number).collect(),
    };
    let parts = Parts {
        kind,
        user,
        password,
        colleague: random.pick(&colleagues).unwrap_or(any.colleague),
        post: random.pick(&posts).unwrap_or(any.post),
        new_password: any.new_password,
    };
    frame(random, &parts)
}

/// Kinds that fill the board come more often than those that read it.
fn likely_kind(random: &mut Random) -> u16 {
    if random.once_in(2) {
        return KINDS[random.below(KINDS.len())];
    }
    [0x0201, 0x0202, 0x0203, 0x0204, 0x0205, 0x0403][random.below(6)]
}

/// The frame of the parts, with random strings.
fn frame(random: &mut Random, parts: &Parts) -> Vec<u8> {
    let mut strings = string_limits(parts.kind).into_iter().map(|limit| random.string(limit));
    let strings = [(); 2].map(|()| strings.next().unwrap_or_default());
    carried(&message(random, parts, [&strings[0], &strings[1]]))
}

/// The frame of a message that one carries.
pub fn carried(message: &Message) -> Vec<u8> {
    message
        .to_vec()
        .unwrap_or_else(|refusal| panic!("{message:?}: {refusal}"))
}

/// The message of the parts, with these strings as far as its kind has any.
#[rustfmt::skip] // a line for each kind
pub fn message<'a>(random: &mut Random, parts: &Parts, [string, other]: [&'a [u8]; 2]) -> Message<'a> {
    let Parts { kind, user, password, colleague, post, new_password } = *parts;
    match kind {
        0x0101 => Message::StartSys { user, password },
        0x0201 => Message::CNUReq { user, note: string },
        0x0202 => Message::CUser { user, password, colleague, new_password },
        0x0203 => Message::CPost { user, password, post, title: string },
        0x0204 => Message::CFriendReq { user, password, colleague, note: string },
        0x0205 => Message::CFriend { user, password, colleague },
        0x0301 => Message::DFriend { user, password, colleague },
        0x0401 => Message::UUser { user, password, new_password, name: string, info: other },
        0x0402 => Message::UTitlePost { user, password, post, title: string },
        0x0403 => Message::UTextPost { user, password, post, text: string },
        0x0404 => Message::UImgPost { user, password, post, picture: random.next() as u32 },
        0x0405 => Message::UVisPost { user, password, post, visibility: random.below(2) as u8 },
        0x0501 => Message::RUser { user, password, colleague },
        0x0502 => Message::RNUReq { user, password, colleague },
        0x0503 => Message::RAmIAdmin { user, password },
        0x0504 => Message::RTitlePost { user, password, post },
        0x0505 => Message::RTextPost { user, password, post },
        0x0506 => Message::RImgPost { user, password, post },
        0x0507 => Message::RVisPost { user, password, post },
        0x0508 => Message::ROwnerPost { user, password, post },
        0x0509 => Message::RFriendReqToMe { user, password, colleague },
        0x050a => Message::RFriendReqFromMe { user, password, colleague },
        0x0601 => Message::LPendingUReqs { user, password },
        0x0602 => Message::LAllUsers { user, password },
        0x0603 => Message::LAllPosts { user, password },
        0x0604 => Message::LFriendReqs { user, password },
        0x0605 => Message::LFriends { user, password },
        0x0606 => Message::LFriendsOf { user, password, colleague },
        _ => panic!("{kind:04x} is no kind"),
    }
}

/// A message damaged in one of many ways; now and then it is still a good one.
pub fn damage(random: &mut Random, message: &mut Vec<u8>) {
    let place = random.below(message.len());
    match random.below(10) {
        // L, with the bytes as they are
        0 => message[0] = random.next() as u8,
        1 => message[1] = random.below(3) as u8,
        // the end cut off or bytes added, L left or set right
        2 => message.truncate(place),
        3 => message.extend_from_slice(&[0, 1, 2][..1 + place % 3]),
        4 => {
            message.truncate(place.max(4));
            set_length(message);
        }
        5 => {
            let more = random.below(260);
            message.extend(random.bytes(more));
            set_length(message);
        }
        // the kind
        6 => message[2] = random.next() as u8,
        7 => message[3] = random.below(8) as u8,
        // a number 0, or any byte
        8 => {
            let at = 4 + 4 * random.below(5);
            for byte in message.iter_mut().skip(at).take(4) {
                *byte = 0;
            }
        }
        _ => message[place] = random.next() as u8,
    }
}

fn set_length(message: &mut [u8]) {
    let length = (message.len() - 2) as u16;
    message[..2].copy_from_slice(&length.to_le_bytes());
}

/// A random sound state: numbers of any size, strings of any bytes, any owners.
pub fn any_state(random: &mut Random) -> State {
    let count = |random: &mut Random, limit: usize| match random.below(4) {
        0 => limit,
        _ => random.below(limit + 1),
    };
    let users = count(random, 31) + 1;
    let (posts, pending) = (count(random, 64), count(random, 16));
    let mut state = State::default();
    for i in 0..users {
        let number = number(random, i);
        let (password, name, info) = (random.next(), random.string(24), random.string(56));
        state.users.push(User {
            number,
            password,
            name,
            info,
        });
    }
    for i in 0..posts {
        let number = number(random, i);
        let owner = state.users[random.below(users)].number;
        let (picture, public) = (random.next() as u32, random.once_in(2));
        let (title, text) = (random.string(40), random.string(256));
        state.posts.push(Post {
            number,
            picture,
            owner,
            public,
            title,
            text,
        });
    }
    for i in 0..pending {
        let number = number(random, 64 + i);
        let note = random.string(24);
        state.pending.push(Pending { number, note });
    }
    let (friends, requests) = (1 + random.below(8), 1 + random.below(8));
    for i in 0..users {
        for j in 0..i {
            let (a, b) = (state.users[i].number, state.users[j].number);
            if random.once_in(friends) {
                state.friends.extend([(a, b), (b, a)]);
                continue;
            }
            for pair in [(a, b), (b, a)] {
                if random.once_in(requests) {
                    state.requests.insert(pair, random.string(24));
                }
            }
        }
    }
    state
}

/// A number that no other place below 128 gets, small or large.
fn number(random: &mut Random, place: usize) -> u32 {
    let low = place as u32 + 1;
    match random.below(3) {
        0 => low,
        1 => low << 24 | low,
        _ => 1 << 31 | low,
    }
}
