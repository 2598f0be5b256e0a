//! Documents 01 and 02 in plain safe Rust, to compare the kernel with, of which it has no line: structures and maps where the kernel has
//! bytes at offsets. A board is read and written from its first byte to its last, and a message field by field.
#![allow(dead_code)] // each test uses a part of it

use std::collections::{BTreeMap, BTreeSet};

pub const BOARD_SIZE: usize = 50_448;
pub const ANSWER_LIMIT: usize = 518;

const USERS: usize = 32;
const POSTS: usize = 64;
const PENDING: usize = 16;
const NAME: usize = 24;
const INFO: usize = 56;
const TITLE: usize = 40;
const TEXT: usize = 256;
const NOTE: usize = 24;

/// The number of a refusal.
pub type Number = u16;

#[derive(Clone, Debug, PartialEq, Eq)]
pub struct User {
    pub number: u32,
    pub password: u64,
    pub name: Vec<u8>,
    pub info: Vec<u8>,
}

#[derive(Clone, Debug, PartialEq, Eq)]
pub struct Post {
    pub number: u32,
    pub picture: u32,
    pub owner: u32,
    pub public: bool,
    pub title: Vec<u8>,
    pub text: Vec<u8>,
}

#[derive(Clone, Debug, PartialEq, Eq)]
pub struct Pending {
    pub number: u32,
    pub note: Vec<u8>,
}

/// What a sound board says. Users, posts and pending registrations stand in order; the first user is the admin.
#[derive(Clone, Debug, Default, PartialEq, Eq)]
pub struct State {
    pub users: Vec<User>,
    pub posts: Vec<Post>,
    pub pending: Vec<Pending>,
    /// Both (a, b) and (b, a) for each friendship.
    pub friends: BTreeSet<(u32, u32)>,
    /// From (the sender, the one asked) to the note.
    pub requests: BTreeMap<(u32, u32), Vec<u8>>,
}

// ---- bytes, one after the other

/// Takes what stands next, or nothing if it is not there whole.
struct Reader<'a> {
    rest: &'a [u8],
}

impl<'a> Reader<'a> {
    fn bytes(&mut self, n: usize) -> Option<&'a [u8]> {
        let (first, rest) = self.rest.split_at_checked(n)?;
        self.rest = rest;
        Some(first)
    }

    fn array<const N: usize>(&mut self) -> Option<[u8; N]> {
        self.bytes(N)?.try_into().ok()
    }

    fn u8(&mut self) -> Option<u8> {
        Some(self.array::<1>()?[0])
    }

    fn u16(&mut self) -> Option<u16> {
        self.array().map(u16::from_le_bytes)
    }

    fn u32(&mut self) -> Option<u32> {
        self.array().map(u32::from_le_bytes)
    }

    fn u64(&mut self) -> Option<u64> {
        self.array().map(u64::from_le_bytes)
    }

    fn zeros(&mut self, n: usize) -> Option<()> {
        all_zero(self.bytes(n)?).then_some(())
    }

    /// A staff or post number.
    fn id(&mut self) -> Option<u32> {
        self.u32().filter(|&n| n != 0)
    }

    /// A string of a message: its length and its bytes.
    fn string(&mut self, limit: usize) -> Option<&'a [u8]> {
        let n = usize::from(self.u16()?);
        if n > limit {
            return None;
        }
        self.bytes(n)
    }

    fn owned(&mut self, limit: usize) -> Option<Vec<u8>> {
        self.string(limit).map(<[u8]>::to_vec)
    }

    /// A string of the board: zeros follow up to its limit.
    fn padded(&mut self, limit: usize) -> Option<&'a [u8]> {
        let string = self.string(limit)?;
        self.zeros(limit - string.len())?;
        Some(string)
    }
}

/// All bytes are looked at, which is quicker than to stop at the first that is not 0.
fn all_zero(bytes: &[u8]) -> bool {
    bytes.iter().fold(0, |sum, byte| sum | byte) == 0
}

fn put_string(out: &mut Vec<u8>, string: &[u8]) {
    out.extend((string.len() as u16).to_le_bytes());
    out.extend(string);
}

fn put_padded(out: &mut Vec<u8>, limit: usize, string: &[u8]) {
    put_string(out, string);
    put_zeros(out, limit - string.len());
}

fn put_zeros(out: &mut Vec<u8>, n: usize) {
    out.resize(out.len() + n, 0);
}

fn string_body(string: &[u8]) -> Vec<u8> {
    let mut body = Vec::new();
    put_string(&mut body, string);
    body
}

/// A list: a two-byte count, then numbers.
fn list_body(count: usize, numbers: impl Iterator<Item = u32>) -> Vec<u8> {
    let mut body = (count as u16).to_le_bytes().to_vec();
    body.extend(numbers.flat_map(u32::to_le_bytes));
    body
}

/// A frame: L, the kind, the body.
pub fn frame(kind: u16, body: &[u8]) -> Vec<u8> {
    let mut out = (2 + body.len() as u16).to_le_bytes().to_vec();
    out.extend(kind.to_le_bytes());
    out.extend(body);
    out
}

// ---- the board

fn has_bit(row: u32, j: usize) -> bool {
    row >> j & 1 == 1
}

fn are_distinct(numbers: &[u32]) -> bool {
    (0..numbers.len()).all(|i| !numbers[..i].contains(&numbers[i]))
}

/// Whether a board is sound.
pub fn is_sound(board: &[u8]) -> bool {
    board.len() == BOARD_SIZE && read_sound(board).is_some_and(|held| held)
}

/// Reads a board to its end, or nothing where a byte is not as it must be; then what must hold of numbers and rows.
fn read_sound(board: &[u8]) -> Option<bool> {
    let mut r = Reader { rest: board };
    let (n, m, k) = (usize::from(r.u16()?), usize::from(r.u16()?), usize::from(r.u16()?));
    if n == 0 {
        return Some(all_zero(board));
    }
    if n > USERS || m > POSTS || k > PENDING {
        return None;
    }
    r.zeros(10)?;
    // users and, after them, pending registrations
    let mut staff = [0; USERS + PENDING];
    let (mut friends, mut requests) = ([0; USERS], [0; USERS]);
    for i in 0..n {
        staff[i] = r.id()?;
        r.u64()?;
        friends[i] = r.u32()?;
        requests[i] = r.u32()?;
        r.padded(NAME)?;
        r.padded(INFO)?;
    }
    r.zeros(104 * (USERS - n))?;
    let mut posts = [0; POSTS];
    for post in &mut posts[..m] {
        *post = r.id()?;
        r.u32()?;
        let (owner, visibility) = (usize::from(r.u16()?), r.u16()?);
        if owner >= n || visibility > 1 {
            return None;
        }
        r.padded(TITLE)?;
        r.padded(TEXT)?;
    }
    r.zeros(312 * (POSTS - m))?;
    for number in &mut staff[n..n + k] {
        *number = r.id()?;
        r.padded(NOTE)?;
        r.zeros(2)?;
    }
    r.zeros(32 * (PENDING - k))?;
    for row in requests {
        for from in 0..USERS {
            if !r.padded(NOTE)?.is_empty() && !has_bit(row, from) {
                return None;
            }
        }
    }
    let row_fits = |i: usize, row: u32| !has_bit(row, i) && (n..USERS).all(|j| !has_bit(row, j));
    let rows_fit = (0..n).all(|i| row_fits(i, friends[i]) && row_fits(i, requests[i]));
    let symmetric = (0..n).all(|i| (0..n).all(|j| has_bit(friends[i], j) == has_bit(friends[j], i)));
    let apart = (0..n).all(|i| friends[i] & requests[i] == 0);
    Some(rows_fit && symmetric && apart && are_distinct(&staff[..n + k]) && are_distinct(&posts[..m]))
}

impl State {
    /// The board that holds this state.
    pub fn board(&self) -> Vec<u8> {
        let mut out = Vec::with_capacity(BOARD_SIZE);
        for count in [self.users.len(), self.posts.len(), self.pending.len()] {
            out.extend((count as u16).to_le_bytes());
        }
        put_zeros(&mut out, 10);
        for user in &self.users {
            out.extend(user.number.to_le_bytes());
            out.extend(user.password.to_le_bytes());
            out.extend(self.row(|other| self.are_friends(user.number, other)).to_le_bytes());
            out.extend(self.row(|other| self.has_requested(other, user.number)).to_le_bytes());
            put_padded(&mut out, NAME, &user.name);
            put_padded(&mut out, INFO, &user.info);
        }
        put_zeros(&mut out, 104 * (USERS - self.users.len()));
        for post in &self.posts {
            out.extend(post.number.to_le_bytes());
            out.extend(post.picture.to_le_bytes());
            out.extend((self.slot(post.owner) as u16).to_le_bytes());
            out.extend(u16::from(post.public).to_le_bytes());
            put_padded(&mut out, TITLE, &post.title);
            put_padded(&mut out, TEXT, &post.text);
        }
        put_zeros(&mut out, 312 * (POSTS - self.posts.len()));
        for pending in &self.pending {
            out.extend(pending.number.to_le_bytes());
            put_padded(&mut out, NOTE, &pending.note);
            put_zeros(&mut out, 2);
        }
        put_zeros(&mut out, 32 * (PENDING - self.pending.len()));
        for to in 0..USERS {
            for from in 0..USERS {
                let note = match (self.users.get(from), self.users.get(to)) {
                    (Some(from), Some(to)) => self.requests.get(&(from.number, to.number)),
                    _ => None,
                };
                put_padded(&mut out, NOTE, note.map_or(&[], Vec::as_slice));
            }
        }
        out
    }

    /// What a board says, or nothing if it is not sound.
    pub fn of_board(board: &[u8]) -> Option<State> {
        if !is_sound(board) {
            return None;
        }
        State::read(&mut Reader { rest: board })
    }

    /// Of a sound board.
    fn read(r: &mut Reader) -> Option<State> {
        let mut state = State::default();
        let (n, m, k) = (usize::from(r.u16()?), usize::from(r.u16()?), usize::from(r.u16()?));
        r.bytes(10)?;
        let (mut friend_rows, mut request_rows) = (Vec::new(), Vec::new());
        for _ in 0..n {
            let (number, password) = (r.u32()?, r.u64()?);
            friend_rows.push(r.u32()?);
            request_rows.push(r.u32()?);
            let (name, info) = (r.padded(NAME)?.to_vec(), r.padded(INFO)?.to_vec());
            state.users.push(User {
                number,
                password,
                name,
                info,
            });
        }
        r.bytes(104 * (USERS - n))?;
        for _ in 0..m {
            let (number, picture) = (r.u32()?, r.u32()?);
            let owner = state.users[usize::from(r.u16()?)].number;
            let public = r.u16()? == 1;
            let (title, text) = (r.padded(TITLE)?.to_vec(), r.padded(TEXT)?.to_vec());
            state.posts.push(Post {
                number,
                picture,
                owner,
                public,
                title,
                text,
            });
        }
        r.bytes(312 * (POSTS - m))?;
        for _ in 0..k {
            let (number, note) = (r.u32()?, r.padded(NOTE)?.to_vec());
            r.bytes(2)?;
            state.pending.push(Pending { number, note });
        }
        r.bytes(32 * (PENDING - k))?;
        let numbers: Vec<u32> = state.users.iter().map(|u| u.number).collect();
        for to in 0..USERS {
            for from in 0..USERS {
                let note = r.padded(NOTE)?;
                if to < n && has_bit(request_rows[to], from) {
                    state.requests.insert((numbers[from], numbers[to]), note.to_vec());
                }
            }
        }
        for (i, row) in friend_rows.into_iter().enumerate() {
            state
                .friends
                .extend((0..n).filter(|&j| has_bit(row, j)).map(|j| (numbers[i], numbers[j])));
        }
        Some(state)
    }

    fn row(&self, has: impl Fn(u32) -> bool) -> u32 {
        self.users
            .iter()
            .enumerate()
            .filter(|(_, u)| has(u.number))
            .map(|(j, _)| 1 << j)
            .sum()
    }

    fn slot(&self, number: u32) -> usize {
        self.users
            .iter()
            .position(|u| u.number == number)
            .expect("an owner is registered")
    }

    // ---- questions

    pub fn user(&self, number: u32) -> Option<&User> {
        self.users.iter().find(|u| u.number == number)
    }

    pub fn post(&self, number: u32) -> Option<&Post> {
        self.posts.iter().find(|p| p.number == number)
    }

    pub fn is_admin(&self, number: u32) -> bool {
        self.users.first().is_some_and(|u| u.number == number)
    }

    pub fn are_friends(&self, a: u32, b: u32) -> bool {
        self.friends.contains(&(a, b))
    }

    pub fn has_requested(&self, from: u32, to: u32) -> bool {
        self.requests.contains_key(&(from, to))
    }

    fn may_read(&self, reader: u32, post: &Post) -> bool {
        post.public || post.owner == reader || self.are_friends(post.owner, reader)
    }

    fn listed(&self, has: impl Fn(u32) -> bool) -> Vec<u8> {
        let numbers: Vec<u32> = self.users.iter().map(|u| u.number).filter(|&n| has(n)).collect();
        list_body(numbers.len(), numbers.into_iter())
    }

    fn readable_post(&self, u: u32, n: u32) -> Result<&Post, Number> {
        let post = self.post(n).ok_or(9u16)?;
        if self.may_read(u, post) {
            Ok(post)
        } else {
            Err(10)
        }
    }

    fn own_post(&mut self, u: u32, n: u32) -> Result<&mut Post, Number> {
        let post = self.posts.iter_mut().find(|p| p.number == n).ok_or(9u16)?;
        if post.owner == u {
            Ok(post)
        } else {
            Err(10)
        }
    }

    fn needs_user(&self, v: u32) -> Result<&User, Number> {
        self.user(v).ok_or(9u16)
    }

    fn needs_admin(&self, u: u32) -> Result<(), Number> {
        if self.is_admin(u) {
            Ok(())
        } else {
            Err(8)
        }
    }

    fn needs_pending(&self, v: u32) -> Result<usize, Number> {
        self.pending.iter().position(|p| p.number == v).ok_or(9u16)
    }

    // ---- the step

    /// The body of the answer to a message, or its refusal; a refused message changes nothing.
    pub fn step(&mut self, message: &[u8]) -> Result<Vec<u8>, Number> {
        let (kind, body) = split(message)?;
        match decode(kind, body)? {
            Action::Start(u, password) => {
                if !self.users.is_empty() {
                    return Err(6);
                }
                self.register(u, password);
                Ok(Vec::new())
            }
            Action::Ask(u, note) => self.ask(u, note),
            Action::By(u, password, request) => {
                match self.user(u) {
                    Some(user) if user.password == password => {}
                    _ => return Err(7),
                }
                match request {
                    Request::Change(change) => self.change(u, change).map(|()| Vec::new()),
                    Request::Query(query) => self.query(u, query),
                }
            }
        }
    }

    fn register(&mut self, number: u32, password: u64) {
        self.users.push(User {
            number,
            password,
            name: Vec::new(),
            info: Vec::new(),
        });
    }

    fn ask(&mut self, u: u32, note: Vec<u8>) -> Result<Vec<u8>, Number> {
        if self.users.is_empty() {
            return Err(6);
        }
        if self.user(u).is_some() || self.needs_pending(u).is_ok() {
            return Err(11);
        }
        if self.pending.len() == PENDING {
            return Err(12);
        }
        self.pending.push(Pending { number: u, note });
        Ok(Vec::new())
    }

    fn change(&mut self, u: u32, change: Change) -> Result<(), Number> {
        match change {
            Change::Register(v, password) => {
                self.needs_admin(u)?;
                let place = self.needs_pending(v)?;
                if self.users.len() == USERS {
                    return Err(12);
                }
                self.pending.remove(place);
                self.register(v, password);
            }
            Change::NewPost(number, title) => {
                if self.post(number).is_some() {
                    return Err(11);
                }
                if self.posts.len() == POSTS {
                    return Err(12);
                }
                self.posts.push(Post {
                    number,
                    picture: 0,
                    owner: u,
                    public: false,
                    title,
                    text: Vec::new(),
                });
            }
            Change::RequestFriend(v, note) => {
                self.needs_user(v)?;
                if v == u || self.are_friends(u, v) || self.has_requested(u, v) {
                    return Err(11);
                }
                self.requests.insert((u, v), note);
            }
            Change::Accept(v) => {
                self.needs_user(v)?;
                if !self.has_requested(v, u) {
                    return Err(9);
                }
                self.requests.remove(&(v, u));
                self.requests.remove(&(u, v));
                self.friends.extend([(u, v), (v, u)]);
            }
            Change::EndFriendship(v) => {
                self.needs_user(v)?;
                if !self.are_friends(u, v) {
                    return Err(9);
                }
                self.friends.remove(&(u, v));
                self.friends.remove(&(v, u));
            }
            Change::Profile(password, name, info) => {
                let user = self
                    .users
                    .iter_mut()
                    .find(|x| x.number == u)
                    .expect("the sender is registered");
                (user.password, user.name, user.info) = (password, name, info);
            }
            Change::Title(n, title) => self.own_post(u, n)?.title = title,
            Change::Text(n, text) => self.own_post(u, n)?.text = text,
            Change::Picture(n, picture) => self.own_post(u, n)?.picture = picture,
            Change::Visibility(n, public) => self.own_post(u, n)?.public = public,
        }
        Ok(())
    }

    fn query(&self, u: u32, query: Query) -> Result<Vec<u8>, Number> {
        Ok(match query {
            Query::User(v) => {
                let user = self.needs_user(v)?;
                let mut body = string_body(&user.name);
                put_string(&mut body, &user.info);
                body
            }
            Query::PendingNote(v) => {
                self.needs_admin(u)?;
                string_body(&self.pending[self.needs_pending(v)?].note)
            }
            Query::AmIAdmin => vec![u8::from(self.is_admin(u))],
            Query::Title(n) => string_body(&self.readable_post(u, n)?.title),
            Query::Text(n) => string_body(&self.readable_post(u, n)?.text),
            Query::Picture(n) => self.readable_post(u, n)?.picture.to_le_bytes().to_vec(),
            Query::Visibility(n) => vec![u8::from(self.readable_post(u, n)?.public)],
            Query::Owner(n) => self.post(n).ok_or(9u16)?.owner.to_le_bytes().to_vec(),
            Query::NoteToMe(v) => {
                self.needs_user(v)?;
                string_body(self.requests.get(&(v, u)).ok_or(9u16)?)
            }
            Query::NoteFromMe(v) => {
                self.needs_user(v)?;
                string_body(self.requests.get(&(u, v)).ok_or(9u16)?)
            }
            Query::AllPending => {
                self.needs_admin(u)?;
                list_body(self.pending.len(), self.pending.iter().map(|p| p.number))
            }
            Query::AllUsers => self.listed(|_| true),
            Query::AllPosts => list_body(self.posts.len(), self.posts.iter().flat_map(|p| [p.number, p.owner])),
            Query::Requests => self.listed(|v| self.has_requested(v, u)),
            Query::Friends => self.listed(|v| self.are_friends(u, v)),
            Query::FriendsOf(v) => {
                self.needs_user(v)?;
                if v != u && !self.are_friends(u, v) {
                    return Err(10);
                }
                self.listed(|w| self.are_friends(v, w))
            }
        })
    }
}

// ---- messages

enum Action {
    Start(u32, u64),
    Ask(u32, Vec<u8>),
    By(u32, u64, Request),
}

enum Request {
    Change(Change),
    Query(Query),
}

enum Change {
    Register(u32, u64),
    NewPost(u32, Vec<u8>),
    RequestFriend(u32, Vec<u8>),
    Accept(u32),
    EndFriendship(u32),
    Profile(u64, Vec<u8>, Vec<u8>),
    Title(u32, Vec<u8>),
    Text(u32, Vec<u8>),
    Picture(u32, u32),
    Visibility(u32, bool),
}

enum Query {
    User(u32),
    PendingNote(u32),
    AmIAdmin,
    Title(u32),
    Text(u32),
    Picture(u32),
    Visibility(u32),
    Owner(u32),
    NoteToMe(u32),
    NoteFromMe(u32),
    AllPending,
    AllUsers,
    AllPosts,
    Requests,
    Friends,
    FriendsOf(u32),
}

/// The length of the whole frame that stands first, if one does: its head is there, L is 2 to 276 and does not reach past the end.
pub fn frame_length(bytes: &[u8]) -> Option<usize> {
    let mut r = Reader { rest: bytes };
    let length = usize::from(r.u16()?);
    r.u16()?;
    ((2..=276).contains(&length) && 2 + length <= bytes.len()).then_some(2 + length)
}

/// The whole frames of a journal, one after the other; it ends before one that is cut.
pub fn frames(journal: &[u8]) -> impl Iterator<Item = &[u8]> {
    let mut rest = journal;
    std::iter::from_fn(move || {
        let (first, later) = rest.split_at(frame_length(rest)?);
        rest = later;
        Some(first)
    })
}

fn split(message: &[u8]) -> Result<(u16, &[u8]), Number> {
    if frame_length(message) != Some(message.len()) {
        return Err(3);
    }
    let mut r = Reader { rest: message };
    let (_, kind) = (r.u16(), r.u16());
    Ok((kind.ok_or(3u16)?, r.rest))
}

fn decode(kind: u16, body: &[u8]) -> Result<Action, Number> {
    if !KINDS.contains(&kind) {
        return Err(4);
    }
    let mut r = Reader { rest: body };
    match action(kind, &mut r) {
        Some(action) if r.rest.is_empty() => Ok(action),
        _ => Err(5),
    }
}

/// The kinds of document 01.
pub const KINDS: [u16; 28] = [
    0x0101, 0x0201, 0x0202, 0x0203, 0x0204, 0x0205, 0x0301, 0x0401, 0x0402, 0x0403, 0x0404, 0x0405, 0x0501, 0x0502,
    0x0503, 0x0504, 0x0505, 0x0506, 0x0507, 0x0508, 0x0509, 0x050a, 0x0601, 0x0602, 0x0603, 0x0604, 0x0605, 0x0606,
];

fn action(kind: u16, r: &mut Reader) -> Option<Action> {
    let u = r.id()?;
    if kind == 0x0201 {
        return Some(Action::Ask(u, r.owned(NOTE)?));
    }
    let password = r.u64()?;
    if kind == 0x0101 {
        return Some(Action::Start(u, password));
    }
    let request = if kind < 0x0500 {
        Request::Change(change(kind, r)?)
    } else {
        Request::Query(query(kind, r)?)
    };
    Some(Action::By(u, password, request))
}

fn change(kind: u16, r: &mut Reader) -> Option<Change> {
    Some(match kind {
        0x0202 => Change::Register(r.id()?, r.u64()?),
        0x0203 => Change::NewPost(r.id()?, r.owned(TITLE)?),
        0x0204 => Change::RequestFriend(r.id()?, r.owned(NOTE)?),
        0x0205 => Change::Accept(r.id()?),
        0x0301 => Change::EndFriendship(r.id()?),
        0x0401 => Change::Profile(r.u64()?, r.owned(NAME)?, r.owned(INFO)?),
        0x0402 => Change::Title(r.id()?, r.owned(TITLE)?),
        0x0403 => Change::Text(r.id()?, r.owned(TEXT)?),
        0x0404 => Change::Picture(r.id()?, r.u32()?),
        0x0405 => Change::Visibility(
            r.id()?,
            match r.u8()? {
                0 => false,
                1 => true,
                _ => return None,
            },
        ),
        _ => return None,
    })
}

fn query(kind: u16, r: &mut Reader) -> Option<Query> {
    Some(match kind {
        0x0501 => Query::User(r.id()?),
        0x0502 => Query::PendingNote(r.id()?),
        0x0503 => Query::AmIAdmin,
        0x0504 => Query::Title(r.id()?),
        0x0505 => Query::Text(r.id()?),
        0x0506 => Query::Picture(r.id()?),
        0x0507 => Query::Visibility(r.id()?),
        0x0508 => Query::Owner(r.id()?),
        0x0509 => Query::NoteToMe(r.id()?),
        0x050a => Query::NoteFromMe(r.id()?),
        0x0601 => Query::AllPending,
        0x0602 => Query::AllUsers,
        0x0603 => Query::AllPosts,
        0x0604 => Query::Requests,
        0x0605 => Query::Friends,
        0x0606 => Query::FriendsOf(r.id()?),
        _ => return None,
    })
}

// ---- messages as values

/// A field of a message. A number is one value, a string two: its start and its length.
#[derive(Clone, Copy, Debug, PartialEq, Eq)]
pub enum Field {
    /// A staff or post number.
    Id,
    Password,
    Picture,
    Visibility,
    /// With its limit.
    String(usize),
}

/// The fields of a kind of document 01, in their order.
pub fn fields(kind: u16) -> Option<&'static [Field]> {
    use Field::*;
    Some(match kind {
        0x0101 | 0x0503 | 0x0601..=0x0605 => &[Id, Password],
        0x0201 => &[Id, String(NOTE)],
        0x0202 => &[Id, Password, Id, Password],
        0x0203 | 0x0402 => &[Id, Password, Id, String(TITLE)],
        0x0204 => &[Id, Password, Id, String(NOTE)],
        0x0205 | 0x0301 | 0x0501 | 0x0502 | 0x0504..=0x050a | 0x0606 => &[Id, Password, Id],
        0x0401 => &[Id, Password, Password, String(NAME), String(INFO)],
        0x0403 => &[Id, Password, Id, String(TEXT)],
        0x0404 => &[Id, Password, Id, Picture],
        0x0405 => &[Id, Password, Id, Visibility],
        _ => return None,
    })
}

/// The frame that carries a message, if one does.
fn carried(kind: u32, values: &[u64], lent: &[u8]) -> Option<Vec<u8>> {
    let kind = u16::try_from(kind).ok()?;
    let mut values = values.iter().copied();
    let mut body = Vec::new();
    for field in fields(kind)? {
        let value = values.next()?;
        match *field {
            Field::Id => body.extend(u32::try_from(value).ok().filter(|&n| n != 0)?.to_le_bytes()),
            Field::Password => body.extend(value.to_le_bytes()),
            Field::Picture => body.extend(u32::try_from(value).ok()?.to_le_bytes()),
            Field::Visibility => body.push(u8::try_from(value).ok().filter(|&v| v <= 1)?),
            Field::String(limit) => {
                let (start, length) = (usize::try_from(value).ok()?, usize::try_from(values.next()?).ok()?);
                let string = lent.get(start..start.checked_add(length)?)?;
                if length > limit {
                    return None;
                }
                put_string(&mut body, string);
            }
        }
    }
    values.next().is_none().then(|| frame(kind, &body))
}

/// A message into a buffer: the number and the bytes written.
pub fn write(kind: u32, values: &[u64], lent: &[u8], out: &mut [u8]) -> (Number, usize) {
    let Some(frame) = carried(kind, values, lent) else {
        return (5, 0);
    };
    if out.len() < frame.len() {
        return (13, 0);
    }
    out[..frame.len()].copy_from_slice(&frame);
    (0, frame.len())
}

/// The values of a message into a slice of them: the number and the count of values written.
pub fn read(message: &[u8], out: &mut [u64]) -> (Number, usize) {
    let values = match values_of(message) {
        Ok(values) => values,
        Err(number) => return (number, 0),
    };
    if out.len() < values.len() {
        return (13, 0);
    }
    out[..values.len()].copy_from_slice(&values);
    (0, values.len())
}

fn values_of(message: &[u8]) -> Result<Vec<u64>, Number> {
    let (kind, body) = split(message)?;
    decode(kind, body)?;
    values_in(kind, body).ok_or(5)
}

/// Of a body that fits the fields of its kind.
fn values_in(kind: u16, body: &[u8]) -> Option<Vec<u64>> {
    let mut r = Reader { rest: body };
    let mut values = Vec::new();
    for field in fields(kind)? {
        match *field {
            Field::Id | Field::Picture => values.push(r.u32()?.into()),
            Field::Password => values.push(r.u64()?),
            Field::Visibility => values.push(r.u8()?.into()),
            Field::String(limit) => {
                let string = r.string(limit)?;
                let start = body.len() - r.rest.len() - string.len();
                values.extend([start as u64, string.len() as u64]);
            }
        }
    }
    Some(values)
}

// ---- on bytes

/// The answer's frame for what `State::step` gave, with its number.
pub fn answer(result: Result<Vec<u8>, Number>) -> (Number, Vec<u8>) {
    match result {
        Ok(body) => (0, frame(0, &body)),
        Err(number) => (number, frame(number, &[])),
    }
}

/// One message on a board of bytes: the number and the bytes written.
pub fn step(message: &[u8], board: &mut [u8], out: &mut [u8]) -> (Number, usize) {
    let Some(mut state) = State::of_board(board) else {
        return (1, 0);
    };
    if out.len() < ANSWER_LIMIT {
        return (2, 0);
    }
    let (number, frame) = answer(state.step(message));
    if number == 0 {
        board.copy_from_slice(&state.board());
    }
    out[..frame.len()].copy_from_slice(&frame);
    (number, frame.len())
}

/// The number of the stop, messages done, journal bytes passed, answer bytes written.
pub type Replayed = (u32, usize, usize, usize);

/// A journal on a board of bytes.
pub fn replay(journal: &[u8], board: &mut [u8], out: &mut [u8]) -> Replayed {
    let Some(mut state) = State::of_board(board) else {
        return (1, 0, 0, 0);
    };
    let (mut messages, mut passed, mut written) = (0, 0, 0);
    let stop = loop {
        let rest = &journal[passed..];
        if rest.is_empty() {
            break 0;
        }
        if out.len() - written < ANSWER_LIMIT {
            break 2;
        }
        let Some(n) = frame_length(rest) else {
            break 3;
        };
        let (_, frame) = answer(state.step(&rest[..n]));
        out[written..written + frame.len()].copy_from_slice(&frame);
        messages += 1;
        passed += n;
        written += frame.len();
    };
    board.copy_from_slice(&state.board());
    (stop, messages, passed, written)
}
