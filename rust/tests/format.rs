//! docs/FORMAT.md: its tables are read as text, and each row is tried on the kernel. Kinds, fields and limits go through `read`, refusals through the
//! journals of `crates/journals/data` and single steps, offsets through boards that messages have made.
#![cfg(feature = "alloc")] // for Message::to_vec

use staff_board::{
    answers, is_sound, messages, read, replay, step, Message, Outcome, Refusal, Stop, ANSWER_LIMIT, BOARD_SIZE,
    VALUES_LIMIT,
};
use std::collections::{BTreeMap, BTreeSet};
use std::path::{Path, PathBuf};

fn top() -> PathBuf {
    Path::new(env!("CARGO_MANIFEST_DIR")).join("..")
}

fn page() -> String {
    std::fs::read_to_string(top().join("docs/FORMAT.md")).expect("the page")
}

// ---- tables

/// The cells of a line of a table.
fn cells(line: &str) -> Vec<String> {
    let line = line.trim().trim_start_matches('|').trim_end_matches('|');
    line.split('|').map(|cell| cell.trim().to_owned()).collect()
}

/// The rows of each table whose head is this, without head and rule.
fn tables(head: &str) -> Vec<Vec<Vec<String>>> {
    let page = page();
    let lines: Vec<&str> = page.lines().collect();
    let starts = (0..lines.len()).filter(|&i| lines[i] == head);
    let rows = |start: usize| lines[start + 2..].iter().take_while(|line| line.starts_with('|'));
    let found: Vec<_> = starts
        .map(|start| rows(start).map(|line| cells(line)).collect())
        .collect();
    assert!(!found.is_empty(), "no table {head}");
    found
}

/// The rows of the only table with this head.
fn table(head: &str) -> Vec<Vec<String>> {
    let mut tables = tables(head);
    assert_eq!(tables.len(), 1, "{head}");
    tables.remove(0)
}

fn number<T: std::str::FromStr>(cell: &str) -> T {
    cell.parse().unwrap_or_else(|_| panic!("{cell} is no number"))
}

/// "1 to 5", as two numbers.
fn range(cell: &str) -> (u64, u64) {
    let (least, greatest) = cell.split_once(" to ").expect("a range");
    (number(least), number(greatest))
}

fn hexadecimal(cell: &str) -> u16 {
    u16::from_str_radix(cell, 16).unwrap_or_else(|_| panic!("{cell} is no kind"))
}

// ---- kinds, fields and limits

#[derive(Clone, Copy, Debug, PartialEq)]
enum Field {
    Number { width: usize, least: u64, greatest: u64 },
    String { limit: usize },
}

/// Which of the values that a field may have.
#[derive(Clone, Copy)]
enum End {
    Least,
    Greatest,
}

impl Field {
    fn from_cells(bytes: &str, values: &str) -> Field {
        if bytes == "string" {
            let limit = values
                .strip_prefix("up to ")
                .and_then(|rest| rest.strip_suffix(" bytes"));
            return Field::String {
                limit: number(limit.expect("a limit")),
            };
        }
        let (least, greatest) = range(values);
        Field::Number {
            width: number(bytes),
            least,
            greatest,
        }
    }

    /// A number or the length of a string, at an end of what is allowed.
    fn end(self, end: End) -> u64 {
        match (self, end) {
            (Field::Number { least, .. }, End::Least) => least,
            (Field::Number { greatest, .. }, End::Greatest) => greatest,
            (Field::String { .. }, End::Least) => 0,
            (Field::String { limit }, End::Greatest) => limit as u64,
        }
    }

    /// The bytes of a number, or of a string of this length.
    fn bytes(self, value: u64) -> Vec<u8> {
        match self {
            Field::Number { width, .. } => value.to_le_bytes()[..width].to_vec(),
            Field::String { .. } => [&(value as u16).to_le_bytes()[..], &vec![b'x'; value as usize]].concat(),
        }
    }

    /// What lies just outside and still has a form in the field's bytes.
    fn outside(self) -> Vec<u64> {
        match self {
            Field::String { limit } => vec![limit as u64 + 1],
            Field::Number { width, least, greatest } => {
                let widest = u64::MAX >> (64 - 8 * width);
                let below = least.checked_sub(1);
                let above = (greatest < widest).then(|| greatest + 1);
                below.into_iter().chain(above).collect()
            }
        }
    }
}

fn fields_by_name() -> BTreeMap<String, Field> {
    let rows = table("| Field | Bytes | Values | Meaning |").into_iter();
    rows.map(|row| (row[0].clone(), Field::from_cells(&row[1], &row[2])))
        .collect()
}

struct Kind {
    kind: u16,
    name: String,
    fields: Vec<Field>,
}

const KINDS: &str = "| Kind | Name | Fields | Who may | What it changes | Body of the answer |";

fn kinds() -> Vec<Kind> {
    let fields = fields_by_name();
    let rows = table(KINDS).into_iter();
    rows.map(|row| Kind {
        kind: hexadecimal(&row[0]),
        name: row[1].clone(),
        fields: row[2].split(' ').map(|name| fields[name]).collect(),
    })
    .collect()
}

/// L, the kind and the body.
fn frame(kind: u16, body: &[u8]) -> Vec<u8> {
    let length = body.len() as u16 + 2;
    [&length.to_le_bytes()[..], &kind.to_le_bytes(), body].concat()
}

fn body(fields: &[Field], values: &[u64]) -> Vec<u8> {
    fields
        .iter()
        .zip(values)
        .flat_map(|(field, &value)| field.bytes(value))
        .collect()
}

/// The number that the kernel gives to a message, and its values.
fn content(message: &[u8]) -> (u16, Vec<u64>) {
    let mut values = [0; VALUES_LIMIT];
    let Outcome { number, written } = read(message, &mut values);
    (number, values[..written].to_vec())
}

/// The greatest L of a message and of an answer, from the tables of their frames.
fn greatest_lengths() -> [usize; 2] {
    let frames = tables("| Offset | Bytes | Content |");
    assert_eq!(frames.len(), 2);
    [0, 1].map(|i| {
        let (_, after) = frames[i][0][2].split_once(": ").expect("the range of L");
        let (least, greatest) = range(after);
        assert_eq!(least, 2);
        greatest as usize
    })
}

fn greatest_length() -> usize {
    greatest_lengths()[0]
}

/// A message whose body is not its fields: 5, or 3 where its L is too great.
fn is_refused(kind: u16, body: &[u8], greatest: usize) {
    let expected = if body.len() + 2 > greatest { 3 } else { 5 };
    assert_eq!(content(&frame(kind, body)), (expected, vec![]), "{kind:04x} {body:?}");
}

#[test]
fn kinds_have_the_fields_of_the_table() {
    let mut at_the_greatest = 0;
    for Kind { kind, name, fields } in kinds() {
        for end in [End::Least, End::Greatest] {
            let values: Vec<u64> = fields.iter().map(|field| field.end(end)).collect();
            let body = body(&fields, &values);
            let mut expected = Vec::new();
            let mut offset = 0;
            for (field, &value) in fields.iter().zip(&values) {
                if let Field::String { .. } = field {
                    expected.push(offset as u64 + 2);
                }
                expected.push(value);
                offset += field.bytes(value).len();
            }
            let frame = frame(kind, &body);
            assert_eq!(content(&frame), (0, expected), "{kind:04x}");
            let message = format!("{:?}", Message::read(&frame).expect("a message"));
            assert!(message.starts_with(&format!("{name} {{")), "{message} is not {name}");
            at_the_greatest = at_the_greatest.max(frame.len() - 2);
        }
    }
    assert_eq!(at_the_greatest, greatest_length());
}

#[test]
fn nothing_outside_the_limits_is_read() {
    let greatest = greatest_length();
    for Kind { kind, fields, .. } in kinds() {
        let least: Vec<u64> = fields.iter().map(|field| field.end(End::Least)).collect();
        for (i, field) in fields.iter().enumerate() {
            for outside in field.outside() {
                let mut values = least.clone();
                values[i] = outside;
                is_refused(kind, &body(&fields, &values), greatest);
            }
        }
        let whole = body(&fields, &least);
        for length in 0..whole.len() {
            is_refused(kind, &whole[..length], greatest);
        }
        is_refused(kind, &[&whole[..], &[0]].concat(), greatest);
    }
}

/// A text of its limit and one more is too long for a frame; a stated length of that in a frame of the greatest L is refused for its body.
#[test]
fn a_stated_length_over_the_limit_is_refused() {
    let greatest = greatest_length();
    for Kind { kind, fields, .. } in kinds() {
        let Some(&Field::String { limit }) = fields.last() else {
            continue;
        };
        let values: Vec<u64> = fields.iter().map(|field| field.end(End::Greatest)).collect();
        let mut body = body(&fields, &values);
        let place = body.len() - limit - 2;
        body[place..place + 2].copy_from_slice(&(limit as u16 + 1).to_le_bytes());
        is_refused(kind, &body, greatest);
    }
}

#[test]
fn other_kinds_are_unknown() {
    let known: BTreeSet<u16> = kinds().iter().map(|row| row.kind).collect();
    for kind in (0..=u16::MAX).filter(|kind| !known.contains(kind)) {
        for body in [&[][..], &[1; 12], &[1; 16]] {
            assert_eq!(content(&frame(kind, body)), (4, vec![]), "{kind:04x}");
        }
    }
}

#[test]
fn lengths_are_those_of_the_frame() {
    let greatest = greatest_length();
    // a frame of any L within the range is one of an unknown kind; with another count of bytes, or another L, it is none
    for length in 0..=greatest + 2 {
        let within = (2..=greatest).contains(&length);
        for bytes in [length + 1, length + 2, length + 3] {
            let mut message = vec![0; bytes];
            message
                .iter_mut()
                .zip((length as u16).to_le_bytes())
                .for_each(|(place, byte)| *place = byte);
            let expected = if within && bytes == length + 2 { 4 } else { 3 };
            assert_eq!(content(&message), (expected, vec![]), "L {length}, {bytes} bytes");
        }
    }
}

// ---- refusals

/// The kinds that a row of refusals names; none where it is about other messages.
fn kinds_of(cell: &str, all: &BTreeSet<u16>) -> BTreeSet<u16> {
    let listed = |list: &str| -> BTreeSet<u16> {
        let part = |part: &str| {
            let (first, last) = part.split_once(" to ").unwrap_or((part, part));
            all.range(hexadecimal(first)..=hexadecimal(last))
                .copied()
                .collect::<Vec<_>>()
        };
        list.split(", ").flat_map(part).collect()
    };
    match cell {
        "any message" | "kinds not in the table" => BTreeSet::new(),
        "all in the table" => all.clone(),
        _ => match cell.strip_prefix("all in the table but ") {
            Some(list) => all - &listed(list),
            None => listed(cell),
        },
    }
}

const REFUSALS: &str = "| Number | Bytes written | Kinds | When |";

/// Each number of the table with the bytes that are written.
fn written_by_number() -> BTreeMap<u16, usize> {
    let rows = table(REFUSALS).into_iter();
    rows.map(|row| (number(&row[0]), number(&row[1]))).collect()
}

/// A step on a copy of the board: its number; the bytes written are those of the table.
fn refusal_of(message: &[u8], board: &[u8], room: usize) -> u16 {
    let (mut board_after, mut answer) = (board.to_vec(), vec![0xee; room]);
    let done = step(message, &mut board_after, &mut answer);
    if done.number != 0 {
        assert_eq!(done.written, written_by_number()[&done.number], "{}", done.number);
        assert!(board_after == board, "a refusal leaves the board");
    }
    done.number
}

/// The numbers of the table, each with the kinds that it can refuse.
fn refused_kinds(all: &BTreeSet<u16>) -> BTreeSet<(u16, u16)> {
    let rows = table(REFUSALS).into_iter();
    rows.flat_map(|row| {
        kinds_of(&row[2], all)
            .into_iter()
            .map(move |kind| (number(&row[0]), kind))
    })
    .collect()
}

/// Where a number has a meaning for each kind, that is what the sender is told; what no kind is refused with has no sentence of its own.
#[test]
fn refusals_are_explained_by_kind() {
    let all: BTreeSet<u16> = kinds().iter().map(|row| row.kind).collect();
    let refused = refused_kinds(&all);
    let by_kind = [6, 9, 10, 11, 12];
    for number in 1..=13 {
        let refusal = Refusal::of_number(number).expect("a refusal");
        for kind in 0..=u16::MAX {
            let is_own = refusal.explain(kind) != refusal.to_string();
            let expected = by_kind.contains(&number) && refused.contains(&(number, kind));
            assert_eq!(is_own, expected, "{number} for {kind:04x}");
        }
    }
}

#[test]
fn refusals_are_for_the_kinds_of_the_table() {
    let kinds = kinds();
    let all: BTreeSet<u16> = kinds.iter().map(|row| row.kind).collect();
    let expected = refused_kinds(&all);

    let mut seen = BTreeSet::new();
    let empty = vec![0; BOARD_SIZE];
    for Kind { kind, fields, .. } in kinds {
        let values: Vec<u64> = fields.iter().map(|field| field.end(End::Least)).collect();
        let whole = body(&fields, &values);
        for body in [&whole[..], &whole[1..]] {
            seen.insert((refusal_of(&frame(kind, body), &empty, ANSWER_LIMIT), kind));
        }
    }
    for file in std::fs::read_dir(top().join("crates/journals/data")).expect("journals") {
        let journal = std::fs::read(file.expect("a file").path()).expect("a journal");
        let (mut board, mut buffer) = (vec![0; BOARD_SIZE], vec![0; 8_000_000]);
        let done = replay(&journal, &mut board, &mut buffer);
        for (message, answer) in messages(&journal).zip(answers(&buffer[..done.written])) {
            seen.insert((answer.number, u16::from_le_bytes([message[2], message[3]])));
        }
    }
    seen.retain(|&(number, kind)| number > 4 && all.contains(&kind));
    assert_eq!(seen, expected);
}

#[test]
fn refusals_of_any_message_come_first() {
    let (empty, start) = (
        vec![0; BOARD_SIZE],
        frame(0x0101, &[7, 0, 0, 0, 1, 0, 0, 0, 0, 0, 0, 0]),
    );
    let mut unsound = empty.clone();
    unsound[BOARD_SIZE - 1] = 1;
    assert_eq!(refusal_of(&[], &empty[1..], 0), 1);
    assert_eq!(refusal_of(&start, &unsound, ANSWER_LIMIT), 1);
    assert_eq!(refusal_of(&[], &empty, ANSWER_LIMIT - 1), 2);
    assert_eq!(refusal_of(&start[1..], &empty, ANSWER_LIMIT), 3);
    assert_eq!(refusal_of(&frame(0x0607, &[]), &empty, ANSWER_LIMIT), 4);
    assert_eq!(refusal_of(&start, &empty, ANSWER_LIMIT), 0);
    let numbers: Vec<u16> = written_by_number().into_keys().collect();
    assert_eq!(numbers, (1..=12).collect::<Vec<u16>>());
}

// ---- the board

struct Region {
    offset: usize,
    records: usize,
    size: usize,
}

fn regions() -> BTreeMap<String, Region> {
    let rows = table("| Region | Offset | Records | Bytes of a record |").into_iter();
    let region = |row: Vec<String>| Region {
        offset: number(&row[1]),
        records: number(&row[2]),
        size: number(&row[3]),
    };
    rows.map(|row| (row[0].clone(), region(row))).collect()
}

const RECORDS: &str = "| Region | Field | Offset | Bytes | Content |";

/// Offset and width of each field of a record, by region and name.
fn record_fields() -> BTreeMap<(String, String), (usize, usize)> {
    let rows = table(RECORDS).into_iter();
    rows.map(|row| ((row[0].clone(), row[1].clone()), (number(&row[2]), number(&row[3]))))
        .collect()
}

/// A board, with its fields at the places that the tables give.
struct Layout {
    board: Vec<u8>,
    regions: BTreeMap<String, Region>,
    fields: BTreeMap<(String, String), (usize, usize)>,
}

impl Layout {
    fn of(board: &[u8]) -> Layout {
        Layout {
            board: board.to_vec(),
            regions: regions(),
            fields: record_fields(),
        }
    }

    fn put(&mut self, region: &str, index: usize, field: &str, bytes: &[u8]) {
        let Region { offset, records, size } = self.regions[region];
        let (field_offset, width) = self.fields[&(region.to_owned(), field.to_owned())];
        assert!(index < records && bytes.len() <= width, "{region} {index} {field}");
        let place = offset + index * size + field_offset;
        self.board[place..place + bytes.len()].copy_from_slice(bytes);
    }

    fn number(&mut self, region: &str, index: usize, field: &str, value: u64) {
        let (_, width) = self.fields[&(region.to_owned(), field.to_owned())];
        self.put(region, index, field, &value.to_le_bytes()[..width]);
    }

    fn string(&mut self, region: &str, index: usize, field: &str, string: &[u8]) {
        let length = string.len() as u16;
        self.put(region, index, field, &[&length.to_le_bytes()[..], string].concat());
    }
}

#[test]
fn records_fill_the_board() {
    let mut end = 0;
    let fields = table(RECORDS);
    for row in table("| Region | Offset | Records | Bytes of a record |") {
        let Region { offset, records, size } = regions()[&row[0]];
        assert_eq!(offset, end, "{}", row[0]);
        end += records * size;
        let mut place = 0;
        for field in fields.iter().filter(|field| field[0] == row[0]) {
            assert_eq!(number::<usize>(&field[2]), place, "{} {}", row[0], field[1]);
            place += number::<usize>(&field[3]);
        }
        assert_eq!(place, size, "{}", row[0]);
    }
    assert_eq!(end, BOARD_SIZE);
}

/// String fields have room for the strings of messages.
#[test]
fn string_fields_have_the_limits_of_messages() {
    let messages = fields_by_name();
    let mut count = 0;
    for row in table(RECORDS) {
        if let Some(limit) = row[4].strip_prefix("string of limit ") {
            let limit = number(limit);
            assert_eq!(messages[&row[1]], Field::String { limit }, "{}", row[1]);
            assert_eq!(number::<usize>(&row[3]), limit + 2, "{}", row[1]);
            count += 1;
        }
    }
    assert_eq!(count, 6);
}

fn send(board: &mut [u8], message: Message) {
    let frame = message.to_vec().expect("a frame");
    assert_eq!(step(&frame, board, &mut [0; ANSWER_LIMIT]).number, 0, "{message:?}");
}

/// Four users, of whom 0 and 1 are friends and 2 has requested 0 and 3; two posts of user 2; two pending.
fn small_board() -> Vec<u8> {
    let mut board = vec![0; BOARD_SIZE];
    let password = 0x1122_3344_5566_7788;
    let on = &mut board[..];
    send(on, Message::StartSys { user: 700, password });
    for user in [800, 900, 1000, 2000, 0x2100_0001] {
        send(
            on,
            Message::CNUReq {
                user,
                note: b"let me in",
            },
        );
    }
    for colleague in [800, 900, 1000] {
        send(
            on,
            Message::CUser {
                user: 700,
                password,
                colleague,
                new_password: colleague.into(),
            },
        );
    }
    send(
        on,
        Message::UUser {
            user: 1000,
            password: 1000,
            new_password: u64::MAX,
            name: b"Ada",
            info: b"Nights",
        },
    );
    send(
        on,
        Message::CFriendReq {
            user: 800,
            password: 800,
            colleague: 700,
            note: b"hello",
        },
    );
    send(
        on,
        Message::CFriend {
            user: 700,
            password,
            colleague: 800,
        },
    );
    send(
        on,
        Message::CFriendReq {
            user: 900,
            password: 900,
            colleague: 700,
            note: b"me too",
        },
    );
    send(
        on,
        Message::CFriendReq {
            user: 900,
            password: 900,
            colleague: 1000,
            note: &[b'n'; 24],
        },
    );
    for post in [5, 0x0600_0000] {
        send(
            on,
            Message::CPost {
                user: 900,
                password: 900,
                post,
                title: b"Rota",
            },
        );
    }
    let (user, password, post) = (900, 900, 0x0600_0000);
    send(
        on,
        Message::UTextPost {
            user,
            password,
            post,
            text: &[b't'; 256],
        },
    );
    send(
        on,
        Message::UImgPost {
            user,
            password,
            post,
            picture: 0x0a0b_0c0d,
        },
    );
    send(
        on,
        Message::UVisPost {
            user,
            password,
            post,
            visibility: 1,
        },
    );
    board
}

#[test]
fn fields_stand_where_the_tables_say() {
    let mut layout = Layout::of(&[0; BOARD_SIZE]);
    for (field, count) in [("user count", 4), ("post count", 2), ("pending count", 2)] {
        layout.number("header", 0, field, count);
    }
    let users = [(700, 0x1122_3344_5566_7788), (800, 800), (900, 900), (1000, u64::MAX)];
    for (slot, (user, password)) in users.into_iter().enumerate() {
        layout.number("users", slot, "number", user);
        layout.number("users", slot, "password", password);
    }
    layout.number("users", 0, "friend row", 1 << 1);
    layout.number("users", 1, "friend row", 1 << 0);
    layout.number("users", 0, "request row", 1 << 2);
    layout.number("users", 3, "request row", 1 << 2);
    layout.string("users", 3, "name", b"Ada");
    layout.string("users", 3, "info", b"Nights");
    layout.string("notes", 2, "note", b"me too");
    layout.string("notes", 32 * 3 + 2, "note", &[b'n'; 24]);
    for (index, post) in [5, 0x0600_0000].into_iter().enumerate() {
        layout.number("posts", index, "number", post);
        layout.number("posts", index, "owner", 2);
        layout.string("posts", index, "title", b"Rota");
    }
    layout.number("posts", 1, "picture", 0x0a0b_0c0d);
    layout.number("posts", 1, "visibility", 1);
    layout.string("posts", 1, "text", &[b't'; 256]);
    for (index, user) in [2000, 0x2100_0001].into_iter().enumerate() {
        layout.number("pending", index, "number", user);
        layout.string("pending", index, "note", b"let me in");
    }
    assert!(layout.board == small_board());
}

/// Each table takes as many records as its region has, and no more.
#[test]
fn tables_have_room_for_the_records_of_their_regions() {
    let mut layout = Layout::of(&[0; BOARD_SIZE]);
    let [users, posts, pending] = ["users", "posts", "pending"].map(|region| layout.regions[region].records);
    let mut board = vec![0; BOARD_SIZE];
    let (user, password) = (1, 0);
    send(&mut board, Message::StartSys { user, password });
    let refused = |board: &[u8], message: Message| refusal_of(&message.to_vec().expect("a frame"), board, ANSWER_LIMIT);
    let ask = |user: usize| Message::CNUReq {
        user: user as u32,
        note: b"",
    };
    for colleague in 2..=users as u32 {
        send(&mut board, ask(colleague as usize));
        send(
            &mut board,
            Message::CUser {
                user,
                password,
                colleague,
                new_password: 0,
            },
        );
    }
    for post in 1..=posts as u32 {
        send(
            &mut board,
            Message::CPost {
                user,
                password,
                post,
                title: b"",
            },
        );
    }
    for number in 0..pending {
        send(&mut board, ask(100 + number));
    }
    let colleague = 100;
    assert_eq!(
        refused(
            &board,
            Message::CUser {
                user,
                password,
                colleague,
                new_password: 0
            }
        ),
        12
    );
    assert_eq!(
        refused(
            &board,
            Message::CPost {
                user,
                password,
                post: 1_000,
                title: b""
            }
        ),
        12
    );
    assert_eq!(refused(&board, ask(1_000)), 12);
    let list = Message::LAllPosts { user, password }.to_vec().expect("a frame");
    let longest = step(&list, &mut board, &mut [0; ANSWER_LIMIT]).written;
    assert_eq!([longest, ANSWER_LIMIT], [greatest_lengths()[1] + 2; 2]);

    for (field, count) in [("user count", users), ("post count", posts), ("pending count", pending)] {
        layout.number("header", 0, field, count as u64);
    }
    for (region, records, first) in [("users", users, 1), ("posts", posts, 1), ("pending", pending, 100)] {
        (0..records).for_each(|index| layout.number(region, index, "number", (first + index) as u64));
    }
    assert!(layout.board == board);
}

/// For each clause a board that breaks it.
#[test]
fn boards_that_break_a_clause_are_not_sound() {
    let small = small_board();
    assert!(is_sound(&small));
    let damages: [fn(&mut Layout); 15] = [
        |layout| layout.number("header", 0, "post count", 65),
        |layout| layout.string("posts", 2, "title", b"x"),
        |layout| layout.put("users", 3, "name", &[2, 0]),
        |layout| layout.put("pending", 1, "filler", &[0, 1]),
        |layout| layout.number("posts", 0, "number", 0),
        |layout| layout.number("pending", 0, "number", 0x2100_0001),
        |layout| layout.number("pending", 0, "number", 900),
        |layout| layout.number("users", 1, "friend row", 0),
        |layout| layout.number("users", 2, "request row", 1 << 2),
        |layout| layout.number("users", 2, "request row", 1 << 4),
        |layout| layout.string("notes", 1, "note", b"x"),
        |layout| layout.number("posts", 0, "owner", 4),
        |layout| layout.number("posts", 0, "visibility", 2),
        |layout| layout.number("users", 0, "request row", 1 << 1 | 1 << 2),
        |layout| {
            layout.board.fill(0);
            layout.number("header", 0, "pending count", 1);
            layout.number("pending", 0, "number", 1);
        },
    ];
    let page = page();
    let (_, after) = page.split_once("### Soundness").expect("the section");
    let clauses = after
        .lines()
        .take_while(|line| !line.starts_with('#'))
        .filter(|line| line.starts_with(|c: char| c.is_ascii_digit()));
    assert_eq!(clauses.count(), damages.len());
    for (i, damage) in damages.into_iter().enumerate() {
        let mut layout = Layout::of(&small);
        damage(&mut layout);
        assert!(!is_sound(&layout.board), "clause {}", i + 1);
    }
}

// ---- examples

fn bytes_of(rows: &[Vec<String>]) -> Vec<u8> {
    let bytes = rows.iter().flat_map(|row| row[0].split(' '));
    bytes
        .map(|byte| u8::from_str_radix(byte, 16).expect("a byte"))
        .collect()
}

#[test]
fn the_message_and_the_answer_are_those_worked_out() {
    let [message, answer] = &tables("| Bytes | Field | Value |")[..] else {
        panic!("two tables")
    };
    let (user, password) = (7, 1);
    let mut board = vec![0; BOARD_SIZE];
    send(&mut board, Message::StartSys { user, password });
    let post = Message::CPost {
        user,
        password,
        post: 9,
        title: b"Hi",
    };
    assert_eq!(bytes_of(message), post.to_vec().expect("a frame"));
    send(&mut board, post);
    let mut buffer = [0; ANSWER_LIMIT];
    let list = Message::LAllPosts { user, password }.to_vec().expect("a frame");
    let done = step(&list, &mut board, &mut buffer);
    assert_eq!(bytes_of(answer), buffer[..done.written]);
}

#[test]
fn the_listing_is_that_of_the_program() {
    let rows = table("| Bytes of the journal | Line |");
    let journal = std::fs::read(top().join("crates/staff_board/stdin")).expect("the journal");
    assert_eq!(bytes_of(&rows), journal);
    let printed = std::fs::read_to_string(top().join("crates/staff_board/stdout")).expect("the lines");
    let lines = rows.iter().map(|row| row[1].trim_matches('`'));
    assert_eq!(lines.collect::<Vec<_>>(), printed.lines().collect::<Vec<_>>());
}

#[test]
fn a_replay_stops_as_the_table_says() {
    let numbers: Vec<u32> = table("| Stop | When |").iter().map(|row| number(&row[0])).collect();
    let stops = [Stop::BoardUnsound, Stop::JournalUsed, Stop::BufferShort, Stop::FrameCut];
    assert_eq!(numbers, stops.map(Stop::number));
    let stop =
        |journal: &[u8], board: usize, room: usize| replay(journal, &mut vec![0; board], &mut vec![0; room]).stop;
    assert_eq!(stop(&[5], BOARD_SIZE - 1, 0), Stop::BoardUnsound);
    assert_eq!(stop(&[], BOARD_SIZE, 0), Stop::JournalUsed);
    assert_eq!(stop(&[5], BOARD_SIZE, ANSWER_LIMIT - 1), Stop::BufferShort);
    for cut in [&[5][..], &[2, 0, 0], &[1, 0, 0, 0], &[21, 1, 0, 0], &[3, 0, 0, 0]] {
        assert_eq!(stop(cut, BOARD_SIZE, ANSWER_LIMIT), Stop::FrameCut);
    }
}
