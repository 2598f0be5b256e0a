//! Two members: the admin registers a colleague, posts a note for everybody, and the colleague reads it.
//!
//!     cargo run --release --example post_and_read

use staff_board::{Board, Message, ANSWER_LIMIT};
use std::error::Error;

const ADMIN: u32 = 7;
const COLLEAGUE: u32 = 8;
const PASSWORD: u64 = 1;
const POST: u32 = 9;

/// Until there is a post with a text.
const FIRST: [Message; 5] = [
    Message::StartSys {
        user: ADMIN,
        password: PASSWORD,
    },
    Message::CNUReq {
        user: COLLEAGUE,
        note: b"from the kitchen",
    },
    Message::CUser {
        user: ADMIN,
        password: PASSWORD,
        colleague: COLLEAGUE,
        new_password: PASSWORD,
    },
    Message::CPost {
        user: ADMIN,
        password: PASSWORD,
        post: POST,
        title: b"Rota",
    },
    Message::UTextPost {
        user: ADMIN,
        password: PASSWORD,
        post: POST,
        text: b"Early shift starts at six.",
    },
];

const READ: Message = Message::RTextPost {
    user: COLLEAGUE,
    password: PASSWORD,
    post: POST,
};

const PUBLISH: Message = Message::UVisPost {
    user: ADMIN,
    password: PASSWORD,
    post: POST,
    visibility: 1,
};

fn main() -> Result<(), Box<dyn Error>> {
    let mut board = Board::empty();
    let mut answer = [0; ANSWER_LIMIT];
    for message in FIRST {
        board.step(&message.to_vec()?, &mut answer)?;
    }

    // the post is for friends until its owner says otherwise
    let read = READ.to_vec()?;
    match board.step(&read, &mut answer) {
        Err(refusal) => println!("refused with {}: {}", refusal.number(), refusal.explain(READ.kind())),
        Ok(_) => unreachable!("the post is not public yet"),
    }
    board.step(&PUBLISH.to_vec()?, &mut answer)?;
    let body = board.step(&read, &mut answer)?;
    println!("{}", String::from_utf8_lossy(&body[2..]));
    Ok(())
}
