//! The staff board kernel, from Rust.
//!
//! The kernel is proved. What this crate adds is tested: it hands the kernel slices, replays in parts, and cuts journals and answers into frames.
//! [`step`] and [`replay`] take slices of any length and contents and answer as `docs/FORMAT.md` says. [`Message`] is a message by its fields, [`messages`] and [`answers`] go over the frames of a journal and of its answers, and
//! [`Board`] keeps a board that is sound. Nothing is shared between threads: each call works on the slices that it is lent and on nothing else.
//!
//! The crate does without the standard library. The feature `alloc`, which is on by default, adds what allocates: [`Board`] and [`Message::to_vec`]. The
//! examples of these pages need it.
//!
//! ```
//! use staff_board::{Board, Message, Refusal, ANSWER_LIMIT};
//!
//! # fn main() -> Result<(), staff_board::WriteRefusal> {
//! let mut board = Board::empty();
//! let mut answer = [0; ANSWER_LIMIT];
//! let start = Message::StartSys { user: 7, password: 1 };
//! let frame = start.to_vec()?;
//! assert_eq!(board.step(&frame, &mut answer), Ok(&[][..]));
//! assert_eq!(board.step(&frame, &mut answer), Err(Refusal::Start));
//! assert_eq!(Refusal::Start.explain(start.kind()), "The board has been started already.");
//! # Ok(())
//! # }
//! ```
#![no_std]
#![deny(unsafe_code)]
#![warn(missing_docs)]

#[cfg(any(feature = "alloc", test))]
extern crate alloc;

#[cfg(feature = "alloc")]
mod board;
mod frames;
#[allow(unsafe_code)] // the calls of the archive, and nothing else
mod kernel;
mod message;
mod refusal;
mod replaying;

#[cfg(feature = "alloc")]
pub use board::Board;
pub use frames::{answers, messages, AnswerFrame, Answers, Messages};
pub use message::{read, write, Message, Outcome, WriteRefusal, FRAME_LIMIT, VALUES_LIMIT};
pub use refusal::Refusal;
pub use replaying::{replay, Replayed, Stop};

/// The bytes of a board.
pub const BOARD_SIZE: usize = 50_448;

/// The bytes of the largest answer. A shorter buffer is refused.
pub const ANSWER_LIMIT: usize = 518;

/// What a step returned: its number, 0 for accepted, and how many bytes of the answer buffer it wrote.
#[derive(Clone, Copy, Debug, PartialEq, Eq)]
#[must_use]
pub struct Answer {
    /// 0 for accepted, or the number of the refusal.
    pub number: u16,
    /// Bytes written to the answer buffer, from its start on.
    pub written: usize,
}

impl Answer {
    /// The refusal, none if the message was accepted.
    pub fn refusal(self) -> Option<Refusal> {
        Refusal::of_number(self.number)
    }
}

/// One message on a board. The answer is a frame, `answer[..written]`, and bytes after it keep their contents; with 1 and 2 nothing is written. A refusal
/// leaves the board as it was.
pub fn step(message: &[u8], board: &mut [u8], answer: &mut [u8]) -> Answer {
    kernel::step(message, board, answer)
}

/// Whether a board is sound.
pub fn is_sound(board: &[u8]) -> bool {
    kernel::is_sound(board)
}
