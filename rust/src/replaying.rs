//! A whole journal on a board.

use crate::{kernel, ANSWER_LIMIT};
use core::fmt;

/// Why a replay stopped, with the numbers of `docs/FORMAT.md`, "A replay".
#[derive(Clone, Copy, Debug, PartialEq, Eq, Hash)]
#[non_exhaustive]
pub enum Stop {
    /// 0: no bytes of the journal are left.
    JournalUsed,
    /// 1: the board does not have 50,448 bytes, or is not sound.
    BoardUnsound,
    /// 2: fewer than 518 bytes of the answer buffer are left.
    BufferShort,
    /// 3: what is left of the journal does not begin with a whole message.
    FrameCut,
    /// A number that a replay of this crate's time does not give: the archive is newer than the crate.
    Unknown(u32),
}

impl Stop {
    /// The stop with a number.
    pub fn of_number(number: u32) -> Stop {
        match number {
            0 => Stop::JournalUsed,
            1 => Stop::BoardUnsound,
            2 => Stop::BufferShort,
            3 => Stop::FrameCut,
            _ => Stop::Unknown(number),
        }
    }

    /// The number that the kernel returned.
    pub fn number(self) -> u32 {
        match self {
            Stop::JournalUsed => 0,
            Stop::BoardUnsound => 1,
            Stop::BufferShort => 2,
            Stop::FrameCut => 3,
            Stop::Unknown(number) => number,
        }
    }
}

impl fmt::Display for Stop {
    fn fmt(&self, f: &mut fmt::Formatter<'_>) -> fmt::Result {
        f.write_str(match self {
            Stop::JournalUsed => "The journal is used up.",
            Stop::BoardUnsound => "The board is damaged.",
            Stop::BufferShort => "The answer buffer has no room for a further answer.",
            Stop::FrameCut => "The rest of the journal does not begin with a whole message.",
            Stop::Unknown(_) => "The replay stopped for a reason that is not known here.",
        })
    }
}

/// Why a replay stopped, and what it did until then.
#[derive(Clone, Copy, Debug, PartialEq, Eq)]
#[must_use]
pub struct Replayed {
    /// Why it stopped.
    pub stop: Stop,
    /// Messages done.
    pub messages: usize,
    /// Journal bytes passed.
    pub passed: usize,
    /// Answer bytes written.
    pub written: usize,
}

/// The most bytes of an answer buffer that the kernel is lent at once. Its replay nests a call for each message, some 130 bytes of stack; an answer has
/// four bytes at least, so there are never more than 4,096 of them.
const PART: usize = 16_384;

/// The messages of a journal on a board, with their answers one after the other in `answers`; bytes after them keep their contents. It stops with
/// [`Stop::BufferShort`] where fewer than 518 bytes are left; [`ANSWER_LIMIT`] bytes for each message are always enough. Journals of any length can be replayed: after a stop for want of room the kernel goes on at that place with the next part of the buffer. Of one such resumption it is
/// proved that both replays together show the whole run (`replay_resumed`, `resumed-complete` in `crates/model/proofs/ReplayTheorems.antt`); that
/// this loop does so is tested.
pub fn replay(journal: &[u8], board: &mut [u8], answers: &mut [u8]) -> Replayed {
    let (mut messages, mut passed, mut written) = (0, 0, 0);
    loop {
        let rest = &mut answers[written..];
        let room = rest.len().min(PART);
        let part = kernel::replay(&journal[passed..], board, &mut rest[..room]);
        let left = rest.len() - part.written;
        messages += part.messages;
        passed += part.passed;
        written += part.written;
        if part.stop != Stop::BufferShort || left < ANSWER_LIMIT {
            return Replayed {
                stop: part.stop,
                messages,
                passed,
                written,
            };
        }
    }
}
