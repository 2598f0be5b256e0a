//! A board that is kept sound.

use crate::{is_sound, replay, step, Refusal, Replayed, BOARD_SIZE};
use alloc::{vec, vec::Vec};
use core::fmt;

/// A sound board. It can be changed by messages alone, so it stays sound.
#[derive(Clone, PartialEq, Eq)]
pub struct Board {
    bytes: Vec<u8>,
}

impl Board {
    /// The board without users: all zeros.
    pub fn empty() -> Board {
        Board {
            bytes: vec![0; BOARD_SIZE],
        }
    }

    /// A board from its bytes, refused with [`Refusal::Board`] unless they are a sound one.
    pub fn from_bytes(bytes: &[u8]) -> Result<Board, Refusal> {
        if !is_sound(bytes) {
            return Err(Refusal::Board);
        }
        Ok(Board { bytes: bytes.to_vec() })
    }

    /// The 50,448 bytes.
    pub fn as_bytes(&self) -> &[u8] {
        &self.bytes
    }

    /// The 50,448 bytes, to be kept elsewhere.
    pub fn into_bytes(self) -> Vec<u8> {
        self.bytes
    }

    /// One message: the body of the answer, which lies in `answer`, or the refusal.
    pub fn step<'a>(&mut self, message: &[u8], answer: &'a mut [u8]) -> Result<&'a [u8], Refusal> {
        let done = step(message, &mut self.bytes, answer);
        match done.refusal() {
            Some(refusal) => Err(refusal),
            None => Ok(&answer[4..done.written]),
        }
    }

    /// The messages of a journal, as [`replay`] does them.
    pub fn replay(&mut self, journal: &[u8], answers: &mut [u8]) -> Replayed {
        replay(journal, &mut self.bytes, answers)
    }
}

/// A board from bytes that are not copied; they are given back unless they are a sound board.
impl TryFrom<Vec<u8>> for Board {
    type Error = Vec<u8>;

    fn try_from(bytes: Vec<u8>) -> Result<Board, Vec<u8>> {
        if is_sound(&bytes) {
            Ok(Board { bytes })
        } else {
            Err(bytes)
        }
    }
}

impl Default for Board {
    fn default() -> Board {
        Board::empty()
    }
}

impl fmt::Debug for Board {
    fn fmt(&self, f: &mut fmt::Formatter<'_>) -> fmt::Result {
        let count = |at: usize| u16::from_le_bytes([self.bytes[at], self.bytes[at + 1]]);
        f.debug_struct("Board")
            .field("users", &count(0))
            .field("posts", &count(2))
            .field("pending", &count(4))
            .finish_non_exhaustive()
    }
}

#[cfg(test)]
mod tests {
    use super::Board;
    use crate::{Refusal, ANSWER_LIMIT, BOARD_SIZE};
    use alloc::vec;

    #[test]
    fn unsound_bytes_are_no_board() {
        let mut bytes = vec![0; BOARD_SIZE];
        assert!(Board::from_bytes(&bytes).is_ok());
        assert_eq!(Board::from_bytes(&bytes[1..]), Err(Refusal::Board));
        bytes[BOARD_SIZE - 1] = 1;
        assert_eq!(Board::from_bytes(&bytes), Err(Refusal::Board));
        assert_eq!(Board::try_from(bytes.clone()), Err(bytes));
    }

    #[test]
    fn bytes_are_given_back() {
        let bytes = vec![0; BOARD_SIZE];
        assert_eq!(Board::try_from(bytes.clone()).map(Board::into_bytes), Ok(bytes));
    }

    #[test]
    fn short_buffers_are_refused() {
        let mut answer = [0; ANSWER_LIMIT - 1];
        assert_eq!(Board::empty().step(&[], &mut answer), Err(Refusal::Buffer));
    }
}
