//! Frames one after the other: the messages of a journal, and the answers to them.

use crate::{Refusal, ANSWER_LIMIT, FRAME_LIMIT};

/// The frame that stands first in some bytes, if it is there whole and has at most `limit` bytes, and the bytes after it.
fn split_frame(bytes: &[u8], limit: usize) -> Option<(&[u8], &[u8])> {
    let [low, high, _, _, ..] = *bytes else {
        return None;
    };
    let length = usize::from(u16::from_le_bytes([low, high])) + 2;
    if !(4..=limit).contains(&length) {
        return None;
    }
    bytes.split_at_checked(length)
}

/// The messages of a journal, each the bytes of its frame. They end where a replay with room for all answers stops: at the journal's end, or where no
/// whole message begins.
///
/// ```
/// let journal = [2, 0, 9, 9, 3, 0, 8, 8, 1, 5];
/// let mut messages = staff_board::messages(&journal);
/// assert_eq!(messages.next(), Some(&journal[..4]));
/// assert_eq!(messages.next(), Some(&journal[4..9]));
/// assert_eq!(messages.next(), None);
/// assert_eq!(messages.rest(), [5]);
/// ```
pub fn messages(journal: &[u8]) -> Messages<'_> {
    Messages { rest: journal }
}

/// An iterator over the messages of a journal; [`messages`] makes it.
#[derive(Clone, Debug)]
pub struct Messages<'a> {
    rest: &'a [u8],
}

impl<'a> Messages<'a> {
    /// The bytes that are not passed yet.
    pub fn rest(&self) -> &'a [u8] {
        self.rest
    }
}

impl<'a> Iterator for Messages<'a> {
    type Item = &'a [u8];

    fn next(&mut self) -> Option<&'a [u8]> {
        let (message, rest) = split_frame(self.rest, FRAME_LIMIT)?;
        self.rest = rest;
        Some(message)
    }
}

/// The answers that a replay has left one after the other, the first `written` bytes of its buffer.
///
/// ```
/// # use staff_board::{answers, messages, replay, Refusal, BOARD_SIZE};
/// let journal = [2, 0, 9, 9];
/// let mut buffer = [0; 1000];
/// let replayed = replay(&journal, &mut vec![0; BOARD_SIZE], &mut buffer);
/// for (message, answer) in messages(&journal).zip(answers(&buffer[..replayed.written])) {
///     assert_eq!((message, answer.refusal()), (&journal[..], Some(Refusal::Kind)));
/// }
/// ```
pub fn answers(written: &[u8]) -> Answers<'_> {
    Answers { rest: written }
}

/// An answer: its number and its body.
#[derive(Clone, Copy, Debug, PartialEq, Eq)]
pub struct AnswerFrame<'a> {
    /// 0 for accepted, or the number of the refusal.
    pub number: u16,
    /// What the message asked for; empty for changes and refusals.
    pub body: &'a [u8],
}

impl AnswerFrame<'_> {
    /// The refusal, none if the message was accepted.
    pub fn refusal(&self) -> Option<Refusal> {
        Refusal::of_number(self.number)
    }
}

/// An iterator over answers; [`answers`] makes it.
#[derive(Clone, Debug)]
pub struct Answers<'a> {
    rest: &'a [u8],
}

impl<'a> Iterator for Answers<'a> {
    type Item = AnswerFrame<'a>;

    fn next(&mut self) -> Option<AnswerFrame<'a>> {
        let (frame, rest) = split_frame(self.rest, ANSWER_LIMIT)?;
        self.rest = rest;
        Some(AnswerFrame {
            number: u16::from_le_bytes([frame[2], frame[3]]),
            body: &frame[4..],
        })
    }
}
