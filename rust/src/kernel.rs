//! The functions of the archive, as `include/staff_board.h` declares them: a slice is its address and its length. A slice's address is never null, and
//! `&mut` slices do not overlap with others, which is all that the kernel asks of its caller.

use crate::{Answer, Outcome, Replayed, Stop};

extern "C" {
    fn staff_board_sound(board: *const u8, board_len: usize) -> u32;
    fn staff_board_step(
        message: *const u8,
        message_len: usize,
        board: *mut u8,
        board_len: usize,
        answer: *mut u8,
        answer_len: usize,
    ) -> u32;
    fn staff_board_replay(
        journal: *const u8,
        journal_len: usize,
        board: *mut u8,
        board_len: usize,
        answers: *mut u8,
        answers_len: usize,
        counts: *mut u8,
        counts_len: usize,
    ) -> u32;
    fn staff_board_write(
        kind: u32,
        values: *const u64,
        values_count: usize,
        lent: *const u8,
        lent_len: usize,
        frame: *mut u8,
        frame_len: usize,
    ) -> u32;
    fn staff_board_read(message: *const u8, message_len: usize, values: *mut u64, values_count: usize) -> u32;
}

pub fn is_sound(board: &[u8]) -> bool {
    // SAFETY: the address and the length are those of a slice that lives through the call.
    unsafe { staff_board_sound(board.as_ptr(), board.len()) != 0 }
}

pub fn step(message: &[u8], board: &mut [u8], answer: &mut [u8]) -> Answer {
    // SAFETY: the addresses and lengths are those of slices that live through the call, and the mutable ones overlap with no other.
    let result = unsafe {
        staff_board_step(
            message.as_ptr(),
            message.len(),
            board.as_mut_ptr(),
            board.len(),
            answer.as_mut_ptr(),
            answer.len(),
        )
    };
    let (number, written) = parts(result);
    Answer { number, written }
}

/// The number, and how much was written.
fn parts(result: u32) -> (u16, usize) {
    ((result % 65_536) as u16, (result / 65_536) as usize)
}

pub fn replay(journal: &[u8], board: &mut [u8], answers: &mut [u8]) -> Replayed {
    let mut counts = [0; 24];
    // SAFETY: as in `step`; `counts` is a slice of its own.
    let stop = unsafe {
        staff_board_replay(
            journal.as_ptr(),
            journal.len(),
            board.as_mut_ptr(),
            board.len(),
            answers.as_mut_ptr(),
            answers.len(),
            counts.as_mut_ptr(),
            counts.len(),
        )
    };
    let count = |i: usize| u64::from_le_bytes(counts[8 * i..8 * i + 8].try_into().expect("eight bytes")) as usize;
    Replayed {
        stop: Stop::of_number(stop),
        messages: count(0),
        passed: count(1),
        written: count(2),
    }
}

pub fn write(kind: u32, values: &[u64], lent: &[u8], frame: &mut [u8]) -> Outcome {
    // SAFETY: as in `step`; the count of the values is that of their slice.
    let result = unsafe {
        staff_board_write(
            kind,
            values.as_ptr(),
            values.len(),
            lent.as_ptr(),
            lent.len(),
            frame.as_mut_ptr(),
            frame.len(),
        )
    };
    let (number, written) = parts(result);
    Outcome { number, written }
}

pub fn read(message: &[u8], values: &mut [u64]) -> Outcome {
    // SAFETY: as in `write`.
    let result = unsafe { staff_board_read(message.as_ptr(), message.len(), values.as_mut_ptr(), values.len()) };
    let (number, written) = parts(result);
    Outcome { number, written }
}

#[cfg(test)]
mod tests {
    use super::staff_board_replay;
    use crate::Message;
    use alloc::vec;

    /// Counts of another length than 24 bytes: 255, and board, answers and counts are as they were.
    #[test]
    fn other_counts_are_refused() {
        let mut start = [0; 16];
        let message = Message::StartSys { user: 7, password: 1 };
        assert_eq!(message.write(&mut start), Ok(16));
        for length in [0, 1, 23, 25, 32] {
            let mut board = vec![0; crate::BOARD_SIZE];
            let mut answers = [3; crate::ANSWER_LIMIT];
            let mut counts = vec![5; length];
            // SAFETY: as in `replay`.
            let number = unsafe {
                staff_board_replay(
                    start.as_ptr(),
                    start.len(),
                    board.as_mut_ptr(),
                    board.len(),
                    answers.as_mut_ptr(),
                    answers.len(),
                    counts.as_mut_ptr(),
                    counts.len(),
                )
            };
            assert_eq!(number, 255);
            assert!(board.iter().all(|&byte| byte == 0));
            assert!(answers.iter().all(|&byte| byte == 3));
            assert!(counts.iter().all(|&byte| byte == 5));
        }
    }
}
