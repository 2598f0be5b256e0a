/* The staff board kernel, for C99 and later and for C++, on x86-64 Linux (processors of the level x86-64-v2). Link libstaff_board.a, which `make install`
   installs (pkg-config staff_board), or target/staticlib/libabi.a, which `tools/build` writes; they are the same. Messages, answers, boards and the
   numbers that are returned are those of docs/FORMAT.md.

   Who owns what: every buffer is the caller's. A call reads and writes the bytes that it is lent, keeps no address after it has returned, and
   allocates nothing.
   Buffers: a buffer is an address and a length in bytes; for values it is a count of them. Any length and any contents are answered. The address is not
   null, even at length 0, and as many bytes or values as the length says can be read from it on, and written where it is not const. No buffer
   that a call writes overlaps with another of its buffers.
   Threads: the kernel has no state of its own. Calls may run at the same time as long as no buffer that one of them writes is lent to another.
   Stack: staff_board_replay nests a call for each message, which takes 128 bytes of stack, 2 MB for 15,000 messages. For threads with a small stack there is
    staff_board_replay_in_parts, below, which takes less than 1 MB whatever the journal. */
#ifndef STAFF_BOARD_H
#define STAFF_BOARD_H

#include <stddef.h>
#include <stdint.h>

#ifdef __cplusplus
extern "C" {
#endif

/* The bytes of a board, those of the largest answer, and those of the counts of a replay. */
enum { STAFF_BOARD_SIZE = 50448, STAFF_BOARD_ANSWER_LIMIT = 518, STAFF_BOARD_COUNTS_SIZE = 24 };

/* The bytes of the largest message, and the most values that a message has. */
enum { STAFF_BOARD_FRAME_LIMIT = 278, STAFF_BOARD_VALUES_LIMIT = 7 };

/* Why a replay stopped: the journal is used up; the board does not have its size or is not sound; fewer than STAFF_BOARD_ANSWER_LIMIT answer bytes are
   left; what is left of the journal does not begin with a whole message; and for counts that do not have STAFF_BOARD_COUNTS_SIZE bytes the last. */
enum {
    STAFF_BOARD_JOURNAL_USED = 0,
    STAFF_BOARD_UNSOUND = 1,
    STAFF_BOARD_NO_ROOM = 2,
    STAFF_BOARD_CUT = 3,
    STAFF_BOARD_WRONG_COUNTS = 255
};

/* Whether a board is sound: 1 if it is, else 0. All zeros, the empty board, is sound. */
uint32_t staff_board_sound(const uint8_t *board, size_t board_length);

/* One message on a board. Returns the bytes written to the answer buffer times 65,536, plus the number: 0 for accepted, or the refusal, 1 to 12
   (docs/FORMAT.md, "Refusals"). The answer is a frame whose kind is the number, at the start of the answer buffer; the bytes after it are as they were.
   With 1 and 2 nothing is written. A refusal leaves the board as it was. */
uint32_t staff_board_step(const uint8_t *message, size_t message_length, uint8_t *board, size_t board_length, uint8_t *answer, size_t answer_length);

/* The two parts of what staff_board_step, staff_board_write and staff_board_read return: the number, and how many bytes or values were written. */
static inline unsigned staff_board_number(uint32_t result) { return result % 65536; }
static inline size_t staff_board_written(uint32_t result) { return result / 65536; }

/* The messages of a journal on a board, one after the other, with their answers one after the other at the start of the answer buffer; the bytes after
   them are as they were. Returns why it stopped: 0 the journal is used up, 1 the board is not 50,448 bytes or not sound, 2 fewer than 518 answer bytes
   are left, 3 the rest of the journal does not begin with a whole message. The counts, STAFF_BOARD_COUNTS_SIZE bytes, become three numbers of eight bytes,
   little-endian: messages done, journal bytes passed, answer bytes written; after a stop with 1 all are 0. For counts of another length it returns
   STAFF_BOARD_WRONG_COUNTS, and does nothing. The board is tested once for a replay, and at each call of staff_board_step: many messages take less
   time in one replay. STAFF_BOARD_ANSWER_LIMIT answer bytes for each message are always enough. */
uint32_t staff_board_replay(const uint8_t *journal, size_t journal_length, uint8_t *board, size_t board_length, uint8_t *answers,
                            size_t answers_length, uint8_t *counts, size_t counts_length);

/* The three counts, from the STAFF_BOARD_COUNTS_SIZE bytes in which staff_board_replay leaves them. */
static inline uint64_t staff_board_count(const uint8_t *counts, size_t index) {
    uint64_t count = 0;
    for (size_t i = 8; i > 0; i--) {
        count = count * 256 + counts[8 * index + i - 1];
    }
    return count;
}
static inline uint64_t staff_board_messages_done(const uint8_t *counts) { return staff_board_count(counts, 0); }
static inline uint64_t staff_board_journal_passed(const uint8_t *counts) { return staff_board_count(counts, 1); }
static inline uint64_t staff_board_answers_written(const uint8_t *counts) { return staff_board_count(counts, 2); }

/* The bytes of the answer buffer that staff_board_replay_in_parts lends at a time. An answer has four bytes at least, so no more than 4,096 calls nest. */
enum { STAFF_BOARD_PART = 16384 };

/* As staff_board_replay, and with the same results, in parts: after a stop for want of room in its part of the answer buffer the replay goes on from
   there with the next part. Each part tests the board anew. That the results are the same is tested; of one such resumption it is proved. */
static inline uint32_t staff_board_replay_in_parts(const uint8_t *journal, size_t journal_length, uint8_t *board, size_t board_length, uint8_t *answers,
                                                   size_t answers_length, uint8_t *counts, size_t counts_length) {
    uint64_t sums[3] = {0, 0, 0}; /* messages done, journal bytes passed, answer bytes written */
    uint32_t stop;
    if (counts_length != STAFF_BOARD_COUNTS_SIZE) {
        return STAFF_BOARD_WRONG_COUNTS;
    }
    do {
        size_t room = answers_length - sums[2] < STAFF_BOARD_PART ? answers_length - sums[2] : (size_t)STAFF_BOARD_PART;
        stop = staff_board_replay(journal + sums[1], journal_length - sums[1], board, board_length, answers + sums[2], room, counts, counts_length);
        for (size_t i = 0; i < 3; i++) {
            sums[i] += staff_board_count(counts, i);
        }
    } while (stop == STAFF_BOARD_NO_ROOM && answers_length - sums[2] >= STAFF_BOARD_ANSWER_LIMIT);
    for (size_t i = 0; i < STAFF_BOARD_COUNTS_SIZE; i++) {
        counts[i] = (uint8_t)(sums[i / 8] >> i % 8 * 8);
    }
    return stop;
}

/* A message is a kind and its values, in the order of its fields. The fields of each kind, kinds in hexadecimal:

       0101, 0503, 0601, 0602, 0603, 0604, 0605     U P
       0201                                         U note
       0202                                         U P V P2
       0203, 0402                                   U P N title
       0204                                         U P V note
       0205, 0301, 0501, 0502, 0509, 050A, 0606     U P V
       0401                                         U P P2 name info
       0403                                         U P N text
       0404                                         U P N picture
       0405                                         U P N visibility
       0504, 0505, 0506, 0507, 0508                 U P N

   U and V (staff numbers, U sends) and N (a post number) are one value each, 1 to 4,294,967,295; so is picture, from 0 on. P and P2 (passwords) are one
   value each, any. Visibility is one value, 0 for friends or 1 for public. A string is two values, the offset where it starts and its length: name 24
   bytes at most, info 56, title 40, text 256, note 24. */

/* Writes the frame of a message to the start of the frame buffer; the offsets of its strings count from the start of the lent bytes. Returns the bytes written times 65,536,
   plus the number: 0, or
   5   no frame can carry the message: the kind is none of the above, it has another count of values, a value is not within the range of its field, or a
       string is over its limit or not within the lent bytes (an empty one may start where they end);
   13  the frame buffer is shorter than the frame. A message to which 5 applies is refused with 5.
   With 5 and 13 nothing is written. Else the bytes after the frame are as they were. */
uint32_t staff_board_write(uint32_t kind, const uint64_t *values, size_t values_count, const uint8_t *lent, size_t lent_length, uint8_t *frame,
                           size_t frame_length);

/* The way back: writes the values of a message to the start of the values. The kind is in the message's bytes 2 and 3, low byte first; the offsets of
   strings count from the start of the body, the message without its first four bytes, so with the body lent staff_board_write makes the same message
   again. Returns the count of
   values written, 2 to 7, times 65,536, plus the number: 0, or
   3, 4, 5  a bad frame, an unknown kind, a body that does not fit its fields, as staff_board_step refuses them;
   13       there is no room for the values. A message to which 3, 4 or 5 applies is refused with that.
   With 3, 4, 5 and 13 nothing is written. Else the values after them are as they were. */
uint32_t staff_board_read(const uint8_t *message, size_t message_length, uint64_t *values, size_t values_count);

#ifdef __cplusplus
}
#endif

#endif
