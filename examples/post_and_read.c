/* Two members, from C: the admin registers a colleague, posts a note for everybody, and the colleague reads it. Then the journal of their messages is
   replayed, which makes the same board again.

       gcc -Iinclude examples/post_and_read.c target/staticlib/libabi.a -o target/post_and_read && target/post_and_read */
#include "staff_board.h"

#include <stdio.h>
#include <string.h>

enum { ADMIN = 7, COLLEAGUE = 8, PASSWORD = 1, POST = 9 };

/* All zeros is the empty board. */
static uint8_t board[STAFF_BOARD_SIZE], replayed[STAFF_BOARD_SIZE];
static uint8_t answer[STAFF_BOARD_ANSWER_LIMIT], answers[10 * STAFF_BOARD_ANSWER_LIMIT];

/* The messages that were sent, one after the other; the last one begins at `start`. */
static uint8_t journal[1000];
static size_t start, end;

/* Writes a message after the others and sends it: the number of the answer, or of the writer's refusal. */
static unsigned send(uint32_t kind, size_t count, const uint64_t *values, const char *lent) {
    uint32_t result = staff_board_write(kind, values, count, (const uint8_t *)lent, strlen(lent), journal + end, sizeof journal - end);
    if (staff_board_number(result) != 0) {
        return staff_board_number(result);
    }
    start = end;
    end += staff_board_written(result);
    return staff_board_number(staff_board_step(journal + start, end - start, board, sizeof board, answer, sizeof answer));
}

static unsigned read_post(void) {
    return send(0x0505, 3, (uint64_t[]){COLLEAGUE, PASSWORD, POST}, "");
}

int main(void) {
    const char *note = "from the kitchen", *title = "Rota", *text = "Early shift starts at six.";
    unsigned refused = send(0x0101, 2, (uint64_t[]){ADMIN, PASSWORD}, "");
    refused |= send(0x0201, 3, (uint64_t[]){COLLEAGUE, 0, strlen(note)}, note);
    refused |= send(0x0202, 4, (uint64_t[]){ADMIN, PASSWORD, COLLEAGUE, PASSWORD}, "");
    refused |= send(0x0203, 5, (uint64_t[]){ADMIN, PASSWORD, POST, 0, strlen(title)}, title);
    refused |= send(0x0403, 5, (uint64_t[]){ADMIN, PASSWORD, POST, 0, strlen(text)}, text);

    /* the post is for friends until its owner says otherwise */
    printf("refused with %u\n", read_post());
    refused |= send(0x0405, 4, (uint64_t[]){ADMIN, PASSWORD, POST, 1}, "");
    refused |= read_post();
    printf("%.*s\n", answer[4] + 256 * answer[5], (const char *)answer + 6);

    /* the values of the last message */
    uint64_t values[STAFF_BOARD_VALUES_LIMIT];
    uint32_t read = staff_board_read(journal + start, end - start, values, STAFF_BOARD_VALUES_LIMIT);
    int is_read = staff_board_number(read) == 0 && staff_board_written(read) == 3 && values[0] == COLLEAGUE && values[2] == POST;

    uint8_t counts[STAFF_BOARD_COUNTS_SIZE];
    uint32_t stop = staff_board_replay(journal, end, replayed, sizeof replayed, answers, sizeof answers, counts, sizeof counts);
    printf("replayed %llu messages\n", (unsigned long long)staff_board_messages_done(counts));
    int same = stop == 0 && memcmp(board, replayed, sizeof board) == 0 && staff_board_sound(replayed, sizeof replayed) == 1;
    return refused == 0 && is_read && same ? 0 : 1;
}
