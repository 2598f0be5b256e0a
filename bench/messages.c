/* Reads the messages of a journal into values, or writes them again from their values (`bench/run` has the commands):

       messages read JOURNAL     all of them once in the function `measured`, for callgrind
       messages write JOURNAL

   Exits 1 where a message cannot be read, or is not written again byte for byte. */
#include "staff_board.h"

#include <stdbool.h>
#include <stdint.h>
#include <stdio.h>
#include <string.h>

enum { JOURNAL_LIMIT = 60000, MESSAGES = JOURNAL_LIMIT / 4 };

struct message {
    const uint8_t *frame;
    size_t length, count;
    uint64_t values[STAFF_BOARD_VALUES_LIMIT];
};

static uint8_t journal[JOURNAL_LIMIT], frame[STAFF_BOARD_FRAME_LIMIT];
static struct message messages[MESSAGES];
static size_t count;

static bool read_message(struct message *m) {
    uint32_t result = staff_board_read(m->frame, m->length, m->values, STAFF_BOARD_VALUES_LIMIT);
    m->count = staff_board_written(result);
    return staff_board_number(result) == 0;
}

static bool write_message(struct message *m) {
    uint32_t kind = m->frame[2] + 256u * m->frame[3];
    uint32_t result = staff_board_write(kind, m->values, m->count, m->frame + 4, m->length - 4, frame, sizeof frame);
    return staff_board_number(result) == 0 && staff_board_written(result) == m->length;
}

/* What callgrind counts. */
__attribute__((noipa)) bool measured(bool (*each)(struct message *)) {
    bool is_done = true;
    for (size_t i = 0; i < count; i++) {
        is_done &= each(&messages[i]);
    }
    return is_done;
}

static bool is_written_again(struct message *m) {
    return write_message(m) && memcmp(frame, m->frame, m->length) == 0;
}

static bool load(const char *path) {
    FILE *file = fopen(path, "rb");
    if (file == NULL) {
        return false;
    }
    size_t end = fread(journal, 1, sizeof journal, file);
    fclose(file);
    for (size_t at = 0; at + 4 <= end; at += messages[count - 1].length) {
        messages[count++] = (struct message){.frame = journal + at, .length = 2 + journal[at] + 256u * journal[at + 1]};
    }
    return count > 0;
}

int main(int argc, char **argv) {
    if (argc != 3 || !load(argv[2])) {
        fputs("messages read|write JOURNAL\n", stderr);
        return 2;
    }
    if (strcmp(argv[1], "read") == 0) {
        return measured(read_message) ? 0 : 1;
    }
    bool is_same = true;
    for (size_t i = 0; i < count; i++) {
        is_same &= read_message(&messages[i]) && is_written_again(&messages[i]);
    }
    return is_same && measured(write_message) ? 0 : 1;
}
