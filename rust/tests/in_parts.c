/* A journal on a thread with a small stack: staff_board_replay_in_parts gives what staff_board_replay gives on the main thread's, whatever room there is
   for answers. The argument names the journal; the counts with room for all answers are printed. */
#include "staff_board.h"

#include <pthread.h>
#include <stdio.h>
#include <stdlib.h>
#include <string.h>

enum { JOURNAL_LIMIT = 60000, ANSWERS = 8000000, STACK = 1024 * 1024 };

static uint8_t journal[JOURNAL_LIMIT];
static size_t journal_length;
static uint8_t whole_board[STAFF_BOARD_SIZE], parts_board[STAFF_BOARD_SIZE];
static uint8_t whole[ANSWERS], parts[ANSWERS];
static uint8_t whole_counts[STAFF_BOARD_COUNTS_SIZE], parts_counts[STAFF_BOARD_COUNTS_SIZE];
static size_t room;
static uint32_t parts_stop;

static void *replay_in_parts(void *unused) {
    parts_stop = staff_board_replay_in_parts(journal, journal_length, parts_board, sizeof parts_board, parts, room, parts_counts, sizeof parts_counts);
    return unused;
}

/* Whether both give the same stop, counts, board and answers with this much room, from a board whose bytes are all this one. */
static int agree(int byte) {
    pthread_attr_t attributes;
    pthread_t thread;
    memset(whole_board, byte, sizeof whole_board);
    memset(parts_board, byte, sizeof parts_board);
    memset(whole, 0xee, sizeof whole);
    memset(parts, 0xee, sizeof parts);
    uint32_t stop = staff_board_replay(journal, journal_length, whole_board, sizeof whole_board, whole, room, whole_counts, sizeof whole_counts);
    if (pthread_attr_init(&attributes) != 0 || pthread_attr_setstacksize(&attributes, STACK) != 0 ||
        pthread_create(&thread, &attributes, replay_in_parts, NULL) != 0 || pthread_join(thread, NULL) != 0) {
        return 0;
    }
    return stop == parts_stop && (stop == STAFF_BOARD_UNSOUND) == (byte != 0) && memcmp(whole_counts, parts_counts, sizeof whole_counts) == 0 &&
           memcmp(whole_board, parts_board, sizeof whole_board) == 0 && memcmp(whole, parts, sizeof whole) == 0;
}

int main(int count, char **arguments) {
    static const size_t rooms[] = {0, 517, 518, 16383, 16384, 16902, 20000, 32768, 60517, ANSWERS};
    FILE *file = count == 2 ? fopen(arguments[1], "rb") : NULL;
    if (file == NULL) {
        return 2;
    }
    journal_length = fread(journal, 1, sizeof journal, file);
    fclose(file);
    for (size_t i = 0; i < sizeof rooms / sizeof *rooms; i++) {
        room = rooms[i];
        if (!agree(0xff) || !agree(0)) { /* an unsound board, and the empty one, whose counts are printed below */
            printf("room for %zu bytes: they differ\n", room);
            return 1;
        }
    }
    printf("%llu %llu %llu\n", (unsigned long long)staff_board_messages_done(parts_counts), (unsigned long long)staff_board_journal_passed(parts_counts),
           (unsigned long long)staff_board_answers_written(parts_counts));
    uint8_t wrong[STAFF_BOARD_COUNTS_SIZE + 1] = {0};
    return staff_board_replay_in_parts(journal, journal_length, parts_board, sizeof parts_board, parts, ANSWERS, wrong, sizeof wrong) !=
           STAFF_BOARD_WRONG_COUNTS;
}
