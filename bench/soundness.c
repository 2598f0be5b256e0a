/* Measures the soundness test of a board (`bench/run` has the commands):

       soundness                the times, as multiples of one plain pass over as many bytes, in one run
       soundness count BOARD    one test of the empty, sparse or full board in the function `measured`, for callgrind

   In each round of the times there are new boards. A single board is passed over and tested 64 times, so that the processor learns its
   branches; sixteen boards are passed over and tested once each, so that it cannot. The ratio is taken within the round; what is printed
   are medians. The plain pass is what gcc -O3 makes of `a |= b[i]`. Its loop has five instructions and takes twice the time where it
   crosses a cache line, so the command aligns loops: the test is compared with the pass at its best. */
#include "staff_board.h"

#include <stdbool.h>
#include <stdint.h>
#include <stdio.h>
#include <stdlib.h>
#include <string.h>

#include "common.h"

enum { SIZE = STAFF_BOARD_SIZE, USERS = 16, POSTS = 3344, PENDING = 23312, NOTES = 23824, TURNS = 16, CALLS = 64, ROUNDS = 101 };

static bool is_sound(const uint8_t *b, size_t n) { return staff_board_sound(b, n) != 0; }

__attribute__((noinline)) static bool plain_pass(const uint8_t *b, size_t n) {
    uint8_t a = 0;
    for (size_t i = 0; i < n; i++) {
        a |= b[i];
    }
    return a == 0;
}

/* What callgrind counts. */
__attribute__((noipa)) bool measured(const uint8_t *b) { return is_sound(b, SIZE); }

/* ---- boards */

static void put_string(uint8_t *at, uint32_t limit) {
    uint32_t n = random_below(limit + 1);
    put_number(at, 2, n);
    for (uint32_t i = 0; i < n; i++) {
        at[2 + i] = (uint8_t)(1 + random_below(255));
    }
}

/* A random number that is not 0. Those of one table, and those of users and pending registrations, differ in their upper bits. */
static uint32_t record_number(int i) {
    return ((uint32_t)i + 1) << 20 | random_below(1 << 20);
}

struct rows {
    uint32_t friends[32], requests[32];
};

/* Two slots with an even sum are friends, and each of two others has requested the other, with probability 1 / rarity; a request has its note. */
static struct rows make_rows(uint8_t *b, int n, uint32_t rarity) {
    struct rows rows = {{0}, {0}};
    for (int i = 0; i < n; i++) {
        for (int j = 0; j < n; j++) {
            bool may_be_friends = (i + j) % 2 == 0;
            if (may_be_friends && j < i && random_below(rarity) == 0) {
                rows.friends[i] |= 1u << j;
                rows.friends[j] |= 1u << i;
            }
            if (!may_be_friends && random_below(rarity) == 0) {
                rows.requests[i] |= 1u << j;
                put_string(b + NOTES + 26 * (32 * i + j), 24);
            }
        }
    }
    return rows;
}

static void put_user(uint8_t *user, int i, const struct rows *rows) {
    put_number(user, 4, record_number(i));
    put_number(user + 4, 8, random_below(1 << 30));
    put_number(user + 12, 4, rows->friends[i]);
    put_number(user + 16, 4, rows->requests[i]);
    put_string(user + 20, 24);
    put_string(user + 46, 56);
}

static void put_post(uint8_t *post, int i, int users) {
    put_number(post, 4, record_number(i));
    put_number(post + 4, 4, random_below(1 << 30));
    put_number(post + 8, 2, random_below((uint32_t)users));
    put_number(post + 10, 2, random_below(2));
    put_string(post + 12, 40);
    put_string(post + 54, 256);
}

/* With n users, m posts, k pending registrations. */
static void make_board(uint8_t *b, int n, int m, int k, uint32_t rarity) {
    memset(b, 0, SIZE);
    put_number(b, 2, (uint64_t)n);
    put_number(b + 2, 2, (uint64_t)m);
    put_number(b + 4, 2, (uint64_t)k);
    struct rows rows = make_rows(b, n, rarity);
    for (int i = 0; i < n; i++) {
        put_user(b + USERS + 104 * i, i, &rows);
    }
    for (int i = 0; i < m; i++) {
        put_post(b + POSTS + 312 * i, i, n);
    }
    for (int i = 0; i < k; i++) {
        uint8_t *pending = b + PENDING + 32 * i;
        put_number(pending, 4, record_number(32 + i));
        put_string(pending + 4, 24);
    }
}

/* ---- measuring */

struct boards {
    const char *name, *remark;
    int users, posts, pending;
    uint32_t rarity;
    int count;
    uint8_t *board[TURNS];
};

static struct boards sets[] = {
    {"empty", "", 0, 0, 0, 1, 1, {0}},
    {"sparse", ": 5 users, 10 posts", 5, 10, 0, 5, 1, {0}},
    {"full", "", 32, 64, 16, 1, 1, {0}},
    {"sixteen", " full boards in turn", 32, 64, 16, 1, TURNS, {0}},
};
enum { SETS = sizeof sets / sizeof *sets };

static void allocate_boards(struct boards *set) {
    for (int i = 0; i < set->count; i++) {
        set->board[i] = aligned_alloc(64, SIZE + 64 - SIZE % 64);
        if (set->board[i] == NULL) {
            exit(2);
        }
    }
}

static void make_boards(const struct boards *set) {
    for (int i = 0; i < set->count; i++) {
        make_board(set->board[i], set->users, set->posts, set->pending, set->rarity);
    }
}

static double nanoseconds(bool (*pass)(const uint8_t *, size_t), const struct boards *set) {
    int calls = set->count == 1 ? CALLS : set->count;
    bool result = false;
    double start = nanoseconds_now();
    for (int i = 0; i < calls; i++) {
        result ^= pass(set->board[i % set->count], SIZE);
        __asm__ volatile("" : "+r"(result)::"memory");
    }
    return (nanoseconds_now() - start) / calls;
}

/* The boards are said to be sound, and not to be with a filler byte of the header changed. */
static bool is_told(const struct boards *set) {
    for (int i = 0; i < set->count; i++) {
        uint8_t *board = set->board[i];
        bool whole = is_sound(board, SIZE);
        board[15] = 1;
        bool changed = is_sound(board, SIZE);
        board[15] = 0;
        if (!whole || changed) {
            return false;
        }
    }
    return true;
}

static int time_tests(void) {
    static double plain[SETS][ROUNDS], test[SETS][ROUNDS], ratio[SETS][ROUNDS];
    for (int r = 0; r < ROUNDS; r++) {
        for (int k = 0; k < SETS; k++) {
            make_boards(&sets[k]);
            plain[k][r] = nanoseconds(plain_pass, &sets[k]);
            test[k][r] = nanoseconds(is_sound, &sets[k]);
            ratio[k][r] = test[k][r] / plain[k][r];
            if (!is_told(&sets[k])) {
                printf("%s: wrong result\n", sets[k].name);
                return 2;
            }
        }
    }
    printf("| board | plain pass, ns | test, ns | multiple |\n|---|---|---|---|\n");
    for (int k = 0; k < SETS; k++) {
        printf("| %s%s | %.0f | %.0f | %.2f |\n", sets[k].name, sets[k].remark, median(plain[k], ROUNDS), median(test[k], ROUNDS),
               median(ratio[k], ROUNDS));
    }
    return 0;
}

static int test_once(const char *name) {
    for (int k = 0; k < SETS; k++) {
        if (strcmp(sets[k].name, name) == 0) {
            make_boards(&sets[k]);
            return measured(sets[k].board[0]) ? 0 : 1;
        }
    }
    return 2;
}

int main(int argc, char **argv) {
    for (int k = 0; k < SETS; k++) {
        allocate_boards(&sets[k]);
    }
    if (argc == 1) {
        return time_tests();
    }
    if (argc == 3 && strcmp(argv[1], "count") == 0) {
        return test_once(argv[2]);
    }
    fputs("soundness [count BOARD]\n", stderr);
    return 2;
}
