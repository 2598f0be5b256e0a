/* Measures the kernel beside peers that a program would use in its place, on the same journals (`bench/run` has the whole procedure):

       peers check JOURNAL...     whether all give the same stop, counts and answers, on these journals and on the busy board
       peers run PEER WORKLOAD    one replay in the function `measured`, for callgrind
       peers time                 the times of all replays, as Markdown
       peers write WORKLOAD       the workload's journal, to standard output

   A workload is one of `workload_names`, or a journal file. It runs at the top of the repository. */
#include "peers.h"

#include <inttypes.h>
#include <stdbool.h>
#include <stdio.h>
#include <stdlib.h>
#include <string.h>

#include "common.h"
#include "message.h"

enum { ROUNDS = 101 };

void *allocate(size_t size) {
    void *memory = calloc(1, size);
    if (memory == NULL) {
        fputs("no memory\n", stderr);
        exit(2);
    }
    return memory;
}

/* ---- the kernel as a peer */

static void *open_kernel(void) { return allocate(STAFF_BOARD_SIZE); }

static struct outcome replay_kernel(void *board, struct bytes journal, uint8_t *answers, size_t room) {
    uint64_t counts[3];
    uint32_t stop = staff_board_replay(journal.at, journal.length, board, STAFF_BOARD_SIZE, answers, room, (uint8_t *)counts, sizeof counts);
    return (struct outcome){stop, counts[0], counts[1], counts[2]};
}

static const struct peer kernel_peer = {"kernel", "kernel", open_kernel, replay_kernel, free};

static const struct peer *const peers[] = {
    &kernel_peer,
    &plain_peer,
#ifdef WITH_SQLITE
    &sqlite_each_peer,
    &sqlite_whole_peer,
#endif
};
enum { PEERS = sizeof peers / sizeof *peers, KERNEL = 0 };

/* ---- replays */

/* Room for the largest answer to each message, and for the test that there is. */
static size_t answer_room(struct bytes journal) {
    size_t frames = 1, length;
    for (size_t at = 0; (length = frame_length(journal.at + at, journal.length - at)) != 0; at += length) {
        frames++;
    }
    return frames * STAFF_BOARD_ANSWER_LIMIT;
}

/* What callgrind counts. */
__attribute__((noipa)) struct outcome measured(const struct peer *peer, void *board, struct bytes journal, uint8_t *answers, size_t room) {
    return peer->replay(board, journal, answers, room);
}

struct result {
    struct outcome outcome;
    double nanoseconds;
};

/* The journal of a workload on the board that its set-up leaves. The answers are the caller's. */
static struct result replay_workload(const struct peer *peer, const struct workload *w, uint8_t *answers, size_t room) {
    void *board = peer->open();
    size_t setup_room = answer_room(w->setup);
    uint8_t *setup_answers = allocate(setup_room);
    peer->replay(board, w->setup, setup_answers, setup_room);
    double start = nanoseconds_now();
    struct outcome outcome = measured(peer, board, w->journal, answers, room);
    double end = nanoseconds_now();
    peer->close(board);
    free(setup_answers);
    return (struct result){outcome, end - start};
}

static void free_workload(struct workload *w) {
    free(w->setup.at);
    free(w->journal.at);
}

/* ---- check */

static bool is_same(struct outcome a, struct outcome b) {
    return a.stop == b.stop && a.messages == b.messages && a.passed == b.passed && a.written == b.written;
}

static void print_outcome(const char *title, struct outcome o) {
    printf(" %s: stop %" PRIu64 ", %" PRIu64 " messages, %" PRIu64 " bytes, %" PRIu64 " bytes of answers.", title, o.stop, o.messages, o.passed,
           o.written);
}

/* All peers with this room for answers; a difference is printed. */
static bool agree(const struct workload *w, size_t room) {
    uint8_t *expected = allocate(room), *answers = allocate(room);
    struct outcome kernel = replay_workload(peers[KERNEL], w, expected, room).outcome;
    bool held = true;
    for (int i = KERNEL + 1; i < PEERS; i++) {
        struct outcome o = replay_workload(peers[i], w, answers, room).outcome;
        if (is_same(o, kernel) && memcmp(answers, expected, o.written) == 0) {
            continue;
        }
        held = false;
        printf("%s, %zu bytes of room:", w->name, room);
        print_outcome(peers[KERNEL]->title, kernel);
        print_outcome(peers[i]->title, o);
        printf("%s\n", is_same(o, kernel) ? " The answers differ." : "");
    }
    free(expected);
    free(answers);
    return held;
}

/* With room for all answers, and with so little that a longer journal stops for want of it. */
static bool check_workload(const char *name) {
    struct workload w = make_workload(name);
    bool held = agree(&w, answer_room(w.journal)) && agree(&w, 10 * STAFF_BOARD_ANSWER_LIMIT);
    free_workload(&w);
    return held;
}

static int check(int count, char **names) {
    int agreed = 0;
    for (int i = 0; i < count; i++) {
        agreed += check_workload(names[i]);
    }
    bool busy = check_workload("busy");
    printf("The kernel and %d peers agree on %d of %d journals, and %son the busy board.\n", PEERS - 1, agreed, count, busy ? "" : "not ");
    return agreed == count && busy ? 0 : 1;
}

/* ---- run, time, write */

static int run(const char *peer_name, const char *workload_name) {
    struct workload w = make_workload(workload_name);
    size_t room = answer_room(w.journal);
    uint8_t *answers = allocate(room);
    int status = 2;
    for (int i = 0; i < PEERS; i++) {
        if (strcmp(peers[i]->name, peer_name) == 0) {
            replay_workload(peers[i], &w, answers, room);
            status = 0;
        }
    }
    free(answers);
    free_workload(&w);
    return status;
}

/* A row: microseconds, and the median of the multiples of the kernel's time within a round. What is timed is the second of two replays, so that no peer
   finds the caches as another left them. */
static void time_workload(const char *name) {
    static double times[PEERS][ROUNDS], ratios[PEERS][ROUNDS];
    struct workload w = make_workload(name);
    size_t room = answer_room(w.journal);
    uint8_t *answers = allocate(room);
    for (int r = 0; r < ROUNDS; r++) {
        for (int i = 0; i < PEERS; i++) {
            replay_workload(peers[i], &w, answers, room);
            times[i][r] = replay_workload(peers[i], &w, answers, room).nanoseconds;
            ratios[i][r] = times[i][r] / times[KERNEL][r];
        }
    }
    printf("| %s |", name);
    for (int i = 0; i < PEERS; i++) {
        printf(" %.1f (%.2f) |", median(times[i], ROUNDS) / 1000, median(ratios[i], ROUNDS));
    }
    printf("\n");
    free(answers);
    free_workload(&w);
}

static int time_all(void) {
    printf("| |");
    for (int i = 0; i < PEERS; i++) {
        printf(" %s |", peers[i]->title);
    }
    printf("\n|---|");
    for (int i = 0; i < PEERS; i++) {
        printf("---|");
    }
    printf("\n");
    for (int i = 0; i < WORKLOADS; i++) {
        time_workload(workload_names[i]);
    }
    return 0;
}

static int write_journal(const char *name) {
    struct workload w = make_workload(name);
    size_t written = fwrite(w.journal.at, 1, w.journal.length, stdout);
    int status = written == w.journal.length ? 0 : 2;
    free_workload(&w);
    return status;
}

int main(int argc, char **argv) {
    const char *mode = argc > 1 ? argv[1] : "";
    if (strcmp(mode, "check") == 0) {
        return check(argc - 2, argv + 2);
    }
    if (strcmp(mode, "run") == 0 && argc == 4) {
        return run(argv[2], argv[3]);
    }
    if (strcmp(mode, "time") == 0) {
        return time_all();
    }
    if (strcmp(mode, "write") == 0 && argc == 3) {
        return write_journal(argv[2]);
    }
    fputs("peers check JOURNAL... | run PEER WORKLOAD | time | write WORKLOAD\n", stderr);
    return 2;
}
