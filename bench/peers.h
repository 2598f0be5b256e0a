/* What a peer of the kernel is, something that replays a journal on a board that it keeps in its own way, and what the peers are measured on. */
#ifndef PEERS_H
#define PEERS_H

#include "staff_board.h"

struct bytes {
    uint8_t *at;
    size_t length;
};

/* Why a replay stopped, and its counts. */
struct outcome {
    uint64_t stop, messages, passed, written;
};

struct peer {
    const char *name, *title;
    void *(*open)(void); /* an empty board */
    struct outcome (*replay)(void *board, struct bytes journal, uint8_t *answers, size_t room);
    void (*close)(void *board);
};

extern const struct peer plain_peer, sqlite_each_peer, sqlite_whole_peer;

/* A journal to measure. The set-up is replayed before, on the empty board, and is not measured. */
struct workload {
    const char *name;
    struct bytes setup, journal;
};

enum { WORKLOADS = 4 };

extern const char *const workload_names[WORKLOADS];

/* A workload by its name, or else the journal in the file of that name. */
struct workload make_workload(const char *name);

/* Memory of zeros, or the end of the program. */
void *allocate(size_t size);

#endif
