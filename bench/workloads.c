/* Makes the journals that the peers are measured on: those of crates/journals/data, and a busy one on a full board. */
#include <stdbool.h>
#include <stdio.h>

#include "common.h"
#include "message.h"

enum { LIMIT = 60000, FRAME_LIMIT = 278, SHORTEST = 4 };

/* ---- files */

static struct bytes read_file(const char *path) {
    struct bytes b = {allocate(LIMIT + 1), 0};
    FILE *file = fopen(path, "rb");
    if (file == NULL) {
        perror(path);
        exit(2);
    }
    b.length = fread(b.at, 1, LIMIT + 1, file);
    fclose(file);
    return b;
}

/* A board with its tables filled, and then as many of the shortest frames as a journal has room for. */
static struct bytes full_then_shortest(void) {
    struct bytes b = read_file("crates/journals/data/capacity-tables.journal");
    struct bytes shortest = read_file("crates/journals/data/shortest-frames-15000.journal");
    size_t n = (LIMIT - b.length) / SHORTEST * SHORTEST;
    memcpy(b.at + b.length, shortest.at, n);
    b.length += n;
    free(shortest.at);
    return b;
}

/* ---- messages, one after the other */

static void add_number(struct bytes *j, int width, uint64_t x) {
    put_number(j->at + j->length, width, x);
    j->length += (size_t)width;
}

static void add_string(struct bytes *j, uint32_t limit) {
    uint32_t n = random_below(limit + 1);
    add_number(j, 2, n);
    for (uint32_t i = 0; i < n; i++) {
        add_number(j, 1, random_below(256));
    }
}

/* ---- the busy board: what is on it, so that most messages can be ones that are accepted */

struct member {
    uint32_t number;
    uint64_t password;
};

/* Members and posts by their places. The rows of `requested` are those who were asked. */
static struct {
    struct member members[USERS];
    uint32_t posts[POSTS], owners[POSTS], pending[PENDING];
    bool is_public[POSTS], friends[USERS][USERS], requested[USERS][USERS];
} world;

enum { ADMIN = 0, NO_SUBJECT = 0 };

/* Numbers of one table differ in their upper bits. */
static uint32_t new_number(uint32_t place) { return (place + 1) << 20 | random_below(1 << 20); }

static uint64_t new_password(void) { return (uint64_t)random_below(1u << 31) << 32 | random_below(1u << 31); }

static bool one_in(uint32_t n) { return random_below(n) == 0; }

/* The value is the new password, the picture or the visibility; strings are random. */
static void add_message(struct bytes *j, enum kind kind, struct member sender, uint32_t subject, uint64_t value) {
    size_t start = j->length;
    add_number(j, 2, 0);
    add_number(j, 2, kind);
    add_number(j, 4, sender.number);
    if (kind != ASK) {
        add_number(j, 8, sender.password);
    }
    if (subject != NO_SUBJECT) {
        add_number(j, 4, subject);
    }
    switch (kind) {
    case ASK: case REQUEST_FRIEND: add_string(j, NOTE); break;
    case REGISTER: add_number(j, 8, value); break;
    case NEW_POST: case SET_TITLE: add_string(j, TITLE); break;
    case SET_PROFILE:
        add_number(j, 8, value);
        add_string(j, NAME);
        add_string(j, INFO);
        break;
    case SET_TEXT: add_string(j, TEXT); break;
    case SET_PICTURE: add_number(j, 4, value); break;
    case SET_VISIBILITY: add_number(j, 1, value); break;
    default: break;
    }
    put_number(j->at + start, 2, j->length - start - 2);
}

/* ---- setting it up */

static void add_members(struct bytes *j) {
    struct member *members = world.members;
    for (uint32_t i = 0; i < USERS; i++) {
        members[i] = (struct member){new_number(i), new_password()};
        if (i == ADMIN) {
            add_message(j, START, members[i], NO_SUBJECT, 0);
        } else {
            add_message(j, ASK, members[i], NO_SUBJECT, 0);
            add_message(j, REGISTER, members[ADMIN], members[i].number, members[i].password);
        }
        add_message(j, SET_PROFILE, members[i], NO_SUBJECT, members[i].password);
    }
    for (uint32_t i = 0; i < PENDING; i++) {
        world.pending[i] = new_number(USERS + i);
        add_message(j, ASK, (struct member){world.pending[i], 0}, NO_SUBJECT, 0);
    }
}

/* A third of the pairs are friends; of the others a sixth have a request that is left open. */
static void add_friends(struct bytes *j) {
    for (uint32_t a = 0; a < USERS; a++) {
        for (uint32_t b = 0; b < a; b++) {
            bool are_friends = one_in(3);
            if (!are_friends && !one_in(6)) {
                continue;
            }
            add_message(j, REQUEST_FRIEND, world.members[a], world.members[b].number, 0);
            world.requested[b][a] = !are_friends;
            if (are_friends) {
                add_message(j, ACCEPT_FRIEND, world.members[b], world.members[a].number, 0);
                world.friends[a][b] = world.friends[b][a] = true;
            }
        }
    }
}

/* A third of the posts are public. */
static void add_posts(struct bytes *j) {
    for (uint32_t i = 0; i < POSTS; i++) {
        world.posts[i] = new_number(i);
        world.owners[i] = random_below(USERS);
        world.is_public[i] = one_in(3);
        struct member owner = world.members[world.owners[i]];
        add_message(j, NEW_POST, owner, world.posts[i], 0);
        add_message(j, SET_TEXT, owner, world.posts[i], 0);
        add_message(j, SET_PICTURE, owner, world.posts[i], random_below(1u << 31));
        add_message(j, SET_VISIBILITY, owner, world.posts[i], world.is_public[i]);
    }
}

/* ---- a busy day */

/* How many subjects there are for a kind; 0 for a kind without one. */
static uint32_t subject_count(enum kind kind) {
    switch (kind) {
    case GET_PENDING_NOTE: return PENDING;
    case GET_PROFILE: case GET_NOTE_TO_ME: case GET_NOTE_FROM_ME: case LIST_FRIENDS_OF: return USERS;
    case SET_PROFILE: case GET_IS_ADMIN: return 0;
    default: return kind >= LIST_PENDING ? 0 : POSTS;
    }
}

static uint32_t subject_number(uint32_t count, uint32_t place) {
    switch (count) {
    case 0: return NO_SUBJECT;
    case PENDING: return world.pending[place];
    case USERS: return world.members[place].number;
    default: return world.posts[place];
    }
}

static bool is_entitled(enum kind kind, uint32_t sender, uint32_t subject) {
    switch (kind) {
    case SET_TITLE: case SET_TEXT: case SET_PICTURE: case SET_VISIBILITY: return world.owners[subject] == sender;
    case GET_TITLE: case GET_TEXT: case GET_PICTURE: case GET_VISIBILITY:
        return world.is_public[subject] || world.owners[subject] == sender || world.friends[world.owners[subject]][sender];
    case GET_PENDING_NOTE: case LIST_PENDING: return sender == ADMIN;
    case GET_NOTE_TO_ME: return world.requested[sender][subject];
    case GET_NOTE_FROM_ME: return world.requested[subject][sender];
    case LIST_FRIENDS_OF: return sender == subject || world.friends[subject][sender];
    default: return true;
    }
}

/* One message in twelve is by anybody about anything, and half of these have a wrong password. */
static void add_busy_message(struct bytes *j) {
    static const enum kind kinds[] = {
        SET_PROFILE, SET_TITLE, SET_TEXT, SET_PICTURE, SET_VISIBILITY, GET_PROFILE, GET_PENDING_NOTE, GET_IS_ADMIN, GET_TITLE, GET_TEXT, GET_PICTURE,
        GET_VISIBILITY, GET_OWNER, GET_NOTE_TO_ME, GET_NOTE_FROM_ME, LIST_PENDING, LIST_USERS, LIST_POSTS, LIST_REQUESTS, LIST_FRIENDS, LIST_FRIENDS_OF,
    };
    enum kind kind = kinds[random_below(sizeof kinds / sizeof *kinds)];
    uint32_t count = subject_count(kind), sender, subject;
    bool is_astray = one_in(12);
    do {
        sender = random_below(USERS);
        subject = count == 0 ? 0 : random_below(count);
    } while (!is_astray && !is_entitled(kind, sender, subject));
    struct member signed_in = world.members[sender];
    if (is_astray && one_in(2)) {
        signed_in.password++;
    }
    uint64_t value = kind == SET_VISIBILITY ? random_below(2) : kind == SET_PROFILE ? new_password() : random_below(1u << 31);
    add_message(j, kind, signed_in, subject_number(count, subject), value);
    if (signed_in.password != world.members[sender].password || !is_entitled(kind, sender, subject)) {
        return;
    }
    if (kind == SET_PROFILE) {
        world.members[sender].password = value;
    }
    if (kind == SET_VISIBILITY) {
        world.is_public[subject] = value == 1;
    }
}

static struct workload busy(void) {
    struct workload w = {"busy", {allocate(2 * LIMIT), 0}, {allocate(LIMIT + FRAME_LIMIT), 0}};
    size_t whole = 0;
    random_state = 1;
    memset(&world, 0, sizeof world);
    add_members(&w.setup);
    add_friends(&w.setup);
    add_posts(&w.setup);
    while (w.journal.length <= LIMIT) {
        whole = w.journal.length;
        add_busy_message(&w.journal);
    }
    w.journal.length = whole;
    return w;
}

/* ---- by name */

const char *const workload_names[WORKLOADS] = {"week", "shortest", "full-then-shortest", "busy"};

struct workload make_workload(const char *name) {
    if (strcmp(name, "busy") == 0) {
        return busy();
    }
    struct workload w = {name, {allocate(1), 0}, {NULL, 0}};
    if (strcmp(name, "full-then-shortest") == 0) {
        w.journal = full_then_shortest();
        return w;
    }
    bool is_week = strcmp(name, "week") == 0, is_shortest = strcmp(name, "shortest") == 0;
    w.journal = read_file(is_week       ? "crates/journals/data/week.journal"
                          : is_shortest ? "crates/journals/data/shortest-frames-15000.journal"
                                        : name);
    return w;
}
