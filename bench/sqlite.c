/* A peer of the kernel on SQLite in memory: the usual tables with their keys, statements prepared once, and a transaction for each message or one for
   the whole journal. */
#include "message.h"

#include <sqlite3.h>
#include <stdbool.h>
#include <stdio.h>
#include <stdlib.h>

/* Users and posts are never deleted, and a new id is above all that are there, so ids give the order of registration, asking and creation. The first
   user is the admin. */
static const char schema[] =
    "CREATE TABLE users (id INTEGER PRIMARY KEY, number INTEGER NOT NULL UNIQUE, password INTEGER NOT NULL,"
    "  name BLOB NOT NULL DEFAULT x'', info BLOB NOT NULL DEFAULT x'');"
    "CREATE TABLE posts (id INTEGER PRIMARY KEY, number INTEGER NOT NULL UNIQUE, owner INTEGER NOT NULL REFERENCES users (id),"
    "  picture INTEGER NOT NULL DEFAULT 0, visibility INTEGER NOT NULL DEFAULT 0, title BLOB NOT NULL, text BLOB NOT NULL DEFAULT x'');"
    "CREATE TABLE pending (id INTEGER PRIMARY KEY, number INTEGER NOT NULL UNIQUE, note BLOB NOT NULL);"
    "CREATE TABLE friends (user INTEGER NOT NULL REFERENCES users (id), friend INTEGER NOT NULL REFERENCES users (id),"
    "  PRIMARY KEY (user, friend)) WITHOUT ROWID;"
    "CREATE TABLE requests (receiver INTEGER NOT NULL REFERENCES users (id), sender INTEGER NOT NULL REFERENCES users (id),"
    "  note BLOB NOT NULL, PRIMARY KEY (receiver, sender)) WITHOUT ROWID;";

enum query {
    BEGIN, COMMIT, FIND_USER, FIND_PENDING, FIND_POST, FIND_FRIEND, FIND_REQUEST, COUNT_USERS, COUNT_POSTS, COUNT_PENDING,
    ADD_USER, ADD_PENDING, DROP_PENDING, ADD_POST, ADD_REQUEST, DROP_REQUESTS, ADD_FRIENDS, DROP_FRIEND,
    UPDATE_PROFILE, UPDATE_TITLE, UPDATE_TEXT, UPDATE_PICTURE, UPDATE_VISIBILITY,
    PROFILE, PENDING_NOTE, TITLE_OF, TEXT_OF, PICTURE_OF, VISIBILITY_OF, OWNER_OF, NOTE_TO, NOTE_FROM,
    ALL_PENDING, ALL_USERS, ALL_POSTS, REQUESTS_TO, FRIENDS_OF, QUERIES
};

/* A post for one who may read it: no row if there is none, and first whether ?2 may. */
#define READ_POST(column) \
    "SELECT owner = ?2 OR visibility = 1 OR EXISTS (SELECT 1 FROM friends WHERE user = owner AND friend = ?2), " column \
    " FROM posts WHERE number = ?1"
#define UPDATE_POST(column) "UPDATE posts SET " column " = ?3 WHERE number = ?1 AND owner = ?2"

static const char *const texts[QUERIES] = {
    [BEGIN] = "BEGIN",
    [COMMIT] = "COMMIT",
    [FIND_USER] = "SELECT id, password FROM users WHERE number = ?1",
    [FIND_PENDING] = "SELECT 1 FROM pending WHERE number = ?1",
    [FIND_POST] = "SELECT 1 FROM posts WHERE number = ?1",
    [FIND_FRIEND] = "SELECT 1 FROM friends WHERE user = ?1 AND friend = ?2",
    [FIND_REQUEST] = "SELECT 1 FROM requests WHERE receiver = ?1 AND sender = ?2",
    [COUNT_USERS] = "SELECT count(*) FROM users",
    [COUNT_POSTS] = "SELECT count(*) FROM posts",
    [COUNT_PENDING] = "SELECT count(*) FROM pending",
    [ADD_USER] = "INSERT INTO users (number, password) VALUES (?1, ?2)",
    [ADD_PENDING] = "INSERT INTO pending (number, note) VALUES (?1, ?2)",
    [DROP_PENDING] = "DELETE FROM pending WHERE number = ?1",
    [ADD_POST] = "INSERT INTO posts (number, owner, title) VALUES (?1, ?2, ?3)",
    [ADD_REQUEST] = "INSERT INTO requests (receiver, sender, note) VALUES (?1, ?2, ?3)",
    [DROP_REQUESTS] = "DELETE FROM requests WHERE receiver = ?1 AND sender = ?2 OR receiver = ?2 AND sender = ?1",
    [ADD_FRIENDS] = "INSERT INTO friends (user, friend) VALUES (?1, ?2), (?2, ?1)",
    [DROP_FRIEND] = "DELETE FROM friends WHERE user = ?1 AND friend = ?2",
    [UPDATE_PROFILE] = "UPDATE users SET password = ?2, name = ?3, info = ?4 WHERE id = ?1",
    [UPDATE_TITLE] = UPDATE_POST("title"),
    [UPDATE_TEXT] = UPDATE_POST("text"),
    [UPDATE_PICTURE] = UPDATE_POST("picture"),
    [UPDATE_VISIBILITY] = UPDATE_POST("visibility"),
    [PROFILE] = "SELECT name, info FROM users WHERE number = ?1",
    [PENDING_NOTE] = "SELECT note FROM pending WHERE number = ?1",
    [TITLE_OF] = READ_POST("title"),
    [TEXT_OF] = READ_POST("text"),
    [PICTURE_OF] = READ_POST("picture"),
    [VISIBILITY_OF] = READ_POST("visibility"),
    [OWNER_OF] = "SELECT users.number FROM posts JOIN users ON users.id = owner WHERE posts.number = ?1",
    [NOTE_TO] = "SELECT note FROM requests WHERE receiver = ?2 AND sender = (SELECT id FROM users WHERE number = ?1)",
    [NOTE_FROM] = "SELECT note FROM requests WHERE sender = ?2 AND receiver = (SELECT id FROM users WHERE number = ?1)",
    [ALL_PENDING] = "SELECT number FROM pending ORDER BY id",
    [ALL_USERS] = "SELECT number FROM users ORDER BY id",
    [ALL_POSTS] = "SELECT posts.number, users.number FROM posts JOIN users ON users.id = owner ORDER BY posts.id",
    [REQUESTS_TO] = "SELECT number FROM requests JOIN users ON users.id = sender WHERE receiver = ?1 ORDER BY sender",
    [FRIENDS_OF] = "SELECT number FROM friends JOIN users ON users.id = friend WHERE user = ?1 ORDER BY friend",
};

struct board {
    sqlite3 *db;
    sqlite3_stmt *statements[QUERIES];
    bool transaction_each;
};

/* ---- statements */

static void check(const struct board *b, bool held) {
    if (!held) {
        fprintf(stderr, "SQLite: %s\n", sqlite3_errmsg(b->db));
        exit(2);
    }
}

static sqlite3_stmt *bind(struct board *b, enum query q, int64_t first, int64_t second) {
    sqlite3_stmt *s = b->statements[q];
    int count = sqlite3_bind_parameter_count(s);
    if (count >= 1) {
        sqlite3_bind_int64(s, 1, first);
    }
    if (count >= 2) {
        sqlite3_bind_int64(s, 2, second);
    }
    return s;
}

/* The bytes stay where they are until the statement is done. */
static void bind_string(sqlite3_stmt *s, int place, const uint8_t *string) {
    sqlite3_bind_blob(s, place, string + 2, length_of(string), SQLITE_STATIC);
}

static bool is_row(struct board *b, sqlite3_stmt *s) {
    int result = sqlite3_step(s);
    check(b, result == SQLITE_ROW || result == SQLITE_DONE);
    return result == SQLITE_ROW;
}

/* Runs a statement that has no rows. Whether it changed any. */
static bool run(struct board *b, sqlite3_stmt *s) {
    check(b, sqlite3_step(s) == SQLITE_DONE);
    sqlite3_reset(s);
    return sqlite3_changes(b->db) > 0;
}

static bool exists(struct board *b, enum query q, int64_t first, int64_t second) {
    sqlite3_stmt *s = bind(b, q, first, second);
    bool found = is_row(b, s);
    sqlite3_reset(s);
    return found;
}

static int64_t count(struct board *b, enum query q) {
    sqlite3_stmt *s = b->statements[q];
    check(b, is_row(b, s));
    int64_t n = sqlite3_column_int64(s, 0);
    sqlite3_reset(s);
    return n;
}

/* The id of a user, or 0; the password, where one is wanted. */
static int64_t find_user(struct board *b, uint32_t number, uint64_t *password) {
    sqlite3_stmt *s = bind(b, FIND_USER, number, 0);
    int64_t id = 0;
    if (is_row(b, s)) {
        id = sqlite3_column_int64(s, 0);
        if (password != NULL) {
            *password = (uint64_t)sqlite3_column_int64(s, 1);
        }
    }
    sqlite3_reset(s);
    return id;
}

static void put_column(struct writer *out, sqlite3_stmt *s, int column) {
    size_t length = (size_t)sqlite3_column_bytes(s, column);
    put_u16(out, (uint16_t)length);
    if (length > 0) {
        put_bytes(out, sqlite3_column_blob(s, column), length);
    }
}

/* ---- answers of one row and of many */

static enum number answer_strings(struct board *b, enum query q, int64_t first, int64_t second, struct writer *out) {
    sqlite3_stmt *s = bind(b, q, first, second);
    bool found = is_row(b, s);
    for (int i = 0; found && i < sqlite3_column_count(s); i++) {
        put_column(out, s, i);
    }
    sqlite3_reset(s);
    return found ? ACCEPTED : NOT_FOUND;
}

/* The numbers of all rows, after the count of rows. */
static enum number answer_list(struct board *b, enum query q, int64_t user, struct writer *out) {
    sqlite3_stmt *s = bind(b, q, user, 0);
    struct writer head = *out;
    uint16_t rows = 0;
    out->at += 2;
    for (; is_row(b, s); rows++) {
        for (int i = 0; i < sqlite3_column_count(s); i++) {
            put_u32(out, (uint32_t)sqlite3_column_int64(s, i));
        }
    }
    put_u16(&head, rows);
    sqlite3_reset(s);
    return ACCEPTED;
}

/* ---- registration */

static enum number add_user(struct board *b, uint32_t number, uint64_t password) {
    run(b, bind(b, ADD_USER, number, (int64_t)password));
    return ACCEPTED;
}

static enum number start(struct board *b, const struct message *m) {
    return count(b, COUNT_USERS) > 0 ? WRONG_START : add_user(b, m->sender, m->password);
}

static enum number ask(struct board *b, const struct message *m) {
    if (count(b, COUNT_USERS) == 0) {
        return WRONG_START;
    }
    if (find_user(b, m->sender, NULL) != 0 || exists(b, FIND_PENDING, m->sender, 0)) {
        return ALREADY_THERE;
    }
    if (count(b, COUNT_PENDING) == PENDING) {
        return FULL;
    }
    sqlite3_stmt *s = b->statements[ADD_PENDING];
    sqlite3_bind_int64(s, 1, m->sender);
    bind_string(s, 2, m->text);
    run(b, s);
    return ACCEPTED;
}

static enum number register_user(struct board *b, const struct message *m) {
    if (!exists(b, FIND_PENDING, m->subject, 0)) {
        return NOT_FOUND;
    }
    if (count(b, COUNT_USERS) == USERS) {
        return FULL;
    }
    run(b, bind(b, DROP_PENDING, m->subject, 0));
    return add_user(b, m->subject, m->new_password);
}

/* ---- users and friends */

static enum number set_profile(struct board *b, int64_t sender, const struct message *m) {
    sqlite3_stmt *s = bind(b, UPDATE_PROFILE, sender, (int64_t)m->new_password);
    bind_string(s, 3, m->text);
    bind_string(s, 4, m->info);
    run(b, s);
    return ACCEPTED;
}

static enum number get_is_admin(bool admin, struct writer *out) {
    put_u8(out, admin);
    return ACCEPTED;
}

static enum number request_friend(struct board *b, int64_t sender, const struct message *m) {
    int64_t v = find_user(b, m->subject, NULL);
    if (v == 0) {
        return NOT_FOUND;
    }
    if (v == sender || exists(b, FIND_FRIEND, v, sender) || exists(b, FIND_REQUEST, v, sender)) {
        return ALREADY_THERE;
    }
    sqlite3_stmt *s = bind(b, ADD_REQUEST, v, sender);
    bind_string(s, 3, m->text);
    run(b, s);
    return ACCEPTED;
}

static enum number accept_friend(struct board *b, int64_t sender, const struct message *m) {
    int64_t v = find_user(b, m->subject, NULL);
    if (v == 0 || !exists(b, FIND_REQUEST, sender, v)) {
        return NOT_FOUND;
    }
    run(b, bind(b, DROP_REQUESTS, sender, v));
    run(b, bind(b, ADD_FRIENDS, sender, v));
    return ACCEPTED;
}

static enum number end_friendship(struct board *b, int64_t sender, const struct message *m) {
    int64_t v = find_user(b, m->subject, NULL);
    if (v == 0 || !run(b, bind(b, DROP_FRIEND, sender, v))) {
        return NOT_FOUND;
    }
    run(b, bind(b, DROP_FRIEND, v, sender));
    return ACCEPTED;
}

static enum number list_friends_of(struct board *b, int64_t sender, const struct message *m, struct writer *out) {
    int64_t v = find_user(b, m->subject, NULL);
    if (v == 0) {
        return NOT_FOUND;
    }
    return v == sender || exists(b, FIND_FRIEND, v, sender) ? answer_list(b, FRIENDS_OF, v, out) : NOT_ENTITLED;
}

/* ---- posts */

static enum number new_post(struct board *b, int64_t sender, const struct message *m) {
    if (exists(b, FIND_POST, m->subject, 0)) {
        return ALREADY_THERE;
    }
    if (count(b, COUNT_POSTS) == POSTS) {
        return FULL;
    }
    sqlite3_stmt *s = bind(b, ADD_POST, m->subject, sender);
    bind_string(s, 3, m->text);
    run(b, s);
    return ACCEPTED;
}

static enum number set_post(struct board *b, int64_t sender, const struct message *m) {
    sqlite3_stmt *s = bind(b, UPDATE_TITLE + (m->kind - SET_TITLE), m->subject, sender);
    switch (m->kind) {
    case SET_PICTURE: sqlite3_bind_int64(s, 3, m->picture); break;
    case SET_VISIBILITY: sqlite3_bind_int64(s, 3, m->visibility); break;
    default: bind_string(s, 3, m->text);
    }
    if (run(b, s)) {
        return ACCEPTED;
    }
    return exists(b, FIND_POST, m->subject, 0) ? NOT_ENTITLED : NOT_FOUND;
}

static enum number get_post(struct board *b, int64_t sender, const struct message *m, struct writer *out) {
    sqlite3_stmt *s = bind(b, TITLE_OF + (m->kind - GET_TITLE), m->subject, sender);
    enum number number = !is_row(b, s) ? NOT_FOUND : sqlite3_column_int(s, 0) == 0 ? NOT_ENTITLED : ACCEPTED;
    if (number == ACCEPTED) {
        switch (m->kind) {
        case GET_PICTURE: put_u32(out, (uint32_t)sqlite3_column_int64(s, 1)); break;
        case GET_VISIBILITY: put_u8(out, (uint8_t)sqlite3_column_int(s, 1)); break;
        default: put_column(out, s, 1);
        }
    }
    sqlite3_reset(s);
    return number;
}

static enum number get_owner(struct board *b, const struct message *m, struct writer *out) {
    sqlite3_stmt *s = bind(b, OWNER_OF, m->subject, 0);
    bool found = is_row(b, s);
    if (found) {
        put_u32(out, (uint32_t)sqlite3_column_int64(s, 0));
    }
    sqlite3_reset(s);
    return found ? ACCEPTED : NOT_FOUND;
}

/* ---- the peer */

static enum number step_of_user(struct board *b, int64_t u, const struct message *m, struct writer *out) {
    bool admin = u == 1;
    switch (m->kind) {
    case REGISTER: return admin ? register_user(b, m) : NOT_ADMIN;
    case NEW_POST: return new_post(b, u, m);
    case REQUEST_FRIEND: return request_friend(b, u, m);
    case ACCEPT_FRIEND: return accept_friend(b, u, m);
    case END_FRIENDSHIP: return end_friendship(b, u, m);
    case SET_PROFILE: return set_profile(b, u, m);
    case SET_TITLE: case SET_TEXT: case SET_PICTURE: case SET_VISIBILITY: return set_post(b, u, m);
    case GET_PROFILE: return answer_strings(b, PROFILE, m->subject, 0, out);
    case GET_PENDING_NOTE: return admin ? answer_strings(b, PENDING_NOTE, m->subject, 0, out) : NOT_ADMIN;
    case GET_IS_ADMIN: return get_is_admin(admin, out);
    case GET_TITLE: case GET_TEXT: case GET_PICTURE: case GET_VISIBILITY: return get_post(b, u, m, out);
    case GET_OWNER: return get_owner(b, m, out);
    case GET_NOTE_TO_ME: return answer_strings(b, NOTE_TO, m->subject, u, out);
    case GET_NOTE_FROM_ME: return answer_strings(b, NOTE_FROM, m->subject, u, out);
    case LIST_PENDING: return admin ? answer_list(b, ALL_PENDING, 0, out) : NOT_ADMIN;
    case LIST_USERS: return answer_list(b, ALL_USERS, 0, out);
    case LIST_POSTS: return answer_list(b, ALL_POSTS, 0, out);
    case LIST_REQUESTS: return answer_list(b, REQUESTS_TO, u, out);
    case LIST_FRIENDS: return answer_list(b, FRIENDS_OF, u, out);
    default: return list_friends_of(b, u, m, out);
    }
}

static enum number step_in_transaction(struct board *b, const struct message *m, struct writer *out) {
    uint64_t password = 0;
    if (m->kind == START) {
        return start(b, m);
    }
    if (m->kind == ASK) {
        return ask(b, m);
    }
    int64_t u = find_user(b, m->sender, &password);
    return u != 0 && password == m->password ? step_of_user(b, u, m, out) : NOT_LOGGED_IN;
}

static enum number step(void *state, const struct message *m, struct writer *out) {
    struct board *b = state;
    if (!b->transaction_each) {
        return step_in_transaction(b, m, out);
    }
    run(b, b->statements[BEGIN]);
    enum number number = step_in_transaction(b, m, out);
    run(b, b->statements[COMMIT]);
    return number;
}

static void *open_board(bool transaction_each) {
    struct board *b = allocate(sizeof *b);
    b->transaction_each = transaction_each;
    check(b, sqlite3_open(":memory:", &b->db) == SQLITE_OK);
    check(b, sqlite3_exec(b->db, schema, NULL, NULL, NULL) == SQLITE_OK);
    for (int q = 0; q < QUERIES; q++) {
        check(b, sqlite3_prepare_v3(b->db, texts[q], -1, SQLITE_PREPARE_PERSISTENT, &b->statements[q], NULL) == SQLITE_OK);
    }
    return b;
}

static void *open_each(void) { return open_board(true); }
static void *open_whole(void) { return open_board(false); }

static void close_board(void *state) {
    struct board *b = state;
    for (int q = 0; q < QUERIES; q++) {
        sqlite3_finalize(b->statements[q]);
    }
    sqlite3_close(b->db);
    free(b);
}

static struct outcome replay(void *state, struct bytes journal, uint8_t *answers, size_t room) {
    struct board *b = state;
    if (b->transaction_each) {
        return replay_frames(step, b, journal, answers, room);
    }
    run(b, b->statements[BEGIN]);
    struct outcome o = replay_frames(step, b, journal, answers, room);
    run(b, b->statements[COMMIT]);
    return o;
}

const struct peer sqlite_each_peer = {"sqlite-each", "SQLite, a transaction for each message", open_each, replay, close_board};
const struct peer sqlite_whole_peer = {"sqlite-whole", "SQLite, one for all", open_whole, replay, close_board};
