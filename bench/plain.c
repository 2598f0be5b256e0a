/* A peer of the kernel in plain C: the board as structs in memory, records found by linear search, no test of soundness. It trusts its memory, where
   the kernel trusts no byte of the board that it is lent. */
#include "message.h"

#include <stdbool.h>
#include <stdlib.h>

struct user {
    uint32_t number;
    uint64_t password;
    uint32_t friends;  /* bit j: the user at place j is a friend */
    uint32_t requests; /* bit j: the user at place j has requested this one */
    uint8_t name[2 + NAME], info[2 + INFO];
};

struct post {
    uint32_t number, picture;
    unsigned owner; /* the place of a user */
    uint8_t visibility;
    uint8_t title[2 + TITLE], text[2 + TEXT];
};

struct pending {
    uint32_t number;
    uint8_t note[2 + NOTE];
};

/* Users, posts and pending registrations stand in order. The first user is the admin. */
struct board {
    unsigned user_count, post_count, pending_count;
    struct user users[USERS];
    struct post posts[POSTS];
    struct pending pending[PENDING];
    uint8_t notes[USERS][USERS][2 + NOTE]; /* to the first from the second */
};

/* ---- records */

enum { ADMIN = 0, NOWHERE = -1 };

static int find_user(const struct board *b, uint32_t number) {
    for (unsigned i = 0; i < b->user_count; i++) {
        if (b->users[i].number == number) {
            return (int)i;
        }
    }
    return NOWHERE;
}

static int find_pending(const struct board *b, uint32_t number) {
    for (unsigned i = 0; i < b->pending_count; i++) {
        if (b->pending[i].number == number) {
            return (int)i;
        }
    }
    return NOWHERE;
}

static struct post *find_post(struct board *b, uint32_t number) {
    for (unsigned i = 0; i < b->post_count; i++) {
        if (b->posts[i].number == number) {
            return &b->posts[i];
        }
    }
    return NULL;
}

static bool has_bit(uint32_t row, int j) { return row >> j & 1; }

static void store(uint8_t *field, const uint8_t *string) { memcpy(field, string, 2 + (size_t)length_of(string)); }

static enum number answer_string(struct writer *out, const uint8_t *string) {
    put_bytes(out, string, 2 + (size_t)length_of(string));
    return ACCEPTED;
}

static void add_user(struct board *b, uint32_t number, uint64_t password) {
    b->users[b->user_count++] = (struct user){.number = number, .password = password};
}

/* ---- registration */

static enum number start(struct board *b, const struct message *m) {
    if (b->user_count > 0) {
        return WRONG_START;
    }
    add_user(b, m->sender, m->password);
    return ACCEPTED;
}

static enum number ask(struct board *b, const struct message *m) {
    if (b->user_count == 0) {
        return WRONG_START;
    }
    if (find_user(b, m->sender) != NOWHERE || find_pending(b, m->sender) != NOWHERE) {
        return ALREADY_THERE;
    }
    if (b->pending_count == PENDING) {
        return FULL;
    }
    struct pending *p = &b->pending[b->pending_count++];
    p->number = m->sender;
    store(p->note, m->text);
    return ACCEPTED;
}

static enum number register_user(struct board *b, int sender, const struct message *m) {
    if (sender != ADMIN) {
        return NOT_ADMIN;
    }
    int i = find_pending(b, m->subject);
    if (i == NOWHERE) {
        return NOT_FOUND;
    }
    if (b->user_count == USERS) {
        return FULL;
    }
    b->pending_count--;
    memmove(&b->pending[i], &b->pending[i + 1], (b->pending_count - (unsigned)i) * sizeof *b->pending);
    add_user(b, m->subject, m->new_password);
    return ACCEPTED;
}

static enum number get_pending_note(struct board *b, int sender, const struct message *m, struct writer *out) {
    if (sender != ADMIN) {
        return NOT_ADMIN;
    }
    int i = find_pending(b, m->subject);
    return i == NOWHERE ? NOT_FOUND : answer_string(out, b->pending[i].note);
}

static enum number list_pending(const struct board *b, int sender, struct writer *out) {
    if (sender != ADMIN) {
        return NOT_ADMIN;
    }
    put_u16(out, (uint16_t)b->pending_count);
    for (unsigned i = 0; i < b->pending_count; i++) {
        put_u32(out, b->pending[i].number);
    }
    return ACCEPTED;
}

/* ---- users */

static enum number set_profile(struct user *user, const struct message *m) {
    user->password = m->new_password;
    store(user->name, m->text);
    store(user->info, m->info);
    return ACCEPTED;
}

static enum number get_profile(const struct board *b, const struct message *m, struct writer *out) {
    int v = find_user(b, m->subject);
    if (v == NOWHERE) {
        return NOT_FOUND;
    }
    answer_string(out, b->users[v].name);
    return answer_string(out, b->users[v].info);
}

static enum number get_is_admin(int sender, struct writer *out) {
    put_u8(out, sender == ADMIN);
    return ACCEPTED;
}

static enum number list_users(const struct board *b, struct writer *out) {
    put_u16(out, (uint16_t)b->user_count);
    for (unsigned i = 0; i < b->user_count; i++) {
        put_u32(out, b->users[i].number);
    }
    return ACCEPTED;
}

/* The numbers of the users in a row, after their count. */
static enum number list_row(const struct board *b, uint32_t row, struct writer *out) {
    struct writer head = *out;
    uint16_t count = 0;
    out->at += 2;
    for (unsigned j = 0; j < b->user_count; j++) {
        if (row >> j & 1) {
            put_u32(out, b->users[j].number);
            count++;
        }
    }
    put_u16(&head, count);
    return ACCEPTED;
}

/* ---- friends */

static enum number request_friend(struct board *b, int sender, const struct message *m) {
    int v = find_user(b, m->subject);
    if (v == NOWHERE) {
        return NOT_FOUND;
    }
    if (v == sender || has_bit(b->users[v].friends, sender) || has_bit(b->users[v].requests, sender)) {
        return ALREADY_THERE;
    }
    b->users[v].requests |= 1u << sender;
    store(b->notes[v][sender], m->text);
    return ACCEPTED;
}

static enum number accept_friend(struct board *b, int sender, const struct message *m) {
    int v = find_user(b, m->subject);
    if (v == NOWHERE || !has_bit(b->users[sender].requests, v)) {
        return NOT_FOUND;
    }
    b->users[sender].requests &= ~(1u << v);
    b->users[v].requests &= ~(1u << sender);
    b->users[sender].friends |= 1u << v;
    b->users[v].friends |= 1u << sender;
    return ACCEPTED;
}

static enum number end_friendship(struct board *b, int sender, const struct message *m) {
    int v = find_user(b, m->subject);
    if (v == NOWHERE || !has_bit(b->users[sender].friends, v)) {
        return NOT_FOUND;
    }
    b->users[sender].friends &= ~(1u << v);
    b->users[v].friends &= ~(1u << sender);
    return ACCEPTED;
}

static enum number get_note_to(const struct board *b, int sender, const struct message *m, struct writer *out) {
    int v = find_user(b, m->subject);
    if (v == NOWHERE || !has_bit(b->users[sender].requests, v)) {
        return NOT_FOUND;
    }
    return answer_string(out, b->notes[sender][v]);
}

static enum number get_note_from(const struct board *b, int sender, const struct message *m, struct writer *out) {
    int v = find_user(b, m->subject);
    if (v == NOWHERE || !has_bit(b->users[v].requests, sender)) {
        return NOT_FOUND;
    }
    return answer_string(out, b->notes[v][sender]);
}

static enum number list_friends_of(const struct board *b, int sender, const struct message *m, struct writer *out) {
    int v = find_user(b, m->subject);
    if (v == NOWHERE) {
        return NOT_FOUND;
    }
    if (v != sender && !has_bit(b->users[v].friends, sender)) {
        return NOT_ENTITLED;
    }
    return list_row(b, b->users[v].friends, out);
}

/* ---- posts */

static enum number new_post(struct board *b, int sender, const struct message *m) {
    if (find_post(b, m->subject) != NULL) {
        return ALREADY_THERE;
    }
    if (b->post_count == POSTS) {
        return FULL;
    }
    struct post *post = &b->posts[b->post_count++];
    *post = (struct post){.number = m->subject, .owner = (unsigned)sender};
    store(post->title, m->text);
    return ACCEPTED;
}

static enum number set_post(struct board *b, int sender, const struct message *m) {
    struct post *post = find_post(b, m->subject);
    if (post == NULL) {
        return NOT_FOUND;
    }
    if (post->owner != (unsigned)sender) {
        return NOT_ENTITLED;
    }
    switch (m->kind) {
    case SET_TITLE: store(post->title, m->text); break;
    case SET_TEXT: store(post->text, m->text); break;
    case SET_PICTURE: post->picture = m->picture; break;
    default: post->visibility = m->visibility;
    }
    return ACCEPTED;
}

static enum number get_post(struct board *b, int sender, const struct message *m, struct writer *out) {
    const struct post *post = find_post(b, m->subject);
    if (post == NULL) {
        return NOT_FOUND;
    }
    if (post->owner != (unsigned)sender && post->visibility == 0 && !has_bit(b->users[post->owner].friends, sender)) {
        return NOT_ENTITLED;
    }
    switch (m->kind) {
    case GET_TITLE: return answer_string(out, post->title);
    case GET_TEXT: return answer_string(out, post->text);
    case GET_PICTURE: put_u32(out, post->picture); return ACCEPTED;
    default: put_u8(out, post->visibility); return ACCEPTED;
    }
}

static enum number get_owner(struct board *b, const struct message *m, struct writer *out) {
    const struct post *post = find_post(b, m->subject);
    if (post == NULL) {
        return NOT_FOUND;
    }
    put_u32(out, b->users[post->owner].number);
    return ACCEPTED;
}

static enum number list_posts(const struct board *b, struct writer *out) {
    put_u16(out, (uint16_t)b->post_count);
    for (unsigned i = 0; i < b->post_count; i++) {
        put_u32(out, b->posts[i].number);
        put_u32(out, b->users[b->posts[i].owner].number);
    }
    return ACCEPTED;
}

/* ---- the peer */

static enum number step(void *state, const struct message *m, struct writer *out) {
    struct board *b = state;
    if (m->kind == START) {
        return start(b, m);
    }
    if (m->kind == ASK) {
        return ask(b, m);
    }
    int u = find_user(b, m->sender);
    if (u == NOWHERE || b->users[u].password != m->password) {
        return NOT_LOGGED_IN;
    }
    switch (m->kind) {
    case REGISTER: return register_user(b, u, m);
    case NEW_POST: return new_post(b, u, m);
    case REQUEST_FRIEND: return request_friend(b, u, m);
    case ACCEPT_FRIEND: return accept_friend(b, u, m);
    case END_FRIENDSHIP: return end_friendship(b, u, m);
    case SET_PROFILE: return set_profile(&b->users[u], m);
    case SET_TITLE: case SET_TEXT: case SET_PICTURE: case SET_VISIBILITY: return set_post(b, u, m);
    case GET_PROFILE: return get_profile(b, m, out);
    case GET_PENDING_NOTE: return get_pending_note(b, u, m, out);
    case GET_IS_ADMIN: return get_is_admin(u, out);
    case GET_TITLE: case GET_TEXT: case GET_PICTURE: case GET_VISIBILITY: return get_post(b, u, m, out);
    case GET_OWNER: return get_owner(b, m, out);
    case GET_NOTE_TO_ME: return get_note_to(b, u, m, out);
    case GET_NOTE_FROM_ME: return get_note_from(b, u, m, out);
    case LIST_PENDING: return list_pending(b, u, out);
    case LIST_USERS: return list_users(b, out);
    case LIST_POSTS: return list_posts(b, out);
    case LIST_REQUESTS: return list_row(b, b->users[u].requests, out);
    case LIST_FRIENDS: return list_row(b, b->users[u].friends, out);
    default: return list_friends_of(b, u, m, out);
    }
}

static void *open_board(void) { return allocate(sizeof(struct board)); }

static struct outcome replay(void *board, struct bytes journal, uint8_t *answers, size_t room) {
    return replay_frames(step, board, journal, answers, room);
}

const struct peer plain_peer = {"plain", "plain C", open_board, replay, free};
