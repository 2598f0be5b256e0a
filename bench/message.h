/* The messages of document 01 as the peers read them, and the replay that they share: a peer is a step on a state of its own. */
#ifndef MESSAGE_H
#define MESSAGE_H

#include <stdint.h>
#include <string.h>

#include "peers.h"

enum { USERS = 32, POSTS = 64, PENDING = 16, NAME = 24, INFO = 56, TITLE = 40, TEXT = 256, NOTE = 24 };

enum kind {
    START = 0x0101,
    ASK = 0x0201,
    REGISTER,
    NEW_POST,
    REQUEST_FRIEND,
    ACCEPT_FRIEND,
    END_FRIENDSHIP = 0x0301,
    SET_PROFILE = 0x0401,
    SET_TITLE,
    SET_TEXT,
    SET_PICTURE,
    SET_VISIBILITY,
    GET_PROFILE = 0x0501,
    GET_PENDING_NOTE,
    GET_IS_ADMIN,
    GET_TITLE,
    GET_TEXT,
    GET_PICTURE,
    GET_VISIBILITY,
    GET_OWNER,
    GET_NOTE_TO_ME,
    GET_NOTE_FROM_ME,
    LIST_PENDING = 0x0601,
    LIST_USERS,
    LIST_POSTS,
    LIST_REQUESTS,
    LIST_FRIENDS,
    LIST_FRIENDS_OF
};

/* The number of an answer. */
enum number {
    ACCEPTED = 0,
    UNKNOWN_KIND = 4,
    BAD_BODY = 5,
    WRONG_START = 6,
    NOT_LOGGED_IN = 7,
    NOT_ADMIN = 8,
    NOT_FOUND = 9,
    NOT_ENTITLED = 10,
    ALREADY_THERE = 11,
    FULL = 12
};

/* A string is the place of its two-byte length, which its bytes follow. The fields that a kind does not have are not set. */
struct message {
    enum kind kind;
    uint32_t sender;
    uint64_t password;
    uint32_t subject; /* V, or the post's number */
    uint64_t new_password;
    uint32_t picture;
    uint8_t visibility;
    const uint8_t *text; /* the name, title, text or note */
    const uint8_t *info;
};

/* Numbers in messages are little-endian, as they are in memory on the machines that the kernel's archive is for. */
static inline uint16_t length_of(const uint8_t *string) {
    uint16_t length;
    memcpy(&length, string, 2);
    return length;
}

/* Where the next byte of the answer goes. There is room for the largest answer. */
struct writer {
    uint8_t *at;
};

static inline void put_bytes(struct writer *out, const void *bytes, size_t n) {
    memcpy(out->at, bytes, n);
    out->at += n;
}

static inline void put_u8(struct writer *out, uint8_t x) { put_bytes(out, &x, 1); }
static inline void put_u16(struct writer *out, uint16_t x) { put_bytes(out, &x, 2); }
static inline void put_u32(struct writer *out, uint32_t x) { put_bytes(out, &x, 4); }

/* One message on the state of a peer: the body of the answer is written, or nothing where it is refused. */
typedef enum number step_function(void *state, const struct message *m, struct writer *out);

struct outcome replay_frames(step_function *step, void *state, struct bytes journal, uint8_t *answers, size_t room);

/* The length of the whole frame that stands first, or 0 if none does. */
size_t frame_length(const uint8_t *bytes, size_t left);

#endif
