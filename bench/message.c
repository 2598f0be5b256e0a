/* Reads messages of document 01 into a struct and replays a journal of them. Shared by the peers. */
#include "message.h"

#include <stdbool.h>

enum { HEAD = 4, L_MIN = 2, L_MAX = 276 };

/* ---- fields, one after the other */

struct reader {
    const uint8_t *at, *end;
};

static inline bool read_bytes(struct reader *r, void *to, size_t n) {
    if ((size_t)(r->end - r->at) < n) {
        return false;
    }
    memcpy(to, r->at, n);
    r->at += n;
    return true;
}

/* A staff or post number. */
static inline bool read_id(struct reader *r, uint32_t *to) { return read_bytes(r, to, 4) && *to != 0; }

static inline bool read_string(struct reader *r, size_t limit, const uint8_t **to) {
    uint16_t length;
    *to = r->at;
    if (!read_bytes(r, &length, 2) || length > limit || (size_t)(r->end - r->at) < length) {
        return false;
    }
    r->at += length;
    return true;
}

static bool read_fields(struct reader *r, struct message *m) {
    if (!read_id(r, &m->sender)) {
        return false;
    }
    if (m->kind == ASK) {
        return read_string(r, NOTE, &m->text);
    }
    if (!read_bytes(r, &m->password, 8)) {
        return false;
    }
    switch (m->kind) {
    case START: case GET_IS_ADMIN: case LIST_PENDING: case LIST_USERS: case LIST_POSTS: case LIST_REQUESTS: case LIST_FRIENDS:
        return true;
    case SET_PROFILE:
        return read_bytes(r, &m->new_password, 8) && read_string(r, NAME, &m->text) && read_string(r, INFO, &m->info);
    case REGISTER:
        return read_id(r, &m->subject) && read_bytes(r, &m->new_password, 8);
    case NEW_POST: case SET_TITLE:
        return read_id(r, &m->subject) && read_string(r, TITLE, &m->text);
    case REQUEST_FRIEND:
        return read_id(r, &m->subject) && read_string(r, NOTE, &m->text);
    case SET_TEXT:
        return read_id(r, &m->subject) && read_string(r, TEXT, &m->text);
    case SET_PICTURE:
        return read_id(r, &m->subject) && read_bytes(r, &m->picture, 4);
    case SET_VISIBILITY:
        return read_id(r, &m->subject) && read_bytes(r, &m->visibility, 1) && m->visibility <= 1;
    default:
        return read_id(r, &m->subject);
    }
}

/* ---- messages */

static bool is_kind(unsigned kind) {
    static const uint8_t kinds_in_family[] = {0, 1, 5, 1, 5, 10, 6};
    unsigned family = kind >> 8, place = kind & 0xff;
    return family < sizeof kinds_in_family && place >= 1 && place <= kinds_in_family[family];
}

/* Of a whole frame: the message, or its refusal. */
static enum number read_message(const uint8_t *frame, size_t length, struct message *m) {
    unsigned kind = length_of(frame + 2);
    struct reader r = {frame + HEAD, frame + length};
    if (!is_kind(kind)) {
        return UNKNOWN_KIND;
    }
    m->kind = (enum kind)kind;
    return read_fields(&r, m) && r.at == r.end ? ACCEPTED : BAD_BODY;
}

size_t frame_length(const uint8_t *bytes, size_t left) {
    if (left < HEAD) {
        return 0;
    }
    size_t length = length_of(bytes);
    return length >= L_MIN && length <= L_MAX && length + 2 <= left ? length + 2 : 0;
}

/* The bytes written. */
static size_t answer_frame(step_function *step, void *state, const uint8_t *frame, size_t length, uint8_t *answer) {
    struct message m;
    struct writer body = {answer + HEAD}, head = {answer};
    enum number number = read_message(frame, length, &m);
    if (number == ACCEPTED) {
        number = step(state, &m, &body);
    }
    size_t written = (size_t)(body.at - answer);
    put_u16(&head, (uint16_t)(written - 2));
    put_u16(&head, (uint16_t)number);
    return written;
}

struct outcome replay_frames(step_function *step, void *state, struct bytes journal, uint8_t *answers, size_t room) {
    struct outcome o = {0};
    while (o.passed < journal.length) {
        const uint8_t *frame = journal.at + o.passed;
        size_t length = frame_length(frame, journal.length - o.passed);
        if (room - o.written < STAFF_BOARD_ANSWER_LIMIT) {
            o.stop = 2;
            return o;
        }
        if (length == 0) {
            o.stop = 3;
            return o;
        }
        o.written += answer_frame(step, state, frame, length, answers + o.written);
        o.passed += length;
        o.messages++;
    }
    return o;
}
