/* Yovtirak: a proved collector of digital-radio broadcast objects.
 *
 * MSC data groups go in one at a time; header and body segments of up to 16 objects are gathered at
 * once; how many bytes of each are still to come is told; finished objects can be shown, read and
 * found by name. All memory is the caller's, the state and the counts too: nothing is allocated and
 * nothing is kept between calls.
 *
 *     struct yovtirak_lent lent = { .. };                 what is lent, with its lengths
 *     yovtirak_open_collector(&lent);                     opens a collector over it
 *     yovtirak_take_group(&lent, group, bytes);           takes a group
 *     yovtirak_show_address(group, bytes, &address);      tells where its end user address stands
 *     yovtirak_tell_missing(&lent, number, &progress);    tells how much of an object is missing
 *     yovtirak_show_object(&lent, number, &object);       tells where a finished object stands,
 *     yovtirak_read_parameters(&lent, number, &said);     what its header says,
 *     yovtirak_find_object(&lent, name, bytes, &number);  and whose a name is
 *     yovtirak_drop_object(&lent, number);                drops an object
 *
 * These are inline functions, at the end of this file. Each calls the exported function that stands
 * before them, which has a pointer and a length for each thing lent. examples/head.c is a whole
 * head that uses them.
 *
 * What the caller sees to:
 *
 * - Each pointer is to as many elements as its length says, aligned as its type is: the state's
 *   words to 8 bytes, the counts to 4, bytes anyhow. A pointer of no elements is not looked at.
 * - No two things lent to one call overlap, the group or the name and what is told among them.
 * - Nothing needs initialising before an opening, not even the state.
 * - A call that opens, takes or drops is alone with what is lent. Questions (tell, show, read,
 *   find) write only what they tell, so that several may run at once on one state; calls on
 *   separate memory may run at any time, and so may the question about a group, which needs no
 *   collector.
 * - The thread has YOVTIRAK_STACK_BYTES of stack.
 *
 * What every call sees to, whatever bytes and words it is handed:
 *
 * - It returns, and writes nothing but what is lent to it to be written.
 * - What it refuses changes nothing, but for one count: a group that is refused (10 to 18) is
 *   counted as refused. STATE, LIMITS and the refusals of drops and questions change nothing.
 * - A damaged state and a wrong lent length are both STATE, to every call that a state is lent to
 *   but an opening, which answers a wrong length with LIMITS. The state's words, the counts, the
 *   marks, the lengths and the two sizes in the core of each header are looked at.
 * - No sum of the stored bytes is kept. A byte of a body, or of a header but those two sizes, that
 *   is changed from outside goes unseen, and is shown as it then is.
 * - Words of the state that play no part (a free slot's but its stage, the two lengths of a slot
 *   that is not finished, and all of slots past the number of slots) may be written anew with
 *   STORED, COMPLETE and DROPPED, and by an opening.
 *
 * Link with crates/yovtirak/out/libyovtirak.a, which `rt lib` writes there: code for x86-64 and
 * its System V calls. Of other libraries it needs `memcpy` and `memset`, and nothing else.
 */
#ifndef YOVTIRAK_H
#define YOVTIRAK_H

#include <stddef.h>
#include <stdint.h>

#ifdef __cplusplus
extern "C" {
#endif

/* ---- what is lent */

#define YOVTIRAK_LIMIT_LEAST 1024u   /* the least limit on a body, in bytes */
#define YOVTIRAK_LIMIT_MOST 1048576u /* the most */
#define YOVTIRAK_SLOTS_MOST 16u      /* objects gathered at once: 1 to this many */
#define YOVTIRAK_GROUP_MOST 8215u    /* bytes of the longest group that is read */

/* Bytes of the header store, of the body store and of the arrival marks. */
#define YOVTIRAK_HEADER_SHARE 1024u
#define YOVTIRAK_MARKS_SHARE 1088u
#define YOVTIRAK_HEADER_STORE(slots) ((size_t)(slots)*YOVTIRAK_HEADER_SHARE)
#define YOVTIRAK_BODY_STORE(limit, slots) ((size_t)(limit) * (size_t)(slots))
#define YOVTIRAK_MARKS(slots) ((size_t)(slots)*YOVTIRAK_MARKS_SHARE)

/* Words of 64 bits of a state: the limit, the number of slots, and for each of 16 slots its
 * transport number, its stage (0 free, 1 gathering, 2 finished), the lengths of a finished header
 * and body, for the header and then the body the segment size, 1 + the number of the last segment
 * and its length, 0 where that is not known, the empty segment of a body having length 0, and in
 * its last word 1 + the bytes of header and body that are still to come, 0 while that is not known.
 * They may be saved, and lent again with the counts, stores and marks as they were saved. */
#define YOVTIRAK_STATE_WORDS 178u

/* The five counts, words of 32 bits, which the caller reads where they are. Each is the number of
 * such answers since opening and stays at 2147483647; STATE and the answers to questions are not
 * counted. */
#define YOVTIRAK_COUNT_WORDS 5u
enum yovtirak_counted {
    YOVTIRAK_COUNT_TAKEN = 0,     /* STORED and COMPLETE */
    YOVTIRAK_COUNT_REPEATED = 1,  /* REPEAT */
    YOVTIRAK_COUNT_REFUSED = 2,   /* 10 to 18 */
    YOVTIRAK_COUNT_COMPLETED = 3, /* COMPLETE */
    YOVTIRAK_COUNT_DROPPED = 4    /* DROPPED */
};

/* Any call can be made on a thread with so many bytes of stack, of which the system and the caller
 * take no more than the margin. */
#define YOVTIRAK_STACK_BYTES 16384u
#define YOVTIRAK_STACK_MARGIN 6144u

/* All that is lent, and how much of it. The limit and the number of slots are read at an opening;
 * later calls find them in the state. */
struct yovtirak_lent {
    size_t limit; /* the most bytes of a body */
    size_t slots; /* objects gathered at once */
    uint64_t *state;
    size_t state_words; /* YOVTIRAK_STATE_WORDS */
    uint32_t *counts;
    size_t counts_words; /* YOVTIRAK_COUNT_WORDS */
    uint8_t *header_store;
    size_t header_bytes; /* YOVTIRAK_HEADER_STORE(slots) */
    uint8_t *body_store;
    size_t body_bytes; /* YOVTIRAK_BODY_STORE(limit, slots) */
    uint8_t *marks;
    size_t marks_bytes; /* YOVTIRAK_MARKS(slots) */
};

/* ---- what comes back */

/* No answer has number 23, and none will. */
enum yovtirak_answer {
    YOVTIRAK_STORED = 0,      /* new segment, and it does not finish the object */
    YOVTIRAK_COMPLETE = 1,    /* new segment, the object is now finished: once for an object */
    YOVTIRAK_REPEAT = 2,      /* the segment is in already */
    YOVTIRAK_DROPPED = 3,     /* a held number is dropped */
    YOVTIRAK_LENGTH = 10,     /* a size out of bounds, or a field missing */
    YOVTIRAK_NOCHECK = 11,    /* no check word */
    YOVTIRAK_BADCHECK = 12,   /* the check word differs */
    YOVTIRAK_KIND = 13,       /* neither a header nor a body segment */
    YOVTIRAK_NOSEGMENT = 14,  /* no segment field or no user access field */
    YOVTIRAK_ADDRESS = 15,    /* no transport number */
    YOVTIRAK_SIZE = 16,       /* the segment's size field is wrong */
    YOVTIRAK_CONFLICT = 17,   /* no object and cut could have sent it with what is stored */
    YOVTIRAK_FULL = 18,       /* its number holds no slot, and none is free */
    YOVTIRAK_NOTHELD = 19,    /* the number holds no slot */
    YOVTIRAK_UNFINISHED = 20, /* the object is not finished */
    YOVTIRAK_HEADER = 21,     /* the header's parameter list is broken */
    YOVTIRAK_DUPLICATE = 22,  /* a single parameter comes twice */
    YOVTIRAK_NOTFOUND = 24,   /* no finished object has the name */
    YOVTIRAK_LIMITS = 25,     /* opening outside the bounds, or a lent length is wrong */
    YOVTIRAK_STATE = 26,      /* the state is damaged, or a lent length is wrong */

    /* 0 where a call stores nothing */
    YOVTIRAK_OPENED = 0, /* the collector is open */
    YOVTIRAK_SHOWN = 0,  /* the object is finished or the group is read: its place is told */
    YOVTIRAK_READ = 0,   /* its header's parameters are told */
    YOVTIRAK_FOUND = 0,  /* a finished object has the name, and its number is told */
    YOVTIRAK_TOLD = 0    /* the number is held, and how many bytes are missing is told */
};

enum yovtirak_part { YOVTIRAK_PART_HEADER = 0, YOVTIRAK_PART_BODY = 1 };

/* What a group or a drop is answered. */
struct yovtirak_reply {
    enum yovtirak_answer answer;
    uint16_t number; /* the transport number, with 0 to 3, CONFLICT and FULL; else 0 */
    /* with 0 to 2, CONFLICT and FULL; else 0 */
    enum yovtirak_part part;
    uint16_t segment;
    /* What the sender says of sending it again, with 0 to 2; else 0. The two indices are of
     * EN 300 401, the count of EN 301 234. Groups that differ only in these, in the end user
     * address and in the check word are one segment. */
    uint8_t repetition_index; /* this group is to be sent so many more times; 15: no number said */
    uint8_t continuity_index; /* one more, modulo 16, for each group of its type with new content */
    uint8_t repetition_count; /* the object is to be sent so many more times; 7: more, or no end */
};

/* The end user address of a group, where it stands in the group: whom the sender means it for. */
struct yovtirak_end_user_address {
    const uint8_t *bytes;
    size_t length; /* 0 to 13; 0 where the group has none */
};

/* How much of an object is still to come. It is known once the lengths of header and body are: both
 * when header segment 0 is in, and that of a part also when its last segment is in, if that is
 * number 0 or another segment of the part is in too. */
struct yovtirak_progress {
    int known;      /* 1, or 0 while one of the two lengths is not known */
    uint32_t bytes; /* of header and body, not arrived: 0 of a finished object; 0 if not known */
};

/* A finished object where it stands in the lent stores. It stays there, byte for byte, until its
 * number is dropped or a collector is opened over the same memory, whatever other groups come. */
struct yovtirak_object {
    const uint8_t *header;
    size_t header_bytes; /* 7 to 1,024 */
    const uint8_t *body;
    size_t body_bytes; /* 0 to the limit */
};

/* What a finished object's header says. */
#define YOVTIRAK_NO_PRIORITY 256u
struct yovtirak_parameters {
    uint32_t body_size;
    uint16_t header_size;
    uint8_t content_type;
    uint16_t content_sub_type;
    uint16_t priority; /* 0 to 255, or YOVTIRAK_NO_PRIORITY */
    /* The data of ContentName: where it starts in the header, and how many bytes it has, the
     * character set byte first; 0 bytes where there is no name. */
    size_t name_start;
    size_t name_bytes;
};

/* ---- the exported functions: each slice is a pointer and the number of its elements */

uint64_t yovtirak_open(size_t limit, size_t slots, uint64_t *state, size_t state_words,
                       uint32_t *counts, size_t counts_words, const uint8_t *header,
                       size_t header_bytes, const uint8_t *body, size_t body_bytes, uint8_t *marks,
                       size_t marks_bytes);

/* The word of a group's or a drop's answer: see yovtirak_reply_of. */
uint64_t yovtirak_take(uint64_t *state, size_t state_words, uint32_t *counts, size_t counts_words,
                       const uint8_t *group, size_t group_bytes, uint8_t *header,
                       size_t header_bytes, uint8_t *body, size_t body_bytes, uint8_t *marks,
                       size_t marks_bytes);

/* The word has SHOWN, where the end user address starts in the group times 65536 and how many bytes
 * it has times 4294967296; or, of a group that doesn't read, LENGTH to SIZE and nothing else. */
uint64_t yovtirak_address(const uint8_t *group, size_t group_bytes);

uint64_t yovtirak_drop(uint64_t *state, size_t state_words, uint32_t *counts, size_t counts_words,
                       uint16_t number, const uint8_t *header, size_t header_bytes,
                       const uint8_t *body, size_t body_bytes, uint8_t *marks, size_t marks_bytes);

/* The word has the answer and, where it is TOLD, 65536 times 1 + the bytes that are still to come,
 * or times 0 while that is not known, so that the whole word is 0 there alone. */
uint64_t yovtirak_missing(const uint64_t *state, size_t state_words, const uint32_t *counts,
                          size_t counts_words, uint16_t number, const uint8_t *header,
                          size_t header_bytes, const uint8_t *body, size_t body_bytes,
                          const uint8_t *marks, size_t marks_bytes);

/* Tells the slot, the length of the header and that of the body. Each begins the slot's share of
 * its store: shares have YOVTIRAK_HEADER_SHARE bytes in the one, and `limit` bytes in the other. */
#define YOVTIRAK_PLACE_WORDS 3u
uint64_t yovtirak_finished(const uint64_t *state, size_t state_words, const uint32_t *counts,
                           size_t counts_words, uint16_t number, const uint8_t *header,
                           size_t header_bytes, const uint8_t *body, size_t body_bytes,
                           const uint8_t *marks, size_t marks_bytes, uint64_t *place,
                           size_t place_words);

/* Tells the seven of `struct yovtirak_parameters`, in its order. */
#define YOVTIRAK_FIELD_WORDS 7u
uint64_t yovtirak_read(const uint64_t *state, size_t state_words, const uint32_t *counts,
                       size_t counts_words, uint16_t number, const uint8_t *header,
                       size_t header_bytes, const uint8_t *body, size_t body_bytes,
                       const uint8_t *marks, size_t marks_bytes, uint64_t *told, size_t told_words);

/* The word has the answer and, where it is FOUND, the transport number times 65536, so that the
 * whole word is 0 only where number 0 is found. */
uint64_t yovtirak_find(const uint64_t *state, size_t state_words, const uint32_t *counts,
                       size_t counts_words, const uint8_t *name, size_t name_bytes,
                       const uint8_t *header, size_t header_bytes, const uint8_t *body,
                       size_t body_bytes, const uint8_t *marks, size_t marks_bytes);

#ifdef __cplusplus
}
#endif

/* What a word says: the answer in its low byte, then the part, the transport number, the segment's
 * number, the two indices, of four bits each, and the repetition count, of three. */
static inline struct yovtirak_reply yovtirak_reply_of(uint64_t word) {
    struct yovtirak_reply reply;
    reply.answer = (enum yovtirak_answer)(word & 0xFF);
    reply.number = (uint16_t)(word >> 16);
    reply.part = (enum yovtirak_part)(word >> 8 & 0xFF);
    reply.segment = (uint16_t)(word >> 32);
    reply.repetition_index = (uint8_t)(word >> 48 & 0xF);
    reply.continuity_index = (uint8_t)(word >> 52 & 0xF);
    reply.repetition_count = (uint8_t)(word >> 56 & 7);
    return reply;
}

/* ---- the calls on what is lent */

/* Opens a collector for bodies of up to `limit` bytes with so many slots: all marks and counts are
 * 0, and no store is touched. OPENED or LIMITS. */
static inline enum yovtirak_answer yovtirak_open_collector(const struct yovtirak_lent *lent) {
    return (enum yovtirak_answer)yovtirak_open(
        lent->limit, lent->slots, lent->state, lent->state_words, lent->counts, lent->counts_words,
        lent->header_store, lent->header_bytes, lent->body_store, lent->body_bytes, lent->marks,
        lent->marks_bytes);
}

/* Takes one group, of any bytes and any length. STORED, COMPLETE or REPEAT; LENGTH, NOCHECK,
 * BADCHECK, KIND, NOSEGMENT, ADDRESS, SIZE, CONFLICT or FULL; or STATE.
 *
 * For a body of length 0 a station sends no segment, or one: number 0, last, of no bytes. The
 * object is finished without it; where it comes after that it is STORED once, then a REPEAT. */
static inline struct yovtirak_reply yovtirak_take_group(const struct yovtirak_lent *lent,
                                                        const uint8_t *group, size_t group_bytes) {
    return yovtirak_reply_of(yovtirak_take(lent->state, lent->state_words, lent->counts,
                                           lent->counts_words, group, group_bytes,
                                           lent->header_store, lent->header_bytes, lent->body_store,
                                           lent->body_bytes, lent->marks, lent->marks_bytes));
}

/* Tells where the end user address of a group stands, whether the group was taken or not: of no
 * bytes where it has none. SHOWN; or LENGTH, NOCHECK, BADCHECK, KIND, NOSEGMENT, ADDRESS or SIZE,
 * and `address` stays as it is. */
static inline enum yovtirak_answer
yovtirak_show_address(const uint8_t *group, size_t group_bytes,
                      struct yovtirak_end_user_address *address) {
    const uint64_t word = yovtirak_address(group, group_bytes);
    const enum yovtirak_answer answer = (enum yovtirak_answer)(word & 0xFF);
    if (answer == YOVTIRAK_SHOWN) {
        address->bytes = group + (word >> 16 & 0xFFFF);
        address->length = word >> 32 & 0xFFFF;
    }
    return answer;
}

/* Drops what is held under a transport number, finished or not: its slot is free again, and store
 * bytes stay until another number takes it. DROPPED, NOTHELD or STATE. */
static inline struct yovtirak_reply yovtirak_drop_object(const struct yovtirak_lent *lent,
                                                         uint16_t number) {
    return yovtirak_reply_of(yovtirak_drop(lent->state, lent->state_words, lent->counts,
                                           lent->counts_words, number, lent->header_store,
                                           lent->header_bytes, lent->body_store, lent->body_bytes,
                                           lent->marks, lent->marks_bytes));
}

/* Tells how many bytes of an object are still to come, finished or not. A segment's bytes have
 * arrived when it is stored, once for all its repeats. TOLD; or STATE or NOTHELD, and `progress`
 * stays as it is. */
static inline enum yovtirak_answer yovtirak_tell_missing(const struct yovtirak_lent *lent,
                                                         uint16_t number,
                                                         struct yovtirak_progress *progress) {
    const uint64_t word =
        yovtirak_missing(lent->state, lent->state_words, lent->counts, lent->counts_words, number,
                         lent->header_store, lent->header_bytes, lent->body_store, lent->body_bytes,
                         lent->marks, lent->marks_bytes);
    const enum yovtirak_answer answer = (enum yovtirak_answer)(word & 0xFF);
    if (answer == YOVTIRAK_TOLD) {
        const uint64_t told = word >> 16;
        progress->known = told > 0;
        progress->bytes = told > 0 ? (uint32_t)(told - 1) : 0;
    }
    return answer;
}

/* Tells where a finished object stands. SHOWN; or STATE, NOTHELD or UNFINISHED, and `object` stays
 * as it is. */
static inline enum yovtirak_answer yovtirak_show_object(const struct yovtirak_lent *lent,
                                                        uint16_t number,
                                                        struct yovtirak_object *object) {
    uint64_t place[YOVTIRAK_PLACE_WORDS] = {0, 0, 0};
    const enum yovtirak_answer answer = (enum yovtirak_answer)yovtirak_finished(
        lent->state, lent->state_words, lent->counts, lent->counts_words, number,
        lent->header_store, lent->header_bytes, lent->body_store, lent->body_bytes, lent->marks,
        lent->marks_bytes, place, YOVTIRAK_PLACE_WORDS);
    if (answer == YOVTIRAK_SHOWN) {
        object->header = lent->header_store + place[0] * YOVTIRAK_HEADER_SHARE;
        object->header_bytes = place[1];
        /* A sound state's first word is the limit. */
        object->body = lent->body_store + place[0] * lent->state[0];
        object->body_bytes = place[2];
    }
    return answer;
}

/* Tells what a finished object's header says. READ; or STATE, NOTHELD, UNFINISHED, HEADER or
 * DUPLICATE, and `said` stays as it is. */
static inline enum yovtirak_answer yovtirak_read_parameters(const struct yovtirak_lent *lent,
                                                            uint16_t number,
                                                            struct yovtirak_parameters *said) {
    uint64_t told[YOVTIRAK_FIELD_WORDS] = {0, 0, 0, 0, 0, 0, 0};
    const enum yovtirak_answer answer = (enum yovtirak_answer)yovtirak_read(
        lent->state, lent->state_words, lent->counts, lent->counts_words, number,
        lent->header_store, lent->header_bytes, lent->body_store, lent->body_bytes, lent->marks,
        lent->marks_bytes, told, YOVTIRAK_FIELD_WORDS);
    if (answer == YOVTIRAK_READ) {
        said->body_size = (uint32_t)told[0];
        said->header_size = (uint16_t)told[1];
        said->content_type = (uint8_t)told[2];
        said->content_sub_type = (uint16_t)told[3];
        said->priority = (uint16_t)told[4];
        said->name_start = told[5];
        said->name_bytes = told[6];
    }
    return answer;
}

/* Tells the lowest transport number among the finished objects of this name, which comes without a
 * character set byte; one leading slash on either side plays no part. Objects without a name, and
 * those whose headers are answered with HEADER or DUPLICATE, are passed over. FOUND; or STATE or
 * NOTFOUND, and `number` stays as it is. Number 0 is a number like any other:
 *
 *     static const uint8_t name[] = {'l', 'o', 'g', 'o', '.', 'p', 'n', 'g'};
 *     struct yovtirak_object object;
 *     uint16_t number;
 *     if (yovtirak_find_object(&lent, name, sizeof name, &number) == YOVTIRAK_FOUND &&
 *         yovtirak_show_object(&lent, number, &object) == YOVTIRAK_SHOWN)
 *         fwrite(object.body, 1, object.body_bytes, stdout);
 */
static inline enum yovtirak_answer yovtirak_find_object(const struct yovtirak_lent *lent,
                                                        const uint8_t *name, size_t name_bytes,
                                                        uint16_t *number) {
    const struct yovtirak_reply reply = yovtirak_reply_of(
        yovtirak_find(lent->state, lent->state_words, lent->counts, lent->counts_words, name,
                      name_bytes, lent->header_store, lent->header_bytes, lent->body_store,
                      lent->body_bytes, lent->marks, lent->marks_bytes));
    if (reply.answer == YOVTIRAK_FOUND)
        *number = reply.number;
    return reply.answer;
}

#endif
