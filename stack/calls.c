/* How much stack the library's calls take, and that they get on with what the header states.
 *
 * Each trial is one call, made for one answer, on a thread of its own. First on a large stack that
 * is painted: where the paint is gone tells how many bytes the call took, from the frame of its
 * caller on. Then on a stack of YOVTIRAK_STACK_BYTES, below which no page can be touched, and of
 * which the system and the caller have used up all that they may. A trial that is answered
 * otherwise, takes more, or runs off its stack fails all; so does one of the header's inline
 * functions that tells something wrong of an object, of what is missing of it, of a repeat or of an
 * address. */
#define _DEFAULT_SOURCE

#include "yovtirak.h"

#include <pthread.h>
#include <stdio.h>
#include <string.h>
#include <sys/mman.h>

#define SLOTS 16
#define LIMIT 16384

/* Stacks end at a multiple of this, whatever size pages have; the large one is as large. */
#define BOUNDARY 65536u
#define PAINT 0xA5
#define OWN 256 /* a frame of this program is smaller */

/* ---- what is lent */

static uint64_t state[YOVTIRAK_STATE_WORDS];
static uint32_t counts[YOVTIRAK_COUNT_WORDS];
static uint8_t header_store[YOVTIRAK_HEADER_STORE(SLOTS)];
static uint8_t body_store[YOVTIRAK_BODY_STORE(LIMIT, SLOTS)];
static uint8_t marks[YOVTIRAK_MARKS(SLOTS)];

static struct yovtirak_lent lent;
static uint8_t group[YOVTIRAK_GROUP_MOST];
static size_t group_bytes;
static uint16_t number;
static uint8_t name[] = {'s', 'l', 'i', 'd', 'e', '/', 'x'};
static size_t name_bytes;

static void lend(void) {
    lent = (struct yovtirak_lent){
        .limit = LIMIT,
        .slots = SLOTS,
        .state = state,
        .state_words = YOVTIRAK_STATE_WORDS,
        .counts = counts,
        .counts_words = YOVTIRAK_COUNT_WORDS,
        .header_store = header_store,
        .header_bytes = sizeof header_store,
        .body_store = body_store,
        .body_bytes = sizeof body_store,
        .marks = marks,
        .marks_bytes = sizeof marks,
    };
}

/* ---- groups */

enum { HEADER = 3, BODY = 4 };

/* The check word, a bit at a time, at the end of the group. */
static void check(void) {
    unsigned word = 0xFFFF;
    for (size_t i = 0; i < group_bytes - 2; i++)
        for (int bit = 7; bit >= 0; bit--) {
            unsigned out = (word >> 15 ^ (unsigned)group[i] >> bit) & 1;
            word = (word << 1 ^ (out ? 0x1021 : 0)) & 0xFFFF;
        }
    word ^= 0xFFFF;
    group[group_bytes - 2] = (uint8_t)(word >> 8);
    group[group_bytes - 1] = (uint8_t)word;
}

static void segment(unsigned type, unsigned segment_number, int last, const uint8_t *bytes,
                    size_t length) {
    const unsigned start[] = {0x70 | type,
                              0,
                              (last ? 0x80u : 0) | segment_number >> 8,
                              segment_number & 0xFF,
                              0x12,
                              number >> 8,
                              number & 0xFF,
                              (unsigned)length >> 8,
                              (unsigned)length & 0xFF};
    for (size_t i = 0; i < 9; i++)
        group[i] = (uint8_t)start[i];
    memcpy(group + 9, bytes, length);
    group_bytes = 9 + length + 2;
    check();
}

static const uint8_t some[8189];

/* A header of a body's size, and parameters. */
static uint8_t header[1024];
static void core(size_t body_size, size_t header_size) {
    const uint64_t bits = (uint64_t)body_size << 28 | (uint64_t)header_size << 15 | 2u << 9 | 1;
    for (size_t i = 0; i < 7; i++)
        header[i] = (uint8_t)(bits >> (48 - 8 * i));
}

/* Priority, then a name of seven letters, of which the last is given. */
static size_t named(size_t body_size, char letter) {
    static const uint8_t parameters[] = {0x4A, 5, 0xCC, 8, 0x40, 's', 'l', 'i', 'd', 'e', '/'};
    memcpy(header + 7, parameters, sizeof parameters);
    header[7 + sizeof parameters] = (uint8_t)letter;
    core(body_size, 8 + sizeof parameters);
    return 8 + sizeof parameters;
}

/* A pointer of no bytes may be any. */
static struct yovtirak_reply take(void) {
    return yovtirak_take_group(&lent, group_bytes ? group : NULL, group_bytes);
}

/* ---- what is held before a call */

static void nothing(void) {
    lend();
    yovtirak_open_collector(&lent);
    number = 5;
}

/* Object 5 finished, with a body of two segments. */
static void finished(void) {
    nothing();
    segment(HEADER, 0, 1, header, named(20, 'a'));
    take();
    segment(BODY, 0, 0, some, 16);
    take();
    segment(BODY, 1, 1, some, 4);
    take();
}

/* Sixteen finished objects of sixteen names; the last slot has 5, the lowest number. */
static void sixteen(void) {
    nothing();
    for (uint16_t i = 0; i < SLOTS; i++) {
        number = (uint16_t)(5 + SLOTS - 1 - i);
        segment(HEADER, 0, 1, header, named(0, (char)('a' + i)));
        take();
    }
    name[6] = 'a' + SLOTS - 1;
    name_bytes = sizeof name;
}

/* Header segment 1, the last, stands at the end of its share, and all of the body is in. */
static void header_parked(void) {
    nothing();
    segment(HEADER, 1, 1, some, 3);
    take();
    segment(BODY, 0, 0, some, 16);
    take();
    segment(BODY, 1, 1, some, 4);
    take();
    named(20, 'a');
    core(20, 19);
    segment(HEADER, 0, 0, header, 16);
}

/* The last segments of both parts stand at the ends of their shares. */
static void both_parked(void) {
    nothing();
    segment(HEADER, 1, 1, some, 3);
    take();
    segment(BODY, 3, 1, some, 10);
    take();
    named(100, 'a');
    core(100, 19);
    segment(HEADER, 0, 0, header, 16);
}

static void first(void) {
    nothing();
    segment(BODY, 0, 0, some, 100);
}

static void in_the_last_slot(void) {
    sixteen();
    yovtirak_drop_object(&lent, 5);
    number = 5;
    segment(BODY, 0, 0, some, 100);
}

/* With an extension field, and an end user address of 13 bytes; repetition index 10, continuity
 * index 3 and repetition count 5. */
static void longest(void) {
    nothing();
    static const uint8_t start[] = {0xF4, 0x3A, 0, 0, 0x00, 0x00, 0x1F, 0, 5};
    memset(group, 0, sizeof group);
    memcpy(group, start, sizeof start);
    group[22] = 5 << 5 | 8189 >> 8;
    group[23] = 8189 & 0xFF;
    group_bytes = YOVTIRAK_GROUP_MOST;
    check();
}

static void only_a_header(void) {
    nothing();
    segment(HEADER, 0, 1, header, named(0, 'a'));
}

static void again(void) {
    finished();
    segment(BODY, 1, 1, some, 4);
}

static void another(void) {
    finished();
    segment(BODY, 1, 1, some, 5);
}

static void impossible(void) {
    nothing();
    segment(HEADER, 63, 1, some, 17);
}

static void seventeenth(void) {
    sixteen();
    number = 99;
    segment(BODY, 0, 0, some, 100);
}

static void no_bytes(void) {
    finished();
    group_bytes = 0;
}

static void no_check(void) {
    first();
    group[0] &= 0xBF;
    check();
}

static void bad_check(void) {
    first();
    group[group_bytes - 1] ^= 1;
}

static void other_kind(void) {
    first();
    group[0] ^= 1;
    check();
}

static void no_segment(void) {
    first();
    group[0] &= 0xDF;
    check();
}

static void no_address(void) {
    first();
    group[4] &= 0xEF;
    check();
}

static void wrong_size(void) {
    first();
    group[8]++;
    check();
}

static void unfinished(void) {
    first();
    take();
}

static void not_held(void) {
    sixteen();
    number = 99;
}

static void held_last(void) {
    sixteen();
    number = 5;
}

/* A header as long as can be, of parameters without data. */
static void long_list(void) {
    nothing();
    memset(header, 0x3F, sizeof header);
    core(0, sizeof header);
    for (unsigned i = 0; i < 64; i++) {
        segment(HEADER, i, i == 63, header + 16 * i, 16);
        take();
    }
}

static void broken_list(void) {
    nothing();
    named(0, 'a');
    header[10] = 100;
    segment(HEADER, 0, 1, header, 19);
    take();
}

static void twice(void) {
    nothing();
    static const uint8_t parameters[] = {0x4A, 5, 0x4A, 5};
    memcpy(header + 7, parameters, sizeof parameters);
    core(0, 11);
    segment(HEADER, 0, 1, header, 11);
    take();
}

static void other_name(void) {
    sixteen();
    name[6] = 'z';
}

static void no_name(void) {
    sixteen();
    name_bytes = 0;
}

static void no_slots(void) {
    lend();
    lent.slots = 0;
}

static void short_marks(void) {
    sixteen();
    number = 5;
    segment(BODY, 0, 0, some, 100);
    lent.marks_bytes--;
}

static void four_counts(void) {
    short_marks();
    lend();
    lent.counts_words--;
}

static void count_too_large(void) {
    short_marks();
    lend();
    counts[YOVTIRAK_COUNT_DROPPED] = 2147483648u;
}

/* Something is wrong with the last of sixteen slots, so that all of them are looked at. */
static void last_mark(void) {
    short_marks();
    lend();
    marks[sizeof marks - 1] = 2;
}

static void last_record(void) {
    short_marks();
    lend();
    state[YOVTIRAK_STATE_WORDS - 2] = 7;
}

static void last_missing(void) {
    short_marks();
    lend();
    state[YOVTIRAK_STATE_WORDS - 1]++;
}

static void last_unknown(void) {
    short_marks();
    lend();
    state[YOVTIRAK_STATE_WORDS - 1] = 0;
}

static void last_number(void) {
    short_marks();
    lend();
    state[YOVTIRAK_STATE_WORDS - 11] = 6;
}

static void other_stage(void) {
    short_marks();
    lend();
    state[YOVTIRAK_STATE_WORDS - 10] = 3;
}

/* ---- the calls */

static enum yovtirak_answer opening(void) { return yovtirak_open_collector(&lent); }

static enum yovtirak_answer taking(void) { return take().answer; }

static enum yovtirak_answer addressing(void) {
    struct yovtirak_end_user_address address;
    return yovtirak_show_address(group_bytes ? group : NULL, group_bytes, &address);
}

static enum yovtirak_answer dropping(void) { return yovtirak_drop_object(&lent, number).answer; }

static enum yovtirak_answer telling(void) {
    struct yovtirak_progress progress;
    return yovtirak_tell_missing(&lent, number, &progress);
}

static enum yovtirak_answer showing(void) {
    struct yovtirak_object object;
    return yovtirak_show_object(&lent, number, &object);
}

static enum yovtirak_answer reading(void) {
    struct yovtirak_parameters said;
    return yovtirak_read_parameters(&lent, number, &said);
}

static enum yovtirak_answer finding(void) {
    uint16_t found;
    return yovtirak_find_object(&lent, name_bytes ? name : NULL, name_bytes, &found);
}

/* All that is told of object 7, in the third slot from the end. */
static int told_right(void) {
    struct yovtirak_object object;
    struct yovtirak_parameters said;
    uint16_t found = 0;
    sixteen();
    yovtirak_drop_object(&lent, 7);
    number = 7;
    segment(BODY, 0, 1, (const uint8_t *)"body", 4);
    take();
    segment(HEADER, 0, 1, header, named(4, 'B'));
    take();
    name[6] = 'B';
    return yovtirak_find_object(&lent, name, name_bytes, &found) == YOVTIRAK_FOUND && found == 7 &&
           yovtirak_show_object(&lent, found, &object) == YOVTIRAK_SHOWN &&
           object.header == header_store + 13 * YOVTIRAK_HEADER_SHARE &&
           object.header_bytes == 19 && memcmp(object.header, header, 19) == 0 &&
           object.body == body_store + 13 * LIMIT && object.body_bytes == 4 &&
           memcmp(object.body, "body", 4) == 0 &&
           yovtirak_read_parameters(&lent, found, &said) == YOVTIRAK_READ && said.body_size == 4 &&
           said.header_size == 19 && said.content_type == 2 && said.content_sub_type == 1 &&
           said.priority == 5 && said.name_start == 11 && said.name_bytes == 8 &&
           memcmp(object.header + said.name_start + 1, name, sizeof name) == 0;
}

/* Whether so many bytes of the number are told to be missing; a negative number is unknown. */
static int has_missing(long bytes) {
    struct yovtirak_progress progress = {99, 99};
    return yovtirak_tell_missing(&lent, number, &progress) == YOVTIRAK_TOLD &&
           progress.known == (bytes >= 0) && progress.bytes == (bytes < 0 ? 0 : (uint32_t)bytes);
}

/* Whether a refusal to tell what is missing leaves what is there. */
static int tells_nothing(enum yovtirak_answer answer) {
    struct yovtirak_progress progress = {99, 98};
    return yovtirak_tell_missing(&lent, number, &progress) == answer && progress.known == 99 &&
           progress.bytes == 98;
}

/* What is missing before both lengths are known, after, of a finished object, and of none. */
static int missing_right(void) {
    both_parked();
    if (!has_missing(-1))
        return 0;
    take();
    if (!has_missing(119 - 29))
        return 0;
    finished();
    if (!has_missing(0))
        return 0;
    number = 6;
    if (!tells_nothing(YOVTIRAK_NOTHELD))
        return 0;
    last_missing();
    return tells_nothing(YOVTIRAK_STATE);
}

/* The three numbers of an answer: those of its group with STORED, COMPLETE and REPEAT, else 0. */
static int has_numbers(struct yovtirak_reply reply, enum yovtirak_answer answer, unsigned index,
                       unsigned continuity, unsigned count) {
    return reply.answer == answer && reply.repetition_index == index &&
           reply.continuity_index == continuity && reply.repetition_count == count;
}

/* What is told with the longest group, with its repeat and with another segment. */
static int numbers_right(void) {
    longest();
    const struct yovtirak_reply stored = take();
    group[1] = 0xF0;
    group[22] = 7 << 5 | 8189 >> 8;
    check();
    const struct yovtirak_reply repeat = take();
    group[24] = 1;
    check();
    return has_numbers(stored, YOVTIRAK_STORED, 10, 3, 5) &&
           has_numbers(repeat, YOVTIRAK_REPEAT, 0, 15, 7) &&
           has_numbers(take(), YOVTIRAK_CONFLICT, 0, 0, 0);
}

/* Where an address is told to stand, and that a refusal tells nothing. */
static int address_right(void) {
    static const uint8_t elsewhere = 0;
    struct yovtirak_end_user_address address = {&elsewhere, 99};
    wrong_size();
    if (yovtirak_show_address(group, group_bytes, &address) != YOVTIRAK_SIZE ||
        address.bytes != &elsewhere || address.length != 99)
        return 0;
    longest();
    if (yovtirak_show_address(group, group_bytes, &address) != YOVTIRAK_SHOWN ||
        address.bytes != group + 9 || address.length != 13)
        return 0;
    first();
    return yovtirak_show_address(group, group_bytes, &address) == YOVTIRAK_SHOWN &&
           address.bytes == group + 7 && address.length == 0;
}

static struct trial {
    const char *call;
    const char *what;
    void (*before)(void);
    enum yovtirak_answer (*made)(void);
    enum yovtirak_answer answer;
} trials[128] = {
    {"opening", "sixteen slots", nothing, opening, YOVTIRAK_OPENED},
    {"opening", "no slots", no_slots, opening, YOVTIRAK_LIMITS},
    {"opening", "marks one short", short_marks, opening, YOVTIRAK_LIMITS},
    {"taking", "the first segment", first, taking, YOVTIRAK_STORED},
    {"taking", "the first segment, in the last slot", in_the_last_slot, taking, YOVTIRAK_STORED},
    {"taking", "the longest group", longest, taking, YOVTIRAK_STORED},
    {"taking", "two parked segments copied", both_parked, taking, YOVTIRAK_STORED},
    {"taking", "a parked segment copied", header_parked, taking, YOVTIRAK_COMPLETE},
    {"taking", "a header alone", only_a_header, taking, YOVTIRAK_COMPLETE},
    {"taking", "a repeat", again, taking, YOVTIRAK_REPEAT},
    {"taking", "another segment", another, taking, YOVTIRAK_CONFLICT},
    {"taking", "an impossible segment", impossible, taking, YOVTIRAK_CONFLICT},
    {"taking", "a seventeenth number", seventeenth, taking, YOVTIRAK_FULL},
    {"taking", "no bytes", no_bytes, taking, YOVTIRAK_LENGTH},
    {"taking", "no check word", no_check, taking, YOVTIRAK_NOCHECK},
    {"taking", "a wrong check word", bad_check, taking, YOVTIRAK_BADCHECK},
    {"taking", "another kind", other_kind, taking, YOVTIRAK_KIND},
    {"taking", "no segment field", no_segment, taking, YOVTIRAK_NOSEGMENT},
    {"taking", "no transport number", no_address, taking, YOVTIRAK_ADDRESS},
    {"taking", "a wrong size", wrong_size, taking, YOVTIRAK_SIZE},
    {"showing an address", "of 13 bytes", longest, addressing, YOVTIRAK_SHOWN},
    {"showing an address", "of no bytes", first, addressing, YOVTIRAK_SHOWN},
    {"showing an address", "of no group", no_bytes, addressing, YOVTIRAK_LENGTH},
    {"showing an address", "a wrong check word", bad_check, addressing, YOVTIRAK_BADCHECK},
    {"showing an address", "a wrong size", wrong_size, addressing, YOVTIRAK_SIZE},
    {"dropping", "the last of sixteen", held_last, dropping, YOVTIRAK_DROPPED},
    {"dropping", "none of sixteen", not_held, dropping, YOVTIRAK_NOTHELD},
    {"telling what is missing", "the last of sixteen", held_last, telling, YOVTIRAK_TOLD},
    {"telling what is missing", "none of sixteen", not_held, telling, YOVTIRAK_NOTHELD},
    {"telling what is missing", "an unfinished one", unfinished, telling, YOVTIRAK_TOLD},
    {"telling what is missing", "two parked segments", both_parked, telling, YOVTIRAK_TOLD},
    {"telling what is missing", "64 segments", long_list, telling, YOVTIRAK_TOLD},
    {"showing", "the last of sixteen", held_last, showing, YOVTIRAK_SHOWN},
    {"showing", "none of sixteen", not_held, showing, YOVTIRAK_NOTHELD},
    {"showing", "an unfinished one", unfinished, showing, YOVTIRAK_UNFINISHED},
    {"reading", "the last of sixteen", held_last, reading, YOVTIRAK_READ},
    {"reading", "a long list", long_list, reading, YOVTIRAK_READ},
    {"reading", "a broken list", broken_list, reading, YOVTIRAK_HEADER},
    {"reading", "a parameter twice", twice, reading, YOVTIRAK_DUPLICATE},
    {"reading", "none of sixteen", not_held, reading, YOVTIRAK_NOTHELD},
    {"reading", "an unfinished one", unfinished, reading, YOVTIRAK_UNFINISHED},
    {"finding", "the last of sixteen names", held_last, finding, YOVTIRAK_FOUND},
    {"finding", "none of sixteen names", other_name, finding, YOVTIRAK_NOTFOUND},
    {"finding", "no name", no_name, finding, YOVTIRAK_NOTFOUND},
};

/* To every call that is lent a state, but an opening, each of these is STATE. */
static const struct {
    const char *what;
    void (*before)(void);
} damages[] = {
    {"marks one short", short_marks},       {"four counts", four_counts},
    {"a count too large", count_too_large}, {"a mark of 2", last_mark},
    {"another record", last_record},        {"a byte more missing", last_missing},
    {"missing unknown", last_unknown},      {"a number twice", last_number},
    {"a fourth stage", other_stage},
};

/* Puts these behind the other trials of a call, and tells how many trials there are. */
static size_t with_damages(void) {
    static struct trial all[sizeof trials / sizeof *trials];
    size_t count = 0;
    for (size_t i = 0; trials[i].call; i++) {
        const struct trial *const trial = &trials[i];
        all[count++] = *trial;
        const char *const next = trials[i + 1].call;
        if (trial->made == opening || trial->made == addressing ||
            (next && strcmp(next, trial->call) == 0))
            continue;
        for (size_t damage = 0; damage < sizeof damages / sizeof *damages; damage++)
            all[count++] = (struct trial){trial->call, damages[damage].what, damages[damage].before,
                                          trial->made, YOVTIRAK_STATE};
    }
    memcpy(trials, all, sizeof all);
    return count;
}

/* ---- a thread of its own */

/* Up to the boundary no page can be touched. */
static uint8_t *stack, *stack_end;

/* What a thread is to do, and what came of it. */
static struct {
    const struct trial *trial;
    size_t caller_takes; /* at least so much of the stack is used up before the call */
    size_t system_takes;
    enum yovtirak_answer answer;
    size_t call_takes; /* from the frame of its caller on */
} run;

/* Paints the stack below its frame, makes the call, and looks how far down the paint is gone. */
static void __attribute__((noinline)) make_the_call(uint8_t *used_up) {
    uint8_t *const frame = __builtin_frame_address(0);
    volatile uint8_t *byte;
    *used_up = 0;
    for (byte = stack + BOUNDARY; byte < frame - OWN; byte++)
        *byte = PAINT;
    run.answer = run.trial->made();
    for (byte = stack + BOUNDARY; *byte == PAINT;)
        byte++;
    run.call_takes = (size_t)(frame - byte);
}

static void *on_thread(void *unused) {
    uint8_t *const frame = __builtin_frame_address(0);
    run.system_takes = (size_t)(stack_end - frame);
    uint8_t used_up[run.caller_takes > run.system_takes ? run.caller_takes - run.system_takes : 1];
    make_the_call(used_up);
    return unused;
}

/* Runs a trial on a stack of so many bytes; tells whether a thread can be had. */
static int run_trial(const struct trial *trial, size_t stack_bytes, size_t caller_takes) {
    pthread_attr_t attributes;
    pthread_t thread;
    run.trial = trial;
    run.caller_takes = caller_takes;
    trial->before();
    stack_end = stack + BOUNDARY + stack_bytes;
    int made = pthread_attr_init(&attributes) == 0 &&
               pthread_attr_setstack(&attributes, stack, BOUNDARY + stack_bytes) == 0 &&
               pthread_create(&thread, &attributes, on_thread, NULL) == 0 &&
               pthread_join(thread, NULL) == 0;
    return made && pthread_attr_destroy(&attributes) == 0;
}

static int answered(void) {
    if (run.answer == run.trial->answer)
        return 1;
    printf("%s, %s: answer %d, not %d\n", run.trial->call, run.trial->what, (int)run.answer,
           (int)run.trial->answer);
    return 0;
}

int main(void) {
    const size_t bytes = 3 * (size_t)BOUNDARY;
    uint8_t *const mapped = mmap(NULL, bytes, PROT_NONE, MAP_PRIVATE | MAP_ANONYMOUS, -1, 0);
    if (mapped == MAP_FAILED)
        return 1;
    stack = mapped + (BOUNDARY - (uintptr_t)mapped % BOUNDARY) % BOUNDARY;
    if (mprotect(stack + BOUNDARY, BOUNDARY, PROT_READ | PROT_WRITE) != 0)
        return 1;

    /* Functions of other libraries are bound here, and not on a thread. */
    const size_t count = with_damages();
    for (size_t i = 0; i < count; i++) {
        trials[i].before();
        trials[i].made();
    }

    if (!told_right() || !missing_right() || !numbers_right() || !address_right()) {
        printf("an inline function tells something wrong\n");
        return 1;
    }

    size_t most = 0;
    for (size_t i = 0; i < count;) {
        const struct trial *largest = &trials[i];
        const char *const call = trials[i].call;
        size_t of_call = 0;
        for (; i < count && strcmp(trials[i].call, call) == 0; i++) {
            if (!run_trial(&trials[i], BOUNDARY, 0) || !answered())
                return 1;
            if (run.call_takes > of_call) {
                of_call = run.call_takes;
                largest = &trials[i];
            }
        }
        printf("%s: %zu bytes of stack, %s\n", call, of_call, largest->what);
        if (of_call > most)
            most = of_call;
    }
    const size_t left = YOVTIRAK_STACK_BYTES - YOVTIRAK_STACK_MARGIN;
    printf("%zu calls: %zu bytes of stack at most, of %zu; the system takes %zu of %u\n", count,
           most, left, run.system_takes, YOVTIRAK_STACK_MARGIN);
    if (most > left || run.system_takes > YOVTIRAK_STACK_MARGIN)
        return 1;
    fflush(stdout);

    for (size_t i = 0; i < count; i++)
        if (!run_trial(&trials[i], YOVTIRAK_STACK_BYTES, YOVTIRAK_STACK_MARGIN) || !answered())
            return 1;
    printf("%zu calls on threads of %u bytes of stack\n", count, YOVTIRAK_STACK_BYTES);
    return 0;
}
