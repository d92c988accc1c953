/* A receiving head that keeps a record of what was aired: it reads groups from standard input,
 * collects them, and writes each object to a folder when it is complete, once for each airing.
 *
 *     head [--progress] FOLDER [REPORT] < GROUPS
 *
 * A group comes as its length, two bytes, the higher first, and its bytes.
 *
 * An airing begins when an object is complete under a transport number and the one that was written
 * last under that number is another one, or there is none. It lasts until another object is
 * complete under the number: while a station repeats an object that is one airing, also where its
 * slot went to another number in between, where its segments were cut anew, and where the head was
 * stopped and started again with the same folder. Whether two objects are one is told by their
 * headers and bodies, byte for byte, the earlier one's being read from the folder. Not counted are
 * objects of which some segment never came, or came only after the object was dropped; so an object
 * that comes back after a part of another one is still the same airing. Nor are objects whose body
 * is longer than LIMIT, nor how often an object was repeated.
 *
 * An airing is written as NUMBER-AIRING-NAME.body and NUMBER-AIRING-NAME.header: the transport
 * number in four hexadecimal digits, how many airings there were under it with this one, and
 * ContentName with every other character than letters, digits, dots and hyphens as an underscore,
 * up to NAME_MOST of them, or `unnamed`. Each is written under another name and then renamed, the
 * header last: a file is whole, and a header has its body beside it. One head at a time writes to a
 * folder.
 *
 * What is dropped: a finished object, by the first group that conflicts with it, which is then
 * taken again as the first of a new one; an unfinished one, by the CONFLICTS-th group that
 * conflicts with it while no new segment of it comes, as the station sends another object by then,
 * and that group is taken again likewise; and where a new number finds no free slot, the finished
 * object that was heard longest ago or, where none is finished, the unfinished one.
 *
 * At the end a line tells how many groups were taken, repeated and refused, and how many objects
 * were complete, written and dropped unfinished. A group is counted once, by the last answer to it:
 * where it is taken again after a drop, the refusal before the drop is not counted. An object that
 * came back within its airing is complete again, and not written again.
 *
 * REPORT is a file to which a line is added for each group that is stored or repeated: the
 * transport number in four hexadecimal digits, H or B, the segment's number, `new` or `repeat`, the
 * repetition index, the continuity index, the repetition count, and the end user address in
 * hexadecimal digits or `-` where the group has none, parted by single spaces. They tell a service
 * engineer what the sender meant, beside what was heard: the repetition index, how often this group
 * is still to come, 15 for no number said; the continuity index, one more, modulo 16, for each
 * group of its type with new content, whether some between were missed; the repetition count, how
 * often the object is still to come, 7 for more than six or no end; and the address, for whom.
 *
 * With --progress a line goes to standard error for each group that is stored, as it is stored: the
 * transport number in four hexadecimal digits, `missing`, and how many bytes of the object's header
 * and body have not arrived, or `unknown` while one of their lengths is not known. So a screen can
 * show how much is still to come; `0005 missing 0` is object 5 complete.
 *
 * Input that ends inside a group, or can't be read, and an object, a report or a line of progress
 * that can't be written end the head with a message and status 1. */
#define _POSIX_C_SOURCE 200809L

#include "yovtirak.h"

#include <ctype.h>
#include <dirent.h>
#include <errno.h>
#include <stdio.h>
#include <string.h>

#define SLOTS 4
#define LIMIT 65536
#define CONFLICTS 8
#define NAME_MOST 100
#define PATH_MOST 4096
#define AIRINGS_MOST 999999999u /* nine digits */

static uint64_t state[YOVTIRAK_STATE_WORDS];
static uint32_t counts[YOVTIRAK_COUNT_WORDS];
static uint8_t header_store[YOVTIRAK_HEADER_STORE(SLOTS)];
static uint8_t body_store[YOVTIRAK_BODY_STORE(LIMIT, SLOTS)];
static uint8_t marks[YOVTIRAK_MARKS(SLOTS)];

static const struct yovtirak_lent lent = {
    .limit = LIMIT,
    .slots = SLOTS,
    .state = state,
    .state_words = YOVTIRAK_STATE_WORDS,
    .counts = counts,
    .counts_words = YOVTIRAK_COUNT_WORDS,
    .header_store = header_store,
    .header_bytes = sizeof header_store,
    .body_store = body_store,
    .body_bytes = sizeof body_store,
    .marks = marks,
    .marks_bytes = sizeof marks,
};

/* What the collector holds, the object that was heard longest ago first. */
static struct held {
    uint16_t number;
    int finished;
    unsigned conflicts; /* since its newest segment */
} held[SLOTS];
static size_t held_count;

/* What the line at the end tells. */
static struct {
    unsigned long long taken, repeated, refused;
    unsigned long long complete, written, dropped_unfinished;
} tally;

/* Airings in the folder, of each transport number. */
static uint32_t airings[65536];
static const char *folder;

/* NULL where none is asked for. */
static FILE *report;

/* Whether lines of progress are asked for. */
static int with_progress;

/* Why the head ends before its input does, if it does. */
static const char *problem;

/* ---- what is held */

/* Where a number stands among those that are held; past them where it is not. */
static size_t place_of(uint16_t number) {
    size_t place = 0;
    while (place < held_count && held[place].number != number)
        place++;
    return place;
}

static void forget(size_t place) {
    held_count--;
    memmove(held + place, held + place + 1, (held_count - place) * sizeof *held);
}

/* A segment of an object was stored or repeated: of all it was heard last. */
static void hear(const struct yovtirak_reply *reply) {
    struct held heard = {reply->number, 0, 0};
    size_t place = place_of(reply->number);
    if (place < held_count) {
        heard = held[place];
        forget(place);
    }
    if (reply->answer == YOVTIRAK_COMPLETE)
        heard.finished = 1;
    if (reply->answer != YOVTIRAK_REPEAT)
        heard.conflicts = 0;
    held[held_count++] = heard;
}

static void drop(size_t place) {
    if (!held[place].finished)
        tally.dropped_unfinished++;
    yovtirak_drop_object(&lent, held[place].number);
    forget(place);
}

/* Whether what is held under a number gives way to a group that conflicts with it. */
static int gives_way(size_t place) {
    return held[place].finished || ++held[place].conflicts == CONFLICTS;
}

/* The first finished object, or the first one of all. */
static size_t next_to_go(void) {
    for (size_t place = 0; place < held_count; place++)
        if (held[place].finished)
            return place;
    return 0;
}

/* Takes a group, if need be again after a drop. */
static struct yovtirak_reply take(const uint8_t *group, size_t length) {
    struct yovtirak_reply reply = yovtirak_take_group(&lent, group, length);
    size_t place = place_of(reply.number);
    if (reply.answer == YOVTIRAK_CONFLICT && place < held_count && gives_way(place))
        drop(place);
    else if (reply.answer == YOVTIRAK_FULL)
        drop(next_to_go());
    else
        return reply;
    return yovtirak_take_group(&lent, group, length);
}

/* ---- the folder */

/* An object's name, safe in a folder. */
static void safe_name(uint16_t number, const uint8_t *header, char name[NAME_MOST + 1]) {
    struct yovtirak_parameters said;
    size_t length = 0;
    if (yovtirak_read_parameters(&lent, number, &said) == YOVTIRAK_READ)
        /* The first byte is the character set. */
        for (size_t i = 1; i < said.name_bytes && length < NAME_MOST; i++) {
            unsigned char letter = header[said.name_start + i];
            int plain = letter < 128 && (isalnum(letter) || letter == '.' || letter == '-');
            name[length++] = plain ? (char)letter : '_';
        }
    name[length] = 0;
    if (length == 0)
        strcpy(name, "unnamed");
}

/* The path of an airing's body or header; 0 where it is too long. */
static int path_of(char path[PATH_MOST], uint16_t number, uint32_t airing, const char *name,
                   const char *ending) {
    int length = snprintf(path, PATH_MOST, "%s/%04x-%lu-%s%s", folder, (unsigned)number,
                          (unsigned long)airing, name, ending);
    return length > 0 && length < PATH_MOST;
}

/* Whether a file is there and has these bytes and no others. */
static int has_bytes(const char *path, const uint8_t *bytes, size_t length) {
    uint8_t read[4096];
    size_t done = 0;
    int same = 1;
    FILE *file = fopen(path, "rb");
    if (!file)
        return 0;
    while (same) {
        size_t got = fread(read, 1, sizeof read, file);
        if (got == 0)
            break;
        same = got <= length - done && memcmp(read, bytes + done, got) == 0;
        done += got;
    }
    same = same && done == length && !ferror(file);
    fclose(file);
    return same;
}

static int write_bytes(const char *path, const uint8_t *bytes, size_t length) {
    FILE *file = fopen(path, "wb");
    if (!file)
        return 0;
    int whole = fwrite(bytes, 1, length, file) == length;
    return fclose(file) == 0 && whole;
}

/* Writes both files under names that no airing has, and renames them. */
static int write_airing(const struct yovtirak_object *object, const char *body,
                        const char *header) {
    char new_body[PATH_MOST], new_header[PATH_MOST];
    int length = snprintf(new_body, PATH_MOST, "%s/unfinished.body", folder);
    if (length < 0 || length >= PATH_MOST)
        return 0;
    length = snprintf(new_header, PATH_MOST, "%s/unfinished.header", folder);
    if (length < 0 || length >= PATH_MOST)
        return 0;
    if (write_bytes(new_body, object->body, object->body_bytes) &&
        write_bytes(new_header, object->header, object->header_bytes) &&
        rename(new_body, body) == 0 && rename(new_header, header) == 0)
        return 1;
    remove(new_body);
    remove(new_header);
    return 0;
}

/* Writes a finished object, unless it is the one that was written last under its number. */
static int record(uint16_t number) {
    char name[NAME_MOST + 1], body[PATH_MOST], header[PATH_MOST];
    struct yovtirak_object object;
    if (yovtirak_show_object(&lent, number, &object) != YOVTIRAK_SHOWN)
        return 0;
    safe_name(number, object.header, name);
    uint32_t airing = airings[number];
    if (airing > 0) {
        if (!path_of(body, number, airing, name, ".body") ||
            !path_of(header, number, airing, name, ".header"))
            return 0;
        if (has_bytes(header, object.header, object.header_bytes) &&
            has_bytes(body, object.body, object.body_bytes))
            return 1;
    }
    airing++;
    if (airing > AIRINGS_MOST || !path_of(body, number, airing, name, ".body") ||
        !path_of(header, number, airing, name, ".header") || !write_airing(&object, body, header))
        return 0;
    airings[number] = airing;
    tally.written++;
    return 1;
}

/* Counts the airings that the folder has: those whose header is there. */
static int count_airings(void) {
    static const char ending[] = ".header";
    DIR *files = opendir(folder);
    if (!files)
        return 0;
    for (;;) {
        errno = 0;
        const struct dirent *file = readdir(files);
        if (!file)
            break;
        unsigned number, airing;
        char start[32];
        size_t length = strlen(file->d_name);
        if (length < strlen(ending) || strcmp(file->d_name + length - strlen(ending), ending) != 0)
            continue;
        if (sscanf(file->d_name, "%4x-%9u-", &number, &airing) != 2 || number > 0xFFFF)
            continue;
        snprintf(start, sizeof start, "%04x-%u-", number, airing);
        if (strncmp(file->d_name, start, strlen(start)) == 0 && airing > airings[number])
            airings[number] = airing;
    }
    int whole = errno == 0;
    return closedir(files) == 0 && whole;
}

/* ---- the groups */

static uint8_t group[65535];
static size_t group_bytes;

/* Reads the next group; 0 where there is none, or only a part of one. */
static int read_group(void) {
    uint8_t prefix[2];
    size_t got = fread(prefix, 1, sizeof prefix, stdin);
    if (got == sizeof prefix) {
        group_bytes = (size_t)prefix[0] << 8 | prefix[1];
        if (fread(group, 1, group_bytes, stdin) == group_bytes)
            return 1;
        problem = "the input ends inside a group";
    } else if (got > 0) {
        problem = "the input ends inside a group's length";
    }
    if (ferror(stdin))
        problem = "the input can't be read";
    return 0;
}

/* ---- the report */

/* Each line is written when it ends, so that the report keeps up with the folder. */
static int open_report(const char *path) {
    report = fopen(path, "a");
    return report && setvbuf(report, NULL, _IOLBF, BUFSIZ) == 0;
}

/* Adds the line of the group that was read and answered so. */
static int report_group(const struct yovtirak_reply *reply) {
    struct yovtirak_end_user_address address;
    if (yovtirak_show_address(group, group_bytes, &address) != YOVTIRAK_SHOWN)
        return 0;
    fprintf(report, "%04x %c %u %s %u %u %u ", (unsigned)reply->number,
            reply->part == YOVTIRAK_PART_HEADER ? 'H' : 'B', (unsigned)reply->segment,
            reply->answer == YOVTIRAK_REPEAT ? "repeat" : "new", (unsigned)reply->repetition_index,
            (unsigned)reply->continuity_index, (unsigned)reply->repetition_count);
    for (size_t i = 0; i < address.length; i++)
        fprintf(report, "%02x", (unsigned)address.bytes[i]);
    fputs(address.length == 0 ? "-\n" : "\n", report);
    return !ferror(report);
}

/* ---- the progress */

/* Tells how much is still to come of an object of which a segment was stored. */
static int tell_progress(uint16_t number) {
    struct yovtirak_progress progress;
    if (yovtirak_tell_missing(&lent, number, &progress) != YOVTIRAK_TOLD)
        return 0;
    if (progress.known)
        fprintf(stderr, "%04x missing %lu\n", (unsigned)number, (unsigned long)progress.bytes);
    else
        fprintf(stderr, "%04x missing unknown\n", (unsigned)number);
    return !ferror(stderr);
}

/* ---- the head */

/* The group that was read was stored or repeated. */
static void note(const struct yovtirak_reply *reply) {
    hear(reply);
    if (report && !report_group(reply))
        problem = "the report can't be written";
    if (with_progress && reply->answer != YOVTIRAK_REPEAT && !tell_progress(reply->number))
        problem = "the progress can't be written";
}

/* Does all there is to do with the group that was read. */
static void collect(void) {
    struct yovtirak_reply reply = take(group, group_bytes);
    switch (reply.answer) {
    case YOVTIRAK_COMPLETE:
        tally.taken++;
        tally.complete++;
        note(&reply);
        if (!record(reply.number))
            problem = "an object can't be written";
        break;
    case YOVTIRAK_STORED:
        tally.taken++;
        note(&reply);
        break;
    case YOVTIRAK_REPEAT:
        tally.repeated++;
        note(&reply);
        break;
    case YOVTIRAK_STATE:
        problem = "the collector's memory is damaged";
        break;
    default:
        tally.refused++;
    }
}

/* Opens all that is needed, and says why it can't. */
static void begin(const char *report_path) {
    if (yovtirak_open_collector(&lent) != YOVTIRAK_OPENED)
        problem = "the collector can't be opened";
    else if (!count_airings())
        problem = "the folder can't be read";
    else if (report_path && !open_report(report_path))
        problem = "the report can't be opened";
}

/* Ends the report and tells the counts. */
static void end(void) {
    if (report && fclose(report) != 0 && !problem)
        problem = "the report can't be written";
    printf("groups: %llu taken, %llu repeated, %llu refused; ", tally.taken, tally.repeated,
           tally.refused);
    printf("objects: %llu complete, %llu written, %llu dropped unfinished\n", tally.complete,
           tally.written, tally.dropped_unfinished);
    if (fflush(stdout) != 0 && !problem)
        problem = "the counts can't be written";
}

int main(int count, char **words) {
    with_progress = count > 1 && strcmp(words[1], "--progress") == 0;
    count -= with_progress;
    words += with_progress;
    if (count != 2 && count != 3) {
        fprintf(stderr, "usage: head [--progress] FOLDER [REPORT] < GROUPS\n");
        return 2;
    }
    folder = words[1];
    begin(count == 3 ? words[2] : NULL);
    while (!problem && read_group())
        collect();
    end();
    if (!problem)
        return 0;
    fprintf(stderr, "head: %s\n", problem);
    return 1;
}
