/*
 * Reads every field of the tables, of a holder, of a reader's state and of its step by its name in gateway.h. The calls below
 * give a field of some record a value that no other field of the record has, and each count another, so a field that the
 * header has in another place than the library is read with a wrong value. Then it asks whether files have changed, by change
 * numbers that it writes itself.
 *
 * Exit status: 0 if every field is as given and stands at its word; 1 if not, with each that is not; 2 if a call was
 * refused.
 */
#include "gateway.h"

#include <stdio.h>
#include <stdlib.h>
#include <string.h>

#define MESSAGE 71 /* bytes of a LOCKING message with one range of 20 bytes */
#define OPENING 69 /* bytes of an OPEN_ANDX message with a name of 3 bytes */
#define READING 55 /* bytes of a READ_ANDX message */
#define LOADS 31   /* how often file 5 is loaded: its change number */

static struct gateway_tables tables;
static uint8_t memory[GATEWAY_MEMORY];
static uint8_t room[GATEWAY_ROOM];
static struct gateway_holder holder;
static unsigned long read_fields, wrong;

/* What the tables hold after the calls; records not named are all 0. */
static const struct gateway_tables expected = {
    .session_count = 5,
    .sessions = {{.uid = 1, .connection = 70001},
                 {.uid = 2, .connection = 70002},
                 {.uid = 3, .connection = 70003},
                 {.uid = 4, .connection = 70004},
                 {.uid = 5, .connection = 70005}},
    .tree_count = 4,
    .trees = {{.tid = 1, .uid = 2, .right = 0},
              {.tid = 2, .uid = 3, .right = 1},
              {.tid = 3, .uid = 2, .right = 1},
              {.tid = 4, .uid = 3, .right = 1}},
    .open_count = 3,
    .opens = {{.fid = 1, .uid = 3, .tid = 4, .process = 65541, .file = 9, .access = 2, .sharing = GATEWAY_DENY_NONE},
              {.fid = 2,
               .uid = 3,
               .tid = 4,
               .process = 7,
               .file = 5,
               .access = 0,
               .sharing = GATEWAY_DENY_NONE,
               .read = 1,
               .seen = LOADS},
              {.fid = 3, .uid = 3, .tid = 4, .process = 8, .file = 6, .access = 0, .sharing = GATEWAY_DENY_BOTH}},
    .lock_count = 2,
    .locks = {{.fid = 1, .process = 200929, .offset = 10, .length = 20, .shared = 0},
              {.fid = 2, .process = 1234, .offset = 4294967301, .length = 8589934598, .shared = 1}},
    .files = {[3] = {.size = 300, .changes = 1}, [5] = {.size = 55, .changes = LOADS}, [9] = {.size = 77, .changes = 1}},
    .catalogue = {.count = 6,
                  .names = {{.length = 12, .text = {65, 66, 67, 68, 69, 70, 71, 72, 73, 74, 75, 76}, .file = 13},
                            {.length = 3, .text = {120, 46, 121}, .file = 6},
                            {.length = 1, .text = {50}, .file = 2},
                            {.length = 1, .text = {51}, .file = 3},
                            {.length = 1, .text = {52}, .file = 4},
                            {.length = 1, .text = {53}, .file = 5}}},
};

static void require_done(uint8_t number, const char *call)
{
    if (number == GATEWAY_DONE)
        return;
    fprintf(stderr, "fields: %s returned %u\n", call, (unsigned)number);
    exit(2);
}

static void load(uint32_t file, size_t length)
{
    static const uint8_t contents[GATEWAY_FILE_SIZE];
    require_done(gateway_load_file(&tables, file, contents, length, memory, sizeof memory), "gateway_load_file");
}

/* The number given out must be the one expected. */
static void require_number(uint16_t given, uint64_t number, const char *call)
{
    if (given == number)
        return;
    fprintf(stderr, "fields: %s gave out %u\n", call, (unsigned)given);
    exit(2);
}

static void add_session(uint32_t connection, uint64_t number)
{
    uint16_t uid;
    require_done(gateway_add_session(&tables, connection, &uid), "gateway_add_session");
    require_number(uid, number, "gateway_add_session");
}

static void add_tree(uint32_t uid, uint32_t right, uint64_t number)
{
    uint16_t tid;
    require_done(gateway_add_tree(&tables, uid, right, &tid), "gateway_add_tree");
    require_number(tid, number, "gateway_add_tree");
}

static void add_open(uint32_t process, uint32_t file, uint32_t access, uint64_t number)
{
    uint16_t fid;
    require_done(gateway_add_open(&tables, 3, 4, process, file, access, &fid), "gateway_add_open");
    require_number(fid, number, "gateway_add_open");
}

/* Puts a number at a place, the low byte first. */
static void put(uint8_t *message, size_t place, size_t count, uint64_t number)
{
    for (size_t byte = 0; byte < count; byte++)
        message[place + byte] = (uint8_t)(number >> (8 * byte));
}

/*
 * A LOCKING message of UID 3 and TID 4 on connection 70003; its ranges have 20 bytes, type bit 0x10. The process's upper half
 * stands in the header. Gives the number that the call returned. The holder's words are all ones before it.
 */
static uint8_t ask_lock(uint16_t fid, uint8_t type, uint32_t process, uint64_t offset, uint64_t length, size_t room_length)
{
    uint8_t message[MESSAGE] = {0xFF, 0x53, 0x4D, 0x42, 0x24, [32] = 8, 0xFF};
    size_t reply_length = 0;
    memset(&holder, 0xFF, sizeof holder);
    put(message, 12, 2, process >> 16); /* PIDHigh */
    put(message, 24, 2, 4); /* TID */
    put(message, 28, 2, 3); /* UID */
    put(message, 37, 2, fid);
    put(message, 39, 1, type | 0x10);
    put(message, 47, 2, 1);  /* one lock */
    put(message, 49, 2, 20); /* ByteCount */
    put(message, 51, 2, process);
    put(message, 55, 4, offset >> 32);
    put(message, 59, 4, offset);
    put(message, 63, 4, length >> 32);
    put(message, 67, 4, length);
    return gateway_take_message(&tables, 70003, message, sizeof message, memory, sizeof memory, room, room_length,
                                &reply_length, &holder);
}

/* The reply's status must be the one expected: class at 5, code at 7. */
static void require_status(unsigned class, unsigned code)
{
    if (room[5] == class && room[7] == code)
        return;
    fprintf(stderr, "fields: a message was answered with status %u/%u\n", (unsigned)room[5], (unsigned)room[7]);
    exit(2);
}

/* A lock that is granted. */
static void lock(uint16_t fid, uint8_t type, uint32_t process, uint64_t offset, uint64_t length)
{
    require_done(ask_lock(fid, type, process, offset, length, sizeof room), "gateway_take_message");
    require_status(0, 0);
}

/* Opens "X.Y" with OPEN_ANDX to read, denying both, for UID 3 and TID 4 on connection 70003. */
static void open_by_name(uint16_t process, uint64_t number)
{
    uint8_t message[OPENING] = {0xFF, 0x53, 0x4D, 0x42, 0x2D, [32] = 15, 0xFF, [65] = 'X', '.', 'Y'};
    size_t reply_length = 0;
    put(message, 24, 2, 4); /* TID */
    put(message, 26, 2, process);
    put(message, 28, 2, 3); /* UID */
    put(message, 39, 2, 0x0010); /* AccessMode: read, deny both */
    put(message, 49, 2, 1); /* OpenMode */
    put(message, 63, 2, 4); /* ByteCount */
    require_done(gateway_take_message(&tables, 70003, message, sizeof message, memory, sizeof memory, room, sizeof room,
                                      &reply_length, &holder),
                 "gateway_take_message");
    require_status(0, 0);
    require_number((uint16_t)(room[37] | room[38] << 8), number, "OPEN_ANDX");
}

/* Reads 10 bytes with READ_ANDX, for UID 3 and TID 4 on connection 70003. */
static void read_file(uint16_t fid)
{
    uint8_t message[READING] = {0xFF, 0x53, 0x4D, 0x42, 0x2E, [32] = 10, 0xFF};
    size_t reply_length = 0;
    put(message, 24, 2, 4); /* TID */
    put(message, 28, 2, 3); /* UID */
    put(message, 37, 2, fid);
    put(message, 43, 2, 10); /* max */
    require_done(gateway_take_message(&tables, 70003, message, sizeof message, memory, sizeof memory, room, sizeof room,
                                      &reply_length, &holder),
                 "gateway_take_message");
    require_status(0, 0);
}

static void fill(void)
{
    gateway_empty(&tables);
    load(3, 300);
    for (size_t place = 0; place < LOADS; place++)
        load(5, 55);
    load(9, 77);
    require_done(gateway_set_catalogue(&tables, &expected.catalogue), "gateway_set_catalogue");
    add_session(70001, 1);
    add_session(70002, 2);
    add_session(70003, 3);
    add_session(70004, 4);
    add_session(70005, 5);
    add_tree(2, 0, 1);
    add_tree(3, 1, 2);
    add_tree(2, 1, 3);
    add_tree(3, 1, 4);
    add_open(65541, 9, 2, 1);
    add_open(7, 5, 0, 2);
    open_by_name(8, 3);
    read_file(2);
    lock(1, 0x00, 200929, 10, 20);
    lock(2, 0x01, 1234, 4294967301, 8589934598);
}

static void same(const char *name, size_t place, uint64_t value, uint64_t given)
{
    read_fields++;
    if (value == given)
        return;
    wrong++;
    fprintf(stderr, "fields: %s of record %zu is %llu and not %llu\n", name, place, (unsigned long long)value,
            (unsigned long long)given);
}

#define COUNT(field) same(#field, 0, tables.field, expected.field)
#define FIELD(table, place, field) same(#table "." #field, place, tables.table[place].field, expected.table[place].field)

static void read_records(void)
{
    COUNT(session_count);
    COUNT(tree_count);
    COUNT(open_count);
    COUNT(lock_count);
    for (size_t place = 0; place < GATEWAY_SESSIONS; place++) {
        FIELD(sessions, place, uid);
        FIELD(sessions, place, connection);
    }
    for (size_t place = 0; place < GATEWAY_TREES; place++) {
        FIELD(trees, place, tid);
        FIELD(trees, place, uid);
        FIELD(trees, place, right);
    }
    for (size_t place = 0; place < GATEWAY_OPENS; place++) {
        FIELD(opens, place, fid);
        FIELD(opens, place, uid);
        FIELD(opens, place, tid);
        FIELD(opens, place, process);
        FIELD(opens, place, file);
        FIELD(opens, place, access);
        FIELD(opens, place, sharing);
        FIELD(opens, place, read);
        FIELD(opens, place, seen);
    }
    for (size_t place = 0; place < GATEWAY_LOCKS; place++) {
        FIELD(locks, place, fid);
        FIELD(locks, place, process);
        FIELD(locks, place, offset);
        FIELD(locks, place, length);
        FIELD(locks, place, shared);
    }
    for (size_t place = 0; place < GATEWAY_FILES; place++) {
        FIELD(files, place, size);
        FIELD(files, place, changes);
    }
    COUNT(catalogue.count);
    for (size_t place = 0; place < GATEWAY_NAMES; place++) {
        FIELD(catalogue.names, place, length);
        for (size_t byte = 0; byte < GATEWAY_NAME_BYTES; byte++)
            FIELD(catalogue.names, place, text[byte]);
        FIELD(catalogue.names, place, file);
    }
}

#define WORD(field, word) same("the word of " #field, 0, offsetof(struct gateway_tables, field) / 8, word)

/* The words as the library has them: the first record of each table, the start of its second, and its last word. */
static void read_words(void)
{
    WORD(session_count, 0);
    WORD(sessions[0].uid, 1);
    WORD(sessions[0].connection, 2);
    WORD(sessions[1].uid, 3);
    WORD(sessions[15].connection, 32);
    WORD(tree_count, 33);
    WORD(trees[0].tid, 34);
    WORD(trees[0].uid, 35);
    WORD(trees[0].right, 36);
    WORD(trees[1].tid, 37);
    WORD(trees[31].right, 129);
    WORD(open_count, 130);
    WORD(opens[0].fid, 131);
    WORD(opens[0].uid, 132);
    WORD(opens[0].tid, 133);
    WORD(opens[0].process, 134);
    WORD(opens[0].file, 135);
    WORD(opens[0].access, 136);
    WORD(opens[0].sharing, 137);
    WORD(opens[0].read, 138);
    WORD(opens[0].seen, 139);
    WORD(opens[1].fid, 140);
    WORD(opens[63].seen, 706);
    WORD(lock_count, 707);
    WORD(locks[0].fid, 708);
    WORD(locks[0].process, 709);
    WORD(locks[0].offset, 710);
    WORD(locks[0].length, 711);
    WORD(locks[0].shared, 712);
    WORD(locks[1].fid, 713);
    WORD(locks[127].shared, 1347);
    WORD(files[0].size, 1348);
    WORD(files[0].changes, 1349);
    WORD(files[1].size, 1350);
    WORD(files[15].changes, 1379);
    WORD(catalogue.count, 1380);
    WORD(catalogue.names[0].length, 1381);
    WORD(catalogue.names[0].text[0], 1382);
    WORD(catalogue.names[0].text[11], 1393);
    WORD(catalogue.names[0].file, 1394);
    WORD(catalogue.names[1].length, 1395);
    WORD(catalogue.names[15].file, 1604);
}

/*
 * Asks whether the file of an open has changed. A refusal leaves the answer as it was before, 7; no question changes the tables.
 */
static void ask(size_t place, uint32_t fid, uint8_t number, uint16_t answer)
{
    struct gateway_tables before = tables;
    uint16_t unchanged = 7;
    same("number", place, gateway_unchanged(&tables, fid, &unchanged), number);
    same("unchanged", place, unchanged, answer);
    same("the tables", place, memcmp(&tables, &before, sizeof tables) != 0, 0);
}

/* The same with change numbers of FID 2, which has read, and of its file. */
static void ask_at(size_t place, uint64_t read, uint64_t seen, uint64_t changes, uint8_t number, uint16_t answer)
{
    struct gateway_tables before = tables;
    tables.opens[1].read = read;
    tables.opens[1].seen = seen;
    tables.files[5].changes = changes;
    ask(place, 2, number, answer);
    tables = before;
}

static void read_unchanged(void)
{
    const uint64_t last = GATEWAY_LAST_CHANGE;
    ask(0, 2, GATEWAY_DONE, 1);
    ask(1, 1, GATEWAY_DONE, 0); /* has not read */
    ask(2, 4, GATEWAY_NO_SUCH, 7);
    ask(3, 65536 + 2, GATEWAY_NO_SUCH, 7);
    ask_at(4, 1, LOADS, LOADS + 1, GATEWAY_DONE, 0);
    ask_at(5, 0, LOADS, LOADS, GATEWAY_DONE, 0);
    ask_at(6, 1, last - 1, last - 1, GATEWAY_DONE, 1);
    ask_at(7, 1, last - 1, last, GATEWAY_DONE, 0);
    ask_at(8, 1, last, last, GATEWAY_DONE, 0);
    ask_at(9, 1, LOADS + 1, LOADS, GATEWAY_NOT_SOUND, 7);
    ask_at(10, 1, last, last + 1, GATEWAY_NOT_SOUND, 7);
    ask_at(11, 2, LOADS, LOADS, GATEWAY_NOT_SOUND, 7);
}

/* A change number below the largest is raised to it, and one that is there stays: the load is done all the same. */
static void read_last_change(void)
{
    tables.files[3].changes = GATEWAY_LAST_CHANGE - 1;
    for (size_t place = 0; place < 2; place++) {
        load(3, 200 + place);
        same("size at the last change", place, tables.files[3].size, 200 + place);
        same("the last change", place, tables.files[3].changes, 4294967295);
    }
}

/* Catalogues that break a rule are refused, and the old one stands. */
static void read_catalogue_refused(void)
{
    static struct gateway_catalogue given;
    for (size_t place = 0; place < 5; place++) {
        given = expected.catalogue;
        if (place == 0)
            given.count = GATEWAY_NAMES + 1;
        else if (place == 1)
            given.names[1].length = 257;
        else if (place == 2)
            given.names[1].text[1] = 0;
        else if (place == 3)
            given.names[1] = (struct gateway_name){
                .length = 12, .text = {97, 98, 99, 100, 101, 102, 103, 104, 105, 106, 107, 108}}; /* the first one's, in small letters */
        else
            given.names[1].file = 16;
        same("number", place, gateway_set_catalogue(&tables, &given), GATEWAY_OUT_OF_RANGE);
        same("the catalogue", place, (uint64_t)memcmp(&tables.catalogue, &expected.catalogue, sizeof given), 0);
    }
    given = (struct gateway_catalogue){0};
    require_done(gateway_set_catalogue(&tables, &given), "gateway_set_catalogue");
    same("count", 0, tables.catalogue.count, 0);
}

static void same_holder(size_t place, struct gateway_holder due)
{
    same("held", place, holder.held, due.held);
    same("fid", place, holder.fid, due.fid);
    same("process", place, holder.process, due.process);
    same("place", place, holder.place, due.place);
    same("offset", place, holder.offset, due.offset);
    same("length", place, holder.length, due.length);
}

/* The holder's words as they were before the call. */
static const struct gateway_holder not_written = {UINT64_MAX, UINT64_MAX, UINT64_MAX, UINT64_MAX, UINT64_MAX, UINT64_MAX};

/* A lock granted, one refused for a conflict, one for another reason: no FID 9. */
static void read_holder(void)
{
    lock(3, 0x00, 5555, 0, 1);
    same_holder(0, (struct gateway_holder){0});
    lock(2, 0x00, 62000000, 5000000000007, 6000000000008);
    require_done(ask_lock(2, 0x00, 1234, 5000000000100, 1, sizeof room), "gateway_take_message");
    require_status(1, 33);
    same_holder(1, (struct gateway_holder){
                       .held = 1, .fid = 2, .process = 62000000, .place = 3, .offset = 5000000000007, .length = 6000000000008});
    require_done(ask_lock(9, 0x00, 1234, 5000000000100, 1, sizeof room), "gateway_take_message");
    require_status(1, 6);
    same_holder(2, (struct gateway_holder){0});
}

/* Calls that are refused leave the holder as it was, of a lock that would be refused for a conflict too. */
static void read_holder_refused(void)
{
    static const uint8_t short_message[34];
    size_t reply_length = 0;
    same("number", 3, ask_lock(2, 0x00, 1234, 5000000000100, 1, sizeof room - 1), GATEWAY_WRONG_ROOM);
    same_holder(3, not_written);
    tables.session_count += GATEWAY_SESSIONS;
    same("number", 4, ask_lock(2, 0x00, 1234, 5000000000100, 1, sizeof room), GATEWAY_NOT_SOUND);
    same_holder(4, not_written);
    tables.session_count -= GATEWAY_SESSIONS;
    same("number", 5,
         gateway_take_message(&tables, 70003, short_message, sizeof short_message, memory, sizeof memory, room, sizeof room,
                              &reply_length, &holder),
         GATEWAY_DROPPED);
    same_holder(5, not_written);
}

#define HOLDER_WORD(field, word) same("the word of the holder's " #field, 0, offsetof(struct gateway_holder, field) / 8, word)

static void read_holder_words(void)
{
    HOLDER_WORD(held, 0);
    HOLDER_WORD(fid, 1);
    HOLDER_WORD(process, 2);
    HOLDER_WORD(place, 3);
    HOLDER_WORD(offset, 4);
    HOLDER_WORD(length, 5);
}

static struct gateway_stream reader;
static struct gateway_stream_step step;

/* Hands a piece to the reader; the number must be the one expected. */
static void feed(const uint8_t *piece, size_t length, uint8_t number)
{
    static uint8_t buffer[GATEWAY_STREAM_BUFFER];
    uint8_t given = gateway_stream_read(&reader, buffer, piece, length, &step);
    if (given == number)
        return;
    fprintf(stderr, "fields: gateway_stream_read returned %u and not %u\n", (unsigned)given, (unsigned)number);
    exit(2);
}

static void same_state(size_t place, struct gateway_stream due)
{
    same("stopped", place, reader.stopped, due.stopped);
    same("begun", place, reader.begun, due.begun);
    same("first", place, reader.first, due.first);
    same("second", place, reader.second, due.second);
    same("third", place, reader.third, due.third);
    same("length", place, reader.length, due.length);
    same("got", place, reader.got, due.got);
}

static void same_step(size_t place, struct gateway_stream_step due)
{
    same("taken", place, step.taken, due.taken);
    same("event", place, step.event, due.event);
    same("at", place, step.at, due.at);
    same("length", place, step.length, due.length);
}

/* Begun headers and messages, a message in the piece behind a keep-alive, one in the buffer, and a stop. */
static void read_stream(void)
{
    static const uint8_t begun[] = {0x85, 7, 9};
    static const uint8_t large[] = {0, 0, 1, 44, 'a', 'b', 'c', 'd', 'e'};
    static const uint8_t two[] = {0x85, 0, 0, 0, 0, 0, 0, 3, 'a', 'b', 'c', 0, 0, 0, 2, 'd'};
    static const uint8_t rest[] = {'e', 0};
    static const uint8_t long_header[] = {0, 0x20, 1};
    memset(&reader, 0xFF, sizeof reader);
    gateway_stream_reset(&reader);
    same_state(0, (struct gateway_stream){0});
    feed(begun, sizeof begun, GATEWAY_DONE);
    same_state(1, (struct gateway_stream){.begun = 3, .first = 0x85, .second = 7, .third = 9});
    same_step(1, (struct gateway_stream_step){.taken = 3, .event = GATEWAY_STREAM_WANTED});
    gateway_stream_reset(&reader);
    feed(large, sizeof large, GATEWAY_DONE);
    same_state(2, (struct gateway_stream){.length = 300, .got = 5});
    gateway_stream_reset(&reader);
    feed(two, sizeof two, GATEWAY_DONE);
    same_state(3, (struct gateway_stream){0});
    same_step(3, (struct gateway_stream_step){.taken = 11, .event = GATEWAY_STREAM_IN_PIECE, .at = 8, .length = 3});
    feed(two + 11, sizeof two - 11, GATEWAY_DONE);
    same_state(4, (struct gateway_stream){.length = 2, .got = 1});
    feed(rest, sizeof rest, GATEWAY_DONE);
    same_step(4, (struct gateway_stream_step){.taken = 1, .event = GATEWAY_STREAM_IN_BUFFER, .length = 2});
    feed(rest + 1, 1, GATEWAY_DONE);
    feed(long_header, sizeof long_header, GATEWAY_STREAM_TOO_LONG);
    same_state(5, (struct gateway_stream){.stopped = GATEWAY_STREAM_TOO_LONG});
    /* the last step stands: none was written */
    same_step(5, (struct gateway_stream_step){.taken = 1, .event = GATEWAY_STREAM_WANTED});
    reader.got = 1;
    feed(begun, sizeof begun, GATEWAY_STREAM_NO_SUCH_STATE);
    same_state(6, (struct gateway_stream){.stopped = GATEWAY_STREAM_TOO_LONG, .got = 1});
}

#define STATE_WORD(field, word) same("the word of the state's " #field, 0, offsetof(struct gateway_stream, field) / 8, word)
#define STEP_WORD(field, word) same("the word of the step's " #field, 0, offsetof(struct gateway_stream_step, field) / 8, word)

static void read_stream_words(void)
{
    STATE_WORD(stopped, 0);
    STATE_WORD(begun, 1);
    STATE_WORD(first, 2);
    STATE_WORD(second, 3);
    STATE_WORD(third, 4);
    STATE_WORD(length, 5);
    STATE_WORD(got, 6);
    STEP_WORD(taken, 0);
    STEP_WORD(event, 1);
    STEP_WORD(at, 2);
    STEP_WORD(length, 3);
}

int main(void)
{
    fill();
    read_records();
    read_words();
    read_unchanged();
    read_last_change();
    read_catalogue_refused();
    read_holder();
    read_holder_refused();
    read_holder_words();
    read_stream();
    read_stream_words();
    printf("fields: %lu read, %lu wrong\n", read_fields, wrong);
    return wrong == 0 ? 0 : 1;
}
