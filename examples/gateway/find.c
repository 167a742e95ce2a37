/* FIND_FIRST2, FIND_NEXT2 and FIND_CLOSE2: the list of the files. */
#include "transaction2.h"

#include <string.h>

/* Information levels. */
enum { INFO_STANDARD = 1, DIRECTORY = 0x101, FULL_DIRECTORY = 0x102, NAMES = 0x103, BOTH_DIRECTORY = 0x104 };

#define CLOSE_AFTER 0x0001  /* Flags: no FIND_NEXT2 will come */
#define RESUME_KEYS 0x0004  /* Flags: entries of INFO_STANDARD begin with a resume key */
#define NO_SEARCH 0xFFFF    /* the SID of a search that is at its end */

/* The older wildcards that clients put for *, ? and a dot. */
static uint8_t modern(uint8_t letter)
{
    switch (letter) {
    case '<':
        return '*';
    case '>':
        return '?';
    case '"':
        return '.';
    }
    return letter;
}

/*
 * Whether a name fits a pattern. Where it does not fit behind a star, the star takes one byte more, and only the last star
 * need be tried again: at most 64 * 12 steps.
 */
static bool fits(const char *pattern, const char *name)
{
    const char *star = NULL, *again = NULL;
    while (*name != 0) {
        uint8_t wanted = modern((uint8_t)*pattern);
        if (wanted == '*') {
            star = ++pattern;
            again = name;
        } else if (wanted == '?' || (wanted != 0 && same_letter(wanted, (uint8_t)*name))) {
            pattern++;
            name++;
        } else if (star != NULL) {
            pattern = star;
            name = ++again;
        } else {
            return false;
        }
    }
    while (modern((uint8_t)*pattern) == '*')
        pattern++;
    return *pattern == 0;
}

/* "*.*" is every file, with a dot or without. */
static bool is_listed(const struct search *search, const char *name)
{
    return strcmp(search->pattern, "*.*") == 0 || fits(search->pattern, name);
}

static void put_info_standard(struct reply *data, const struct about *about, bool keys, size_t place)
{
    if (keys)
        put32(data, (uint32_t)place);
    for (int times = 0; times < 3; times++)
        put32(data, date_and_time(about->written));
    put32(data, about->size);
    put32(data, GATEWAY_FILE_SIZE);
    put16(data, attributes_of(about));
    put8(data, (unsigned)strlen(about->name));
    put_string(data, about->name);
}

/* What the levels for directories say between the place of the next entry and the name. */
static void put_directory(struct reply *data, const struct about *about, unsigned level)
{
    for (int times = 0; times < 4; times++)
        put64(data, file_time(about->written));
    put64(data, about->size);
    put64(data, GATEWAY_FILE_SIZE);
    put32(data, attributes_of(about));
    put32(data, (uint32_t)strlen(about->name));
    if (level != DIRECTORY)
        put32(data, 0); /* EaSize */
    if (level == BOTH_DIRECTORY)
        put_zeros(data, 26); /* no short name */
}

/* The place of the next entry is set when there is one, and each starts at a multiple of eight. */
static void put_entry(struct reply *data, const struct about *about, unsigned level, size_t place)
{
    put32(data, 0);
    put32(data, (uint32_t)place);
    if (level == NAMES)
        put32(data, (uint32_t)strlen(about->name));
    else
        put_directory(data, about, level);
    put_bytes(data, about->name, strlen(about->name));
}

/* What a listing gave: how many entries, where the last one stands, how far it came. */
struct listing {
    unsigned count;
    size_t last;
    size_t next;
};

/* Puts one entry. False: there is no room for it, and nothing was put. */
static bool add_entry(struct reply *data, const struct about *about, unsigned level, bool keys, struct listing *listing)
{
    size_t before = data->length;
    if (level != INFO_STANDARD)
        put_zeros(data, (8 - before % 8) % 8);
    size_t start = data->length;
    if (level == INFO_STANDARD)
        put_info_standard(data, about, keys, listing->next);
    else
        put_entry(data, about, level, listing->next);
    if (data->full) {
        data->length = before;
        data->full = false;
        return false;
    }
    if (level != INFO_STANDARD && listing->count > 0)
        set32(data->room + listing->last, (uint32_t)(start - listing->last));
    listing->last = start;
    listing->count++;
    return true;
}

/* The entries from the search's place on, as many as are asked for and have room. */
static struct listing list(const struct host *host, const struct search *search, unsigned most, unsigned level, bool keys,
                           struct reply *data)
{
    struct listing listing = {.next = search->next};
    for (; listing.next < host->file_count; listing.next++) {
        struct about about = about_file(host, listing.next);
        if (!is_listed(search, about.name))
            continue;
        if (listing.count == most || !add_entry(data, &about, level, keys, &listing))
            break;
    }
    return listing;
}

/* Whether more would be listed. */
static bool goes_on(const struct host *host, const struct search *search, size_t next)
{
    for (; next < host->file_count; next++)
        if (is_listed(search, host->files[next].name))
            return true;
    return false;
}

static bool is_level(unsigned level)
{
    return level == INFO_STANDARD || (level >= DIRECTORY && level <= BOTH_DIRECTORY);
}

/* A place for a search that goes on; where all are in use the first is given up. */
static size_t keep(struct connection *connection, const struct search *search)
{
    size_t place = 0;
    while (place < SEARCHES && connection->searches[place].used)
        place++;
    place = place == SEARCHES ? 0 : place;
    connection->searches[place] = *search;
    connection->searches[place].used = true;
    return place;
}

static void put_counts(struct reply *parameters, const struct listing *listing, bool more)
{
    put16(parameters, listing->count);
    put16(parameters, more ? 0 : 1); /* EndOfSearch */
    put16(parameters, 0);            /* EaErrorOffset */
    put16(parameters, (unsigned)listing->last);
}

/* The pattern without the backslash in front. There is one directory, so a pattern with another one fits nothing. */
static bool read_pattern(struct search *search, const uint8_t *name, size_t length)
{
    size_t front = length > 0 && name[0] == '\\' ? 1 : 0;
    if (length - front >= PATTERN_BYTES || memchr(name + front, '\\', length - front) != NULL)
        return false;
    memcpy(search->pattern, name + front, length - front);
    return true;
}

/* Parameters: attributes, count, flags, level, four bytes, the pattern. */
uint32_t find_first2(struct request *request, const struct transaction *asked, struct result *result)
{
    struct search search = {.uid = request->uid, .tid = request->tid};
    if (asked->parameter_count < 12)
        return refused(request, &INVALID_SMB);
    const uint8_t *parameters = asked->parameters, *name = parameters + 12;
    unsigned flags = get16(parameters + 4), level = get16(parameters + 6);
    if (!is_level(level))
        return refused(request, &INVALID_LEVEL);
    if (!read_pattern(&search, name, string_length(name, asked->parameter_count - 12)))
        return refused(request, &NO_SUCH_FILE);
    struct listing listing = list(request->host, &search, get16(parameters + 2), level, (flags & RESUME_KEYS) != 0, &result->data);
    search.next = listing.next;
    bool more = goes_on(request->host, &search, listing.next);
    if (listing.count == 0)
        return refused(request, more ? &NO_RESOURCES : &NO_SUCH_FILE);
    bool kept = more && (flags & CLOSE_AFTER) == 0;
    put16(&result->parameters, kept ? (unsigned)keep(request->connection, &search) + 1 : NO_SEARCH);
    put_counts(&result->parameters, &listing, more);
    return 0;
}

static struct search *find_search(const struct request *request, unsigned sid)
{
    if (sid == 0 || sid > SEARCHES)
        return NULL;
    struct search *search = &request->connection->searches[sid - 1];
    return search->used && search->uid == request->uid && search->tid == request->tid ? search : NULL;
}

/* Parameters: SID, count, level, four bytes, flags, a name. It goes on where it was; the name is not looked at. */
uint32_t find_next2(struct request *request, const struct transaction *asked, struct result *result)
{
    if (asked->parameter_count < 12)
        return refused(request, &INVALID_SMB);
    const uint8_t *parameters = asked->parameters;
    unsigned level = get16(parameters + 4), flags = get16(parameters + 10);
    struct search *search = find_search(request, get16(parameters));
    if (search == NULL)
        return refused(request, &INVALID_HANDLE);
    if (!is_level(level))
        return refused(request, &INVALID_LEVEL);
    struct listing listing = list(request->host, search, get16(parameters + 2), level, (flags & RESUME_KEYS) != 0, &result->data);
    search->next = listing.next;
    bool more = goes_on(request->host, search, listing.next);
    search->used = more && (flags & CLOSE_AFTER) == 0;
    put_counts(&result->parameters, &listing, more);
    return 0;
}

/* A search that is at its end is no more, and closing it again is done. */
uint32_t find_close2(struct request *request, struct reply *reply)
{
    if (request->block.word_count != 1)
        return refused(request, &INVALID_SMB);
    uint32_t status = judge_tree(request);
    if (status != 0)
        return status;
    struct search *search = find_search(request, get16(request->block.words));
    if (search != NULL)
        search->used = false;
    begin_block(reply, 0);
    end_words(reply);
    return 0;
}
