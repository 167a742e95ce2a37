/* Trees: the share with the files, whose trees are the library's, and IPC$, whose trees are the host's own. */
#include "own.h"

#include <string.h>

#define WORDS 4
#define DISCONNECT_FIRST 0x0001 /* Flags: the TID of the header is to be disconnected */
#define READ_AND_WRITE 1
#define TREES_OF_ONE 4 /* so that one client cannot use up the library's 32 trees */

/* The trees of this connection, by the UIDs of its sessions. */
static size_t trees_of(const struct request *request)
{
    const struct gateway_tables *tables = request->host->tables;
    size_t count = 0;
    for (size_t place = 0; place < tables->tree_count; place++) {
        struct request owner = *request;
        owner.uid = (uint16_t)tables->trees[place].uid;
        count += judge_session(&owner) == 0;
    }
    return count;
}

static uint32_t add_tree(struct request *request)
{
    if (trees_of(request) >= TREES_OF_ONE)
        return refused(request, &NO_RESOURCES);
    uint8_t number = gateway_add_tree(request->host->tables, request->uid, READ_AND_WRITE, &request->tid);
    if (number == GATEWAY_FULL)
        return refused(request, &NO_RESOURCES);
    require_done(number, "gateway_add_tree");
    return 0;
}

/* Whether a string is one given, ASCII letters in either case. */
static bool is_name(const uint8_t *string, size_t length, const char *name)
{
    size_t place = 0;
    while (place < length && name[place] != 0 && same_letter(string[place], (uint8_t)name[place]))
        place++;
    return place == length && name[place] == 0;
}

/* A path is \\SERVER\SHARE or the share alone: what stands behind the last backslash counts. */
static size_t share_in(const uint8_t *path, size_t length)
{
    size_t start = length;
    while (start > 0 && path[start - 1] != '\\')
        start--;
    return start;
}

/* The bytes: a password, the path and the service, both ended by a zero byte. */
struct asked {
    const uint8_t *share;
    size_t share_length;
    const uint8_t *service;
    size_t service_length;
};

static bool read_asked(const struct block *block, struct asked *asked)
{
    size_t password = block->word_count == WORDS ? get16(block->words + 6) : block->byte_count + 1;
    if (password > block->byte_count)
        return false;
    const uint8_t *path = block->bytes + password, *end = block->bytes + block->byte_count;
    const uint8_t *path_end = memchr(path, 0, (size_t)(end - path));
    if (path_end == NULL)
        return false;
    const uint8_t *service = path_end + 1, *service_end = memchr(service, 0, (size_t)(end - service));
    if (service_end == NULL)
        return false;
    size_t start = share_in(path, (size_t)(path_end - path));
    *asked = (struct asked){path + start, (size_t)(path_end - path) - start, service, (size_t)(service_end - service)};
    return true;
}

/* "?????" asks for whatever the share is; otherwise the service must be the share's. */
static bool is_service(const struct asked *asked, const char *service)
{
    return is_name(asked->service, asked->service_length, "?????") || is_name(asked->service, asked->service_length, service);
}

static uint32_t connect_to(struct request *request, const struct asked *asked, const char **service)
{
    bool files = is_name(asked->share, asked->share_length, request->host->share);
    if (!files && !is_name(asked->share, asked->share_length, "IPC$"))
        return refused(request, &BAD_SHARE);
    *service = files ? "A:" : "IPC";
    if (!is_service(asked, *service))
        return refused(request, &BAD_DEVICE);
    if (files)
        return add_tree(request);
    return add_own_tree(request) ? 0 : refused(request, &NO_RESOURCES);
}

/*
 * The tree of the header's TID goes, if it is the caller's. A new one may get its number at once, so what the host keeps of the
 * old one goes too.
 */
static void disconnect_first(struct request *request)
{
    struct own_tree *own = find_own_tree(request);
    if (own != NULL)
        own->used = false;
    else if (judge_tree(request) == 0)
        require_done(gateway_end_tree(request->host->tables, request->tid), "gateway_end_tree");
    remove_own(request->host);
}

uint32_t tree_connect(struct request *request, struct reply *reply)
{
    struct asked asked;
    const char *service = NULL;
    if (!read_asked(&request->block, &asked))
        return refused(request, &INVALID_SMB);
    uint32_t status = judge_session(request);
    if (status == 0 && (get16(request->block.words + 4) & DISCONNECT_FIRST) != 0)
        disconnect_first(request);
    status = status != 0 ? status : connect_to(request, &asked, &service);
    if (status != 0)
        return status;
    set16(reply->room + AT_TID, request->tid);
    begin_andx_block(reply, 3);
    put16(reply, 0); /* OptionalSupport */
    begin_bytes(reply);
    put_string(reply, service);
    put_string(reply, "FAT");
    end_block(reply);
    return 0;
}

/* Of an own tree; the library does all others. */
uint32_t tree_disconnect(struct request *request, struct reply *reply)
{
    if (request->block.word_count != 0 || request->block.byte_count != 0)
        return refused(request, &INVALID_SMB);
    uint32_t status = judge_session(request);
    if (status != 0)
        return status;
    find_own_tree(request)->used = false;
    begin_block(reply, 0);
    end_words(reply);
    return 0;
}
