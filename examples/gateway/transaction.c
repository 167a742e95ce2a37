/* TRANSACTION: the list of shares, which smbclient -L asks for on IPC$ by the remote administration protocol ([MS-RAP]). */
#include "own.h"
#include "transaction2.h"

#include <string.h>

#define PIPE "\\PIPE\\LANMAN"
#define SHARE_ENUM 0     /* NetShareEnum */
#define SHARE_NAME 13    /* bytes of a share's name in an entry, with zeros behind it */
#define TYPE_DISK 0
#define TYPE_IPC 3

/* Parameters: the function, and two strings of which the second must be that of level 1. */
static bool asks_for_shares(const struct request *request, const struct transaction *asked)
{
    static const uint8_t wanted[] = {SHARE_ENUM, 0, 'W', 'r', 'L', 'e', 'h', 0, 'B', '1', '3', 'B', 'W', 'z', 0};
    return request->block.byte_count >= sizeof PIPE && memcmp(request->block.bytes, PIPE, sizeof PIPE) == 0
           && asked->parameter_count >= sizeof wanted && memcmp(asked->parameters, wanted, sizeof wanted) == 0;
}

/* An entry of level 1: the name, a pad, the type, and the place of a comment: the zero byte behind the last entry. */
static void put_share(struct reply *data, const char *name, unsigned type, uint32_t comment)
{
    size_t length = strlen(name) < SHARE_NAME ? strlen(name) : SHARE_NAME - 1;
    put_bytes(data, name, length);
    put_zeros(data, SHARE_NAME + 1 - length);
    put16(data, type);
    put32(data, comment);
}

static void put_shares(const struct request *request, struct result *result)
{
    put16(&result->parameters, 0); /* done */
    put16(&result->parameters, 0); /* Converter: the comments' places are as they stand */
    put16(&result->parameters, 2);
    put16(&result->parameters, 2);
    put_share(&result->data, request->host->share, TYPE_DISK, 40);
    put_share(&result->data, "IPC$", TYPE_IPC, 40);
    put8(&result->data, 0);
}

uint32_t transaction(struct request *request, struct reply *reply)
{
    struct transaction asked;
    uint32_t status = read_transaction(request, 0, &asked);
    status = status != 0 ? status : judge_session(request);
    if (status != 0)
        return status;
    if (find_own_tree(request) == NULL)
        return refused(request, &BAD_TID);
    if (!asks_for_shares(request, &asked))
        return refused(request, &NOT_SUPPORTED);
    struct result result = result_for(&asked);
    put_shares(request, &result);
    return put_result(reply, &result) ? 0 : refused(request, &NO_RESOURCES);
}
