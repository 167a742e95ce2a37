/* NEGOTIATE: the one dialect, and what this server can do. */
#include "query.h"
#include "serve.h"

#include <string.h>

#define DIALECT "NT LM 0.12"
#define NO_DIALECT 0xFFFF
#define DIALECT_MARK 0x02
#define CHALLENGE 8

/* User-level security with challenge and response, which clients want; whoever answers is a guest. No signing. */
#define SECURITY_MODE 0x03

/*
 * Capabilities. NT_SMBS, for NT_CREATE_ANDX; STATUS32 (CR 7). Left out on purpose: LARGE_READX and LARGE_WRITEX, for the
 * library's READ_ANDX has no MaxCountHigh and takes 65,536 bytes for 0; UNICODE, for names and strings are bytes here;
 * extended security; raw mode; DFS; oplocks.
 */
#define CAPABILITIES (0x00000010u | 0x00000040u)

/* Each dialect is a mark, a string and its zero byte. The place of ours, from 0; NO_DIALECT if it is not there. */
static unsigned find_dialect(const uint8_t *bytes, size_t length)
{
    unsigned index = 0;
    for (size_t place = 0; place < length && bytes[place] == DIALECT_MARK; index++) {
        const uint8_t *string = bytes + place + 1;
        const uint8_t *zero = memchr(string, 0, length - place - 1);
        if (zero == NULL)
            return NO_DIALECT;
        if ((size_t)(zero - string) == strlen(DIALECT) && memcmp(string, DIALECT, strlen(DIALECT)) == 0)
            return index;
        place = (size_t)(zero - bytes) + 1;
    }
    return NO_DIALECT;
}

/* Any eight bytes do: no response to them is looked at. */
static void put_challenge(struct reply *reply, uint32_t number)
{
    put32(reply, 0x5A17C0DEu ^ number);
    put32(reply, 0x3B9ACA07u + number);
}

static void put_parameters(struct reply *reply, unsigned index)
{
    begin_block(reply, 17);
    put16(reply, index);
    put8(reply, SECURITY_MODE);
    put16(reply, 1);               /* MaxMpxCount: one request at a time is answered */
    put16(reply, 1);               /* MaxNumberVcs */
    put32(reply, LONGEST_MESSAGE); /* MaxBufferSize */
    put32(reply, 0);               /* MaxRawSize */
    put32(reply, 0);               /* SessionKey */
    put32(reply, CAPABILITIES);
    put64(reply, file_time(time(NULL)));
    put16(reply, 0); /* ServerTimeZone */
    put8(reply, CHALLENGE);
}

uint32_t negotiate(struct request *request, struct reply *reply)
{
    if (request->block.word_count != 0 || request->connection->negotiated)
        return refused(request, &INVALID_SMB);
    unsigned index = find_dialect(request->block.bytes, request->block.byte_count);
    if (index == NO_DIALECT) {
        begin_block(reply, 1);
        put16(reply, NO_DIALECT);
        end_words(reply);
        return 0;
    }
    request->connection->negotiated = true;
    put_parameters(reply, index);
    begin_bytes(reply);
    put_challenge(reply, request->connection->number);
    put_string(reply, "WORKGROUP");
    put_string(reply, "GATEWAY");
    end_block(reply);
    return 0;
}
