#define _DEFAULT_SOURCE
#include "smb.h"

#include <arpa/inet.h>
#include <netinet/in.h>
#include <netinet/tcp.h>
#include <stdio.h>
#include <stdlib.h>
#include <string.h>
#include <sys/socket.h>
#include <sys/time.h>
#include <unistd.h>

#define SESSION_HEADER 4
#define AT(place) (SESSION_HEADER + (place)) /* a place counted from the SMB header */
#define HEADER 32
#define PROCESS 77
#define LONGEST_WAIT 10 /* seconds for a reply */

enum { CLOSE = 0x04, LOCKING_ANDX = 0x24, READ_ANDX = 0x2E, NEGOTIATE = 0x72, SESSION_SETUP_ANDX = 0x73,
       TREE_CONNECT_ANDX = 0x75, NT_CREATE_ANDX = 0xA2, NOTHING = 0xFF };

void give_up(const char *what)
{
    fprintf(stderr, "client: %s\n", what);
    exit(1);
}

static unsigned get16(const uint8_t *bytes)
{
    return (unsigned)bytes[1] << 8 | bytes[0];
}

static void set16(uint8_t *bytes, size_t number)
{
    bytes[0] = (uint8_t)number;
    bytes[1] = (uint8_t)(number >> 8);
}

static void put8(struct message *made, unsigned number)
{
    if (made->length == LONGEST_REQUEST)
        give_up("a request has no room");
    made->bytes[made->length++] = (uint8_t)number;
}

static void put16(struct message *made, unsigned number)
{
    put8(made, number & 0xFF);
    put8(made, number >> 8);
}

static void put32(struct message *made, uint32_t number)
{
    put16(made, number & 0xFFFF);
    put16(made, number >> 16);
}

static void put_zeros(struct message *made, size_t count)
{
    for (size_t done = 0; done < count; done++)
        put8(made, 0);
}

/* With the zero byte that ends it. */
static void put_string(struct message *made, const char *string)
{
    for (size_t place = 0; place <= strlen(string); place++)
        put8(made, (unsigned char)string[place]);
}

/* The header asks for NT status, and says that names are bytes. */
static void begin(const struct link *link, struct message *made, unsigned command)
{
    static const uint8_t protocol[] = {0xFF, 'S', 'M', 'B'};
    *made = (struct message){.length = SESSION_HEADER};
    for (size_t place = 0; place < sizeof protocol; place++)
        put8(made, protocol[place]);
    put8(made, command);
    put32(made, 0);      /* Status */
    put8(made, 0x18);    /* Flags */
    put16(made, 0x4001); /* Flags2 */
    put_zeros(made, 12);
    put16(made, link->tid);
    put16(made, PROCESS);
    put16(made, link->uid);
    put16(made, 1); /* MID */
}

/* WordCount and AndX words. The command behind stands at the end of this one's block, which end_bytes sets. */
static void begin_andx(struct message *made, unsigned words, unsigned next)
{
    put8(made, words);
    put8(made, next);
    put8(made, 0);
    put16(made, 0);
}

static void begin_bytes(struct message *made)
{
    made->bytes_at = made->length;
    put16(made, 0);
}

/* Sets ByteCount and the session header's length. */
static void end_bytes(struct message *made)
{
    size_t length = made->length - SESSION_HEADER;
    set16(made->bytes + made->bytes_at, made->length - made->bytes_at - 2);
    made->bytes[2] = (uint8_t)(length >> 8);
    made->bytes[3] = (uint8_t)length;
}

void set_mid(struct message *message, size_t reply_length)
{
    set16(message->bytes + AT(30), reply_length);
}

void connect_link(struct link *link, unsigned port)
{
    struct sockaddr_in at = {.sin_family = AF_INET, .sin_port = htons((uint16_t)port)};
    struct timeval wait = {.tv_sec = LONGEST_WAIT};
    int yes = 1;
    at.sin_addr.s_addr = htonl(INADDR_LOOPBACK);
    link->socket = socket(AF_INET, SOCK_STREAM, 0);
    link->uid = link->tid = link->fid = 0;
    if (link->socket < 0 || connect(link->socket, (struct sockaddr *)&at, sizeof at) != 0
        || setsockopt(link->socket, IPPROTO_TCP, TCP_NODELAY, &yes, sizeof yes) != 0
        || setsockopt(link->socket, SOL_SOCKET, SO_RCVTIMEO, &wait, sizeof wait) != 0)
        give_up("no connection");
}

/* One reply is outstanding at a time, so what comes belongs to it. */
static void receive(struct link *link)
{
    size_t got = 0, whole = SESSION_HEADER;
    while (got < whole) {
        ssize_t more = recv(link->socket, link->reply + got, sizeof link->reply - got, 0);
        if (more <= 0)
            give_up("a reply did not come");
        got += (size_t)more;
        if (got >= SESSION_HEADER)
            whole = SESSION_HEADER + ((size_t)link->reply[1] << 16 | (size_t)link->reply[2] << 8 | link->reply[3]);
    }
    if (got != whole || got < AT(HEADER))
        give_up("a reply has a wrong length");
    link->reply_length = whole - SESSION_HEADER;
}

void exchange(struct link *link, const struct message *message)
{
    static const uint8_t done[4];
    if (send(link->socket, message->bytes, message->length, MSG_NOSIGNAL) != (ssize_t)message->length)
        give_up("a request could not be sent");
    receive(link);
    if (memcmp(link->reply + AT(5), done, sizeof done) != 0) {
        fprintf(stderr, "client: request 0x%02X was refused: %02X%02X%02X%02X\n", (unsigned)message->bytes[AT(4)],
                (unsigned)link->reply[AT(8)], (unsigned)link->reply[AT(7)], (unsigned)link->reply[AT(6)],
                (unsigned)link->reply[AT(5)]);
        exit(1);
    }
}

static void negotiate(struct link *link)
{
    struct message made;
    begin(link, &made, NEGOTIATE);
    put8(&made, 0);
    begin_bytes(&made);
    put8(&made, 2);
    put_string(&made, "NT LM 0.12");
    end_bytes(&made);
    exchange(link, &made);
}

/* Without name and password: a guest. */
static void set_up_session(struct link *link)
{
    struct message made;
    begin(link, &made, SESSION_SETUP_ANDX);
    begin_andx(&made, 13, NOTHING);
    put16(&made, 8192);       /* MaxBufferSize */
    put16(&made, 1);          /* MaxMpxCount */
    put16(&made, 0);          /* VcNumber */
    put_zeros(&made, 12);     /* SessionKey, both password lengths, Reserved */
    put32(&made, 0x00000050); /* NT_SMBS, STATUS32 */
    begin_bytes(&made);
    put_string(&made, "");
    put_string(&made, "");
    put_string(&made, "Unix");
    put_string(&made, "bench");
    end_bytes(&made);
    exchange(link, &made);
    link->uid = (uint16_t)get16(link->reply + AT(28));
}

static void connect_tree(struct link *link)
{
    struct message made;
    begin(link, &made, TREE_CONNECT_ANDX);
    begin_andx(&made, 4, NOTHING);
    put16(&made, 0); /* Flags */
    put16(&made, 1); /* PasswordLength */
    begin_bytes(&made);
    put8(&made, 0);
    put_string(&made, "\\\\127.0.0.1\\" SHARE);
    put_string(&made, "?????");
    end_bytes(&made);
    exchange(link, &made);
    link->tid = (uint16_t)get16(link->reply + AT(24));
}

static void open_file(struct link *link)
{
    struct message made;
    begin(link, &made, NT_CREATE_ANDX);
    begin_andx(&made, 24, NOTHING);
    put8(&made, 0);
    put16(&made, sizeof FILE_NAME - 1);
    put_zeros(&made, 8);      /* Flags: no oplock; RootDirectoryFID */
    put32(&made, 0x00000003); /* DesiredAccess: to read and to write */
    put_zeros(&made, 12);     /* AllocationSize, attributes */
    put32(&made, 3);          /* ShareAccess: others may read and write */
    put32(&made, 1);          /* CreateDisposition: open what exists */
    put32(&made, 0);          /* CreateOptions */
    put32(&made, 2);          /* ImpersonationLevel */
    put8(&made, 0);
    begin_bytes(&made);
    put_string(&made, FILE_NAME);
    end_bytes(&made);
    exchange(link, &made);
    link->fid = (uint16_t)get16(link->reply + AT(HEADER + 1 + 5));
}

void open_link(struct link *link)
{
    negotiate(link);
    set_up_session(link);
    connect_tree(link);
    open_file(link);
}

void close_file(struct link *link)
{
    struct message made;
    begin(link, &made, CLOSE);
    put8(&made, 3);
    put16(&made, link->fid);
    put32(&made, 0);
    begin_bytes(&made);
    end_bytes(&made);
    exchange(link, &made);
}

static void put_read(const struct link *link, struct message *made, uint32_t offset, unsigned count)
{
    begin_andx(made, 10, NOTHING);
    put16(made, link->fid);
    put32(made, offset);
    put16(made, count);
    put_zeros(made, 8); /* MinCount, Timeout, Remaining */
    begin_bytes(made);
    end_bytes(made);
}

static void put_locking(const struct link *link, struct message *made, struct range range, unsigned next)
{
    begin_andx(made, 8, next);
    put16(made, link->fid);
    put8(made, range.shared ? 1 : 0); /* TypeOfLock; no range of the large form */
    put8(made, 0);
    put32(made, 0); /* Timeout: it does not wait */
    put16(made, range.release ? 1 : 0);
    put16(made, range.release ? 0 : 1);
    begin_bytes(made);
    put16(made, PROCESS);
    put32(made, range.offset);
    put32(made, range.length);
    end_bytes(made);
}

void make_read(const struct link *link, struct message *made, uint32_t offset, unsigned count)
{
    begin(link, made, READ_ANDX);
    put_read(link, made, offset, count);
}

void make_locking(const struct link *link, struct message *made, struct range range)
{
    begin(link, made, LOCKING_ANDX);
    put_locking(link, made, range, NOTHING);
}

void make_locking_read(const struct link *link, struct message *made, struct range range, uint32_t offset, unsigned count)
{
    begin(link, made, LOCKING_ANDX);
    put_locking(link, made, range, READ_ANDX);
    set16(made->bytes + AT(HEADER + 3), made->length - SESSION_HEADER); /* AndXOffset */
    put_read(link, made, offset, count);
}
