/*
 * The SMB1 message core as a C library (libgateway). It answers twelve requests: CLOSE 0x04, READ 0x0A, WRITE 0x0B,
 * LOCK_BYTE_RANGE 0x0C, UNLOCK_BYTE_RANGE 0x0D, PROCESS_EXIT 0x11, LOCKING_ANDX 0x24, OPEN_ANDX 0x2D, READ_ANDX 0x2E,
 * WRITE_ANDX 0x2F, TREE_DISCONNECT 0x71 and LOGOFF_ANDX 0x74. READ, WRITE, LOCK_BYTE_RANGE and UNLOCK_BYTE_RANGE are the core
 * commands of the oldest benches: like their ANDX counterparts, but for what docs/HOST.md says of them. OPEN_ANDX opens the
 * files that the host has named in the catalogue.
 *
 * A reply's Status is class and code, or an NTSTATUS if the request has bit 0x4000 of Flags2, which the reply then has too. The
 * request alone decides it and nothing is to be set. Refusals are named here by class and code, whatever the form: 1/33 is
 * C0000055 of a lock and C0000054 of a read or write. docs/HOST.md has the list, and what a host must say in NEGOTIATE.
 *
 * Each file has a change number, and each open remembers its file's at its last granted READ_ANDX or core READ, which so writes
 * two words of the tables. By them gateway_unchanged says whether the file is to be read again.
 *
 * The host owns all memory. The tables are one struct of 64-bit words that the host keeps between calls, as it does the
 * file memory; the library keeps nothing. Start with gateway_empty. Calls on the same tables or the same file memory must
 * not run at the same time.
 *
 * No pointer may be NULL, not even one whose length is 0, and no two areas handed to one call may overlap: the tables,
 * an out-parameter (a message has two, the reply's length and the holder), the contents, the catalogue or the message, the
 * file memory, the reply room; a reader's state, its buffer, the piece and the step.
 *
 * Every call on tables but gateway_empty returns one of the numbers below. A call that returns anything but GATEWAY_DONE
 * has written nothing at all: no table, no file byte, no reply byte, no out-parameter. The stream's calls, at the end of
 * this file, have numbers of their own.
 */
#ifndef GATEWAY_H
#define GATEWAY_H

#include <stddef.h>
#include <stdint.h>

#ifdef __cplusplus
extern "C" {
#endif

/*
 * The version of this header, raised whenever a struct, a number or a call of it changes or goes; a call that is added does not raise
 * it. 8 has change requests 1 to 8. The shared library's name ends with it: a host that was linked with a library of another version
 * does not start with this one.
 */
#define GATEWAY_VERSION 8

/* What a call returns. Where more than one applies, the order is 2, 4, 7, 6, 8, 9, 5, 1. */
#define GATEWAY_DONE 0          /* done; a message's reply is in the room, an add's number in its out-parameter */
#define GATEWAY_DROPPED 1       /* message dropped: it is under 35 or over 8,192 bytes, or no SMB1 request */
#define GATEWAY_WRONG_ROOM 2    /* reply room under GATEWAY_ROOM bytes, or file memory not GATEWAY_MEMORY bytes */
#define GATEWAY_NOT_SOUND 4     /* tables not sound, or a word that does not fit its field */
#define GATEWAY_FULL 5          /* table full */
#define GATEWAY_NO_SUCH 6       /* no such session, no such tree (of that session, where one is named), or no such open */
#define GATEWAY_OUT_OF_RANGE 7  /* file above 15, access above 2, right above 1, load over 4,096 bytes, or a catalogue of
                                   over 16 names, or with a name of another length than 1 to 12, with a zero byte, or twice */
#define GATEWAY_EXCEEDS_RIGHT 8 /* the open would exceed its tree's right */
#define GATEWAY_FILE_OPEN 9     /* load of a file that has an open */

/* How many records each table has room for. */
#define GATEWAY_SESSIONS 16
#define GATEWAY_TREES 32
#define GATEWAY_OPENS 64
#define GATEWAY_LOCKS 128
#define GATEWAY_FILES 16
#define GATEWAY_NAMES 16

#define GATEWAY_FILE_SIZE 4096  /* bytes of file memory that each file has */
#define GATEWAY_MEMORY 65536    /* bytes of file memory: file n stands at n * GATEWAY_FILE_SIZE */
#define GATEWAY_ROOM 12292      /* bytes of reply room that a message needs at least */
#define GATEWAY_NAME_BYTES 12   /* bytes that a name of the catalogue has at most */
#define GATEWAY_WORDS 1605      /* 64-bit words in the tables */
#define GATEWAY_CATALOGUE_WORDS 225 /* 64-bit words in a catalogue */
#define GATEWAY_HOLDER_WORDS 6  /* 64-bit words in a holder */
#define GATEWAY_LAST_CHANGE 4294967295u /* the largest change number, which is raised no more */

/* The sharing codes of an open: what it denies to other opens of its file. */
#define GATEWAY_DENY_BOTH 1
#define GATEWAY_DENY_WRITE 2
#define GATEWAY_DENY_READ 3
#define GATEWAY_DENY_NONE 4

/*
 * The records. Each field is a 64-bit word, whatever its values: a comment gives the largest value that fits. A call
 * on tables with a word that does not fit, in a record in use, returns GATEWAY_NOT_SOUND; words of other records are free.
 */
struct gateway_session {
    uint64_t uid;        /* 1 to 16; fits up to 65,535 */
    uint64_t connection; /* the host's number for a connection; fits up to 4,294,967,295 */
};

struct gateway_tree {
    uint64_t tid;   /* 1 to 32; fits up to 65,535 */
    uint64_t uid;   /* its session's; fits up to 65,535 */
    uint64_t right; /* 0 read, 1 read and write; fits up to 255 */
};

struct gateway_open {
    uint64_t fid;     /* 1 to 64; fits up to 65,535 */
    uint64_t uid;     /* its tree's session's; fits up to 65,535 */
    uint64_t tid;     /* its tree's; fits up to 65,535 */
    uint64_t process; /* PIDHigh * 65,536 + PIDLow of the request that opened the file; fits up to 4,294,967,295 */
    uint64_t file;    /* 0 to 15; fits up to 255 */
    uint64_t access;  /* 0 read, 1 write, 2 both; fits up to 255 */
    uint64_t sharing; /* what an OPEN_ANDX asked for, one of the four codes above; GATEWAY_DENY_NONE of an open that the host
                         added; fits up to 255 */
    uint64_t read;    /* 1 once a READ_ANDX or core READ through it was granted, 0 before; nothing else fits */
    uint64_t seen;    /* its file's change number at the last one granted, never above the file's now; 0 in a new open */
};

struct gateway_lock {
    uint64_t fid;     /* its open's; fits up to 65,535 */
    uint64_t process; /* its range's 16 bits (a LOCK_BYTE_RANGE's PIDLow), above them PIDHigh of the request that took it;
                         fits up to 4,294,967,295 */
    uint64_t offset;  /* the first byte locked */
    uint64_t length;  /* how many bytes */
    uint64_t shared;  /* 1 shared, 0 exclusive, as a LOCK_BYTE_RANGE's always is; nothing else fits */
};

struct gateway_file {
    uint64_t size;    /* how many of the file's bytes in the file memory count, up to 4,096; those behind are never sent */
    uint64_t changes; /* the change number: raised by each write of a byte or more, each core WRITE of count 0 that alters the
                         size and each load; up to GATEWAY_LAST_CHANGE, where it stays */
};

/* A name by which OPEN_ANDX opens a file. Letters of ASCII are the same in both cases. */
struct gateway_name {
    uint64_t length;                   /* how many bytes, 1 to 12; fits up to 255 */
    uint64_t text[GATEWAY_NAME_BYTES]; /* a byte to a word, none of the first `length` 0; each fits up to 255 */
    uint64_t file;                     /* 0 to 15; fits up to 255 */
};

/* The names in use stand first, as many as the count says. */
struct gateway_catalogue {
    uint64_t count; /* 0 to 16 */
    struct gateway_name names[GATEWAY_NAMES];
};

/* The tables. In each the records in use stand first, as many as the count says; locks in order of grant. */
struct gateway_tables {
    uint64_t session_count;
    struct gateway_session sessions[GATEWAY_SESSIONS];
    uint64_t tree_count;
    struct gateway_tree trees[GATEWAY_TREES];
    uint64_t open_count;
    struct gateway_open opens[GATEWAY_OPENS];
    uint64_t lock_count;
    struct gateway_lock locks[GATEWAY_LOCKS];
    struct gateway_file files[GATEWAY_FILES];
    struct gateway_catalogue catalogue;
};

/*
 * Whose lock is in the way of a message that is refused 1/33, lock conflict; in a chain, of the command that is refused. The
 * ranges of a lock request are tried in order, and the first with a lock in its way decides. If several are in its way, it is
 * the first in the list of locks as it then stood: in order of grant, this request's unlocks taken out, its own ranges that
 * were granted before at the end. The refusal undoes both, so the place need not be one in the tables that the call leaves,
 * and the bytes are given beside it. The open of that FID always stands in those tables.
 */
struct gateway_holder {
    uint64_t held;    /* 1 if the reply's Status is 1/33, in either form; otherwise 0, and so is all else */
    uint64_t fid;     /* of the open through which the lock is held */
    uint64_t process; /* the owner's process, as in its lock */
    uint64_t place;   /* the lock's place in that list, from 0 */
    uint64_t offset;  /* the first byte locked */
    uint64_t length;  /* how many bytes, at least 1: the last is offset + (length - 1) */
};

/* The sizes, as types that every C and C++ can refuse: an array of -1 elements does not compile. */
typedef char gateway_tables_are_1605_words[sizeof(struct gateway_tables) == GATEWAY_WORDS * sizeof(uint64_t) ? 1 : -1];
typedef char gateway_catalogue_is_225_words[sizeof(struct gateway_catalogue) == GATEWAY_CATALOGUE_WORDS * sizeof(uint64_t) ? 1 : -1];
typedef char gateway_holder_is_6_words[sizeof(struct gateway_holder) == GATEWAY_HOLDER_WORDS * sizeof(uint64_t) ? 1 : -1];

/*
 * How many 64-bit words the library's tables have. A host compares it with GATEWAY_WORDS once, at its start and before it makes any
 * tables, and goes no further if they differ: the header that it was compiled with is not the library's, and calls would write
 * past the tables or read other fields. A change that leaves the number of words as it was is not noticed so.
 */
uint64_t gateway_words(void);

/* Writes tables with no record in use, every file empty and at change number 0, and no name in the catalogue. */
void gateway_empty(struct gateway_tables *tables);

/* Adds a session on a connection. On GATEWAY_DONE its UID, the smallest from 1 not in use, is in *uid. */
uint8_t gateway_add_session(struct gateway_tables *tables, uint32_t connection, uint16_t *uid);

/*
 * The numbers that name a session, a tree, an open or a file, rights and accesses are handed over in 32 bits and are never cut: a
 * right of 256 is GATEWAY_OUT_OF_RANGE and not 0, a UID, TID or FID of 65,537 is GATEWAY_NO_SUCH and not 1.
 */

/* Adds a tree to the session of that UID. On GATEWAY_DONE its TID is in *tid. */
uint8_t gateway_add_tree(struct gateway_tables *tables, uint32_t uid, uint32_t right, uint16_t *tid);

/*
 * Opens a file through the tree of that TID and UID, for a process: PIDHigh * 65,536 + PIDLow of the request that opens it.
 * On GATEWAY_DONE the FID is in *fid. The open denies nothing (GATEWAY_DENY_NONE), and what other opens of the file deny is not
 * tested; an OPEN_ANDX that denies what its access has is refused as long as it stands.
 */
uint8_t gateway_add_open(struct gateway_tables *tables, uint32_t uid, uint32_t tid, uint32_t process, uint32_t file,
                         uint32_t access, uint16_t *fid);

/*
 * Sets a file that has no open to these contents: its size to contents_length, at most 4,096, and its bytes in the file
 * memory to the contents and zeros behind them. Its change number is raised, also where nothing differs. memory_length must be
 * GATEWAY_MEMORY.
 */
uint8_t gateway_load_file(struct gateway_tables *tables, uint32_t file, const uint8_t *contents,
                          size_t contents_length, uint8_t *memory, size_t memory_length);

/*
 * The connection has ended: removes its sessions with their trees, opens and locks. A connection with no session is
 * GATEWAY_DONE and changes nothing.
 */
uint8_t gateway_drop_connection(struct gateway_tables *tables, uint32_t connection);

/*
 * The host's side of LOGOFF_ANDX, TREE_DISCONNECT and CLOSE: each of the three below removes one record with what hangs on it, as
 * the request does, for a host that gives up itself what it has added or what a terminal has opened. GATEWAY_NOT_SOUND and then
 * GATEWAY_NO_SUCH, no record in use of that number. All else in the tables stands: other records and locks in their order, the
 * files with their change numbers, the catalogue.
 *
 * The number alone says which record, whosever it is: a host that is asked by a terminal looks whether it is that terminal's.
 */

/* Removes the session of that UID with its trees, their opens and their locks. */
uint8_t gateway_end_session(struct gateway_tables *tables, uint32_t uid);

/* Removes the tree of that TID, of whatever session, with its opens and their locks. */
uint8_t gateway_end_tree(struct gateway_tables *tables, uint32_t tid);

/* Removes the open of that FID, of whatever session and tree, with its locks. */
uint8_t gateway_end_open(struct gateway_tables *tables, uint32_t fid);

/*
 * Sets the catalogue whole: its count, at most 16, and all its names. Anything else is GATEWAY_OUT_OF_RANGE, and the old one
 * stands: a name in use of no byte or more than 12, with a zero byte, with a file above 15, or that is another's but for the case
 * of ASCII letters; or a word of a name in use, of any of its 12 places for bytes too, above 255. Two names may have one file. Opens
 * that stand are not looked at.
 */
uint8_t gateway_set_catalogue(struct gateway_tables *tables, const struct gateway_catalogue *catalogue);

/*
 * Whether the open of that FID has read and its file was not changed since, as far as the change numbers tell. On GATEWAY_DONE
 * *unchanged is 1 for "unchanged" and 0 for "changed". GATEWAY_NOT_SOUND and then GATEWAY_NO_SUCH, no open of that FID, leave it as
 * it was: set it to 0 before. The tables are only read.
 *
 * "Unchanged": size and bytes are what they were at that read, if one file memory was lent to every call since and the host wrote
 * neither to it nor to the tables. "Changed": the open has not read, or the file was written, resized or loaded after its last
 * read (by the same open, or with the same bytes, too), or its change number is at GATEWAY_LAST_CHANGE, and then for good.
 *
 * Any open is answered for, whosever it is: a host that is asked by a terminal looks whether the open is that terminal's.
 */
uint8_t gateway_unchanged(const struct gateway_tables *tables, uint32_t fid, uint16_t *unchanged);

/*
 * Carries out one request message of a connection. On GATEWAY_DONE the reply is the first *reply_length bytes of the
 * room, the bytes behind it are as they were, and *holder says whose lock is in the way, or is all 0 if the message was not
 * refused 1/33; the reply does not tell it. The reply's Status has the form that the request asks for. memory_length must be
 * GATEWAY_MEMORY and room_length at least GATEWAY_ROOM.
 *
 * A file's size grows by a write that ends behind it. A core WRITE of count 0 sets it to the offset, at most 4,096: where the
 * file grows zeros are put behind the old size; where it shrinks the bytes stay in the file memory, but are not sent again,
 * since what lets the file grow later puts zeros or its own bytes over them.
 */
uint8_t gateway_take_message(struct gateway_tables *tables, uint32_t connection, const uint8_t *message,
                             size_t message_length, uint8_t *memory, size_t memory_length, uint8_t *room,
                             size_t room_length, size_t *reply_length, struct gateway_holder *holder);

/*
 * The stream. On TCP each message stands behind the four-byte session header of RFC 1002. The reader takes the bytes of a
 * connection in pieces, however they are cut, and hands out the messages; the writer puts a message behind its header.
 */

/* What gateway_stream_read returns beside GATEWAY_DONE. 1 to 4 stop the reader: it answers that number until it is reset. */
#define GATEWAY_STREAM_OTHER_TYPE 1        /* a header of another type than 0x00 and 0x85 */
#define GATEWAY_STREAM_RESERVED_FLAGS 2    /* a flag bit other than the lowest is set */
#define GATEWAY_STREAM_KEEP_ALIVE_LENGTH 3 /* a keep-alive whose length is not 0 */
#define GATEWAY_STREAM_TOO_LONG 4          /* a message of more than 8,192 bytes */
#define GATEWAY_STREAM_NO_SUCH_STATE 5     /* no stream leaves such a state: a fault of the host; nothing was written */

/* What gateway_stream_write returns beside GATEWAY_DONE. Nothing was written. */
#define GATEWAY_STREAM_WRITE_TOO_LONG 1 /* the message has more than GATEWAY_ROOM bytes */
#define GATEWAY_STREAM_WRITE_NO_ROOM 2  /* the room is under the message's length and GATEWAY_STREAM_HEADER */

#define GATEWAY_STREAM_HEADER 4      /* bytes of a session header */
#define GATEWAY_STREAM_BUFFER 8192   /* bytes of buffer that each reader is lent */
#define GATEWAY_STREAM_ROOM 12296    /* bytes of room that any reply with its header fits in */
#define GATEWAY_STREAM_STATE_WORDS 7 /* 64-bit words in a reader's state */
#define GATEWAY_STREAM_STEP_WORDS 4  /* 64-bit words in what a call of the reader gives */

/*
 * A reader's state, which the host keeps for each connection with the reader's buffer. Start with gateway_stream_reset. Any
 * values are legal: those that no stream leaves are GATEWAY_STREAM_NO_SUCH_STATE.
 */
struct gateway_stream {
    uint64_t stopped; /* 0, or the number that stopped the reader; then all else is 0 */
    uint64_t begun;   /* how many bytes of a header are in: 0 to 3 */
    uint64_t first;   /* those bytes; 0 where a byte is not in */
    uint64_t second;
    uint64_t third;
    uint64_t length; /* of a begun message, 1 to 8,192; 0 if none is begun */
    uint64_t got;    /* how many of its bytes are in the buffer: less than its length */
};

/* What became of a piece. */
#define GATEWAY_STREAM_WANTED 0    /* no message became whole: all of the piece was taken and more bytes are wanted */
#define GATEWAY_STREAM_IN_PIECE 1  /* a message stands in the piece, from `at` on */
#define GATEWAY_STREAM_IN_BUFFER 2 /* a message stands in the buffer, from 0 on */

struct gateway_stream_step {
    uint64_t taken;  /* how many bytes of the piece were taken: the next call's piece starts behind them */
    uint64_t event;  /* one of the three above */
    uint64_t at;     /* where the message starts in the piece; otherwise 0 */
    uint64_t length; /* the message's length, 0 to 8,192; 0 if there is none */
};

typedef char gateway_stream_is_7_words[sizeof(struct gateway_stream) == GATEWAY_STREAM_STATE_WORDS * sizeof(uint64_t) ? 1 : -1];
typedef char gateway_step_is_4_words[sizeof(struct gateway_stream_step) == GATEWAY_STREAM_STEP_WORDS * sizeof(uint64_t) ? 1 : -1];

/* A reader that has read nothing, whatever the state was. */
void gateway_stream_reset(struct gateway_stream *state);

/*
 * Takes a piece of the stream up to the end of the first message that becomes whole, or all of it. The buffer has
 * GATEWAY_STREAM_BUFFER bytes and is the reader's as long as a message is begun. On GATEWAY_DONE *step says what became of
 * the piece. On 1 to 4 the reader is stopped: the state says so and nothing else, and neither *step nor the buffer was
 * written; messages handed out before stand.
 */
uint8_t gateway_stream_read(struct gateway_stream *state, uint8_t *buffer, const uint8_t *piece, size_t piece_length,
                            struct gateway_stream_step *step);

/*
 * Writes a message behind its header to the start of the room. On GATEWAY_DONE *written is the length of both, and the
 * bytes of the room behind them are as they were.
 */
uint8_t gateway_stream_write(const uint8_t *message, size_t message_length, uint8_t *room, size_t room_length,
                             size_t *written);

#ifdef __cplusplus
}
#endif

#endif
