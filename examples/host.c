/*
 * An example host: it serves two files, the revocation list and the office's certificate, to two terminals and a test bench. All
 * three have the list open; the catalogue has names for both files, by which they open them with OPEN_ANDX.
 *
 *     host [--show] [--pieces SIZE] [--list LIST] [CONNECTION[:FID]=STREAM ..] > replies
 *
 * A stream is the bytes of a terminal's TCP connection: messages, each behind the four-byte session header of RFC 1002.
 * Terminal 1 is connection 5, terminal 2 is connection 6 and the bench is connection 7. The files are read one after the
 * other, and what is begun on a connection at the end of one goes on in its next. With no file named, standard input is
 * connection 5's stream. Replies go to standard output in the same framing, in the order of their messages. A message that is
 * dropped has no reply. With --show a person can read what came of each message, whose lock is in the way of one that is
 * refused for a lock, and with an OPEN_ANDX which opens and which names there are.
 *
 * With CONNECTION:FID=STREAM the terminal first asks whether the file of its open has changed since it read it, and sends the
 * stream only if it has: a READ that it can do without is left out. With --show the answer is printed. How a question comes to a
 * host, and its answer back, is the host's matter and left out here.
 *
 * SIZE is how many bytes are read at a time at most, 1 to 4,096. LIST is a file of at most 4,096 bytes to serve; without it a
 * built-in list is served.
 *
 * Exit status: 0 if every stream ended behind a message; 1 if one ended inside a message or its reader was stopped by a
 * header; 2 if the host could not go on.
 */
#include "gateway.h"
#include "show.h"

#include <fcntl.h>
#include <stdbool.h>
#include <stdio.h>
#include <stdlib.h>
#include <string.h>
#include <unistd.h>

#define LONGEST_PIECE 4096

/* File numbers. */
enum { REVOCATION_LIST = 0, CERTIFICATE = 1 };

/* Values that document 01 gives to rights and accesses. */
enum { RIGHT_READ = 0, RIGHT_READ_WRITE = 1 };
enum { ACCESS_READ = 0, ACCESS_BOTH = 2 };

/*
 * A terminal as the gateway knows it after login, with an open for each of its processes. Login itself is the host's matter
 * and left out here.
 */
struct terminal {
    uint32_t connection;
    uint32_t right;
    uint32_t access;
    size_t process_count;
    uint32_t processes[2]; /* PIDHigh * 65,536 + PIDLow of the request that opens the file */
};

static const struct terminal terminals[] = {
    {5, RIGHT_READ_WRITE, ACCESS_BOTH, 1, {7}},
    {6, RIGHT_READ, ACCESS_READ, 1, {8}},
    {7, RIGHT_READ_WRITE, ACCESS_BOTH, 2, {65537, 1}}, /* the bench: two that differ in PIDHigh only */
};

#define TERMINALS (sizeof terminals / sizeof terminals[0])

/* A name of the catalogue. The library trims nothing: a client that puts a backslash first asks for another name. */
struct named_file {
    const char *name;
    uint64_t file;
};

static const struct named_file named_files[] = {
    {"REVOKED.LST", REVOCATION_LIST},
    {"\\REVOKED.LST", REVOCATION_LIST},
    {"OFFICE.CRT", CERTIFICATE},
};

#define NAMED_FILES (sizeof named_files / sizeof named_files[0])

/* What the host keeps for a connection: its reader, and the reader's buffer. */
struct line {
    uint32_t connection;
    struct gateway_stream reader;
    uint8_t buffer[GATEWAY_STREAM_BUFFER];
};

/*
 * All memory that the library is lent. The host keeps the tables, the file memory and the lines from call to call; the rest is
 * free for other use between calls.
 */
struct host {
    struct gateway_tables tables;
    uint8_t memory[GATEWAY_MEMORY];
    struct line lines[TERMINALS];
    uint8_t piece[LONGEST_PIECE];
    uint8_t room[GATEWAY_ROOM];
    uint8_t framed[GATEWAY_STREAM_ROOM];
    size_t piece_size;
    unsigned long messages; /* how many were handed out */
    bool show;
    bool broken; /* a stream ended inside a message, or a header stopped its reader */
};

static const char built_in_list[] = "Certificates revoked by the office, one to a line, as of this morning: "
                                    "0017 0042 0311 0768 0901 1024 1183 1399 1777 2048";

static const char certificate[] = "Certificate 0001, by which the office signs the list.";

static void stop(const char *what)
{
    fprintf(stderr, "host: %s\n", what);
    exit(2);
}

/* For calls that can be refused only by a fault of this host: going on would serve wrong files. */
static void require_done(uint8_t number, const char *call)
{
    if (number == GATEWAY_DONE)
        return;
    fprintf(stderr, "host: %s returned %u, %s\n", call, (unsigned)number, number_in_words(number));
    exit(2);
}

/* Reads one byte more than a file may have, so that the library is the one to refuse a list that is too long. */
static size_t read_list(const char *path, uint8_t *contents, size_t room)
{
    FILE *file = fopen(path, "rb");
    if (file == NULL)
        stop("the list cannot be opened");
    size_t length = fread(contents, 1, room, file);
    if (ferror(file))
        stop("the list cannot be read");
    fclose(file);
    return length;
}

/* Files are loaded before anything is opened: a load of a file that has an open is refused. */
static void load_file(struct host *host, uint32_t file, const void *contents, size_t length)
{
    uint8_t number = gateway_load_file(&host->tables, file, contents, length, host->memory, sizeof host->memory);
    require_done(number, "gateway_load_file");
}

static void load_list(struct host *host, const char *path)
{
    uint8_t contents[GATEWAY_FILE_SIZE + 1];
    if (path != NULL)
        load_file(host, REVOCATION_LIST, contents, read_list(path, contents, sizeof contents));
    else
        load_file(host, REVOCATION_LIST, built_in_list, sizeof built_in_list - 1);
}

/* A name from a C string. One that is too long keeps its length, so that the library is the one to refuse it. */
static struct gateway_name name_of(const struct named_file *named)
{
    struct gateway_name name = {.length = strlen(named->name), .file = named->file};
    for (size_t place = 0; place < name.length && place < GATEWAY_NAME_BYTES; place++)
        name.text[place] = (unsigned char)named->name[place];
    return name;
}

/* The catalogue is set whole; the library copies it into the tables. */
static void set_catalogue(struct host *host)
{
    struct gateway_catalogue catalogue = {.count = NAMED_FILES};
    for (size_t place = 0; place < NAMED_FILES; place++)
        catalogue.names[place] = name_of(&named_files[place]);
    require_done(gateway_set_catalogue(&host->tables, &catalogue), "gateway_set_catalogue");
}

static void add_terminal(struct host *host, const struct terminal *terminal)
{
    uint16_t uid, tid, fid;
    require_done(gateway_add_session(&host->tables, terminal->connection, &uid), "gateway_add_session");
    require_done(gateway_add_tree(&host->tables, uid, terminal->right, &tid), "gateway_add_tree");
    for (size_t place = 0; place < terminal->process_count; place++) {
        uint8_t number = gateway_add_open(&host->tables, uid, tid, terminal->processes[place], REVOCATION_LIST,
                                          terminal->access, &fid);
        require_done(number, "gateway_add_open");
    }
}

static void prepare(struct host *host, const char *path)
{
    if (gateway_words() != GATEWAY_WORDS)
        stop("the library has other tables than this host was compiled for");
    gateway_empty(&host->tables);
    load_list(host, path);
    load_file(host, CERTIFICATE, certificate, sizeof certificate - 1);
    set_catalogue(host);
    for (size_t place = 0; place < TERMINALS; place++) {
        add_terminal(host, &terminals[place]);
        host->lines[place].connection = terminals[place].connection;
        gateway_stream_reset(&host->lines[place].reader);
    }
}

/* What a host does when a terminal hangs up. Its sessions go, and with them all that it had open or locked. */
static void hang_up(struct host *host)
{
    for (size_t place = 0; place < TERMINALS; place++) {
        uint8_t number = gateway_drop_connection(&host->tables, terminals[place].connection);
        require_done(number, "gateway_drop_connection");
    }
}

/* The room has GATEWAY_STREAM_ROOM bytes, so no reply of the library is refused. */
static void write_reply(struct host *host, size_t length)
{
    size_t written = 0;
    require_done(gateway_stream_write(host->room, length, host->framed, sizeof host->framed, &written),
                 "gateway_stream_write");
    fwrite(host->framed, 1, written, stdout);
}

/*
 * Done: the reply goes out, also if it refuses the request on the wire. Dropped: nothing goes out. Any other number is a
 * fault of this host.
 */
static void take_message(struct host *host, uint32_t connection, const uint8_t *message, size_t length)
{
    size_t reply_length = 0;
    struct gateway_holder holder;
    host->messages++;
    if (host->show)
        show_message(host->messages, connection, length);
    uint8_t number = gateway_take_message(&host->tables, connection, message, length, host->memory, sizeof host->memory,
                                          host->room, sizeof host->room, &reply_length, &holder);
    if (number != GATEWAY_DROPPED)
        require_done(number, "gateway_take_message");
    if (host->show)
        show_taken(number, host->room, reply_length, &holder, &host->tables);
    else if (number == GATEWAY_DONE)
        write_reply(host, reply_length);
}

/*
 * A terminal asks whether to read the file of an open again: true if it has changed. The library answers for any open; this host
 * answers a terminal for its own only, as if there were no others.
 */
static bool ask_changed(struct host *host, uint32_t connection, uint32_t fid)
{
    uint16_t unchanged = 0;
    uint8_t number = gateway_unchanged(&host->tables, fid, &unchanged);
    if (number == GATEWAY_DONE && connection_of(&host->tables, fid) != connection)
        number = GATEWAY_NO_SUCH;
    if (number != GATEWAY_NO_SUCH)
        require_done(number, "gateway_unchanged");
    if (host->show)
        show_asked(connection, fid, number, unchanged, &host->tables);
    return number == GATEWAY_DONE && unchanged == 0;
}

/* A header that the reader does not take: nothing behind it can be told apart, so a host hangs up. */
static void stopped(struct host *host, const struct line *line, uint8_t number)
{
    if (number == GATEWAY_STREAM_NO_SUCH_STATE)
        stop("a reader's state was damaged");
    host->broken = true;
    fprintf(stderr, "host: connection %lu: the reader stopped, %u, %s\n", (unsigned long)line->connection, (unsigned)number,
            stream_number_in_words(number));
    require_done(gateway_drop_connection(&host->tables, line->connection), "gateway_drop_connection");
}

/* Hands a piece to the reader until all of it is taken, and each message, where it stands, to the library. */
static bool feed(struct host *host, struct line *line, const uint8_t *piece, size_t length)
{
    for (size_t done = 0; done < length;) {
        struct gateway_stream_step step;
        uint8_t number = gateway_stream_read(&line->reader, line->buffer, piece + done, length - done, &step);
        if (number != GATEWAY_DONE) {
            stopped(host, line, number);
            return false;
        }
        if (step.event == GATEWAY_STREAM_IN_PIECE)
            take_message(host, line->connection, piece + done + step.at, step.length);
        else if (step.event == GATEWAY_STREAM_IN_BUFFER)
            take_message(host, line->connection, line->buffer, step.length);
        done += step.taken;
    }
    return true;
}

/*
 * Reads a stream to its end, in the pieces that come, and sends the replies of each before it waits for the next. A reader
 * that a header stopped gets no more.
 */
static void serve(struct host *host, struct line *line, int stream)
{
    ssize_t length;
    if (line->reader.stopped != 0)
        return;
    do {
        if (fflush(stdout) != 0)
            stop("the output cannot be written");
        length = read(stream, host->piece, host->piece_size);
        if (length < 0)
            stop("the input cannot be read");
    } while (length > 0 && feed(host, line, host->piece, (size_t)length));
}

/* CONNECTION=STREAM, or CONNECTION:FID=STREAM for what is sent only if the file of that open has changed. */
static void serve_file(struct host *host, const char *word)
{
    const char *path = strchr(word, '=');
    char *end;
    unsigned long connection = strtoul(word, &end, 10);
    for (size_t place = 0; path != NULL && place < TERMINALS; place++) {
        if (connection != terminals[place].connection)
            continue;
        if (*end == ':' && !ask_changed(host, terminals[place].connection, (uint32_t)strtoul(end + 1, NULL, 10)))
            return;
        int stream = open(path + 1, O_RDONLY);
        if (stream < 0)
            stop("a stream cannot be opened");
        serve(host, &host->lines[place], stream);
        close(stream);
        return;
    }
    stop("a stream of no terminal; CONNECTION=STREAM is needed, and 5, 6 or 7 for CONNECTION");
}

/* Every stream ends with nothing begun. */
static void end_lines(struct host *host)
{
    for (size_t place = 0; place < TERMINALS; place++) {
        const struct gateway_stream *reader = &host->lines[place].reader;
        if (reader->begun == 0 && reader->length == 0)
            continue;
        host->broken = true;
        fprintf(stderr, "host: connection %lu: the stream ends inside a message\n",
                (unsigned long)host->lines[place].connection);
    }
    if (fflush(stdout) != 0 || ferror(stdout))
        stop("the output cannot be written");
}

/* The word behind an option. */
static const char *value(int count, char **words, int place)
{
    if (place + 1 >= count)
        stop("usage: host [--show] [--pieces SIZE] [--list LIST] [CONNECTION[:FID]=STREAM ..]");
    return words[place + 1];
}

int main(int count, char **words)
{
    /* Static: the library needs stack of its own, and some 120 KB of buffers should not compete with it. */
    static struct host host;
    const char *list = NULL;
    int next = 1;
    host.piece_size = LONGEST_PIECE;
    for (; next < count && words[next][0] == '-'; next++) {
        if (strcmp(words[next], "--show") == 0)
            host.show = true;
        else if (strcmp(words[next], "--pieces") == 0)
            host.piece_size = strtoul(value(count, words, next++), NULL, 10);
        else if (strcmp(words[next], "--list") == 0)
            list = value(count, words, next++);
        else
            stop("no such option");
    }
    if (host.piece_size < 1 || host.piece_size > LONGEST_PIECE)
        stop("a piece has 1 to 4,096 bytes");
    prepare(&host, list);
    if (next == count)
        serve(&host, &host.lines[0], STDIN_FILENO);
    for (; next < count; next++)
        serve_file(&host, words[next]);
    end_lines(&host);
    hang_up(&host);
    return host.broken ? 1 : 0;
}
