#include "log.h"
#include "exchange.h"
#include "message.h"
#include "show.h"

#include <inttypes.h>
#include <stdio.h>

void log_connection(const struct connection *connection, const char *what)
{
    fprintf(stderr, "gateway: connection %" PRIu32 " (%s): %s\n", connection->number, connection->peer, what);
}

/* The refused command is that of the reply's last block: the commands behind it were not begun. */
static uint8_t refused_command(const uint8_t *reply, size_t length)
{
    uint8_t command = reply[AT_COMMAND];
    struct block block;
    size_t start = HEADER;
    while (read_block(reply, length, start, command, &block) && is_andx(command) && block.word_count >= 2
           && block.words[0] != NO_COMMAND && get16(block.words + 2) >= block.end) {
        command = block.words[0];
        start = get16(block.words + 2);
    }
    return command;
}

/* The file of a holder's open, which stands in the tables that its call left. */
static const char *file_of(const struct host *host, uint64_t fid)
{
    for (size_t place = 0; place < host->tables->open_count; place++)
        if (host->tables->opens[place].fid == fid)
            return host->files[host->tables->opens[place].file].name;
    return "";
}

void log_refused_lock(const struct host *host, const struct connection *connection, const uint8_t *reply, size_t length,
                      const struct gateway_holder *holder)
{
    fprintf(stderr,
            "gateway: connection %" PRIu32 " (%s), process %" PRIu32 ": %s refused: FID %" PRIu64 " of process %" PRIu64
            " on connection %" PRIu64 " %s bytes %" PRIu64 " to %" PRIu64 " of %s\n",
            connection->number, connection->peer, process_of(reply), command_name(refused_command(reply, length)), holder->fid,
            holder->process, connection_of(host->tables, holder->fid),
            still_held(host->tables, holder) ? "holds" : "asked in the same request for", holder->offset,
            holder->offset + (holder->length - 1), file_of(host, holder->fid));
}
