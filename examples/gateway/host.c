#define _DEFAULT_SOURCE
#include "host.h"
#include "show.h"

#include <stdio.h>
#include <stdlib.h>
#include <sys/mman.h>
#include <unistd.h>

void give_up(const char *what)
{
    fprintf(stderr, "gateway: %s\n", what);
    exit(2);
}

void require_done(uint8_t number, const char *call)
{
    if (number == GATEWAY_DONE)
        return;
    fprintf(stderr, "gateway: %s returned %u, %s\n", call, (unsigned)number, number_in_words(number));
    exit(2);
}

/*
 * The library is proved to stay inside what it is lent; a host that lends too little, or hands over a wrong length, would
 * not be. Between two pages without any right such a fault ends the host at once instead of harming other memory.
 */
void *lend(size_t size)
{
    size_t page = (size_t)sysconf(_SC_PAGESIZE);
    size_t inside = (size + page - 1) / page * page;
    uint8_t *whole = mmap(NULL, inside + 2 * page, PROT_NONE, MAP_PRIVATE | MAP_ANONYMOUS, -1, 0);
    if (whole == MAP_FAILED || mprotect(whole + page, inside, PROT_READ | PROT_WRITE) != 0)
        give_up("no memory");
    return whole + page + (inside - size);
}

void prepare_host(struct host *host)
{
    if (gateway_words() != GATEWAY_WORDS)
        give_up("the library has other tables than this host was compiled for");
    host->tables = lend(sizeof *host->tables);
    host->memory = lend(GATEWAY_MEMORY);
    host->room = lend(GATEWAY_ROOM);
    host->message = lend(LONGEST_MESSAGE);
    host->framed = lend(GATEWAY_STREAM_ROOM);
    host->reply = lend(GATEWAY_ROOM);
    gateway_empty(host->tables);
}
