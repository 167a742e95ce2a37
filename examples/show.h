/* Prints for a person what came of a message. */
#ifndef SHOW_H
#define SHOW_H

#include "gateway.h"

#include <stdbool.h>

/* What a number returned by a call means. */
const char *number_in_words(uint8_t number);

/* What a number that stopped a reader means. */
const char *stream_number_in_words(uint8_t number);

/* What a reply's Status means, in whichever form it has. */
const char *status_in_words(const uint8_t *reply);

/* The connection of the open of that FID, which stands in the tables. */
uint64_t connection_of(const struct gateway_tables *tables, uint64_t fid);

/* Whether the holder's lock is held still. One that the refused request itself had been granted is undone with it. */
bool still_held(const struct gateway_tables *tables, const struct gateway_holder *holder);

/* A message that was handed out: which one, on which connection, how long. */
void show_message(unsigned long place, uint32_t connection, size_t length);

/*
 * A terminal's question whether the file of an open has changed, what the library returned, the answer, and the change numbers
 * that it goes by.
 */
void show_asked(uint32_t connection, uint32_t fid, uint8_t number, uint16_t unchanged, const struct gateway_tables *tables);

/*
 * What the library returned, the reply if there is one, whose lock is in the way if it was refused for one, and how many
 * records the tables then hold; if an OPEN_ANDX was answered also each open with its access and sharing, and the catalogue.
 */
void show_taken(uint8_t number, const uint8_t *reply, size_t length, const struct gateway_holder *holder,
                const struct gateway_tables *tables);

#endif
