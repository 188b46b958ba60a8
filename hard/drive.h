#ifndef HARD_DRIVE_H
#define HARD_DRIVE_H

#include "check.h"

/* Replays a vectors file; returns how many records agree (all of them, or it stops). */
size_t replay(const uint8_t *bytes, size_t n);
/* Calls what the other checks do not: the fields of nodes and links, records, numbers of a section, empty lists as NULL. */
void every_call(void);
/* Which cause is answered for structs and sets made by hand. */
void orders_of_causes(void);

#endif
