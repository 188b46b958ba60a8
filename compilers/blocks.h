/* What blocks.c and call.c share. */
#ifndef COMPILERS_BLOCKS_H
#define COMPILERS_BLOCKS_H

#include "agree.h"

/* Whether arguments and answers are told. */
extern bool showing;
/* The digest of the block so far. */
extern digest sum;
/* The last call's answer. */
extern uint64_t last_answer;

void call_begins(void);

#endif
