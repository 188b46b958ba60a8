/* Any cell as a member between two others, and beside it the same cell in memory of its own. */
#ifndef HARD_MEMBER_H
#define HARD_MEMBER_H

#include "check.h"

enum { AROUND = 3 };

/* The set, of AROUND members in six lists; the cell by itself; what the set has to be; the member that is called. */
typedef struct {
    ynd_member *members, *entries;
    lent all, own, want;
    size_t member, *place, *own_place;
} placed;

#define MEMBERS(p) (p)->members, AROUND
#define SAME(a, b) CHECK(memcmp(a, b, sizeof *(a)) == 0)

/* Whether the cell's own call decides. Else the set's causes do, and number and place are theirs. */
bool own_decides(const placed *p, enum what w, uint32_t number);
/* The cell's own call answered the same, and the set is what it has to be afterwards. */
void own_agrees(placed *p, uint32_t number, uint32_t own);
/* The set is as it was but for the member, which is the cell. */
void others_stay(placed *p);

/* The edits of a member, each beside the cell's own; they change both. */
void check_member_edits(placed *p, script *s);

#endif
