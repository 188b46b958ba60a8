/* The checks of one input, in parts. */
#ifndef HARD_CHECK_H
#define HARD_CHECK_H

#include "model.h"

/* What steers a check: bytes of the input, zeros behind them. */
typedef struct {
    const uint8_t *at, *end;
} script;

enum { MOST_CHOICES = 48, MOST_EDITS = 40 };
enum what {
    COUNT, READ, SOUND, WRITE, WRITE_READ, WALK, WALK_INDEXED, RENUMBER, NODE, JUNCTION_OF, AREA, SHOWN_NODE, SHOWN_JUNCTION, SHOWN_VALUES, SHOWN_LINK,
    ADD_NODE, ADD_LINK, ADD_REF, ADD_JUNCTION, PUT_NODE, SET_POSITION, PUT_LINK, PUT_REF, PUT_JUNCTION, PUT_HEIGHT, GET_NODE, GET_LINK, GET_REF,
    GET_JUNCTION, GET_HEIGHT, WITHIN, NEAREST, PUT_LINKS, PUT_HEIGHTMAP,
    TRUNCATE, READ_ROUND, WRITE_ROUND, FOLLOW, FOLLOW_INDEXED, READ_VERSION, WRITE_VERSION, FOLLOW_VERSION, SHORTEST_PATH,
    SET_JOIN, SET_LEAVE, SET_RENUMBER, SET_WALK, SET_SOUND, SET_HAND_BACK, SET_AREA, SET_FOLLOW,
    MEMBER_WRITE, MEMBER_WRITE_READ, MEMBER_LOOKUP, MEMBER_GET, MEMBER_SHOWN, MEMBER_EDIT, WHATS
};

uint8_t byte(script *s);
uint16_t word16(script *s);
uint32_t word32(script *s);
float real(script *s);

/* Reports an answer: a number of document 01, and place 0 where it was accepted. */
uint32_t answer(enum what w, uint32_t number, size_t place);

/* Each takes a cell and checks a call on it; a refusal has to leave all as it was. */
void check_sound(const lent *m);
void check_walk(const lent *m, size_t start, const uint8_t *choices, size_t n);
void check_shown(const lent *m, script *s);
void check_lookups(const lent *m, script *s);
void check_reach(const lent *m, script *s);
void check_follow(const lent *m, script *s, const uint8_t *choices, size_t n);
void check_path(const lent *m, script *s);
void check_set(const lent *m, size_t start, const uint8_t *choices, size_t n);
void check_member(const lent *m, script *s);
void check_renumber(lent *m, script *s);
void check_write(const lent *m, script *s);
/* as_read: the cell is as reading left it, so that an accepted call leaves it. */
void check_write_read(lent *m, script *s, bool as_read);
/* kept: ranges lie apart, so that an edit's effect on each node is known. */
void check_edit(lent *m, script *s, bool kept);
/* Its parts that stand in hard/stores.c: whether something was changed. */
bool links_replaced(lent *m, script *s, const lent *before, size_t *place, bool kept);
bool map_replaced(lent *m, script *s, const lent *before, size_t *place);
bool list_cut(lent *m, script *s, const lent *before, size_t *place);

/* Any bytes as a round file; an accepted one is written back. */
void check_round_file(const uint8_t *data, size_t size);
/* The same by the calls that take both versions: its part that stands in hard/versions.c. */
void check_versions(const uint8_t *file, size_t size);
/* Round files at their limit, of version 1 and of version 2. */
void most_choices(void);
void most_choices_of_area(void);
/* All 65,536 numbers of a version. */
void every_version(void);
/* A set of two cells whose links cross. */
void two_members(void);

#endif
