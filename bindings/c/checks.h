/* What the test programs share. */
#ifndef CHECKS_H
#define CHECKS_H

#include "hovdreg.h"

#include <stdio.h>
#include <stdlib.h>
#include <string.h>

/* A text and its size, as the functions of hovdreg.h take them. */
#define TEXT(text) (text), strlen(text)

/* Ends the program where something is not as wanted. */
#define WANT(condition) want((condition), #condition, __FILE__, __LINE__)

static inline void want(int is_so, const char *condition, const char *file, int line)
{
    if (is_so)
        return;
    fprintf(stderr, "%s:%d: not so: %s\n", file, line, condition);
    exit(EXIT_FAILURE);
}

static inline int ended(struct tera_answer answer, enum tera_status status)
{
    return answer.status == (uint32_t)status;
}

static inline int ended_with(struct tera_answer answer, enum tera_status status, size_t size)
{
    return ended(answer, status) && answer.size == size;
}

static inline int is_empty(struct tera_engine *engine)
{
    return engine->at == NULL;
}

/* An engine with all that docs/FILTERS.md tells of. */
static inline struct tera_engine new_engine(void)
{
    struct tera_engine engine = TERA_NO_ENGINE_YET;
    struct tera_options options = { 0 };
    WANT(ended_with(tera_new(&engine, &options), TERA_DONE, 0));
    return engine;
}

static inline void put(struct tera_engine *engine, const char *name, const char *text)
{
    WANT(ended_with(tera_put_template(engine, TEXT(name), TEXT(text)), TERA_DONE, 0));
}

static inline void add(struct tera_engine *engine, const char *name, const char *text)
{
    put(engine, name, text);
    WANT(ended_with(tera_add(engine), TERA_DONE, 0));
}

/* Whether the place holds just this text, by a room that is large enough. */
static inline int has_text_at(struct tera_engine *engine, size_t index, const char *wanted)
{
    size_t size = strlen(wanted);
    char room[4096];
    WANT(size <= sizeof room);
    return ended_with(tera_copy(engine, index, room, sizeof room), TERA_DONE, size) && memcmp(room, wanted, size) == 0;
}

/* Whether the call made just this text. */
static inline int made(struct tera_engine *engine, struct tera_answer answer, const char *wanted)
{
    return ended_with(answer, TERA_DONE, strlen(wanted)) && has_text_at(engine, 0, wanted);
}

#endif
