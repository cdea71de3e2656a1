/*
 * What the C tests share: checks that are counted, and memory that is lent to a function between guard bytes.
 */
#ifndef LENT_H
#define LENT_H

#include <stdio.h>
#include <stdlib.h>
#include <string.h>

#define GUARD 64

static unsigned long checks, failures;

#define CHECK(condition) check(condition, __FILE__, __LINE__, #condition)

static inline void check(int holds, const char *file, int line, const char *what)
{
    checks++;
    if (!holds) {
        failures++;
        printf("%s:%d: %s\n", file, line, what);
    }
}

/* A block of memory: guard bytes, then the part that is lent, then guard bytes again or the block's end. */
struct lent {
    unsigned char *block;
    unsigned char *copy;
    size_t size;
    size_t length;
    void *part;
};

static inline unsigned char *allocate(size_t size)
{
    unsigned char *block = malloc(size);
    if (block == NULL) {
        fprintf(stderr, "no memory\n");
        exit(2);
    }
    return block;
}

/* The part itself is left as malloc gives it, so that valgrind sees whether a function depends on what it only has to write. */
static inline struct lent lend(size_t length, size_t behind)
{
    struct lent lent;
    lent.size = GUARD + length + behind;
    lent.length = length;
    lent.block = allocate(lent.size);
    lent.copy = allocate(lent.size);
    lent.part = lent.block + GUARD;
    memset(lent.block, 0xa5, GUARD);
    memset(lent.block + GUARD + length, 0xa5, behind);
    memcpy(lent.copy, lent.block, lent.size);
    return lent;
}

static inline struct lent lend_copy(const void *contents, size_t length)
{
    struct lent lent = lend(length, 0);
    memcpy(lent.part, contents, length);
    memcpy(lent.copy, lent.block, lent.size);
    return lent;
}

static inline void remember(struct lent *lent)
{
    memcpy(lent->copy, lent->block, lent->size);
}

/* Whether the part and its guard bytes are as they were remembered. */
static inline int same(const struct lent *lent)
{
    return memcmp(lent->copy, lent->block, lent->size) == 0;
}

/* Whether the guard bytes are as they were, whatever the part has. */
static inline int same_guards(const struct lent *lent)
{
    size_t behind = GUARD + lent->length;
    return memcmp(lent->copy, lent->block, GUARD) == 0
        && memcmp(lent->copy + behind, lent->block + behind, lent->size - behind) == 0;
}

/* Whether the part has these bytes, and its guard bytes are as they were. */
static inline int holds(const struct lent *lent, const void *contents)
{
    memcpy(lent->copy + GUARD, contents, lent->length);
    return same(lent);
}

static inline int wiped(const struct lent *lent)
{
    memset(lent->copy + GUARD, 0, lent->length);
    return same(lent);
}

static inline void give_back(struct lent *lent)
{
    free(lent->block);
    free(lent->copy);
}

/* Says how many checks there were. Gives the program's status. */
static inline int report(const char *test)
{
    printf("bindings/c, %s: %lu checks, %lu failed\n", test, checks, failures);
    return failures != 0;
}

#endif
