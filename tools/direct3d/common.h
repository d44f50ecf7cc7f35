/* What all parts of play_d3d11 share: how it ends where it can't go on, and memory that stays until then. */
#ifndef COMMON_H
#define COMMON_H

#include <stddef.h>

enum Status { ALIKE, BY_ONE, MORE, NOT_TRIED };

/* Ends the program with NOT_TRIED and one line, printf's words. */
void die(const char *why, ...) __attribute__((format(printf, 1, 2), noreturn));

static inline long long larger(long long one, long long other)
{
    return one > other ? one : other;
}

/* Memory of zeros, which is never given back. */
void *taken(size_t size);

#endif
