#include "common.h"

#include <stdarg.h>
#include <stdio.h>
#include <stdlib.h>

void die(const char *why, ...)
{
    va_list words;
    fflush(stdout);
    fputs("play_d3d11: ", stderr);
    va_start(words, why);
    vfprintf(stderr, why, words);
    va_end(words);
    fputc('\n', stderr);
    exit(NOT_TRIED);
}

void *taken(size_t size)
{
    void *memory = calloc(size ? size : 1, 1);
    if (!memory)
        die("memory");
    return memory;
}
