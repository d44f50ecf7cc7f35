/* A gzip file: a line `framedbg-rules 1 WIDTH HEIGHT POSITIONS DEPTHS`, and for each position the colours, and the depths where DEPTHS is 1
 * (words of 16 bits, the low byte first), each byte XORed with that of the position before. */
#include "rules.h"

#include <stdio.h>
#include <string.h>
#include <zlib.h>

#include "common.h"

enum { LINE = 100 };

struct Rules {
    gzFile file;
    const char *path;
    int has_depths;
    unsigned char *changed;     /* the bytes of a position as they are read */
};

Picture new_picture(size_t pixels, int has_depths)
{
    return (Picture){taken(4 * pixels), has_depths ? taken(2 * pixels) : NULL, pixels};
}

Rules *open_rules(const char *path, const Capture *capture)
{
    char line[LINE];
    int width, height, positions;
    Rules *rules = taken(sizeof *rules);
    rules->path = path;
    rules->file = gzopen(path, "rb");
    if (!rules->file)
        die("%s can't be read", path);
    if (!gzgets(rules->file, line, LINE) || sscanf(line, "framedbg-rules 1 %d %d %d %d", &width, &height, &positions, &rules->has_depths) != 4)
        die("%s isn't from framedbg-driver rules", path);
    if (width != capture->width || height != capture->height || positions != capture->count + 1)
        die("%s is of another capture: %d by %d pixels and %d positions", path, width, height, positions);
    rules->changed = taken(4 * (size_t)width * height);
    return rules;
}

int rules_have_depths(const Rules *rules)
{
    return rules->has_depths;
}

static void xor_bytes(Rules *rules, void *to, size_t size)
{
    unsigned char *bytes = to;
    if (gzread(rules->file, rules->changed, (unsigned)size) != (int)size)
        die("%s is cut, or broken", rules->path);
    for (size_t i = 0; i < size; i++)
        bytes[i] ^= rules->changed[i];
}

void next_rules(Rules *rules, Picture *picture)
{
    xor_bytes(rules, picture->colours, 4 * picture->pixels);
    if (rules->has_depths)
        xor_bytes(rules, picture->depths, 2 * picture->pixels);
}

void close_rules(Rules *rules)
{
    char rest;
    if (gzread(rules->file, &rest, 1) != 0)
        die("%s has more than its line says, or is broken", rules->path);
    gzclose(rules->file);
}
