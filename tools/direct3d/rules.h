/* What is right at each position: a file of `framedbg-driver rules`. */
#ifndef RULES_H
#define RULES_H

#include <stddef.h>

#include "capture.h"

/* Colours and depths of all pixels; of the latter there may be none. */
typedef struct {
    unsigned char *colours;         /* four bytes a pixel, row by row from the top */
    unsigned short *depths;         /* NULL: none */
    size_t pixels;
} Picture;

typedef struct Rules Rules;

Picture new_picture(size_t pixels, int has_depths);

/* Opens a file, which has to be of that capture's size. */
Rules *open_rules(const char *path, const Capture *capture);
int rules_have_depths(const Rules *rules);

/* The picture at the next position, from 0 on, in the place of that at the one before. */
void next_rules(Rules *rules, Picture *picture);
void close_rules(Rules *rules);

#endif
