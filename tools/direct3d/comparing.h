/* What a card draws, beside what is right. */
#ifndef COMPARING_H
#define COMPARING_H

#include "card.h"

typedef struct {
    const char *rules;          /* the file of what is right */
    int is_running;             /* differences are carried on: the card isn't given what is right before each draw */
    int is_quiet;               /* the sum alone is told */
} Comparison;

/* Tells each event that differs, and the sum. The status of the program: ALIKE, BY_ONE or MORE. */
int compare(Card *card, const Capture *capture, const Comparison *how);

#endif
