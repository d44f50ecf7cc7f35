/* A card with a target, and a capture's events drawn on it by Direct3D 11. */
#ifndef CARD_H
#define CARD_H

#include "capture.h"
#include "rules.h"

typedef struct Card Card;

/* How a card is asked to draw. */
typedef struct {
    const char *driver;         /* hardware, warp, reference, or the number of an adapter */
    int is_plain;               /* linear colours aren't rounded to bytes before they are blended */
    int is_target;              /* the viewport is the target's own */
    int shift_x, shift_y;       /* a planted fault: in 1/256 pixel */
} Way;

void list_adapters(void);

/* Opens it, and says on standard output which it is. */
Card *open_card(const Way *way, const Capture *capture);

/* A fresh target, and the states at the start; and an event. */
void start_card(Card *card);
void play_event(Card *card, const Event *event);

/* Reads all pixels, and sets them. Depths are left alone where the picture has none. */
void read_picture(Card *card, Picture *picture);
void write_picture(Card *card, const Picture *picture);

#endif
