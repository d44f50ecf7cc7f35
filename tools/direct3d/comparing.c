#include "comparing.h"

#include <stdio.h>
#include <stdlib.h>
#include <string.h>

#include "common.h"

enum { CHANNELS = 4, NEAR = 2, CLOSE = 8 };

/* Colours that are off, by how much. */
enum { OFF_BY_1, OFF_BY_2, OFF_TO_8, OFF_BY_MORE, OFFS };

typedef struct {
    long long draws, draws_alike;           /* of the sum alone */
    long long changed, only_rules, only_here, off[OFFS];
    long long depths_changed, depths_off, depths_by_more;
    int most, most_depth;
    size_t first, first_depth;              /* pixels; none is the number of pixels */
} Counts;

/* The pictures before and after an event: as is right, and as the card has it. */
typedef struct {
    Picture before, right, shown, here;
} Pictures;

static int colours_apart(const unsigned char *one, const unsigned char *other)
{
    int most = 0;
    for (int i = 0; i < CHANNELS; i++)
        most = (int)larger(most, abs(one[i] - other[i]));
    return most;
}

static void count_colour(const Pictures *pictures, size_t pixel, Counts *counts)
{
    const unsigned char *before = pictures->before.colours + CHANNELS * pixel, *right = pictures->right.colours + CHANNELS * pixel,
                        *here = pictures->here.colours + CHANNELS * pixel;
    int by_rules = memcmp(before, right, CHANNELS) != 0, by_card = memcmp(before, here, CHANNELS) != 0, gap = colours_apart(right, here);
    counts->changed += by_rules;
    if (!gap)
        return;
    counts->first = counts->first < pixel ? counts->first : pixel;
    counts->most = (int)larger(counts->most, gap);
    if (gap > NEAR && by_rules && !by_card)
        counts->only_rules++;
    else if (gap > NEAR && by_card && !by_rules)
        counts->only_here++;
    else
        counts->off[gap == 1 ? OFF_BY_1 : gap == NEAR ? OFF_BY_2 : gap <= CLOSE ? OFF_TO_8 : OFF_BY_MORE]++;
}

static void count_depth(const Pictures *pictures, size_t pixel, Counts *counts)
{
    int gap = abs(pictures->right.depths[pixel] - pictures->here.depths[pixel]);
    int by_rules = pictures->before.depths[pixel] != pictures->right.depths[pixel];
    int by_card = pictures->shown.depths[pixel] != pictures->here.depths[pixel];
    counts->depths_changed += by_rules;
    if (!gap || !(by_rules || by_card))
        return;
    counts->depths_off++;
    counts->depths_by_more += gap > 1;
    counts->most_depth = (int)larger(counts->most_depth, gap);
    counts->first_depth = counts->first_depth < pixel ? counts->first_depth : pixel;
}

static Counts counted(const Event *event, const Pictures *pictures)
{
    size_t pixels = pictures->right.pixels;
    Counts counts = {.first = pixels, .first_depth = pixels};
    for (size_t pixel = 0; pixel < pixels; pixel++) {
        if (event->kind != DEPTH_CLEAR)
            count_colour(pictures, pixel, &counts);
        if (event->kind != CLEAR && pictures->right.depths)
            count_depth(pictures, pixel, &counts);
    }
    return counts;
}

static int is_alike(const Counts *counts)
{
    return !counts->most && !counts->most_depth;
}

static void add(Counts *sum, const Counts *one, const Event *event)
{
    if (event->kind == DRAW) {
        sum->draws++;
        sum->draws_alike += is_alike(one);
    }
    sum->changed += one->changed;
    sum->only_rules += one->only_rules;
    sum->only_here += one->only_here;
    for (int i = 0; i < OFFS; i++)
        sum->off[i] += one->off[i];
    sum->depths_changed += one->depths_changed;
    sum->depths_off += one->depths_off;
    sum->depths_by_more += one->depths_by_more;
    sum->most = (int)larger(sum->most, one->most);
    sum->most_depth = (int)larger(sum->most_depth, one->most_depth);
}

/* ---- What is told */

static void tell_colours(const Counts *counts)
{
    printf("only by the rules %lld, only here %lld; off by 1 %lld, by 2 %lld, to 8 %lld, more %lld, most %d", counts->only_rules, counts->only_here,
           counts->off[OFF_BY_1], counts->off[OFF_BY_2], counts->off[OFF_TO_8], counts->off[OFF_BY_MORE], counts->most);
}

static void tell_colour(const Picture *picture, size_t pixel)
{
    const unsigned char *colour = picture->colours + CHANNELS * pixel;
    printf(" %d %d %d %d", colour[0], colour[1], colour[2], colour[3]);
}

static void tell_event(const Capture *capture, int number, const Counts *counts, const Pictures *pictures)
{
    const Event *event = &capture->events[number - 1];
    size_t pixels = pictures->right.pixels, wide = capture->width;
    printf("event %d %s", number, kind_name(event->kind));
    if (event->kind == DRAW)
        printf(" %d %s", corners_of(event) / 3, event->is_flat ? "flat" : "linear");
    printf(": %lld pixels change by the rules; ", counts->changed);
    tell_colours(counts);
    if (pictures->right.depths)
        printf("; depths off %lld, by more than 1 %lld, most %d", counts->depths_off, counts->depths_by_more, counts->most_depth);
    if (counts->first < pixels) {
        printf("; first %d %d rules", (int)(counts->first % wide), (int)(counts->first / wide));
        tell_colour(&pictures->right, counts->first);
        printf(" here");
        tell_colour(&pictures->here, counts->first);
    }
    if (counts->first_depth < pixels)
        printf("; first depth %d %d rules %d here %d", (int)(counts->first_depth % wide), (int)(counts->first_depth / wide),
               pictures->right.depths[counts->first_depth], pictures->here.depths[counts->first_depth]);
    printf("\n");
}

static void tell_sum(const Counts *sum)
{
    printf("sum: draws %lld, of these alike %lld; pixels changed by the rules %lld; ", sum->draws, sum->draws_alike, sum->changed);
    tell_colours(sum);
    printf("; depths changed %lld, off %lld, by more than 1 %lld, most %d\n", sum->depths_changed, sum->depths_off, sum->depths_by_more,
           sum->most_depth);
    fflush(stdout);
}

/* ---- The comparison */

static int draws_pixels(const Event *event)
{
    return event->kind == DRAW || event->kind == CLEAR || event->kind == DEPTH_CLEAR;
}

static void copy_picture(Picture *to, const Picture *from)
{
    memcpy(to->colours, from->colours, CHANNELS * to->pixels);
    if (to->depths)
        memcpy(to->depths, from->depths, sizeof *to->depths * to->pixels);
}

/* Gives the card what is right before a draw. A depth that is off by 1 stays: a second pass by EQUAL is to meet its own. */
static void mend(Card *card, Pictures *pictures)
{
    Picture *shown = &pictures->shown;
    memcpy(shown->colours, pictures->before.colours, CHANNELS * shown->pixels);
    for (size_t pixel = 0; shown->depths && pixel < shown->pixels; pixel++)
        if (abs(shown->depths[pixel] - pictures->before.depths[pixel]) > 1)
            shown->depths[pixel] = pictures->before.depths[pixel];
    write_picture(card, shown);
}

/* Plays an event, and gives what differs then. */
static Counts played(Card *card, const Event *event, Pictures *pictures, int is_running)
{
    copy_picture(&pictures->shown, &pictures->here);
    if (event->kind == DRAW && !is_running)
        mend(card, pictures);
    play_event(card, event);
    if (!draws_pixels(event))
        return (Counts){.first = pictures->here.pixels, .first_depth = pictures->here.pixels};
    read_picture(card, &pictures->here);
    return counted(event, pictures);
}

int compare(Card *card, const Capture *capture, const Comparison *how)
{
    Rules *rules = open_rules(how->rules, capture);
    size_t pixels = (size_t)capture->width * capture->height;
    int has_depths = rules_have_depths(rules);
    Pictures pictures = {new_picture(pixels, has_depths), new_picture(pixels, has_depths), new_picture(pixels, has_depths),
                         new_picture(pixels, has_depths)};
    Counts sum = {.first = pixels};
    start_card(card);
    read_picture(card, &pictures.here);
    next_rules(rules, &pictures.right);
    for (int number = 1; number <= capture->count; number++) {
        const Event *event = &capture->events[number - 1];
        copy_picture(&pictures.before, &pictures.right);
        next_rules(rules, &pictures.right);
        Counts counts = played(card, event, &pictures, how->is_running);
        add(&sum, &counts, event);
        if (!is_alike(&counts) && !how->is_quiet)
            tell_event(capture, number, &counts, &pictures);
    }
    close_rules(rules);
    tell_sum(&sum);
    return sum.most > 1 || sum.most_depth > 1 ? MORE : is_alike(&sum) ? ALIKE : BY_ONE;
}
