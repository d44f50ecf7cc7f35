/* play_d3d11: draws a capture of framedbg by Direct3D 11, and compares each event with what is right. `play_d3d11 --help` says how it is called. */
#include <stdio.h>
#include <stdlib.h>
#include <string.h>

#include "card.h"
#include "common.h"
#include "comparing.h"

static const char HELP[] =
    "play_d3d11: draws a capture of framedbg by Direct3D 11, and compares each event with what is right.\n"
    "\n"
    "    framedbg-driver rules house.json > house.rules        where framedbg is: what is right, in one file\n"
    "    play_d3d11 --against house.rules house.json           where the card is: each event by itself\n"
    "    play_d3d11 --out house.pam house.json                 the card's picture\n"
    "    play_d3d11 --list                                     the adapters\n"
    "\n"
    "  --driver WHICH     hardware, warp, reference, or a number of --list [hardware]\n"
    "  --against FILE     what is right\n"
    "  --quiet            tells the sum alone\n"
    "  --running          differences are carried on: else the card is given what is right before each draw\n"
    "  --at K             the position whose picture is written [the last one]\n"
    "  --out FILE         the picture as PAM\n"
    "  --depth FILE       the depths as PGM of 16 bits\n"
    "  --plain            linear colours aren't rounded to bytes before they are blended\n"
    "  --viewport WHICH   auto, which clips nothing, or target [auto]\n"
    "  --shift X Y        draws so many 1/256 of a pixel off: a planted fault, for tests\n"
    "\n"
    "Statuses: 0 alike, 1 off by 1 at most, 2 off by more, 3 it couldn't be tried.\n";

typedef struct {
    Way way;
    Comparison comparison;
    const char *capture, *out, *depth;
    int position;               /* -1: the last one */
} Words;

static int number_of(const char *text)
{
    char *end;
    long number = strtol(text, &end, 10);
    if (!*text || *end || number < -1000000 || number > 1000000)
        die("%s is no number", text);
    return (int)number;
}

static int viewport_of(const char *text)
{
    if (strcmp(text, "auto") && strcmp(text, "target"))
        die("--viewport is auto or target, and not %s", text);
    return !strcmp(text, "target");
}

/* A word without a value. */
static int is_switch(Words *words, const char *word)
{
    int *switched = !strcmp(word, "--plain") ? &words->way.is_plain : !strcmp(word, "--quiet") ? &words->comparison.is_quiet :
                    !strcmp(word, "--running") ? &words->comparison.is_running : NULL;
    if (switched)
        *switched = 1;
    return switched != NULL;
}

/* A word with a value, which is the next one. How many words were taken. */
static int option(Words *words, const char *word, char **values)
{
    const char *value = values[0];
    if (!strcmp(word, "--driver"))
        words->way.driver = value;
    else if (!strcmp(word, "--against"))
        words->comparison.rules = value;
    else if (!strcmp(word, "--at"))
        words->position = number_of(value);
    else if (!strcmp(word, "--out"))
        words->out = value;
    else if (!strcmp(word, "--depth"))
        words->depth = value;
    else if (!strcmp(word, "--viewport"))
        words->way.is_target = viewport_of(value);
    else if (!strcmp(word, "--shift") && values[1]) {
        words->way.shift_x = number_of(value);
        words->way.shift_y = number_of(values[1]);
        return 3;
    } else
        die("%s is no word of it; --help names them", word);
    return 2;
}

static Words read_words(char **given)
{
    Words words = {.way = {.driver = "hardware"}, .position = -1};
    while (*given) {
        const char *word = *given;
        if (!strcmp(word, "--help")) {
            fputs(HELP, stdout);
            exit(ALIKE);
        }
        if (!strcmp(word, "--list")) {
            list_adapters();
            exit(ALIKE);
        }
        if (is_switch(&words, word))
            given++;
        else if (*word != '-' && !words.capture)
            words.capture = *given++;
        else if (*word == '-' && given[1])
            given += option(&words, word, given + 1);
        else
            die("%s is no word of it, or wants another; --help names them", word);
    }
    if (!words.capture)
        die("a capture is wanted; --help says how it is called");
    return words;
}

static FILE *opened(const char *path)
{
    FILE *file = fopen(path, "wb");
    if (!file)
        die("%s can't be written", path);
    return file;
}

static void finish(FILE *file, const char *path)
{
    if (ferror(file) | fclose(file))
        die("%s can't be written", path);
}

static void write_files(const Words *words, const Capture *capture, const Picture *picture)
{
    if (words->out) {
        FILE *file = opened(words->out);
        fprintf(file, "P7\nWIDTH %d\nHEIGHT %d\nDEPTH 4\nMAXVAL 255\nTUPLTYPE RGB_ALPHA\nENDHDR\n", capture->width, capture->height);
        fwrite(picture->colours, 4, picture->pixels, file);
        finish(file, words->out);
    }
    if (words->depth) {
        FILE *file = opened(words->depth);
        fprintf(file, "P5\n%d %d\n65535\n", capture->width, capture->height);
        for (size_t i = 0; i < picture->pixels; i++) {
            fputc(picture->depths[i] >> 8, file);
            fputc(picture->depths[i] & 255, file);
        }
        finish(file, words->depth);
    }
}

int main(int count, char **given)
{
    Words words = read_words(given + (count > 0));
    Capture capture = read_capture(words.capture);
    if (words.position > capture.count || words.position < -1)
        die("there is no position %d: the capture has %d events", words.position, capture.count);
    Card *card = open_card(&words.way, &capture);
    if (words.comparison.rules)
        return compare(card, &capture, &words.comparison);
    Picture picture = new_picture((size_t)capture.width * capture.height, words.depth != NULL);
    start_card(card);
    for (int i = 0; i < (words.position < 0 ? capture.count : words.position); i++)
        play_event(card, &capture.events[i]);
    read_picture(card, &picture);
    write_files(&words, &capture, &picture);
    return ALIKE;
}
