/* A capture of framedbg: its target and its events. What framedbg itself refuses is refused here too where it would matter. */
#ifndef CAPTURE_H
#define CAPTURE_H

#include <stdint.h>

typedef enum { CLEAR, RASTER, SCISSOR, BLEND, FACTOR, DRAW, MARKER, DEPTH, DEPTH_CLEAR, KINDS } Kind;

typedef struct {
    int64_t x, y;               /* in 1/65536 pixel */
    int z;                      /* 0 to 65535 */
    unsigned char colour[4];
} Vertex;

/* Words are numbers in the order of the lists of capture.c. */
typedef struct {
    int source, destination, operation;
} Part;

typedef struct {
    Kind kind;
    unsigned char colour[4];
    int cull, front_ccw, scissor;
    int64_t rect[4];            /* left, top, right, bottom */
    int enable, mask;
    Part rgb, alpha;
    int write, function;
    int depth;
    int is_flat, vertices_count, indices_count;
    Vertex *vertices;
    uint32_t *indices;          /* NULL: the vertices in turn */
} Event;

typedef struct {
    int version, width, height, count;
    Event *events;
} Capture;

Capture read_capture(const char *path);
const char *kind_name(Kind kind);

/* The indices or vertices that a draw takes, three a triangle. */
int corners_of(const Event *draw);

/* 1/65536 pixel in 1/256: the nearest, the even one on a tie. */
int64_t snapped(int64_t position);

#endif
