/* framedbg_capture.h: writes captures of framedbg (version 2 or 3) from one's own renderer. C99 or C++, one header, no library but C's own (-lm).
 *
 *     framedbg_capture *capture = framedbg_begin("frame.json", width, height);
 *     framedbg_marker(capture, "shadows");
 *     framedbg_clear(capture, 0, 0, 0, 255);
 *     framedbg_raster(capture, FRAMEDBG_CULL_BACK, 0, 0);
 *     framedbg_draw(capture, 1, vertices, vertex_count, indices, index_count);
 *     int fault = framedbg_end(capture);          FRAMEDBG_FINE, or the first fault: framedbg_fault_name tells it
 *
 * All calls take NULL for a capture and do nothing, so that a renderer may leave them in. Coordinates are pixels of the target, y down, the
 * centre of the first pixel at 0.5, 0.5; depths are 0 to 1; colours are bytes. framedbg_place turns clip space into these. A capture that is begun
 * with framedbg_begin_with_pictures is of version 3: there framedbg_draw_picture takes what the pixel shader gave, pixel by pixel.
 * docs/CAPTURES.md says what to log of which call.
 */
#ifndef FRAMEDBG_CAPTURE_H
#define FRAMEDBG_CAPTURE_H

#include <math.h>
#include <stdint.h>
#include <stdio.h>
#include <stdlib.h>
#include <string.h>

enum { FRAMEDBG_FINE, FRAMEDBG_FILE, FRAMEDBG_RANGE, FRAMEDBG_WORD, FRAMEDBG_TOO_LONG, FRAMEDBG_TOO_MANY, FRAMEDBG_NO_PICTURES, FRAMEDBG_FAULTS };
enum { FRAMEDBG_CULL_NONE, FRAMEDBG_CULL_FRONT, FRAMEDBG_CULL_BACK };
enum { FRAMEDBG_MOST_SIDE = 16384, FRAMEDBG_MOST_VERTICES = 196608, FRAMEDBG_MOST_EVENTS = 1000000, FRAMEDBG_MOST_BYTES = 67108864, FRAMEDBG_MOST_NAME = 64 };
enum { FRAMEDBG_PIXEL = 65536, FRAMEDBG_FARTHEST = 65535 };

typedef struct { double x, y, depth; uint8_t r, g, b, a; } framedbg_vertex;
typedef struct { double left, top, width, height; int half_depth, y_down; } framedbg_viewport;
/* What a draw puts out over a box of the target, in pixels: red, green, blue, alpha of each, rows from the top. holes may be NULL, else it has a byte a
 * pixel, and where that isn't 0 nothing is put out, as beyond the box. */
typedef struct { int left, top, width, height; const uint8_t *rgba, *holes; } framedbg_picture;
typedef struct { FILE *file; int fault, version; uint32_t events; int has_source; unsigned long source; } framedbg_capture;

static inline const char *framedbg_fault_name(int fault) {
    static const char *const names[] = {"fine", "the file can't be written", "a number is out of range", "a word is unknown", "the capture is too long", "too many events, vertices or indices",
                                        "the capture was begun without pictures"};
    return fault < 0 || fault >= FRAMEDBG_FAULTS ? "unknown" : names[fault];
}

/* The first fault is kept, and nothing is written after it. */
static inline void framedbg_fail(framedbg_capture *c, int fault) {
    if (!c->fault) c->fault = fault;
}

static inline framedbg_capture *framedbg_begin_version(const char *path, int width, int height, int version) {
    framedbg_capture *c;
    if (width < 1 || height < 1 || width > FRAMEDBG_MOST_SIDE || height > FRAMEDBG_MOST_SIDE) return NULL;
    c = (framedbg_capture *)calloc(1, sizeof *c);
    if (!c) return NULL;
    c->file = fopen(path, "wb");
    if (!c->file) {
        free(c);
        return NULL;
    }
    c->version = version;
    fprintf(c->file, "{\"format\":\"framedbg\",\"version\":%d,\"width\":%d,\"height\":%d,\"events\":[", version, width, height);
    return c;
}

static inline framedbg_capture *framedbg_begin(const char *path, int width, int height) {
    return framedbg_begin_version(path, width, height, 2);
}

static inline framedbg_capture *framedbg_begin_with_pictures(const char *path, int width, int height) {
    return framedbg_begin_version(path, width, height, 3);
}

static inline int framedbg_end(framedbg_capture *c) {
    int fault;
    if (!c) return FRAMEDBG_FILE;
    fputs("\n]}\n", c->file);
    if (ftell(c->file) > FRAMEDBG_MOST_BYTES) framedbg_fail(c, FRAMEDBG_TOO_LONG);
    if (ferror(c->file)) framedbg_fail(c, FRAMEDBG_FILE);
    if (fclose(c->file)) framedbg_fail(c, FRAMEDBG_FILE);
    fault = c->fault;
    free(c);
    return fault;
}

/* Your own number of the next event, for finding it again: its member "source", which framedbg passes over. */
static inline void framedbg_source(framedbg_capture *c, unsigned long number) {
    if (!c) return;
    c->has_source = 1;
    c->source = number;
}

/* Begins an event: 1 where it may be written. */
static inline int framedbg_event(framedbg_capture *c, const char *kind) {
    if (!c || c->fault) return 0;
    if (c->events == FRAMEDBG_MOST_EVENTS) {
        framedbg_fail(c, FRAMEDBG_TOO_MANY);
        return 0;
    }
    fprintf(c->file, "%s\n{\"kind\":\"%s\"", c->events++ ? "," : "", kind);
    if (c->has_source) fprintf(c->file, ",\"source\":{\"event\":%lu}", c->source);
    c->has_source = 0;
    return 1;
}

/* The bytes of the character of UTF-8 that begins here; 0 where none does. */
static inline int framedbg_character(const unsigned char *at) {
    int more = at[0] < 0x80 ? 0 : at[0] >= 0xc2 && at[0] < 0xe0 ? 1 : (at[0] & 0xf0) == 0xe0 ? 2 : at[0] >= 0xf0 && at[0] < 0xf5 ? 3 : -1, i;
    if (more < 0) return 0;
    for (i = 1; i <= more; i++)
        if ((at[i] & 0xc0) != 0x80) return 0;
    if ((at[0] == 0xe0 && at[1] < 0xa0) || (at[0] == 0xed && at[1] > 0x9f) || (at[0] == 0xf0 && at[1] < 0x90) || (at[0] == 0xf4 && at[1] > 0x8f)) return 0;
    return more + 1;
}

/* A label: control characters are left out, bytes that are no UTF-8 become question marks, and it ends before the 65th byte. */
static inline void framedbg_marker(framedbg_capture *c, const char *name) {
    const unsigned char *at = (const unsigned char *)name;
    int bytes = 0;
    if (!framedbg_event(c, "marker")) return;
    fputs(",\"name\":\"", c->file);
    while (*at) {
        int length = framedbg_character(at), wide = length ? length : 1;
        if (bytes + wide > FRAMEDBG_MOST_NAME) break;
        if (!length) fputc('?', c->file);
        else if (*at >= 0x20 && *at != 0x7f) {
            if (*at == '"' || *at == '\\') fputc('\\', c->file);
            fwrite(at, 1, (size_t)length, c->file);
        } else wide = 0;
        bytes += wide;
        at += length ? length : 1;
    }
    fputs("\"}", c->file);
}

static inline void framedbg_clear(framedbg_capture *c, uint8_t r, uint8_t g, uint8_t b, uint8_t a) {
    if (framedbg_event(c, "clear")) fprintf(c->file, ",\"color\":[%d,%d,%d,%d]}", r, g, b, a);
}

static inline long framedbg_depth_word(double depth) {
    return !(depth > 0) ? 0 : depth >= 1 ? (long)FRAMEDBG_FARTHEST : lround(depth * FRAMEDBG_FARTHEST);
}

static inline void framedbg_depth_clear(framedbg_capture *c, double depth) {
    if (framedbg_event(c, "depth_clear")) fprintf(c->file, ",\"depth\":%ld}", framedbg_depth_word(depth));
}

/* front_ccw: triangles that run counter-clockwise on the target, with y down, are the front. For OpenGL, GL_CCW: see docs/CAPTURES.md. */
static inline void framedbg_raster(framedbg_capture *c, int cull, int front_ccw, int scissor) {
    static const char *const words[] = {"none", "front", "back"};
    if (c && (cull < FRAMEDBG_CULL_NONE || cull > FRAMEDBG_CULL_BACK)) framedbg_fail(c, FRAMEDBG_WORD);
    if (framedbg_event(c, "raster")) fprintf(c->file, ",\"cull\":\"%s\",\"front_ccw\":%s,\"scissor\":%s}", words[cull], front_ccw ? "true" : "false", scissor ? "true" : "false");
}

static inline void framedbg_scissor(framedbg_capture *c, int32_t left, int32_t top, int32_t right, int32_t bottom) {
    if (framedbg_event(c, "scissor")) fprintf(c->file, ",\"rect\":[%ld,%ld,%ld,%ld]}", (long)left, (long)top, (long)right, (long)bottom);
}

/* Whether a text is one of the words of a list that has a space on both sides of each. */
static inline int framedbg_is_word(const char *word, const char *list) {
    size_t length = strlen(word);
    const char *at;
    if (!length || strchr(word, ' ')) return 0;
    for (at = strstr(list, word); at; at = strstr(at + 1, word))
        if (at[-1] == ' ' && at[length] == ' ') return 1;
    return 0;
}

/* A blend part, "SRC_ALPHA INV_SRC_ALPHA ADD" and the like, in three words. In the alpha part no factor ends in _COLOR. */
static inline int framedbg_part(const char *part, int is_alpha, char words[3][24]) {
    static const char of_both[] = " ZERO ONE SRC_ALPHA INV_SRC_ALPHA DEST_ALPHA INV_DEST_ALPHA BLEND_FACTOR INV_BLEND_FACTOR ";
    static const char of_colour[] = " SRC_COLOR INV_SRC_COLOR DEST_COLOR INV_DEST_COLOR ";
    int i;
    if (sscanf(part, "%23[A-Z_] %23[A-Z_] %23[A-Z_]", words[0], words[1], words[2]) != 3) return 0;
    for (i = 0; i < 2; i++)
        if (!framedbg_is_word(words[i], of_both) && (is_alpha || !framedbg_is_word(words[i], of_colour))) return 0;
    return framedbg_is_word(words[2], " ADD SUBTRACT REV_SUBTRACT MIN MAX ");
}

/* mask has red 1, green 2, blue 4, alpha 8. */
static inline void framedbg_blend(framedbg_capture *c, int enable, const char *rgb, const char *alpha, int mask) {
    char words[2][3][24];
    int i;
    if (!c) return;
    if (!framedbg_part(rgb, 0, words[0]) || !framedbg_part(alpha, 1, words[1])) framedbg_fail(c, FRAMEDBG_WORD);
    if (mask < 0 || mask > 15) framedbg_fail(c, FRAMEDBG_RANGE);
    if (!framedbg_event(c, "blend")) return;
    fprintf(c->file, ",\"enable\":%s", enable ? "true" : "false");
    for (i = 0; i < 2; i++) fprintf(c->file, ",\"%s\":[\"%s\",\"%s\",\"%s\"]", i ? "alpha" : "rgb", words[i][0], words[i][1], words[i][2]);
    fprintf(c->file, ",\"mask\":%d}", mask);
}

static inline void framedbg_factor(framedbg_capture *c, uint8_t r, uint8_t g, uint8_t b, uint8_t a) {
    if (framedbg_event(c, "factor")) fprintf(c->file, ",\"color\":[%d,%d,%d,%d]}", r, g, b, a);
}

/* The comparison is LESS, LESS_EQUAL, ALWAYS and the like: the source stands first. */
static inline void framedbg_depth(framedbg_capture *c, int enable, int write, const char *function) {
    if (c && !framedbg_is_word(function, " NEVER LESS EQUAL LESS_EQUAL GREATER NOT_EQUAL GREATER_EQUAL ALWAYS ")) framedbg_fail(c, FRAMEDBG_WORD);
    if (framedbg_event(c, "depth")) fprintf(c->file, ",\"enable\":%s,\"write\":%s,\"func\":\"%s\"}", enable ? "true" : "false", write ? "true" : "false", function);
}

/* The fault of a draw, or FRAMEDBG_FINE. */
static inline int framedbg_draw_fault(const framedbg_vertex *vertices, size_t count, const uint32_t *indices, size_t index_count) {
    size_t i;
    if (count > FRAMEDBG_MOST_VERTICES || (indices && index_count > FRAMEDBG_MOST_VERTICES)) return FRAMEDBG_TOO_MANY;
    for (i = 0; i < count; i++)
        if (!(fabs(vertices[i].x) <= FRAMEDBG_MOST_SIDE && fabs(vertices[i].y) <= FRAMEDBG_MOST_SIDE)) return FRAMEDBG_RANGE;
    for (i = 0; indices && i < index_count; i++)
        if (indices[i] >= count) return FRAMEDBG_RANGE;
    return FRAMEDBG_FINE;
}

static inline void framedbg_indices(framedbg_capture *c, const uint32_t *indices, size_t index_count) {
    size_t i;
    if (!indices) return;
    fputs(",\"indices\":[", c->file);
    for (i = 0; i < index_count; i++) fprintf(c->file, "%s%lu", i ? "," : "", (unsigned long)indices[i]);
    fputc(']', c->file);
}

/* A list of triangles; indices may be NULL. linear mixes the corners' colours, else the first corner's is taken. */
static inline void framedbg_draw(framedbg_capture *c, int linear, const framedbg_vertex *vertices, size_t count, const uint32_t *indices, size_t index_count) {
    size_t i;
    if (!c || c->fault) return;
    framedbg_fail(c, framedbg_draw_fault(vertices, count, indices, index_count));
    if (!framedbg_event(c, "draw")) return;
    fprintf(c->file, ",\"interp\":\"%s\",\"vertices\":[", linear ? "linear" : "flat");
    for (i = 0; i < count; i++) {
        const framedbg_vertex *v = vertices + i;
        fprintf(c->file, "%s{\"x\":%ld,\"y\":%ld,\"z\":%ld,\"color\":[%d,%d,%d,%d]}", i ? "," : "", lround(v->x * FRAMEDBG_PIXEL), lround(v->y * FRAMEDBG_PIXEL),
                framedbg_depth_word(v->depth), v->r, v->g, v->b, v->a);
    }
    fputc(']', c->file);
    framedbg_indices(c, indices, index_count);
    fputc('}', c->file);
}

/* Up to three bytes as four characters of base64. */
static inline void framedbg_base64(framedbg_capture *c, const uint8_t *bytes, int count) {
    static const char letters[] = "ABCDEFGHIJKLMNOPQRSTUVWXYZabcdefghijklmnopqrstuvwxyz0123456789+/";
    uint32_t word = (uint32_t)bytes[0] << 16 | (count > 1 ? (uint32_t)bytes[1] << 8 : 0) | (count > 2 ? bytes[2] : 0);
    int i;
    for (i = 0; i < 4; i++) fputc(i <= count ? letters[word >> (18 - 6 * i) & 63] : '=', c->file);
}

static inline void framedbg_holes(framedbg_capture *c, const uint8_t *holes, size_t texels) {
    uint8_t three[3] = {0, 0, 0};
    size_t i;
    for (i = 0; i < texels; i++) {
        three[i / 8 % 3] |= (uint8_t)(!!holes[i] << i % 8);
        if (i % 24 < 23 && i + 1 < texels) continue;
        framedbg_base64(c, three, (int)(i / 8 % 3 + 1));
        memset(three, 0, sizeof three);
    }
}

/* The fault of a picture, or FRAMEDBG_FINE. */
static inline int framedbg_picture_fault(const framedbg_capture *c, const framedbg_picture *p) {
    if (c->version < 3) return FRAMEDBG_NO_PICTURES;
    if (!p->rgba || p->left < 0 || p->top < 0 || p->left >= FRAMEDBG_MOST_SIDE || p->top >= FRAMEDBG_MOST_SIDE) return FRAMEDBG_RANGE;
    if (p->width < 1 || p->height < 1 || p->width > FRAMEDBG_MOST_SIDE || p->height > FRAMEDBG_MOST_SIDE) return FRAMEDBG_RANGE;
    return FRAMEDBG_FINE;
}

/* A list of triangles whose colours are those of a picture; the vertices' own are passed over. Only in a capture that was begun with pictures. */
static inline void framedbg_draw_picture(framedbg_capture *c, const framedbg_picture *picture, const framedbg_vertex *vertices, size_t count,
                                         const uint32_t *indices, size_t index_count) {
    size_t i, texels;
    if (!c || c->fault) return;
    framedbg_fail(c, framedbg_picture_fault(c, picture));
    framedbg_fail(c, framedbg_draw_fault(vertices, count, indices, index_count));
    if (!framedbg_event(c, "draw")) return;
    texels = (size_t)picture->width * (size_t)picture->height;
    fprintf(c->file, ",\"interp\":\"picture\",\"picture\":{\"left\":%d,\"top\":%d,\"width\":%d,\"height\":%d,\"texels\":\"", picture->left, picture->top, picture->width, picture->height);
    for (i = 0; i < 4 * texels; i += 3) framedbg_base64(c, picture->rgba + i, 4 * texels - i < 3 ? (int)(4 * texels - i) : 3);
    if (picture->holes) {
        fputs("\",\"holes\":\"", c->file);
        framedbg_holes(c, picture->holes, texels);
    }
    fputs("\"},\"vertices\":[", c->file);
    for (i = 0; i < count; i++)
        fprintf(c->file, "%s{\"x\":%ld,\"y\":%ld,\"z\":%ld}", i ? "," : "", lround(vertices[i].x * FRAMEDBG_PIXEL), lround(vertices[i].y * FRAMEDBG_PIXEL),
                framedbg_depth_word(vertices[i].depth));
    fputc(']', c->file);
    framedbg_indices(c, indices, index_count);
    fputc('}', c->file);
}

/* Clip space to a vertex on a viewport; 0 where w isn't above zero: cut such triangles first. OpenGL: y up, -w <= z <= w (both zero in the
 * viewport). Direct3D: half_depth, for 0 <= z <= w. Vulkan: half_depth and y_down. */
static inline int framedbg_place(framedbg_vertex *v, const double clip[4], const framedbg_viewport *view) {
    double x, y, z;
    if (!(clip[3] > 0)) return 0;
    x = clip[0] / clip[3];
    y = clip[1] / clip[3] * (view->y_down ? 1 : -1);
    z = clip[2] / clip[3];
    v->x = view->left + (x * 0.5 + 0.5) * view->width;
    v->y = view->top + (y * 0.5 + 0.5) * view->height;
    v->depth = view->half_depth ? z : z * 0.5 + 0.5;
    return 1;
}

#endif
