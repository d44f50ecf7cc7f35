/* The debugger's drawing as a plain loop, without proof, tiles or threads, for a comparison side by side:
 *   plain TRIANGLES [IMAGE]
 * goes forward over all triangles of a file and back again, prints the processor's seconds for each, and writes the colours in between to IMAGE.
 * The blending is SRC_ALPHA INV_SRC_ALPHA ADD, ONE INV_SRC_ALPHA ADD, and the depth test LESS_EQUAL with writing on.
 * What a run of a row overwrites goes onto a growing list first, and back is a walk down that list.
 * Linear colours and depths go by increments in fixed point, set up once a triangle, with so many binary places that the rounding stays right. */
#include <stdint.h>
#include <stdio.h>
#include <stdlib.h>
#include <string.h>
#include <time.h>

typedef struct { uint8_t r, g, b, a; } Colour;
typedef struct { int32_t x, y, z; Colour colour; } Vertex; /* 1/256 pixel, clockwise */
typedef struct { int32_t width, height, linear, test, fresh_depth, count; } Header;
typedef struct { uint16_t x, y, len; } Span;
typedef struct { int64_t here, right, down; } Edge; /* at least 0 on the inner side, by the top-left rule */
typedef struct { unsigned __int128 corner, right, down; } Plane;
typedef __int128 Wide;

static Header frame;
static Colour *image, *kept, *shades;
static uint16_t *depths, *kept_depths, *sources;
static Span *spans;
static size_t kept_len, kept_room, spans_len, spans_room;

static double now(void) {
    struct timespec t;
    clock_gettime(CLOCK_PROCESS_CPUTIME_ID, &t);
    return t.tv_sec + t.tv_nsec / 1e9;
}

/* ---- Keeping, and going back */

static void keep(int x, int y, int len) {
    size_t from = (size_t)y * frame.width + x;
    if (kept_len + len > kept_room) {
        kept_room = kept_room * 2 > kept_len + len ? kept_room * 2 : kept_len + len;
        kept = realloc(kept, kept_room * sizeof(Colour));
        if (frame.test) kept_depths = realloc(kept_depths, kept_room * sizeof(uint16_t));
    }
    if (spans_len + 1 > spans_room) {
        spans_room = spans_room * 2 + 16;
        spans = realloc(spans, spans_room * sizeof(Span));
    }
    memcpy(kept + kept_len, image + from, len * sizeof(Colour));
    if (frame.test) memcpy(kept_depths + kept_len, depths + from, len * sizeof(uint16_t));
    kept_len += len;
    spans[spans_len++] = (Span){x, y, len};
}

static void back(void) {
    while (spans_len) {
        Span s = spans[--spans_len];
        size_t from = (size_t)s.y * frame.width + s.x;
        kept_len -= s.len;
        memcpy(image + from, kept + kept_len, s.len * sizeof(Colour));
        if (frame.test) memcpy(depths + from, kept_depths + kept_len, s.len * sizeof(uint16_t));
    }
}

/* ---- Blending */

/* the clamp tells gcc that 16 bits are enough, so that it works on eight channels at once */
static uint8_t unorm(int n) {
    if (n < 0) n = 0;
    if (n > 65025) n = 65025;
    return (n + 127) / 255;
}

static Colour blend(Colour s, Colour d) {
    int a = s.a, i = 255 - a;
    return (Colour){unorm(s.r * a + d.r * i), unorm(s.g * a + d.g * i), unorm(s.b * a + d.b * i), unorm(s.a * 255 + d.a * i)};
}

static void blend_flat(Colour *row, int len, Colour source) {
    for (int i = 0; i < len; i++) row[i] = blend(source, row[i]);
}

static void blend_shades(Colour *restrict row, int len, const Colour *restrict source) {
    for (int i = 0; i < len; i++) row[i] = blend(source[i], row[i]);
}

/* ---- Shading */

static int64_t cross(Vertex u, Vertex v, int64_t x, int64_t y) {
    return (int64_t)(v.x - u.x) * (y - u.y) - (int64_t)(v.y - u.y) * (x - u.x);
}

static Wide divided(Wide n, Wide m) { return n / m - (n % m < 0); }

/* the mean of three numbers at each pixel's centre, in units of 2^-places, above the exact one by less than what the next whole number is away */
static Plane plane(const Vertex *v, int a, int b, int c, int places) {
    int64_t area = cross(v[0], v[1], v[2].x, v[2].y);
    Wide corner = (Wide)cross(v[1], v[2], 128, 128) * a + (Wide)cross(v[2], v[0], 128, 128) * b + (Wide)cross(v[0], v[1], 128, 128) * c;
    Wide right = (Wide)(v[1].y - v[2].y) * a + (Wide)(v[2].y - v[0].y) * b + (Wide)(v[0].y - v[1].y) * c;
    Wide down = (Wide)(v[2].x - v[1].x) * a + (Wide)(v[0].x - v[2].x) * b + (Wide)(v[1].x - v[0].x) * c;
    Wide unit = (Wide)1 << places, divisor = 2 * (Wide)area;
    Plane p = {divided((2 * corner + area) * unit, divisor), divided(512 * right * unit, divisor), divided(512 * down * unit, divisor)};
    p.corner += 1 + frame.width + frame.height;
    return p;
}

/* the four bytes are put together as one number (r lowest): stored one by one, gcc 12.2 makes wrong code of them at -O3 */
static void shade(const Plane *planes, int x, int y, int len) {
    uint64_t at[4], right[4];
    for (int k = 0; k < 4; k++) {
        at[k] = (uint64_t)planes[k].corner + x * (uint64_t)planes[k].right + y * (uint64_t)planes[k].down;
        right[k] = planes[k].right;
    }
    for (int i = 0; i < len; i++) {
        uint32_t colour = at[0] >> 56 | at[1] >> 56 << 8 | at[2] >> 56 << 16 | at[3] >> 56 << 24;
        memcpy(&shades[i], &colour, sizeof colour);
        for (int k = 0; k < 4; k++) at[k] += right[k];
    }
}

static void find_depths(Plane p, int x, int y, int len) {
    unsigned __int128 at = p.corner + x * p.right + y * p.down;
    for (int i = 0; i < len; i++, at += p.right) sources[i] = at >> 64;
}

/* ---- Triangles */

static void write(const Vertex *v, int x, int y, int len, const Colour *source) {
    Colour *row = image + (size_t)y * frame.width + x;
    keep(x, y, len);
    if (frame.linear) blend_shades(row, len, source);
    else blend_flat(row, len, v[0].colour);
}

/* each run of pixels that pass the depth test */
static void write_tested(const Vertex *v, int x, int y, int len) {
    uint16_t *row = depths + (size_t)y * frame.width + x;
    for (int i = 0; i < len;) {
        while (i < len && sources[i] > row[i]) i++;
        int start = i;
        while (i < len && sources[i] <= row[i]) i++;
        if (start == i) continue;
        write(v, x + start, y, i - start, shades + start);
        memcpy(row + start, sources + start, (i - start) * sizeof(uint16_t));
    }
}

static Edge edge(Vertex u, Vertex v, int x, int y) {
    int holds_its_points = (u.y == v.y && v.x > u.x) || v.y < u.y;
    return (Edge){cross(u, v, 256 * x + 128, 256 * y + 128) - !holds_its_points, 256 * (int64_t)(u.y - v.y), 256 * (int64_t)(v.x - u.x)};
}

static int least(int a, int b) { return a < b ? a : b; }
static int most(int a, int b) { return a > b ? a : b; }

static int is_inside(const Edge *e, int column) {
    return (e[0].here + column * e[0].right | e[1].here + column * e[1].right | e[2].here + column * e[2].right) >= 0;
}

static void triangle(const Vertex *v) {
    int left = most(least(least(v[0].x, v[1].x), v[2].x) / 256, 0), top = most(least(least(v[0].y, v[1].y), v[2].y) / 256, 0);
    int right = least(most(most(v[0].x, v[1].x), v[2].x) / 256 + 1, frame.width), bottom = least(most(most(v[0].y, v[1].y), v[2].y) / 256 + 1, frame.height);
    Edge e[3] = {edge(v[0], v[1], left, top), edge(v[1], v[2], left, top), edge(v[2], v[0], left, top)};
    int level = v[0].z == v[1].z && v[0].z == v[2].z;
    Plane channels[4], depth;
    if (frame.linear) {
        channels[0] = plane(v, v[0].colour.r, v[1].colour.r, v[2].colour.r, 56);
        channels[1] = plane(v, v[0].colour.g, v[1].colour.g, v[2].colour.g, 56);
        channels[2] = plane(v, v[0].colour.b, v[1].colour.b, v[2].colour.b, 56);
        channels[3] = plane(v, v[0].colour.a, v[1].colour.a, v[2].colour.a, 56);
    }
    if (frame.test && level) for (int i = 0; i < right - left; i++) sources[i] = v[0].z;
    else if (frame.test) depth = plane(v, v[0].z, v[1].z, v[2].z, 64);
    for (int y = top; y < bottom; y++) {
        int first = 0, last = right - left;
        while (first < last && !is_inside(e, first)) first++;
        while (first < last && !is_inside(e, last - 1)) last--;
        for (int k = 0; k < 3; k++) e[k].here += e[k].down;
        if (first == last) continue;
        if (frame.linear) shade(channels, left + first, y, last - first);
        if (frame.test && !level) find_depths(depth, left + first, y, last - first);
        if (frame.test) write_tested(v, left + first, y, last - first);
        else write(v, left + first, y, last - first, shades);
    }
}

int main(int argc, char **argv) {
    FILE *in = argc > 1 ? fopen(argv[1], "rb") : NULL;
    if (!in || fread(&frame, sizeof frame, 1, in) != 1) return 1;
    size_t pixels = (size_t)frame.width * frame.height, count = frame.count;
    Vertex *vertices = malloc(3 * count * sizeof(Vertex) + 1);
    if (fread(vertices, 3 * sizeof(Vertex), count, in) != count) return 1;
    image = calloc(pixels, sizeof(Colour));
    shades = malloc(frame.width * sizeof(Colour));
    sources = malloc(frame.width * sizeof(uint16_t));
    depths = frame.test ? malloc(pixels * sizeof(uint16_t)) : NULL;
    for (size_t i = 0; frame.test && i < pixels; i++) depths[i] = frame.fresh_depth;
    double start = now();
    for (size_t n = 0; n < count; n++) triangle(vertices + 3 * n);
    double middle = now();
    if (argc > 2) {
        FILE *out = fopen(argv[2], "wb");
        if (!out || fwrite(image, sizeof(Colour), pixels, out) != pixels || fclose(out)) return 1;
    }
    double turn = now();
    back();
    printf("%.9f %.9f\n", middle - start, now() - turn);
    return 0;
}
