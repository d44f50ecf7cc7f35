#include "capture.h"

#include <string.h>

#include "common.h"
#include "json.h"

enum { MOST_SIDE = 16384, MOST_DEPTH = 65535, MOST_MASK = 15 };

static const char *const KIND_NAMES[] = {"clear", "raster", "scissor", "blend", "factor", "draw", "marker", "depth", "depth_clear"};
static const char *const FACTORS[] = {"ZERO", "ONE", "SRC_COLOR", "INV_SRC_COLOR", "SRC_ALPHA", "INV_SRC_ALPHA", "DEST_ALPHA",
                                      "INV_DEST_ALPHA", "DEST_COLOR", "INV_DEST_COLOR", "BLEND_FACTOR", "INV_BLEND_FACTOR"};
static const char *const OPERATIONS[] = {"ADD", "SUBTRACT", "REV_SUBTRACT", "MIN", "MAX"};
static const char *const CULLS[] = {"none", "front", "back"};
static const char *const FUNCTIONS[] = {"NEVER", "LESS", "EQUAL", "LESS_EQUAL", "GREATER", "NOT_EQUAL", "GREATER_EQUAL", "ALWAYS"};
static const char *const INTERPOLATIONS[] = {"flat", "linear"};

#define NUMBER_OF(list, word) number_of(list, sizeof list / sizeof *list, word)

const char *kind_name(Kind kind)
{
    return KIND_NAMES[kind];
}

static int number_of(const char *const *list, size_t count, const Json *word)
{
    for (size_t i = 0; word->text && i < count; i++)
        if (!strcmp(list[i], word->text))
            return (int)i;
    die("the capture has an unknown word: %s", word->text ? word->text : "no text");
}

static int64_t whole(const Json *value, int64_t least, int64_t most)
{
    if (value->kind != JSON_WHOLE || value->whole < least || value->whole > most)
        die("the capture has a number that is out of bounds");
    return value->whole;
}

static int64_t whole_of(const Json *object, const char *name, int64_t least, int64_t most)
{
    return whole(json_wanted(object, name, JSON_WHOLE), least, most);
}

/* An array of so many members. */
static Json *list_of(const Json *object, const char *name, int count)
{
    Json *list = json_wanted(object, name, JSON_ARRAY);
    if (list->count != count)
        die("the capture has a %s of %d members", name, list->count);
    return list->first;
}

static void read_colour(const Json *object, unsigned char *to)
{
    for (Json *byte = list_of(object, "color", 4); byte; byte = byte->next)
        *to++ = (unsigned char)whole(byte, 0, 255);
}

static Part read_part(const Json *object, const char *name)
{
    Json *word = list_of(object, name, 3);
    return (Part){NUMBER_OF(FACTORS, word), NUMBER_OF(FACTORS, word->next), NUMBER_OF(OPERATIONS, word->next->next)};
}

static void read_draw(const Json *object, int version, Event *event)
{
    Json *vertices = json_wanted(object, "vertices", JSON_ARRAY), *indices = json_member(object, "indices");
    int64_t reach = (int64_t)MOST_SIDE << 16;
    event->is_flat = NUMBER_OF(INTERPOLATIONS, json_wanted(object, "interp", JSON_TEXT)) == 0;
    event->vertices_count = vertices->count;
    event->vertices = taken(vertices->count * sizeof(Vertex));
    Vertex *vertex = event->vertices;
    for (Json *each = vertices->first; each; each = each->next, vertex++) {
        vertex->x = whole_of(each, "x", -reach, reach);
        vertex->y = whole_of(each, "y", -reach, reach);
        vertex->z = version == 2 ? (int)whole_of(each, "z", 0, MOST_DEPTH) : 0;
        read_colour(each, vertex->colour);
    }
    if (!indices)
        return;
    event->indices_count = indices->count;
    event->indices = taken(indices->count * sizeof(uint32_t));
    uint32_t *index = event->indices;
    for (Json *each = indices->first; each; each = each->next)
        *index++ = (uint32_t)whole(each, 0, vertices->count - 1);
}

static void read_rect(const Json *object, int64_t *rect)
{
    for (Json *edge = list_of(object, "rect", 4); edge; edge = edge->next)
        *rect++ = whole(edge, INT32_MIN, INT32_MAX);
}

static Event read_event(const Json *object, int version)
{
    Event event = {.kind = NUMBER_OF(KIND_NAMES, json_wanted(object, "kind", JSON_TEXT))};
    switch (event.kind) {
    case CLEAR: case FACTOR:
        read_colour(object, event.colour);
        break;
    case RASTER:
        event.cull = NUMBER_OF(CULLS, json_wanted(object, "cull", JSON_TEXT));
        event.front_ccw = json_truth(object, "front_ccw");
        event.scissor = json_truth(object, "scissor");
        break;
    case SCISSOR:
        read_rect(object, event.rect);
        break;
    case BLEND:
        event.enable = json_truth(object, "enable");
        event.rgb = read_part(object, "rgb");
        event.alpha = read_part(object, "alpha");
        event.mask = (int)whole_of(object, "mask", 0, MOST_MASK);
        break;
    case DRAW:
        read_draw(object, version, &event);
        break;
    case DEPTH:
        event.enable = json_truth(object, "enable");
        event.write = json_truth(object, "write");
        event.function = NUMBER_OF(FUNCTIONS, json_wanted(object, "func", JSON_TEXT));
        break;
    case DEPTH_CLEAR:
        event.depth = (int)whole_of(object, "depth", 0, MOST_DEPTH);
        break;
    default:
        break;
    }
    return event;
}

Capture read_capture(const char *path)
{
    Json *object = json_of_file(path);
    if (object->kind != JSON_OBJECT || strcmp(json_wanted(object, "format", JSON_TEXT)->text, "framedbg"))
        die("%s is no capture", path);
    Json *events = json_wanted(object, "events", JSON_ARRAY);
    Capture capture = {.version = (int)whole_of(object, "version", 1, 2), .width = (int)whole_of(object, "width", 1, MOST_SIDE),
                       .height = (int)whole_of(object, "height", 1, MOST_SIDE), .count = events->count};
    capture.events = taken(events->count * sizeof(Event));
    Event *event = capture.events;
    for (Json *each = events->first; each; each = each->next)
        *event++ = read_event(each, capture.version);
    return capture;
}

int corners_of(const Event *draw)
{
    int count = draw->indices ? draw->indices_count : draw->vertices_count;
    return count - count % 3;
}

int64_t snapped(int64_t position)
{
    int64_t low = position >= 0 ? position / 256 : -((-position + 255) / 256), rest = position - low * 256;
    return low + (rest > 128 || (rest == 128 && (low & 1)));
}
