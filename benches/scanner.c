/* A plain reader of captures, to compare times and memory with: one pass over the file, which checks that it is JSON and that what stands in it as a number
 * is one, and counts vertices (the objects in a "vertices") and events (those in the outermost "events"). It keeps nothing but the file's text.
 *   scanner CAPTURE
 * prints both counts, or the byte at which it stopped, with status 2. */
#include <stdio.h>
#include <stdlib.h>
#include <string.h>

enum { DEPTH = 127 };

static char *text, *at, *end;
static size_t vertices, events;

static void stop(void) {
    printf("stopped at byte %zu\n", (size_t)(at - text));
    exit(2);
}

static void space(void) {
    while (*at == ' ' || *at == '\n' || *at == '\r' || *at == '\t') at++;
}

static void take(char c) {
    space();
    if (*at != c) stop();
    at++;
}

static int hex(char c) { return (c >= '0' && c <= '9') || (c >= 'a' && c <= 'f') || (c >= 'A' && c <= 'F'); }

static void string(void) {
    take('"');
    for (; *at != '"'; at++) {
        if ((unsigned char)*at < 0x20) stop();
        if (*at != '\\') continue;
        at++;
        if (*at == 'u') {
            for (int i = 0; i < 4; i++) if (!hex(*++at)) stop();
        } else if (!*at || !strchr("\"\\/bfnrt", *at)) stop();
    }
    at++;
}

static void digits(void) {
    if (*at < '0' || *at > '9') stop();
    while (*at >= '0' && *at <= '9') at++;
}

static void number(void) {
    if (*at == '-') at++;
    if (*at == '0') at++;
    else digits();
    if (*at == '.') at++, digits();
    if (*at == 'e' || *at == 'E') {
        at++;
        if (*at == '+' || *at == '-') at++;
        digits();
    }
}

static void word(const char *name) {
    size_t len = strlen(name);
    if (strncmp(at, name, len)) stop();
    at += len;
}

static int is_name(const char *name, const char *begin) {
    size_t len = strlen(name);
    return (size_t)(at - begin) == len + 2 && !memcmp(begin + 1, name, len);
}

static void value(int depth, size_t *counter);

static void object(int depth) {
    take('{');
    space();
    if (*at == '}') { at++; return; }
    do {
        space();
        char *begin = at;
        string();
        size_t *counter = is_name("vertices", begin) ? &vertices : depth == DEPTH && is_name("events", begin) ? &events : NULL;
        take(':');
        value(depth - 1, counter);
        space();
    } while (*at == ',' && at++);
    take('}');
}

static void array(int depth, size_t *counter) {
    take('[');
    space();
    if (*at == ']') { at++; return; }
    do {
        value(depth - 1, NULL);
        if (counter) ++*counter;
        space();
    } while (*at == ',' && at++);
    take(']');
}

static void value(int depth, size_t *counter) {
    space();
    if (!depth && (*at == '{' || *at == '[')) stop();
    switch (*at) {
    case '{': object(depth); break;
    case '[': array(depth, counter); break;
    case '"': string(); break;
    case 't': word("true"); break;
    case 'f': word("false"); break;
    case 'n': word("null"); break;
    default: number();
    }
}

int main(int argc, char **argv) {
    FILE *in = argc == 2 ? fopen(argv[1], "rb") : NULL;
    if (!in || fseek(in, 0, SEEK_END)) return 1;
    size_t len = ftell(in);
    rewind(in);
    text = at = malloc(len + 1);
    end = text + len;
    if (!text || fread(text, 1, len, in) != len) return 1;
    *end = 0;
    value(DEPTH, NULL);
    space();
    if (at != end) stop();
    printf("%zu vertices, %zu events\n", vertices, events);
    return 0;
}
