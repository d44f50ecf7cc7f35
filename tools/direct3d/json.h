/* A JSON text as a tree. Numbers are whole, as a capture has no others. */
#ifndef JSON_H
#define JSON_H

#include <stdint.h>

enum JsonKind { JSON_NULL, JSON_FALSE, JSON_TRUE, JSON_WHOLE, JSON_TEXT, JSON_ARRAY, JSON_OBJECT };

typedef struct Json Json;
struct Json {
    enum JsonKind kind;
    int count;              /* members of an array or an object */
    int64_t whole;
    char *text;             /* ended by a zero */
    const char *name;       /* in the object that holds it */
    Json *first, *next;
};

Json *json_of_file(const char *path);

/* The last member of a name, as framedbg has it, or NULL; and one that has to be there, of a kind. */
Json *json_member(const Json *object, const char *name);
Json *json_wanted(const Json *object, const char *name, enum JsonKind kind);
int json_truth(const Json *object, const char *name);

#endif
