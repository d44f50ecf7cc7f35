#include "json.h"

#include <ctype.h>
#include <stdio.h>
#include <stdlib.h>
#include <string.h>

#include "common.h"

enum { MOST_NESTING = 127, MOST_BYTES = 67108864, BLOCK = 1 << 20 };

static const char *at;      /* the next character */

static void skip_blanks(void)
{
    at += strspn(at, " \t\n\r");
}

static void expect(char wanted)
{
    if (*at++ != wanted)
        die("the capture is no JSON: %c is missing", wanted);
}

/* A value of its own. A capture has millions: they are taken in blocks. */
static Json *made(enum JsonKind kind)
{
    static Json *block;
    static int left;
    if (!left) {
        left = BLOCK / sizeof(Json);
        block = taken(left * sizeof(Json));
    }
    left--;
    block->kind = kind;
    return block++;
}

/* A character behind a backslash. Names alone can have one that isn't ASCII, and nothing here looks at names. */
static char escaped(void)
{
    static const char letters[] = "\"\\/bfnrt", meant[] = "\"\\/\b\f\n\r\t";
    const char *found;
    if (*at == 'u') {
        for (int i = 1; i <= 4; i++)
            if (!isxdigit((unsigned char)at[i]))
                die("the capture is no JSON: an escape");
        at += 5;
        return '?';
    }
    found = *at ? strchr(letters, *at) : NULL;
    if (!found)
        die("the capture is no JSON: an escape");
    at++;
    return meant[found - letters];
}

static char *read_text(void)
{
    const char *end = ++at;
    while (*end && *end != '"')
        end += *end == '\\' && end[1] ? 2 : 1;
    char *text = taken(end - at + 1), *to = text;
    while (*at && *at != '"') {
        if (*at == '\\') {
            at++;
            *to++ = escaped();
        } else {
            *to++ = *at++;
        }
    }
    expect('"');
    return text;
}

static Json *read_number(void)
{
    char *end;
    Json *value = made(JSON_WHOLE);
    value->whole = strtoll(at, &end, 10);
    if (*end == '.' || *end == 'e' || *end == 'E')
        die("the capture has a number that isn't whole");
    at = end;
    return value;
}

static Json *read_value(int depth);

static Json *read_members(int depth, char close)
{
    Json *value = made(close == '}' ? JSON_OBJECT : JSON_ARRAY), **last = &value->first;
    at++;
    skip_blanks();
    while (*at != close) {
        const char *name = NULL;
        if (value->count)
            expect(',');
        skip_blanks();
        if (close == '}') {
            if (*at != '"')
                die("the capture is no JSON: a name is missing");
            name = read_text();
            skip_blanks();
            expect(':');
        }
        *last = read_value(depth + 1);
        (*last)->name = name;
        last = &(*last)->next;
        value->count++;
        skip_blanks();
    }
    at++;
    return value;
}

static Json *read_word(const char *word, enum JsonKind kind)
{
    if (strncmp(at, word, strlen(word)))
        die("the capture is no JSON");
    at += strlen(word);
    return made(kind);
}

static Json *read_value(int depth)
{
    Json *value;
    if (depth > MOST_NESTING)
        die("the capture nests too deep");
    skip_blanks();
    switch (*at) {
    case '{': return read_members(depth, '}');
    case '[': return read_members(depth, ']');
    case 't': return read_word("true", JSON_TRUE);
    case 'f': return read_word("false", JSON_FALSE);
    case 'n': return read_word("null", JSON_NULL);
    case '"':
        value = made(JSON_TEXT);
        value->text = read_text();
        return value;
    default:
        if (*at != '-' && !isdigit((unsigned char)*at))
            die("the capture is no JSON");
        return read_number();
    }
}

Json *json_of_file(const char *path)
{
    FILE *file = fopen(path, "rb");
    if (!file)
        die("%s can't be read", path);
    char *text = taken(MOST_BYTES + 2);
    size_t size = fread(text, 1, MOST_BYTES + 1, file);
    if (ferror(file))
        die("%s can't be read", path);
    if (size > MOST_BYTES)
        die("%s has more than %d bytes", path, MOST_BYTES);
    fclose(file);
    at = text;
    Json *value = read_value(0);
    skip_blanks();
    if (*at)
        die("the capture is no JSON: something follows the value");
    free(text);
    return value;
}

Json *json_member(const Json *object, const char *name)
{
    Json *found = NULL;
    for (Json *member = object->first; member; member = member->next)
        if (member->name && !strcmp(member->name, name))
            found = member;
    return found;
}

Json *json_wanted(const Json *object, const char *name, enum JsonKind kind)
{
    Json *member = json_member(object, name);
    if (!member || member->kind != kind)
        die("the capture has no %s where one is wanted; framedbg-explain says where", name);
    return member;
}

int json_truth(const Json *object, const char *name)
{
    Json *member = json_member(object, name);
    if (!member || (member->kind != JSON_TRUE && member->kind != JSON_FALSE))
        die("the capture has no %s where one is wanted; framedbg-explain says where", name);
    return member->kind == JSON_TRUE;
}
